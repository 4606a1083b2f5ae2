#!/usr/bin/env python3
"""Spells the repository's own definitions and lemmas in snake case: `sketchFault` becomes `sketch_fault`, `points-kept` becomes `points_kept`.

usage: python3 tools/snake_case.py [--list]

Types, facts, modules, constructors and numerals keep their spelling, as do functions of src/, strings, exported names and what Rattle generates.
In a crate's specs/ the module Contracts becomes Clauses, since Rattle makes a module `specs.contracts`. With --list it writes the table of names and
changes nothing. It tells where two definitions would have one name; a lemma that would have a
definition's name gets `_lem`.
"""

import collections
import os
import re
import sys

TOP = os.path.join(os.path.dirname(os.path.dirname(os.path.abspath(__file__))), "crates")
WORD = r"[^\s(){}\[\];,.:λ\"`|]+"
MARKS = r"(?:(?:abbrev|unfoldable|private|pub)\s+)*"
DECLARED = re.compile(r"^\s*" + MARKS + r"(" + WORD + r"(?:\s+" + WORD + r")*)\s+:(?:\s|$)")
OPENED = re.compile(r"^\s*" + MARKS + r"(?:record|data|ruleset)\s+(?:pub\s+)?(" + WORD + r")")
# Names of Rattle's library that stand beside a lemma that would have them.
OF_STD = {"nan_bits"}
GENERATED = {"tie", "goal", "lts", "reads", "given"}
SKIPPED = {"pub", "abbrev", "unfoldable", "private", "record", "data", "where", "let", "in", "module", "use", "elim", "as", "unfolding", "if", "then", "else", "·"}


def files(ending):
    for folder, dirs, names in os.walk(TOP):
        dirs[:] = sorted(d for d in dirs if d != "out")
        for name in sorted(names):
            if name.endswith(ending):
                yield os.path.join(folder, name)


def pages():
    top = os.path.dirname(TOP)
    for name in ("README.md", "CONTRIBUTING.md"):
        if os.path.exists(os.path.join(top, name)):
            yield os.path.join(top, name)
    for folder, dirs, names in os.walk(os.path.join(top, "docs")):
        for name in sorted(names):
            if name.endswith(".md") and "landings" not in folder:
                yield os.path.join(folder, name)


def read(path):
    with open(path, encoding="utf-8") as f:
        return f.read()


def write(path, text):
    with open(path, "w", encoding="utf-8") as f:
        f.write(text)


def snake(name):
    """The name in snake case; one that begins with a capital, is a numeral or is an operator stays, but for its dashes."""
    if "◌" in name or re.fullmatch(r"[0-9][0-9a-z.]*(-[0-9]+)?", name):
        return name
    kept = re.sub(r"(?<=[0-9]e)-(?=[0-9])", "\0", name)
    body = kept.replace("-", "_")
    if not re.match(r"[A-Z]", name):
        body = re.sub(r"(?<=[a-z0-9₀-₉])([A-Z])(?=[a-z])", lambda m: "_" + m.group(1).lower(), body)
        body = re.sub(r"(?<=[a-z0-9])([A-Z])(?![a-z])", lambda m: "_" + m.group(1), body)
    return body.replace("\0", "-")


def declared(path):
    """The names that a file declares as definitions and as lemmas, and those that answer a generated goal."""
    definitions, lemmas, answers = set(), set(), set()
    for line in read(path).split("\n"):
        if line.lstrip().startswith("--") or line.startswith("use "):
            continue
        m = DECLARED.match(line)
        if m:
            names = [n for n in m.group(1).split() if n not in SKIPPED]
            rest = line[m.end():]
            if re.match(r"(tie|goal)\.", rest) or path.endswith("Proof.antt") and re.search(r"→ statement M\s*$", rest):
                answers.update(names)
            elif re.match(r"\s*(abbrev|unfoldable)\b", line) or any(snake(n) != n and "-" not in n for n in names):
                definitions.update(names)
            else:
                lemmas.update(names)
        m = OPENED.match(line)
        if m:
            definitions.add(m.group(1))
    return definitions, lemmas, answers


def names_of_repository():
    """Old name to new name. A lemma that would have a definition's name gets `_lem`."""
    definitions, lemmas, answers = set(), set(), {}
    for path in files(".antt"):
        own, facts, answers[path] = declared(path)
        definitions |= own
        lemmas |= facts
    taken = collections.defaultdict(set)
    for name in definitions:
        taken[snake(name)].add(name)
    table = {}
    for name in definitions:
        if len(taken[snake(name)]) > 1:
            print("two definitions: " + ", ".join(sorted(taken[snake(name)])))
        table[name] = snake(name)
    for name in lemmas - definitions:
        new = snake(name)
        table[name] = new + "_lem" if new in taken or new in OF_STD else new
    for name in sorted(lemmas & definitions):
        print("a lemma and a definition: " + name)
    return {old: new for old, new in table.items() if old != new}, answers


def main():
    table, answers = names_of_repository()
    if "--list" in sys.argv:
        for old, new in sorted(table.items()):
            print(f"{old} {new}")
        return
    token = re.compile(WORD)
    for path in list(files(".antt")) + list(files(".rt")) + list(files(".edit")):
        text = old_text = read(path)
        rust = not path.endswith(".antt")
        keep = answers.get(path, set())

        def turn(m):
            word = m.group(0)
            if word not in table or word in keep:
                return word
            if rust and ("-" in word or snake(word) == word):
                return word
            before = re.search(r"([A-Za-z_+-]+)\.$", text[max(0, m.start() - 40):m.start()])
            if before and (before.group(1) in GENERATED or before.group(1).endswith("-reads")):
                return word
            if snake(word) == word and (text[m.start() - 1:m.start()] == "." or text[m.end():m.end() + 1] == "."):
                return word
            return table[word]

        text = token.sub(turn, text)
        text = re.sub(r"(Rattle\.\w+\.specs\.)Contracts\b", r"\1Clauses", text)
        if path.endswith("specs/Lib.antt"):
            text = text.replace("pub mod Contracts", "pub mod Clauses")
        if path.endswith(".edit"):
            text = text.replace("specs/Contracts.antt", "specs/Clauses.antt")
        if text != old_text:
            write(path, text)
    of_page = {old: new for old, new in table.items() if snake(old) != old}
    for path in pages():
        text = old_text = read(path)
        text = re.sub(r"`[^`\n]+`", lambda q: token.sub(lambda m: of_page.get(m.group(0), m.group(0)), q.group(0)), text)
        text = text.replace("specs/Contracts.antt", "specs/Clauses.antt")
        if text != old_text:
            write(path, text)
    for path in list(files("Contracts.antt")):
        if path.endswith("/specs/Contracts.antt"):
            os.rename(path, path.replace("Contracts.antt", "Clauses.antt"))


main()

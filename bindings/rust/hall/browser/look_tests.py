"""Tests of what is seen: refusals, pieces cut away, the page on screens of several sizes, where requests go."""

import json
import re
import time
from pathlib import Path

from desk_tests import along
from hall_page import AWAY, HIGHLIGHT, INK, PAPER, PIXELS, expect, is_near, until

BRIDGE = "opening"
HANDBOOK = Path(__file__).resolve().parents[4] / "docs/HANDBOOK.md"
# The page with which a browser opens.
BROWSERS_OWN = "chrome://"
SIZES = [(1920, 1080), (1024, 768), (768, 1024)]

LAYOUT = """
const box = (element) => {
  const { left, top, right, bottom, height } = element.getBoundingClientRect();
  return { name: element.id || element.textContent.trim(), left, top, right, bottom, height };
};
const root = document.documentElement;
const shown = (selector) => [...document.querySelectorAll(selector)].filter((e) => e.offsetParent);
return {
  scrolled: root.scrollWidth - root.clientWidth,
  size: [root.clientWidth, root.clientHeight],
  canvases: [...document.querySelectorAll("#desk, #wall")].map(box),
  buttons: shown("button, select, input").map(box),
  sharp: [...document.querySelectorAll("#desk, #wall")].map((c) => [c.width, c.clientWidth]),
};
"""


def handbook_sentence(number):
    """The heading of a refusal in the handbook."""
    found = re.search(rf"^### {number}\. (.+)$", HANDBOOK.read_text(), re.MULTILINE)
    expect(found, f"the handbook has no refusal {number}")
    return found[1]


def refused(page, bridge, tool, position, number):
    """An edit that is refused, as the page tells it, by mouse."""
    page.new_drawing(bridge)
    page.choose(tool)
    expect(page.count_pixels("desk", HIGHLIGHT) == 0, "something is highlighted before the refusal")
    page.touch(position)
    page.expect_text("notice-number", str(number))
    page.expect_text("notice-text", handbook_sentence(number))
    state = page.hall.state()
    expect(state["notice"]["kind"] == "refused" and state["notice"]["number"] == number,
           f"the notice is {state['notice']}")
    page.expect_counts(0)
    page.expect_alike()
    return state


def a_refusal_that_names_no_relation(page):
    state = refused(page, "free-arch", "trim", (60, 20), 11)
    expect(state["desk"]["highlight"] is None, "11 names no relation, and something is highlighted")
    expect(page.count_pixels("desk", HIGHLIGHT) == 0, "11 names no relation, and something is lit up")
    state = refused(page, BRIDGE, "extend", (0, 16.5), 10)
    expect(state["notice"]["relation"] is None, "10 names no relation")


def a_relation_is_named_and_lit_up(page):
    for bridge, position, number in ((BRIDGE, (128, 33), 19), ("footbridge", (-12, 27), 13)):
        state = refused(page, bridge, "extend", position, number)
        highlight = state["desk"]["highlight"]
        expect(highlight and (highlight["curves"] or highlight["points"]), f"{number} highlights nothing")
        page.expect_text("notice-relation", f"The relation: {state['notice']['relation']}.")
        # The colour is mixed with the paper where a curve is lit up.
        until(lambda: page.count_pixels("desk", HIGHLIGHT, 70) > 80, f"{number} lights up nothing")
        for stroke in highlight["curves"]:
            start, end = stroke["path"]
            lit = [is_pink(pixel) for pixel in page.pixels("desk", along(start, end, 12))]
            expect(sum(lit) >= 9, f"the line that {number} names is not lit up: {lit}")
        expect(page.count_pixels("wall", HIGHLIGHT, 40) == 0, "the wall lights up what the desk refuses")
        page.choose("split")
        page.touch((44, 20))
        page.expect_counts(1)
        until(lambda: page.count_pixels("desk", HIGHLIGHT, 70) == 0,
              "what was refused is lit up after the next edit")
        expect(page.text("notice-number") is None, "the number of the refusal stands after the next edit")


def is_pink(pixel):
    red, green, blue = pixel
    return red > 150 and green < 130 and blue > 110


def pieces_cut_away_are_dashed(page):
    page.new_drawing(BRIDGE)
    for canvas in ("desk", "wall"):
        expect(page.count_pixels(canvas, AWAY, 20) == 0, f"red at the {canvas} before anything is cut")
    page.choose("trim")
    page.touch((60, 45))
    page.expect_counts(1)
    page.expect_level()
    for canvas in ("desk", "wall"):
        def dashes():
            pixels = page.pixels(canvas, along((60, 40.4), (60, 45.8), 120))
            kinds = ["red" if is_near(p, AWAY, 25) else "paper" for p in pixels
                     if is_near(p, AWAY, 25) or is_near(p, PAPER, 12)]
            return [kind for i, kind in enumerate(kinds) if i == 0 or kinds[i - 1] != kind]
        until(lambda: dashes().count("red") >= 2 and dashes().count("paper") >= 2,
              lambda: f"the piece cut away is not dashed red on the {canvas}: {dashes()}")


def the_page_fits_its_screen(page):
    try:
        for width, height in SIZES:
            page.browser.resize(width, height, 2, touch=True)
            until(lambda: page.browser.run(LAYOUT)["size"] == [width, height], "the window has another size")
            until(lambda: all(a == 2 * b for a, b in page.browser.run(LAYOUT)["sharp"]),
                  lambda: f"the canvases are not sharp: {page.browser.run(LAYOUT)['sharp']}", 3)
            fits(page.browser.run(LAYOUT), width, height)
            page.new_drawing("footbridge")
            page.choose("trim")
            page.touch((0, 34), "touch")
            page.expect_counts(1)
    finally:
        page.browser.resize(1920, 1080)


def fits(layout, width, height):
    where = f"at {width} x {height}"
    expect(layout["scrolled"] <= 0, f"{where} the page is {layout['scrolled']} wider than the screen")
    for box in layout["canvases"]:
        inside = (box["left"] >= 0 and box["top"] >= 0 and box["right"] <= width
                  and box["bottom"] <= height and box["height"] >= 150)
        expect(inside, f"{where} the canvas is not in view: {box}")
    low = [box for box in layout["buttons"] if box["height"] < 40]
    expect(len(layout["buttons"]) >= 13 and not low, f"{where} too low for a finger: {low}")
    out = [box for box in layout["buttons"] if box["left"] < 0 or box["right"] > width]
    expect(not out, f"{where} not on the screen: {out}")


def the_desk_keeps_its_size(page):
    """What the page says never moves the drawing under a finger."""
    try:
        for width, height in SIZES:
            page.browser.resize(width, height)
            page.new_drawing(BRIDGE)
            sizes = set()
            for tool in ("trim", "split", "extend", "line", "arc", "circle"):
                page.choose(tool)
                sizes.add(tuple(page.browser.run(LAYOUT)["canvases"][0].items()))
            page.choose("extend")
            page.touch((128, 33))
            page.expect_text("notice-number", "19")
            sizes.add(tuple(page.browser.run(LAYOUT)["canvases"][0].items()))
            expect(len(sizes) == 1, f"at {width} x {height} the desk has the sizes {sizes}")
    finally:
        page.browser.resize(1920, 1080)


def messages_are_seen_on_their_way(page):
    """Dots between the counts, which stand still where no motion is wanted."""
    page.slide("reordering", 100)
    try:
        for motion in ("no-preference", "reduce"):
            wanted = [{"name": "prefers-reduced-motion", "value": motion}]
            page.browser.developer("Emulation.setEmulatedMedia", features=wanted)
            page.new_drawing(BRIDGE)
            until(lambda: page.count_pixels("air", INK, 12) == 0, "dots are left on the way")
            page.choose("split")
            page.touch((44, 20))
            until(lambda: page.count_pixels("air", INK, 12) > 30, f"no message is seen ({motion})")
            if motion == "reduce":
                expect_still(page)
            page.expect_level()
    finally:
        page.browser.developer("Emulation.setEmulatedMedia", features=[])


def expect_still(page):
    """The one message on the air is a dot that stays where it is, left of the word in the middle."""
    page.expect_text("on_the_air", "1")
    time.sleep(0.3)
    place = page.browser.run("const air = document.getElementById('air');"
                             "return [0.18 * air.clientWidth, air.clientHeight / 2]")
    [pixel] = page.browser.run(PIXELS, "air", [place])
    expect(is_near(pixel, INK, 12), "the dot of a message moves where no motion is wanted")
    slow = page.browser.run("return getComputedStyle(document.getElementById('wall')).transitionDuration")
    expect(slow == "0s", f"the wall dims for {slow} where no motion is wanted")


def versions_are_shown(page):
    formats = page.hall.state()["formats"]
    page.expect_text("formats", f"image {formats['image']}, message {formats['message']}, "
                     f"interface {formats['interface']}, library {formats['library']}")


def no_request_leaves_the_host(page):
    page.browser.open(page.hall.address)
    page.expect_counts(page.hall.state()["desk"]["count"])
    loaded = page.browser.run(
        "return performance.getEntriesByType('resource').map((entry) => entry.name)")
    entries = [json.loads(entry["message"])["message"] for entry in page.browser.log("performance")]
    asked = [entry["params"]["request"]["url"] for entry in entries
             if entry["method"] == "Network.requestWillBeSent"
             and not entry["params"]["documentURL"].startswith(BROWSERS_OWN)]
    expect(len(asked) > 20 and len(loaded) > 3, "the browser tells of no requests")
    other = {url for url in asked + loaded if not url.startswith(page.hall.address)}
    expect(not other, f"requests go to {other}")


def inline_code_is_refused(page):
    """The page runs under a policy that has no inline code."""
    ran = page.browser.run(
        "const script = document.createElement('script'); script.textContent = 'window.ran = 1';"
        "document.head.append(script); return window.ran || 0")
    expect(ran == 0, "the page lets inline code run")
    # The browser tells of it in the console, once.
    expect(len(page.browser.log("browser")) == 1, "the browser does not tell of inline code")


def picture(page):
    """A screenshot with some members cut, a relation lit up, the wall behind and a message on the air."""
    page.new_drawing(BRIDGE)
    page.choose("trim")
    for place in ((40, 44.5), (50, 44.5), (0, 1.6)):
        page.touch(place)
    page.choose("extend")
    page.touch((30, 24))
    page.expect_counts(4)
    page.expect_level()
    missed = page.hall.state()["radio"]["missed"]
    page.browser.click("#door")
    page.expect_text("door", "Open the door")
    page.choose("trim")
    for place in ((60, 45), (70, 44.5)):
        page.touch(place)
    page.expect_text("missed", str(missed + 2))
    page.browser.click("#door")
    page.expect_text("door", "Close the door")
    page.set_radio(20, 10, 100)
    # What is lost is not seen on the air, so that some edits are tried.
    for place in ((80, 44.5), (120, 1.6), (40, -2.5), (80, -2.5)):
        page.touch(place)
        if page.hall.state()["radio"]["on_the_air"]:
            break
    page.choose("extend")
    page.touch((128, 33))
    page.hover((145, -20))
    page.expect_text("notice-number", "19")
    return page.browser.screenshot()


ALL = [
    a_refusal_that_names_no_relation, a_relation_is_named_and_lit_up, pieces_cut_away_are_dashed,
    the_page_fits_its_screen, the_desk_keeps_its_size, messages_are_seen_on_their_way,
    versions_are_shown, no_request_leaves_the_host, inline_code_is_refused,
]

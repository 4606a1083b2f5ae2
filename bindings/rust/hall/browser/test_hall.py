#!/usr/bin/env python3
"""The hall in a real browser: test_hall.py [PROGRAM], the program being the release build of `hall` where
none is named.

Starts `hall serve` and chromium, does at the page what a person does, and looks at what the server tells and
what the page shows. Writes a screenshot to target/hall-browser.png. Ends with status 0 where all tests pass,
1 where one fails, 77 where there is no chromium or chromedriver."""

import os
import signal
import sys
import traceback
from pathlib import Path

sys.dont_write_bytecode = True

import desk_tests
import radio_tests
import look_tests
from hall_page import Failure, HallPage
from served_hall import ServedHall, ServerError
from service import NotReady
from webdriver import Browser, BrowserLost, Missing, WebDriverError, find_browser

ROOT = Path(__file__).resolve().parents[4]
PROGRAM = ROOT / "bindings/rust/target/release/hall"
PICTURE = ROOT / "target/hall-browser.png"
SKIPPED = 77


def console(page):
    """What the browser's console has had since it was last looked at."""
    return [f"{entry['level']}: {entry['message']}" for entry in page.browser.log("browser")]


def fault_of(test, page):
    """What a test finds wrong, or None."""
    try:
        page.open_door_and_still_radio()
        test(page)
        told = console(page)
        return f"the browser's console has {told}" if told else None
    except Failure as failure:
        return str(failure)
    except BrowserLost:
        raise
    except Exception:
        return traceback.format_exc()


def run_all(page):
    """Runs each test, prints what fails, and answers how many passed and failed."""
    tests = desk_tests.ALL + radio_tests.ALL + look_tests.ALL
    failed = 0
    for test in tests:
        fault = fault_of(test, page)
        if fault:
            failed += 1
            print(f"{test.__name__}: {fault}")
    return len(tests) - failed, failed


def write_picture(content):
    PICTURE.parent.mkdir(exist_ok=True)
    part = PICTURE.with_suffix(".part")
    part.write_bytes(content)
    os.replace(part, PICTURE)


def end_orderly():
    """Where this is ended from outside, the browser and the server are ended too."""
    for kind in (signal.SIGTERM, signal.SIGHUP):
        signal.signal(kind, lambda number, _: sys.exit(128 + number))


def main(arguments):
    if len(arguments) > 1 or arguments[:1] == ["--help"]:
        print(__doc__)
        return 0 if arguments == ["--help"] else 2
    program = Path(arguments[0]) if arguments else PROGRAM
    if not os.access(program, os.X_OK):
        print(f"{program} is no program: cargo build --release --offline -p hall makes it")
        return 1
    try:
        paths = find_browser()
    except Missing as missing:
        print(f"the hall was not tried in a browser: {missing}")
        return SKIPPED
    end_orderly()
    try:
        return run_with(str(program.resolve()), paths)
    except (BrowserLost, Failure, NotReady, ServerError, WebDriverError, OSError) as error:
        print(f"the hall was not tried to its end: {error}")
        return 1


def run_with(program, paths):
    """Runs all tests, once more where the browser is lost, which tells nothing of the page, and answers the
    status to end with."""
    try:
        return run_once(program, paths)
    except BrowserLost as lost:
        print(f"tried again in another browser: {lost}", flush=True)
        return run_once(program, paths)


def run_once(program, paths):
    """Starts the server and the browser, runs all tests, and answers the status to end with."""
    with ServedHall(program) as hall, Browser(paths) as browser:
        page = HallPage(browser, hall)
        browser.resize(1920, 1080)
        browser.open(hall.address)
        passed, failed = run_all(page)
        if not failed:
            write_picture(look_tests.picture(page))
            print(f"picture: {PICTURE.relative_to(ROOT)}")
    if failed:
        print(f"browser: {failed} tests failed, {passed} passed")
        return 1
    print(f"browser: {passed} tests passed")
    return 0


if __name__ == "__main__":
    sys.exit(main(sys.argv[1:]))

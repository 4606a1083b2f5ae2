"""The page as a person uses it: gestures at the desk's canvas, buttons, sliders, what can be read and seen."""

import time

from webdriver import DOWN, UP, keyboard, move, pause, pointer

HOME = "\ue011"
RIGHT = "\ue014"
PAPER = (0xFB, 0xFA, 0xF6)
INK = (0x22, 0x30, 0x3C)
ROUND = (0xA5, 0x52, 0x1D)
AWAY = (0xC2, 0x35, 0x2B)
HIGHLIGHT = (0xD6, 0x24, 0x9F)
LIT = (0xF1, 0xD3, 0x98)  # Over paper.
PREVIEW = (0x4D, 0x58, 0x61)  # Over paper.

BOX = """
const box = document.getElementById(arguments[0]).getBoundingClientRect();
return [box.left, box.top, box.width, box.height];
"""
TEXT = """
const element = document.getElementById(arguments[0]);
return element.offsetParent === null ? null : element.textContent;
"""
# The canvas is copied, since reading it often would make the browser draw it in another way.
PIXELS = """
const [id, places] = arguments;
const canvas = document.getElementById(id);
const copy = document.createElement("canvas");
[copy.width, copy.height] = [canvas.width, canvas.height];
const context = copy.getContext("2d", { willReadFrequently: true });
context.drawImage(canvas, 0, 0);
const density = canvas.width / canvas.clientWidth;
return places.map(([x, y]) => {
  const pixel = context.getImageData(Math.round(x * density), Math.round(y * density), 1, 1);
  return [...pixel.data.slice(0, 3)];
});
"""
COUNT = """
const [id, colour, tolerance] = arguments;
const canvas = document.getElementById(id);
const copy = document.createElement("canvas");
[copy.width, copy.height] = [canvas.width, canvas.height];
const context = copy.getContext("2d", { willReadFrequently: true });
context.drawImage(canvas, 0, 0);
const { data } = context.getImageData(0, 0, copy.width, copy.height);
let count = 0;
for (let i = 0; i < data.length; i += 4) {
  count += [0, 1, 2].every((k) => Math.abs(data[i + k] - colour[k]) <= tolerance);
}
return count;
"""


class Failure(Exception):
    """A test's sentence on what is not as it should be."""


def until(condition, sentence, seconds=10.0):
    """Waits for a condition and answers its value."""
    end = time.monotonic() + seconds
    while True:
        value = condition()
        if value:
            return value
        if time.monotonic() > end:
            raise Failure(sentence() if callable(sentence) else sentence)
        time.sleep(0.05)


def expect(condition, sentence):
    if not condition:
        raise Failure(sentence)


def is_near(pixel, colour, tolerance):
    return all(abs(a - b) <= tolerance for a, b in zip(pixel, colour))


class HallPage:
    def __init__(self, browser, hall):
        self.browser = browser
        self.hall = hall

    # What is done.

    def place(self, position, canvas="desk", inside=False):
        """Where a position of the plane lies in the window, or inside its canvas."""
        left, top, width, height = self.browser.run(BOX, canvas)
        view = self.hall.state()["view"]
        across, up = view["right"] - view["left"], view["top"] - view["bottom"]
        scale = min(width / across, height / up)
        x = width / 2 + (position[0] - (view["left"] + view["right"]) / 2) * scale
        y = height / 2 - (position[1] - (view["bottom"] + view["top"]) / 2) * scale
        return (x, y) if inside else (left + x, top + y)

    def choose(self, tool):
        self.browser.click(f'[data-tool="{tool}"]')

    def touch(self, position, kind="mouse", off=(0, 0)):
        """Touches a position, or so many CSS pixels off it."""
        x, y = self.place(position)
        place = (x + off[0], y + off[1])
        self.browser.act(pointer(kind, [move(place), DOWN, pause(40), UP]))

    def drag(self, positions, kind="mouse"):
        first, *rest = [self.place(position) for position in positions]
        steps = [move(place, 60) for place in rest]
        self.browser.act(pointer(kind, [move(first), DOWN, *steps, UP]))

    def touch_by_two(self, first, second):
        """A second finger comes and goes while the first is down."""
        one = [move(self.place(first)), DOWN, pause(), pause(), pause(), UP]
        two = [move(self.place(second)), pause(), DOWN, pause(), UP, pause()]
        self.browser.act(pointer("touch", one, "one"), pointer("touch", two, "two"))

    def touch_cancelled(self, position):
        """A touch that the system takes away. The driver has no such action, so the browser is told."""
        x, y = self.place(position)
        for kind, points in (("touchStart", [{"x": x, "y": y}]), ("touchCancel", [])):
            self.browser.developer("Input.dispatchTouchEvent", type=kind, touchPoints=points)

    def touch_nowhere(self):
        """Touches the middle of the desk's canvas, wherever that is in the plane."""
        left, top, width, height = self.browser.run(BOX, "desk")
        place = (left + width / 2, top + height / 2)
        self.browser.act(pointer("mouse", [move(place), DOWN, pause(40), UP]))

    def hover(self, position):
        self.browser.act(pointer("mouse", [move(self.place(position))]))

    def press(self, *keys):
        self.browser.act(keyboard(keys))

    def choose_by_key(self, key):
        self.browser.run("document.activeElement.blur()")
        self.press(key)

    def slide(self, name, percent):
        """Moves a slider by its keys, a step for each percent."""
        self.browser.run("document.getElementById(arguments[0]).focus()", name)
        self.press(HOME, *[RIGHT] * percent)
        until(lambda: self.hall.state()["radio"][name] == percent,
              lambda: f"the slider {name} was moved to {percent} %, and the radio has "
              f"{self.hall.state()['radio'][name]}")
        self.expect_text(f"{name}-value", f"{percent} %")

    def set_radio(self, loss, repeats, reordering):
        for name, percent in (("loss", loss), ("repeats", repeats), ("reordering", reordering)):
            if self.hall.state()["radio"][name] != percent:
                self.slide(name, percent)

    def open_door_and_still_radio(self):
        """Whatever a test before has left."""
        if self.hall.state()["wall"]["door"] != "open":
            self.browser.click("#door")
            self.expect_text("door", "Close the door")
        self.set_radio(0, 0, 0)

    def new_drawing(self, name):
        """Chooses a drawing and starts anew from it."""
        before = self.hall.state()["desk"]["mark"]
        until(lambda: self.browser.run(
            "const list = document.getElementById('bridge'); list.value = arguments[0];"
            "return list.value", name) == name, f"no drawing of the page is named {name}")
        self.browser.click("#new button")
        until(lambda: self.hall.state()["desk"]["mark"] != before,
              f"the desk has not started anew from {name}")

    def send_again_until_alike(self, most=40):
        """Presses the button until desk and wall are level, and looks at both images."""
        for _ in range(most):
            self.browser.click("#send-again")
            end = time.monotonic() + 3
            while time.monotonic() < end:
                state = self.hall.state()
                if state["alike"] and not state["radio"]["on_the_air"]:
                    return self.expect_alike()
                if not state["radio"]["on_the_air"]:
                    break
                time.sleep(0.05)
        raise Failure(f"after {most} times of sending again the wall is behind by "
                      f"{self.hall.state()['behind']}")

    # What is read and seen.

    def text(self, name):
        """The text of an element, or None where it is not shown."""
        return self.browser.run(TEXT, name)

    def expect_text(self, name, text):
        until(lambda: self.text(name) == text,
              lambda: f"the page's {name} says {self.text(name)!r}, not {text!r}")

    def expect_counts(self, desk):
        """The desk has come to a count, by its server and by its page."""
        until(lambda: self.hall.state()["desk"]["count"] == desk,
              lambda: f"the desk's count is {self.hall.state()['desk']['count']}, not {desk}: "
              f"{self.hall.state()['notice']}")
        self.expect_text("desk-count", str(desk))

    def expect_level(self):
        """The wall comes level by itself with the count that the desk has come to."""
        until(lambda: self.hall.state()["alike"],
              lambda: f"the wall stays behind by {self.hall.state()['behind']}")
        self.expect_alike()

    def expect_alike(self):
        desk, wall = self.hall.images()
        expect(len(desk) > 0 and desk == wall, "the images of desk and wall are not the same bytes")
        state = self.hall.state()
        self.expect_text("agreement", "alike")
        self.expect_text("wall-count", str(state["wall"]["count"]))

    def expect_tallies(self):
        """The page shows the server's figures."""
        def differing():
            state = self.hall.state()
            figures = {**state["radio"], **state["wall_tally"]}
            settings = ("loss", "repeats", "reordering")
            return [f"{name}: {self.text(name)} for {figure}" for name, figure in figures.items()
                    if name not in settings and self.text(name) != str(figure)]
        until(lambda: not differing(), lambda: f"the page's figures differ: {differing()}")

    def pixels(self, canvas, positions):
        """The colours at positions of the plane."""
        places = [self.place(position, canvas, inside=True) for position in positions]
        return [tuple(pixel) for pixel in self.browser.run(PIXELS, canvas, places)]

    def count_pixels(self, canvas, colour, tolerance=24):
        return self.browser.run(COUNT, canvas, colour, tolerance)

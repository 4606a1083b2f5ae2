"""Tests of the tools at the desk, by mouse, finger, pen and keyboard, on the bridge to try."""

import math
import time

from hall_page import LIT, PREVIEW, ROUND, expect, is_near, until
from webdriver import DOWN, UP, move, pause, pointer

BRIDGE = "opening"
# Over the arch, whose crown is at 40.
OVERHANGS = {"mouse": (60, 45), "touch": (50, 44.5), "pen": (70, 44.5)}
DECK = {"mouse": (110, 20), "touch": (10, 20)}
SHORT_HANGERS = {"mouse": (30, 24), "touch": (90, 24)}
# Positions where nothing stands.
FREE = {"mouse": (-8, 30), "touch": (4, 34)}
ENTER, ESCAPE, UP_ARROW, DOWN_ARROW, LEFT, RIGHT = "\ue007\ue00c\ue013\ue015\ue012\ue014"


def curve_at(state, position, within=0.01):
    """The line of the desk's drawing that has an end there."""
    for curve in state["desk"]["curves"]:
        ends = curve["stroke"].get("path", [])
        if any(math.dist(end, position) <= within for end in ends):
            return curve
    return None


def arch(x):
    """The height of the arch, which is of radius 50 about 60, -10."""
    return math.sqrt(50**2 - (x - 60) ** 2) - 10


def near(page, position, other, pixels=2.5):
    """Whether two positions of the plane are the same to within some pixels."""
    (ax, ay), (bx, by) = page.place(position), page.place(other)
    return math.hypot(ax - bx, ay - by) <= pixels


def trims(page, kind):
    page.new_drawing(BRIDGE)
    page.choose("trim")
    x, _ = OVERHANGS[kind]
    expect(curve_at(page.hall.state(), (x, 46)), f"no hanger ends at {x}, 46")
    page.touch(OVERHANGS[kind], kind)
    page.expect_counts(1)
    state = page.hall.state()
    expect(not curve_at(state, (x, 46)), f"the hanger at {x} still ends over the arch")
    away = state["desk"]["away"]
    expect(len(away) == 1, f"{len(away)} pieces are cut away by one trim")
    low, high = sorted(y for _, y in away[0]["path"])
    expect(abs(low - arch(x)) < 1e-6 and high == 46, f"cut away is from {low} to {high}")
    page.expect_text("notice-title", state["notice"]["title"])
    page.expect_text("notice-text", state["notice"]["text"])
    page.expect_level()


def trim_by_mouse(page):
    trims(page, "mouse")


def trim_by_finger(page):
    trims(page, "touch")


def trim_by_pen(page):
    trims(page, "pen")


def splits(page, kind):
    page.new_drawing(BRIDGE)
    page.choose("split")
    before = page.hall.state()["desk"]
    page.touch(DECK[kind], kind)
    page.expect_counts(1)
    desk = page.hall.state()["desk"]
    expect(len(desk["curves"]) == len(before["curves"]) + 1, "a split has not added one curve")
    expect(desk["away"] == [], "a split has cut something away")
    old = {point["id"] for point in before["points"]}
    new = [(point["x"], point["y"]) for point in desk["points"] if point["id"] not in old]
    expect(len(new) == 1 and near(page, new[0], DECK[kind]), f"the deck was parted at {new}")
    page.expect_level()


def split_by_mouse(page):
    splits(page, "mouse")


def split_by_finger(page):
    splits(page, "touch")


def extends(page, kind):
    page.new_drawing(BRIDGE)
    page.choose("extend")
    x, _ = SHORT_HANGERS[kind]
    page.touch(SHORT_HANGERS[kind], kind)
    page.expect_counts(1)
    expect(curve_at(page.hall.state(), (x, arch(x))), f"the hanger at {x} does not end at the arch")
    page.expect_level()


def extend_by_mouse(page):
    extends(page, "mouse")


def extend_by_finger(page):
    extends(page, "touch")


def drawn(page, tool, positions, kind):
    """Draws a member on the bridge after one edit, and answers its stroke. Both start anew from it."""
    page.new_drawing(BRIDGE)
    page.choose("split")
    page.touch(DECK["mouse"])
    page.expect_counts(1)
    page.choose(tool)
    before = page.hall.state()["desk"]
    page.drag(positions, kind)
    until(lambda: page.hall.state()["desk"]["mark"] != before["mark"],
          lambda: f"no {tool} was drawn: {page.hall.state()['notice']}")
    state = page.hall.state()
    expect(state["desk"]["mark"] == state["wall"]["mark"], "the wall has another mark than the desk")
    page.expect_counts(0)
    page.expect_text("wall-count", "0")
    page.expect_level()
    old = {curve["id"] for curve in before["curves"]}
    new = [curve for curve in state["desk"]["curves"] if curve["id"] not in old]
    expect([curve["kind"] for curve in new] == [tool], f"{new} was drawn, not one {tool}")
    return new[0]["stroke"]


def draws_line(page, kind):
    x, y = FREE[kind]
    # To within a few pixels of the middle hanger's top, which it joins.
    stroke = drawn(page, "line", [(x, y), (x + 20, 47), (59.4, 45.6)], kind)
    ends = sorted(stroke["path"])
    expect(near(page, ends[0], (x, y)), f"the line begins at {ends[0]}, not where it was begun")
    expect(ends[1] == [60, 46], f"the line ends at {ends[1]}, not at the point there")


def line_by_mouse(page):
    draws_line(page, "mouse")


def line_by_finger(page):
    draws_line(page, "touch")


def draws_arc(page, kind):
    x, y = FREE[kind]
    bow = [(x + 6 - 6 * math.cos(t * math.pi / 6), y + 6 * math.sin(t * math.pi / 6)) for t in range(7)]
    stroke = drawn(page, "arc", bow, kind)
    cx, cy, radius, start, sweep = stroke["arc"]
    expect(near(page, (cx, cy), (x + 6, y)) and near(page, (cx + radius, cy), (x + 12, y)),
           f"the arc is {stroke['arc']}, not half a circle about {x + 6}, {y}")
    expect(abs(math.sin(start / 2)) < 0.1 and abs(sweep - math.pi) < 0.2,
           f"the arc is {stroke['arc']}, not the upper half of its circle")


def arc_by_mouse(page):
    draws_arc(page, "mouse")


def arc_by_finger(page):
    draws_arc(page, "touch")


def draws_circle(page, kind):
    x, y = FREE[kind]
    stroke = drawn(page, "circle", [(x, y), (x + 2, y + 1), (x + 4, y + 3)], kind)
    cx, cy, radius = stroke["circle"]
    expect(near(page, (cx, cy), (x, y)), f"the circle's centre is {cx}, {cy}")
    expect(near(page, (cx + radius, cy), (cx + 5, cy)), f"the circle's radius is {radius}, not 5")


def circle_by_mouse(page):
    draws_circle(page, "mouse")


def circle_by_finger(page):
    draws_circle(page, "touch")


def unchanged(page, act, sentence):
    """Does something that the desk is not to notice."""
    before = page.hall.state()
    act()
    time.sleep(0.4)
    state = page.hall.state()
    same = [state[name] == before[name] for name in ("revision", "desk")]
    expect(all(same), f"{sentence}: {state['notice']}")


def short_drags_are_ignored(page):
    page.new_drawing(BRIDGE)
    for tool, start in (("line", "That was too short."), ("arc", "That was too short."),
                        ("circle", "That was too short."), ("trim", "Touch the member")):
        page.choose(tool)
        x, y = OVERHANGS["mouse"]
        end = (x + 10, y) if tool == "trim" else (x + 1, y)
        unchanged(page, lambda: page.drag([(x, y), end]), f"a drag that is none of {tool} was sent")
        told = page.text("notice-text")
        expect(told.startswith(start), f"after a wrong drag of {tool} the page says {told!r}")


def reach_is_a_fingers(page):
    page.new_drawing(BRIDGE)
    page.choose("trim")
    # The top of the hanger is touched from the side, where nothing else is near.
    page.touch(OVERHANGS["mouse"], "mouse", off=(17, 0))
    time.sleep(0.4)
    expect(page.hall.state()["desk"]["count"] == 0, "a mouse reaches as far as a finger")
    page.touch(OVERHANGS["mouse"], "touch", off=(17, 0))
    page.expect_counts(1)


def second_fingers_are_ignored(page):
    page.new_drawing(BRIDGE)
    page.choose("trim")
    page.touch_by_two(OVERHANGS["touch"], OVERHANGS["pen"])
    page.expect_counts(1)
    time.sleep(0.3)
    state = page.hall.state()
    expect(not curve_at(state, (50, 46)) and curve_at(state, (70, 46)),
           "the first finger has not trimmed, or the second has")
    page.expect_counts(1)


def cancelled_touches_are_ignored(page):
    page.new_drawing(BRIDGE)
    page.choose("trim")
    unchanged(page, lambda: page.touch_cancelled(OVERHANGS["touch"]), "a cancelled touch was sent")
    page.touch(OVERHANGS["touch"], "touch")
    page.expect_counts(1)


def members_light_up_under_the_mouse(page):
    page.new_drawing(BRIDGE)
    page.choose("trim")
    page.hover((45, 30))
    until(lambda: page.count_pixels("desk", LIT, 8) == 0, "something is lit where nothing is under the mouse")
    page.hover(OVERHANGS["mouse"])
    until(lambda: page.count_pixels("desk", LIT, 8) > 200, "the member under the mouse is not lit")
    expect(page.count_pixels("wall", LIT, 8) == 0, "the wall lights up under the mouse")


def a_member_to_come_is_shown(page):
    page.new_drawing(BRIDGE)
    page.choose("line")
    # A little off the middle hanger's top, which the line is to join.
    start, end = page.place((-10, 40)), page.place((59.2, 45.5))
    held = [move(start), DOWN, move(end, 60), pause(20)]
    page.browser.command("actions", {"actions": [pointer("mouse", held)]})
    until(lambda: sum(is_near(pixel, PREVIEW, 30) for pixel in
                      page.pixels("desk", along((-10, 40), (60, 46), 200))) > 60,
          "the line to come is not shown while it is drawn")
    # The ring about a point that is joined has a radius of 8 pixels.
    (x, y), (right, _) = page.place((60, 46), inside=True), page.place((61, 46), inside=True)
    radius = 8 / (right - x)
    ring = page.pixels("desk", [(60 + radius, 46), (60, 46 + radius), (60 - radius, 46)])
    expect(sum(is_near(pixel, ROUND, 60) for pixel in ring) >= 2, f"no ring tells what is joined: {ring}")
    page.choose_by_key("1")
    page.browser.command("actions", {"actions": [pointer("mouse", [UP])]})
    time.sleep(0.3)
    expect(page.hall.state()["desk"]["count"] == 0, "a line that was given up has become an edit")


def along(start, end, count=60):
    shares = [i / count for i in range(1, count)]
    return [tuple(a + (b - a) * t for a, b in zip(start, end)) for t in shares]


def tools_by_keys(page):
    page.new_drawing(BRIDGE)
    for key, tool in enumerate(("trim", "split", "extend", "line", "arc", "circle"), 1):
        page.choose_by_key(str(key))
        pressed = page.browser.run(
            "return [...document.querySelectorAll('[aria-pressed=true]')].map((b) => b.dataset.tool)")
        expect(pressed == [tool], f"key {key} chooses {pressed}, not {tool}")
        told = page.text("tool-hint")
        expect(told.lower().startswith(tool), f"the line below the tools says {told!r} of {tool}")
        anew = "start anew from the new drawing" in told
        expect(anew == (key > 3), f"the line below the tools says {told!r} of {tool}")


def edits_by_keys(page):
    page.new_drawing(BRIDGE)
    page.choose_by_key("1")
    page.browser.run("document.getElementById('desk').focus()")
    # From the middle of the canvas, where the cross begins, to the middle hanger's top.
    left, top = page.place((60, 45), inside=True)
    width, height = page.browser.run("const c = document.getElementById('desk');"
                                     "return [c.clientWidth, c.clientHeight]")
    right, down = round((left - width / 2) / 8), round((top - height / 2) / 8)
    across = [RIGHT if right > 0 else LEFT] * abs(right)
    along_y = [DOWN_ARROW if down > 0 else UP_ARROW] * abs(down)
    page.press(ENTER, *across, *along_y, ENTER)
    page.expect_counts(1)
    expect(not curve_at(page.hall.state(), (60, 46)), "the keys have not trimmed the middle hanger")
    page.choose_by_key("6")
    page.browser.run("document.getElementById('desk').focus()")
    mark = page.hall.state()["desk"]["mark"]
    page.press(ENTER, *[RIGHT] * 6, ESCAPE, *[RIGHT] * 2, ENTER, *[RIGHT] * 5, ENTER)
    until(lambda: page.hall.state()["desk"]["mark"] != mark, "the keys have drawn no circle")


ALL = [
    trim_by_mouse, trim_by_finger, trim_by_pen, split_by_mouse, split_by_finger, extend_by_mouse,
    extend_by_finger, line_by_mouse, line_by_finger, arc_by_mouse, arc_by_finger, circle_by_mouse,
    circle_by_finger, short_drags_are_ignored, reach_is_a_fingers, second_fingers_are_ignored,
    cancelled_touches_are_ignored, members_light_up_under_the_mouse, a_member_to_come_is_shown,
    tools_by_keys, edits_by_keys,
]

"""Tests of the radio, the door, new drawings, and of a server that ends."""

import time

from hall_page import expect, until

BRIDGE = "opening"
# Positions on the deck where no hanger stands, and away from the ends of its pieces.
PLACES = [(x, 20) for x in (-16, -12, -4, 4, 12, 24, 33, 45, 55, 65, 75, 87, 96, 106, 112, 134)]


def edits(page, count):
    """Splits the deck, all by the page, and comes to so many edits more."""
    page.choose("split")
    before = page.hall.state()["desk"]["count"]
    for place in PLACES[before:before + count]:
        page.touch(place)
    page.expect_counts(before + count)


def silence(page):
    """Nothing is on the air any more."""
    until(lambda: page.hall.state()["radio"]["on_the_air"] == 0, "messages stay on the air")
    page.expect_tallies()


def loss_leaves_the_wall_behind(page):
    page.new_drawing(BRIDGE)
    page.slide("loss", 60)
    edits(page, 14)
    silence(page)
    state = page.hall.state()
    desk, wall = page.hall.images()
    expect(state["radio"]["lost"] > 0 and state["behind"] > 0 and not state["alike"],
           f"at a loss of 60 % the wall is behind by {state['behind']} of 14")
    expect(desk != wall, "a wall that is behind has the desk's image")
    page.expect_text("agreement", f"behind by {state['behind']}")
    page.expect_text("wall-count", str(14 - state["behind"]))
    page.slide("loss", 0)
    page.send_again_until_alike()
    page.expect_counts(14)
    page.expect_text("wall-count", "14")


def reordering_and_repeats_are_told_apart(page):
    page.new_drawing(BRIDGE)
    page.slide("repeats", 100)
    page.slide("reordering", 100)
    before = page.hall.state()["wall_tally"]
    edits(page, 14)
    silence(page)
    state = page.hall.state()
    for name in ("ahead", "old"):
        expect(state["wall_tally"][name] > before[name], f"none of 14 messages was {name} at the wall")
    for name in ("repeated", "overtaken"):
        expect(state["radio"][name] > 0, f"none of 14 messages was {name}")
    page.send_again_until_alike()
    page.expect_tallies()
    page.slide("repeats", 0)
    page.slide("reordering", 0)


def a_closed_door_keeps_all_out(page):
    page.new_drawing(BRIDGE)
    edits(page, 2)
    page.expect_level()
    missed = page.hall.state()["radio"]["missed"]
    page.browser.click("#door")
    page.expect_text("door-note", "door closed, all is lost")
    page.expect_text("door", "Open the door")
    expect(dimmed(page) < 0.5, "the wall behind a closed door is not dimmed")
    edits(page, 5)
    silence(page)
    state = page.hall.state()
    expect(state["radio"]["missed"] == missed + 5, f"{state['radio']} after 5 edits behind a closed door")
    expect((state["wall"]["count"], state["behind"]) == (2, 5), "a closed door has let something in")
    page.expect_text("agreement", "behind by 5")
    page.browser.click("#door")
    until(lambda: page.text("door-note") is None, "the open door is still shown as closed")
    until(lambda: dimmed(page) == 1, "the wall behind an open door is dimmed")
    page.send_again_until_alike()


def a_start_waits_behind_the_door(page):
    page.new_drawing(BRIDGE)
    started = page.hall.state()["wall_tally"]["started_again"]
    page.browser.click("#door")
    page.expect_text("door", "Open the door")
    page.new_drawing("footbridge")
    page.expect_text("agreement", "not started anew")
    state = page.hall.state()
    expect(state["wall"]["mark_differs"] and not state["alike"], "a start has come through a closed door")
    page.browser.click("#door")
    page.expect_text("door", "Close the door")
    page.send_again_until_alike()
    page.expect_text("started_again", str(started + 1))


def dimmed(page):
    time.sleep(0.35)  # The page dims it gradually.
    return float(page.browser.run("return getComputedStyle(document.getElementById('wall')).opacity"))


def new_drawings_start_both(page):
    names = [bridge["name"] for bridge in page.hall.state()["bridges"]]
    expect(len(names) >= 3 and "empty" in names, f"the drawings are {names}")
    shown = page.browser.run(
        "return [...document.getElementById('bridge').options].map((o) => [o.value, o.textContent])")
    told = [[bridge["name"], bridge["title"]] for bridge in page.hall.state()["bridges"]]
    expect(shown == told, f"the page offers {shown}, the server {told}")
    images = set()
    for name in [*names, BRIDGE]:
        page.new_drawing(name)
        page.expect_counts(0)
        page.expect_level()
        images.add(page.hall.images()[0])
        if name == BRIDGE:
            edits(page, 1)
            page.expect_level()
    expect(len(images) == len(names), f"{len(names)} drawings have {len(images)} images")


def an_end_is_told_and_got_over(page):
    page.new_drawing(BRIDGE)
    edits(page, 3)
    page.hall.end()
    until(lambda: (page.text("gone") or "").startswith("The hall's program has ended."),
          "the page does not tell that the program has ended")
    # A request that is not answered leaves a line in the console; nothing else may.
    page.touch_nowhere()
    time.sleep(0.5)
    entries = page.browser.log("browser")
    other = [entry for entry in entries if entry["source"] != "network"]
    expect(entries and not other, f"without a server the console has {other}")
    page.hall.start()
    until(lambda: page.text("gone") is None, "the page does not notice that the program runs again")
    page.expect_counts(0)
    page.expect_level()
    page.browser.log("browser")


ALL = [
    loss_leaves_the_wall_behind, reordering_and_repeats_are_told_apart, a_closed_door_keeps_all_out,
    a_start_waits_behind_the_door, new_drawings_start_both, an_end_is_told_and_got_over,
]

"""Tests of the tool `page`: what its pages hold, and how they look and act in Chromium."""
from __future__ import annotations

import json
import re
import tempfile
import unittest
from collections.abc import Iterator
from contextlib import ExitStack
from itertools import combinations
from pathlib import Path
from typing import Any

import browser
from rows import row_of
from tools_common import CASES, ToolTest, case_of_a_late_failure, read, report_of, tool, twarp
from twarp.report import read_report
from twarp.svg import DARK, LIGHT, PLACES
from twarp_tools.layout import distance, lay_out

Json = dict[str, Any]

needs_browser = unittest.skipUnless(browser.PROGRAM, "Chromium is not installed")


def star_of(routers: int) -> str:
    """A case of so many routers, each with a path to the origin by way of router 1, 2, .. or 6."""
    links = [f"link 0 {hub} 1" for hub in range(1, 7)]
    paths = [f"path {hub} {hub} 0" for hub in range(1, 7)]
    for router in range(7, routers):
        hub = router % 6 + 1
        links.append(f"link {hub} {router} {router % 9 + 1}")
        paths.append(f"path {router} {router} {hub} 0")
    return "\n".join(["spp 1", f"nodes {routers}", *links, *paths, "end", ""])


def data_of(page: str) -> Json:
    """What the page's script knows."""
    found = re.search('<script id="run" type="application/json">(.*?)</script>', page)
    assert found, "each page has it"
    return json.loads(found[1])


def states_at_the_end(data: Json) -> dict[int, Json]:
    """Each router's state after all events, put together as the page's script does it."""
    states = {router["router"]: router["opening"] for router in data["routers"]}
    for event in data["events"]:
        state = states[event["router"]]
        changed = ("counters", "rib", "order", "barred")
        state |= {name: event[name] for name in changed if name in event}
        if "row" in event:
            state["rows"] = [
                event["row"] if row[0] == event["row"][0] else row for row in state["rows"]
            ]
    return states


def luminance(colour: str) -> float:
    digits = colour.removeprefix("#")
    digits = "".join(2 * digit for digit in digits) if len(digits) == 3 else digits
    parts = [int(digits[place : place + 2], 16) / 255 for place in (0, 2, 4)]
    red, green, blue = (
        part / 12.92 if part <= 0.04045 else ((part + 0.055) / 1.055) ** 2.4 for part in parts
    )
    return 0.2126 * red + 0.7152 * green + 0.0722 * blue


def contrast(one: str, other: str) -> float:
    """The contrast of two colours by the Web Content Accessibility Guidelines, from 1 to 21."""
    dark, light = sorted(map(luminance, (one, other)))
    return (light + 0.05) / (dark + 0.05)


class Page(ToolTest):
    def make(self, name: str, report: str, *words: object) -> Json:
        return data_of(
            self.assert_done(tool("page", CASES / f"{name}.spp", "-", *words, stdin=report))
        )

    def test_what_happens_in_disagree(self) -> None:
        data = self.make("disagree", read("disagree-report.txt"))
        self.assertEqual(data["stops"], list(range(8)))
        self.assertEqual(
            (len(data["routers"]), len(data["links"]), len(data["messages"])), (3, 3, 6)
        )
        words = [event["words"] for event in data["events"]]
        self.assertEqual(
            words[:2],
            ["router 0 starts and takes (0)", "router 1 hears (0) from 0 and takes (1 0)"],
        )
        self.assertEqual(words[5], "router 2 hears (0) from 0")

    def test_a_failure_a_repair_and_a_dropped_message(self) -> None:
        data = self.make("failure-and-repair", read("failure-and-repair-report.txt"))
        words = [event["words"] for event in data["events"]]
        self.assertIn("router 1 loses the link to 2", words)
        self.assertIn("router 2 has the link to 1 again", words)
        self.assertIn("router 2 drops (1 0) from 1, which is of an earlier session", words)
        self.assertEqual(
            [message["arrives"] for message in data["messages"] if message["is_dropped"]], [6]
        )

    def test_the_last_states_are_the_reports(self) -> None:
        for file in sorted(CASES.glob("*.spp")):
            for words in [], ["--from", 3]:
                with self.subTest(file.name, words=words):
                    report = report_of(file.stem, 20)
                    data = self.make(file.stem, report, *words)
                    states = states_at_the_end(data)
                    for line in read_report(report.encode(), len(states)).routers:
                        state = states[line.router]
                        self.assertEqual(data["paths"][state["rib"]], list(line.rib))
                        self.assertEqual(
                            state["counters"],
                            [line.sent, line.handled, line.dropped, line.changed],
                        )

    def test_a_part_of_a_run(self) -> None:
        report = report_of("bad-gadget", 40)
        data = self.make("bad-gadget", report, "--from", 10, "--to", 12, "--routers", "1,3-4")
        self.assertEqual([router["router"] for router in data["routers"]], [1, 3, 4])
        self.assertEqual(data["stops"], [10, 11, 12])
        self.assertEqual({event["router"] for event in data["events"]}, {1, 3, 4})
        self.assertEqual([link[:2] for link in data["links"]], [[1, 3], [3, 4]])

    def test_a_crowd_asks_for_a_part(self) -> None:
        name = "disagree-equal-delays"
        report = report_of(name, 2000)
        done = tool("page", CASES / f"{name}.spp", "-", stdin=report)
        self.assert_refused(
            done, "events to be shown, and a page has at most 5,000: choose some by --from"
        )
        self.make(name, report, "--to", 600)
        with tempfile.NamedTemporaryFile("w", suffix=".spp") as file:
            file.write(star_of(301))
            file.flush()
            report = twarp("seq", "--stop", 50, "--log", stdin=star_of(301))
            done = tool("page", file.name, "-", stdin=report)
            self.assert_refused(
                done, "there are 301 routers to be shown, and a page has at most 300"
            )
            page = self.assert_done(
                tool("page", file.name, "-", "--routers", "0-299", stdin=report)
            )
        self.assertEqual(len(data_of(page)["routers"]), 300)

    def test_a_long_time_has_fewer_stops(self) -> None:
        case = case_of_a_late_failure()
        with tempfile.NamedTemporaryFile("w", suffix=".spp") as file:
            file.write(case)
            file.flush()
            report = twarp("seq", "--stop", 3_000_000, "--log", stdin=case)
            data = data_of(
                self.assert_done(tool("page", file.name, "-", "--to", 1_000_000_000, stdin=report))
            )
        self.assertLess(len(data["stops"]), 40)
        self.assertLessEqual({0, 1_000_000, 2_000_000, 1_000_000_000}, set(data["stops"]))

    def test_names_are_escaped(self) -> None:
        with tempfile.NamedTemporaryFile("w") as names:
            names.write("1 </script><b> & co\n2 65002\n")
            names.flush()
            words = ["--names", names.name, "--title", "<i>", CASES / "disagree.spp", "-"]
            page = self.assert_done(tool("page", *words, stdin=read("disagree-report.txt")))
        self.assertEqual(
            [router["name"] for router in data_of(page)["routers"]],
            ["", "</script><b> & co", "AS65002"],
        )
        self.assertIn("<h1>&lt;i&gt;: verdict quiet 2</h1>", page)
        self.assertNotIn("<b>", page)

    def test_what_is_refused(self) -> None:
        report = read("disagree-report.txt")
        words = [CASES / "disagree.spp", "-"]
        self.assert_refused(
            tool("page", *words, stdin=report.replace("spp-report 1", "spp-replay 1")), "line 1: "
        )
        self.assert_refused(
            tool("page", *words, stdin=re.sub("event .*\n", "", report)),
            "refused line 4: no event",
        )
        self.assert_refused(
            tool("page", *words, stdin=report.replace("event 2 0", "event 3 0")),
            "refused line 6: ",
        )
        self.assert_refused(tool("page", "--routers", 3, *words, stdin=report), "no router 3")


class PageDrawing(ToolTest):
    def test_routers_have_room(self) -> None:
        ring = [[(node - 1) % 40, (node + 1) % 40] for node in range(40)]
        star = [[*range(1, 65)], *([0] for _ in range(64))]
        apart: list[list[int]] = [[] for _ in range(9)]
        for name, neighbours in ("ring", ring), ("star", star), ("apart", apart), ("one", [[]]):
            with self.subTest(name):
                points = lay_out(neighbours, 80, 50, 0)
                self.assertEqual(points, lay_out(neighbours, 80, 50, 0))
                self.assertEqual(
                    (min(point.real for point in points), min(point.imag for point in points)), (0, 0)
                )
                self.assertTrue(all(distance(a, b) >= 49.8 for a, b in combinations(points, 2)))

    def test_linked_routers_are_near(self) -> None:
        points = lay_out([[1], [0, 2], [1, 3], [2]], 100, 50, 0)
        lengths = [distance(a, b) for a, b in combinations(points, 2)]
        for length, wanted in zip(lengths, (100, 200, 300, 100, 200, 100)):
            self.assertAlmostEqual(length, wanted, delta=4)
        self.assertEqual(max(points, key=lambda point: point.imag), points[0])

    def test_colours_have_contrast(self) -> None:
        for place in PLACES:
            self.assertGreaterEqual(contrast(place.fill, place.ink), 4.5, place.name)
        for table in LIGHT, DARK:
            for name in "ink", "quiet", "bad", "good", "focus":
                self.assertGreaterEqual(contrast(table[name], table["ground"]), 4.5, name)
            for name in "wire", "message", "swap":
                self.assertGreaterEqual(contrast(table[name], table["ground"]), 3, name)


# Words that overlap others of the same picture, or of the page beside its pictures.
OVERLAPS = """(() => {
  const boxes = new Map();
  const walker = document.createTreeWalker(document.body, NodeFilter.SHOW_TEXT);
  while (walker.nextNode()) {
    const text = walker.currentNode, parent = text.parentElement;
    if (!text.data.trim() || parent.closest("title, option, script, noscript")) continue;
    const range = document.createRange();
    range.selectNodeContents(text);
    const group = parent.closest("svg, .pane") ?? document.body;
    const found = [...range.getClientRects()].map((box) => [text.data, box]);
    boxes.set(group, [...(boxes.get(group) ?? []), ...found]);
  }
  const meet = (a, b) => Math.min(a.right, b.right) - Math.max(a.left, b.left) > 1
    && Math.min(a.bottom, b.bottom) - Math.max(a.top, b.top) > 3;
  return [...boxes.values()].flatMap((row) => row.flatMap(([words, box], place) =>
    row.slice(place + 1)
      .filter(([, other]) => meet(box, other))
      .map(([others]) => `${words} | ${others}`)));
})()"""
# How far down the message from 0 to 2 is.
HEIGHT_OF_DOT = """[...document.querySelectorAll('#network .dot')]
  .find((dot) => dot.textContent.startsWith('0 to 2')).getAttribute('cy')"""
# The panes in which router 149, or its lane at the time chosen, is not seen without scrolling.
OUT_OF_PANE = """Object.entries({
  network: [drawn.get(149).group, network.parentElement],
  timeline: [lanes.get(149), timeline],
  time: [cursor, timeline],
}).filter(([name, [part, pane]]) => (name !== "time" && wayTo(part, pane, DOWN))
    || wayTo(part, pane, ACROSS))
  .map(([name]) => name)"""
# How far the cross of the failure is from the line at the time chosen.
PLACE_OF_FAILURE = """(() => {
  const [mark, line] = [".area path.fail", ".cursor"].map((name) => area.parentElement
    .querySelector(name).getBoundingClientRect());
  return mark.x + mark.width / 2 - line.x - line.width / 2;
})()"""
# Messages that do not go from when they were sent to when they arrive.
MISPLACED_MESSAGES = """(() => {
  const place = (time) => zoomed(placeOfTime(time));
  return [...area.querySelectorAll(".message")].map((line) => {
    const [, sent, arrives] = line.textContent.match(/sent ([0-9]+), arrives ([0-9]+)/).map(Number);
    return ["x1", "x2"].map((name) => Number(line.getAttribute(name)))
      .map((x, end) => Math.abs(x - place([sent, arrives][end])));
  }).filter(([one, other]) => one > 0.2 * view.zoom || other > 0.2 * view.zoom);
})()"""
# Words that are wider than their bar.
WIDE_WORDS = """[...area.querySelectorAll("rect.bar, rect.hollow")]
  .map((box) => [box, box.parentElement.querySelector("text")])
  .filter(([, text]) => text && text.style.display !== "none" && text.getAttribute("display"))
  .filter(([box, text]) => text.getBBox().width > box.getBBox().width)
  .map(([, text]) => text.textContent)"""
WORDS = "document.getElementById('{}').innerText"
# Notes what the page shows at each step of playing, pauses at the second one, and waits whether there is a third.
PLAYED = """window.played = new Promise((done) => {
  const [now, play] = ["now", "play"].map((name) => document.getElementById(name));
  const seen = [];
  new MutationObserver(() => {
    seen.push(`${now.innerText} ${play.innerText}`);
    if (seen.length !== 2) return;
    play.click();
    setTimeout(() => done([...seen, play.innerText]), 2000);
  }).observe(now, {childList: true});
});
0"""
# The middle of what a selector finds, once it is in the window.
CENTRE = """(() => {
  const found = document.querySelector('SELECTOR');
  found.scrollIntoView({block: 'center'});
  const box = found.getBoundingClientRect();
  return {x: box.x + box.width / 2, y: box.y + box.height / 2};
})()"""


@needs_browser
class PageInBrowser(ToolTest):
    browser: browser.Browser
    folder: Path

    @classmethod
    def setUpClass(cls) -> None:
        stack = ExitStack()
        cls.addClassCleanup(stack.close)
        cls.folder = Path(stack.enter_context(tempfile.TemporaryDirectory()))
        cls.browser = stack.enter_context(browser.Browser())

    def make(self, name: str, report: str) -> Path:
        file = self.folder / f"{name}.html"
        file.write_text(self.assert_done(tool("page", CASES / f"{name}.spp", "-", stdin=report)))
        return file

    def words(self, part: str) -> str:
        return self.browser.run(WORDS.format(part))

    def click(self, selector: str) -> None:
        place = self.browser.run(CENTRE.replace("SELECTOR", selector))
        for kind in "mousePressed", "mouseReleased":
            self.browser.ask(
                "Input.dispatchMouseEvent", type=kind, button="left", clickCount=1, **place
            )

    def looks(self) -> Iterator[tuple[int, bool]]:
        for width in 1280, 390:
            for is_dark in False, True:
                yield width, is_dark

    def test_the_slider_by_keyboard(self) -> None:
        self.browser.open(self.make("disagree", read("disagree-report.txt")), 1280)
        self.assertEqual(self.words("now"), "0")
        self.assertEqual(
            self.words("state"), "2 messages under way, 2 routers without a path, 0 links down"
        )
        self.browser.press("Tab")
        self.assertEqual(self.browser.run("document.activeElement.id"), "time")
        self.browser.press("ArrowRight")
        self.assertEqual(self.words("now"), "1")
        self.assertEqual(self.words("events"), "router 1 hears (0) from 0 and takes (1 0)")
        self.assertIn("At 1 router 1 uses (1 0).", self.words("table"))
        self.browser.press("ArrowRight")
        self.assertIn("router 2 hears (1 0) from 1 and takes (2 1 0)", self.words("events"))
        self.browser.press("End")
        self.assertEqual(self.words("now"), "7")
        self.assertEqual(
            self.words("state"), "0 messages under way, 0 routers without a path, 0 links down"
        )
        self.assertEqual(
            self.browser.run("document.activeElement.getAttribute('aria-valuetext')"), "time 7"
        )
        self.browser.press("Home")
        self.assertEqual(self.words("now"), "0")

    def test_messages_move_with_the_time(self) -> None:
        self.browser.open(self.make("disagree", read("disagree-report.txt")), 1280)
        heights = []
        for _ in range(5):
            heights.append(self.browser.run(HEIGHT_OF_DOT))
            self.click("#later")
        self.assertEqual(len(set(heights)), 5)
        self.assertEqual(self.words("now"), "5")
        self.assertNotIn(
            "0 to 2", self.browser.run("document.getElementById('network').textContent")
        )

    def test_a_failure(self) -> None:
        self.browser.open(
            self.make("failure-and-repair", read("failure-and-repair-report.txt")), 390
        )
        for time, state in (4, "1 link down"), (5, "0 links down"):
            self.browser.run(f"goTo({time})")
            self.assertIn(state, self.words("state"))
        self.assertEqual(
            self.browser.run("document.querySelectorAll('#network .dot.lost').length"), 1
        )
        self.browser.run("choose(2)")
        self.browser.run("goTo(4)")
        self.assertRegex(self.words("table"), r"1\s+3\s+down\s+0\s+no path")

    def test_a_forbidden_path_and_a_delay_for_each_direction(self) -> None:
        report = row_of("seq", CASES / "forbidden-path.spp").written
        self.browser.open(self.make("forbidden-path", report), 1280)
        self.browser.run("choose(2)")
        for time, now in (8, "in use"), (9, "offered, forbidden"), (12, "forbidden"), (20, ""):
            self.browser.run(f"goTo(run.stops.indexOf({time}))")
            self.assertRegex(self.words("table"), rf"1st\s+\(2 1 0\)[ \t]*{now}\n")
        self.assertRegex(self.words("table"), r"0\s+5\s+up[^\n]*\n1\s+2\s+up")
        self.browser.run("choose(1)")
        self.assertRegex(self.words("table"), r"0\s+1\s+up[^\n]*\n2\s+1\s+up")
        delays = "[...document.querySelectorAll('#network .delay')].map((text) => text.textContent)"
        self.assertEqual(self.browser.run(delays), ["1", "5", "1", "2"])
        self.assertEqual(self.browser.run(OVERLAPS), [])

    def test_a_click_chooses_a_router_or_a_time(self) -> None:
        self.browser.open(self.make("bad-gadget", report_of("bad-gadget", 20)), 1280)
        self.click('[data-router="3"] .body')
        self.assertIn("At 0 router 3 has no path.", self.words("table"))
        self.assertEqual(self.browser.run("document.getElementById('router').value"), "3")
        self.click(".area")
        self.assertIn(self.words("now"), ("9", "10", "11"))
        self.assertIn(f"What happens at {self.words('now')}", self.words("events-title"))

    def test_a_large_network_is_scrolled_or_shown_as_a_whole(self) -> None:
        case, page = self.folder / "star.spp", self.folder / "star.html"
        case.write_text(star_of(150))
        report = twarp("seq", "--stop", 50, "--log", stdin=star_of(150))
        page.write_text(self.assert_done(tool("page", case, "-", stdin=report)))
        self.browser.open(page, 390)
        self.assertEqual(self.browser.run(OUT_OF_PANE), ["network", "timeline"])
        self.browser.run("choose(149)")
        self.assertEqual(self.browser.run(OUT_OF_PANE), [])
        self.browser.run("goTo(run.stops.length)")
        self.assertEqual(self.browser.run(OUT_OF_PANE), [])
        self.click("#whole")
        for side in "width", "height":
            room = self.browser.run(f"network.parentElement.getBoundingClientRect().{side}")
            self.assertLessEqual(self.browser.run(f"network.getBoundingClientRect().{side}"), room)
        self.assertEqual(self.browser.run("document.documentElement.scrollWidth"), 390)

    def test_the_timeline_is_drawn_wider_and_narrower(self) -> None:
        self.browser.open(
            self.make("failure-and-repair", read("failure-and-repair-report.txt")), 1280
        )
        self.browser.run("goTo(run.stops.indexOf(4))")
        width = self.browser.run("area.getBoundingClientRect().width")
        for buttons, share in ((["#wider", "#wider"], "400 %"), (["#narrower"] * 3, "50 %")):
            for button in buttons:
                self.click(button)
            with self.subTest(share):
                self.assertEqual(self.words("zoom"), share)
                # What marks the failure stands at its time, at its own size, and so do messages.
                self.assertLess(abs(self.browser.run(PLACE_OF_FAILURE)), 1)
                self.assertEqual(self.browser.run(MISPLACED_MESSAGES), [])
                self.assertEqual(self.browser.run(OVERLAPS), [])
                self.assertEqual(self.browser.run(WIDE_WORDS), [])
        self.browser.run("timeline.focus()")
        for key, share in ("+", "100 %"), ("+", "200 %"), ("-", "100 %"):
            self.browser.press(key)
            self.assertEqual(self.words("zoom"), share)
        self.assertAlmostEqual(self.browser.run("area.getBoundingClientRect().width"), width)
        self.click("#fit")
        self.assertLessEqual(
            self.browser.run("timeline.scrollWidth"), self.browser.run("timeline.clientWidth") + 1
        )
        self.assertEqual(self.browser.faults(), [])

    def test_messages_can_be_hidden(self) -> None:
        self.browser.open(self.make("disagree", read("disagree-report.txt")), 390)
        shown = "[...document.querySelectorAll('.area .message, #network .dot')]"
        shown += ".filter((found) => getComputedStyle(found).display !== 'none').length"
        self.assertEqual(self.browser.run(shown), 6 + 2)
        self.click("#messages")
        self.browser.run("goTo(1)")
        self.assertEqual(self.browser.run(shown), 0)
        self.click("#messages")
        self.assertEqual(self.browser.run(shown), 6 + 3)

    def test_a_page_of_5000_events(self) -> None:
        report = report_of("disagree-equal-delays", 2000)
        words = [CASES / "disagree-equal-delays.spp", "-", "--to", 1200]
        page = self.folder / "many.html"
        page.write_text(self.assert_done(tool("page", *words, stdin=report)))
        self.browser.open(page, 1280)
        self.assertGreater(self.browser.run("run.events.length"), 4_500)
        words = "[...area.querySelectorAll('.path')]"
        words += ".filter((text) => text.style.display === 'inline').length"
        before = self.browser.run(words)
        self.click("#wider")
        self.click("#wider")
        self.assertGreater(self.browser.run(words), before)
        self.click("#messages")
        self.browser.run("goTo(run.stops.length)")
        self.assertEqual(self.words("now"), "1,200")
        self.click("#fit")
        self.assertEqual(self.browser.run(OVERLAPS), [])
        self.assertEqual(self.browser.faults(), [])

    def test_no_word_of_the_legend_is_cut(self) -> None:
        page = self.make("failure-and-repair", read("failure-and-repair-report.txt"))
        for width in 1280, 390:
            self.browser.open(page, width)
            self.assertIn("message", self.words("marks").split("\n"))
            self.assertEqual(self.browser.run("document.querySelectorAll('#marks text').length"), 0)
            cut = "[...document.querySelectorAll('#marks li')]"
            cut += ".filter((entry) => entry.scrollWidth > entry.clientWidth).length"
            self.assertEqual(self.browser.run(cut), 0)

    def test_it_plays(self) -> None:
        self.browser.open(self.make("disagree", read("disagree-report.txt")), 1280)
        self.browser.run(PLAYED)
        self.click("#play")
        self.assertEqual(self.browser.run("played"), ["1 Pause", "2 Pause", "Play"])

    def test_every_case_on_wide_and_narrow_screens_light_and_dark(self) -> None:
        for file in sorted(CASES.glob("*.spp")):
            page = self.make(file.stem, report_of(file.stem, 20))
            for width, is_dark in self.looks():
                with self.subTest(file.stem, width=width, is_dark=is_dark):
                    self.browser.open(page, width, is_dark=is_dark)
                    self.browser.run("goTo(5)")
                    self.assertEqual(self.browser.faults(), [])
                    self.assertEqual(self.browser.requests(), [page.resolve().as_uri()])
                    self.assertLessEqual(
                        self.browser.run("document.documentElement.scrollWidth"), width
                    )
                    self.assertEqual(self.browser.run(OVERLAPS), [])
                    ground = self.browser.run("getComputedStyle(document.body).backgroundColor")
                    self.assertEqual(
                        ground, "rgb(21, 24, 28)" if is_dark else "rgb(255, 255, 255)"
                    )

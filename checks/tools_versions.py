"""Tests of what version 2 of the case text brings to the tools: two delays of a link, and paths
that are forbidden and allowed again. Reports, trails and replays are worked rows (checks/rows)."""
from __future__ import annotations

import csv
import re
import tempfile
from pathlib import Path

from rows import FOLDER, all_rows, row_of
from tools_common import CASES, ToolTest, case_of, need_program, texts, tool
from tools_drawing import elements
from tools_page import data_of, states_at_the_end
from twarp.case import BarScene, Case, Link, read_case
from twarp.protocol import reached, unstable_routers
from twarp.report import read_report

FORBIDDEN = CASES / "forbidden-path.spp"
TWICE = FOLDER / "forbidden-twice.spp"

# Case forbidden-path up to 15: what stands of its report then, with the last event still to come.
BEFORE_15 = """\
spp-report 1
stop 15
bound 15
router 0 sent 2 handled 5 dropped 0 changed 1 rib (0)
router 1 sent 4 handled 3 dropped 0 changed 2 rib (1 2 0)
router 2 sent 4 handled 4 dropped 0 changed 2 rib (2 0)
verdict open
"""

# Case forbidden-twice without what allows the path again: router 1 hears (2 0) at 7 and stays.
NEVER_ALLOWED = """\
spp-report 1
stop 20
bound 20
router 0 sent 2 handled 3 dropped 0 changed 1 rib (0)
router 1 sent 2 handled 4 dropped 0 changed 1 rib (1 0)
router 2 sent 2 handled 2 dropped 0 changed 1 rib (2 0)
verdict quiet 2
"""


def without(word: str, text: str) -> str:
    """A text without the lines that begin with the word."""
    return re.sub(rf"^{word} .*\n", "", text, flags=re.M)


class Versions(ToolTest):
    def test_each_text_is_that_of_its_case(self) -> None:
        for file in sorted([*CASES.glob("*.spp"), *FOLDER.glob("*.spp")]):
            with self.subTest(file.name):
                text = file.read_bytes()
                self.assertEqual(str(read_case(text)).encode(), text)
        # What version 1 could say too stays in version 2, where it was read so.
        text = "spp 2\nnodes 2\nlink 0 1 7 7\npath 1 1 0\nend\n"
        self.assertEqual(str(read_case(text.encode())), text)

    def test_a_case_that_is_made_has_the_first_version_that_can_say_it(self) -> None:
        paths = [(1, 0)]
        even, uneven = Link(0, 1, 7), Link(0, 1, 7, 8)
        self.assertEqual(
            str(Case(2, [even], paths)), "spp 1\nnodes 2\nlink 0 1 7\npath 1 1 0\nend\n"
        )
        self.assertEqual(
            str(Case(2, [uneven], paths)), "spp 2\nnodes 2\nlink 0 1 7 8\npath 1 1 0\nend\n"
        )
        for word in "forbid", "allow":
            text = f"spp 2\nnodes 2\nlink 0 1 7 7\npath 1 1 0\n{word} 3 1 1\nend\n"
            self.assertEqual(str(Case(2, [even], paths, [BarScene(word, 3, 1, 1)])), text)

    def test_a_delay_is_that_of_its_sender(self) -> None:
        case = read_case(case_of("forbidden-path").encode())
        self.assertEqual(case.delays(), [{1: 1, 2: 5}, {0: 1, 2: 1}, {0: 5, 1: 2}])

    def test_forbidden_paths_are_not_asked_for_where_paths_are_stable(self) -> None:
        report = read_report(NEVER_ALLOWED.encode(), 3)
        text = without("allow", TWICE.read_text())
        case = read_case(text.encode())
        self.assertEqual([*unstable_routers(reached(case, report))], [])
        free = read_case(without("forbid", text).encode())
        told = [str(unstable) for unstable in unstable_routers(reached(free, report))]
        self.assertEqual(told, ["router 1 uses (1 0) and would choose (1 2 0)"])

    def test_a_sweep_of_forbidden_paths(self) -> None:
        words = [
            "--program", need_program(), "--quiet", "--stop", 100, "--runs", 20,
            "--delays", "1-5", "--links", "0-1", "--check", "stable",
        ]
        case = without("allow", TWICE.read_text())
        rows = csv.DictReader(self.assert_done(tool("sweep", *words, stdin=case)).splitlines())
        # Router 1 never leaves its own link, whose delay is the time at which it rests, or the one
        # tick of router 2.
        for row in rows:
            self.assertEqual(int(row["rest"]), max(1, int(row["delay_0_1"])))
        shown = self.assert_done(tool("sweep", *words, "--show", stdin=case))
        self.assertRegex(shown, r"^spp 2\nnodes 3\nlink 0 1 (\d) \1\nlink 0 2 1 1\nlink 1 2 4 6\n")


class VersionsDrawn(ToolTest):
    def draw(self, source: Path, report: str) -> str:
        return self.assert_done(tool("timeline", source, "-", stdin=report))

    def test_a_delay_for_each_direction(self) -> None:
        out = self.assert_done(tool("draw", FORBIDDEN))
        label = r"1 to 2: 1\n2 to 1: 2"
        self.assertIn(f'  1 -> 2 [xlabel="{label}", style=solid, constraint=false]\n', out)
        self.assertIn('  1 -> 0 [label=" 1 ", style=solid]\n', out)

    def test_a_path_that_is_forbidden_is_struck_out(self) -> None:
        out = self.assert_done(tool("draw", FORBIDDEN, "-", stdin=BEFORE_15))
        self.assertEqual(re.findall("<S>(.*?)</S>", out), ["(2 1 0)"])
        report = row_of("seq", FORBIDDEN).written
        self.assertNotIn("<S>", self.assert_done(tool("draw", FORBIDDEN, "-", stdin=report)))

    def test_the_time_in_which_a_path_is_forbidden(self) -> None:
        svg = self.draw(FORBIDDEN, row_of("seq", FORBIDDEN).written)
        words = texts(svg)
        self.assertIn("\nrouter 2: path (2 1 0) forbidden from 9 to 20\n", words)
        self.assertIn("\n9: path (2 1 0) is forbidden at router 2\n", words)
        self.assertIn("\n20: path (2 1 0) is allowed at router 2\n", words)
        self.assertIn("\n2 to 1, sent 9, arrives 11: path (2 0), session 0, heard\n", words)
        (ban,) = elements(svg, "ban")
        (forbid,), (allow,) = elements(svg, "forbid"), elements(svg, "allow")
        for mark, end in (forbid, "x1"), (allow, "x2"):
            self.assertAlmostEqual(float(mark.get("x")) + 4, float(ban.get(end)), delta=0.11)

    def test_forbidden_and_allowed_twice(self) -> None:
        svg = self.draw(TWICE, row_of("seq", TWICE).written)
        told = re.findall("router 1: path .* forbidden .*", texts(svg))
        self.assertEqual(told, ["router 1: path (1 2 0) forbidden from 0 to 9"])
        self.assertEqual([len(elements(svg, look)) for look in ("forbid", "allow")], [2, 2])

    def test_places_are_those_given_whatever_changed_places(self) -> None:
        source = FOLDER / "forbidden-and-exchanged.spp"
        svg = self.draw(source, row_of("seq", source).written)
        told = re.findall("router 1: path .* forbidden .*", texts(svg))
        known = ["(1 2 0) forbidden from 10 to 14", "(1 0) forbidden from 20 on"]
        self.assertEqual(told, [f"router 1: path {words}" for words in known])

    def test_all_at_one_tick(self) -> None:
        source = FOLDER / "all-at-one-tick.spp"
        svg = self.draw(source, row_of("seq", source).written)
        self.assertIn("\nrouter 1: path (1 3 0) forbidden from 10 to 10\n", texts(svg))

    def test_several_paths_stand_below_one_another(self) -> None:
        text = TWICE.read_text().replace("end\n", "forbid 8 1 2\nallow 30 1 2\nend\n")
        with tempfile.NamedTemporaryFile("w", suffix=".spp") as file:
            file.write(text)
            file.flush()
            # Router 1 has no path from 8 to 9, and says so to both neighbours.
            written = row_of("seq", TWICE).written
            written = written.replace("stop 20\nbound 20", "stop 40\nbound 40")
            written = written.replace(
                "event 9 1 allow 3 1\nevent 11 1 allow 4 1\n"
                "event 12 0 update 1 2 0 (1 2 0)\nevent 13 2 update 1 3 0 (1 2 0)\n",
                "event 8 1 forbid 5 2\nevent 9 1 allow 3 1\nevent 11 0 update 1 2 0 ()\n"
                "event 11 1 allow 4 1\nevent 12 0 update 1 4 0 (1 2 0)\n"
                "event 12 2 update 1 3 0 ()\nevent 13 2 update 1 5 0 (1 2 0)\n"
                "event 30 1 allow 6 2\n",
            )
            written = written.replace("sent 2 handled 4", "sent 2 handled 5")
            written = written.replace(
                "sent 4 handled 6 dropped 0 changed 2", "sent 6 handled 8 dropped 0 changed 3"
            )
            written = written.replace("sent 2 handled 3", "sent 2 handled 4")
            svg = self.draw(Path(file.name), written)
        heights = {ban.get("y1") for ban in elements(svg, "ban")}
        self.assertEqual(len(heights), 2)

    def test_a_report_with_the_delay_of_the_other_direction_is_refused(self) -> None:
        report = row_of("seq", FORBIDDEN).written.replace("event 11 1 update", "event 10 1 update")
        done = tool("timeline", FORBIDDEN, "-", stdin=report)
        self.assert_refused(done, "refused line 12: ")

    def test_the_page(self) -> None:
        report = row_of("seq", FORBIDDEN).written
        data = data_of(self.assert_done(tool("page", FORBIDDEN, "-", stdin=report)))
        words = [event["words"] for event in data["events"]]
        self.assertIn("router 2 may not use (2 1 0) from now on and takes (2 0)", words)
        self.assertIn("router 2 may use (2 1 0) again", words)
        delays = [link[:4] for link in data["links"]]
        self.assertEqual(delays, [[0, 1, 1, 1], [0, 2, 5, 5], [1, 2, 1, 2]])
        self.assertEqual([len(link[4]) for link in data["links"]], [1, 1, 2])
        self.assertEqual(states_at_the_end(data)[2]["barred"], [])
        data = data_of(self.assert_done(tool("page", FORBIDDEN, "-", "--to", 19, stdin=report)))
        # Numbers of paths: (2 1 0) is the third of the path lines, and so number 4.
        self.assertEqual(states_at_the_end(data)[2]["barred"], [4])

    def test_replays(self) -> None:
        for name in "undone-forbid", "undone-allow":
            source = FOLDER / f"{name}.replay"
            for due in (due for due in all_rows() if due.source == source):
                with self.subTest(due.words):
                    words = texts(self.draw(source, due.written))
                    undone = re.findall(r"handles event \d+ \d (\w+) .* undone by", words)
                    self.assertIn(name.removeprefix("undone-"), undone)

    def test_another_answer_to_a_replay_is_refused(self) -> None:
        source = FOLDER / "undone-forbid.replay"
        # What the row would say where the undone path stayed forbidden.
        report = row_of("replay", source).written.replace("flight 9 ", "flight 5 ")
        done = tool("timeline", source, "-", stdin=report)
        self.assert_refused(done, "refused line 13: the steps lead to `flight 9 ")

"""Tests of the tools draw and timeline: what stands in their pictures, and what they refuse."""
from __future__ import annotations

import re
import tempfile
from pathlib import Path
from xml.etree import ElementTree
from xml.etree.ElementTree import Element

from tools_common import (
    CASES,
    INPUTS,
    ToolTest,
    case_of,
    case_of_a_late_failure,
    need_program,
    needs_graphviz,
    read,
    report_of,
    run,
    texts,
    tool,
    twarp,
)


def elements(svg: str, look: str) -> list[Element]:
    """The elements of the class within the picture itself.

    Those of its legend stand outside its clipped group.
    """
    area = next(
        element for element in ElementTree.fromstring(svg).iter() if element.get("clip-path")
    )
    return [element for element in area.iter() if element.get("class") == look]


def total(report: str, counter: str) -> int:
    """The sum of a counter over the routers of a report."""
    return sum(map(int, re.findall(rf"^router .* {counter} (\d+)", report, re.M)))


class Draw(ToolTest):
    def test_a_case(self) -> None:
        out = self.assert_done(tool("draw", CASES / "disagree.spp"))
        self.assertEqual(
            out, self.assert_done(tool("draw", "--title", "disagree", stdin=case_of("disagree")))
        )
        self.assertIn('  1 -> 0 [label=" 1 ", style=solid]\n', out)
        self.assertIn('  2 -> 0 [label=" 5 ", style=solid]\n', out)
        self.assertIn('  1 -> 2 [xlabel="1", style=solid, constraint=false]\n', out)
        self.assertLess(out.index("(2 1 0)"), out.index("(2 0)"))

    def test_the_paths_of_a_report(self) -> None:
        out = self.assert_done(
            tool("draw", CASES / "disagree.spp", INPUTS / "disagree-report.txt")
        )
        self.assertIn("<B>disagree: verdict quiet 2</B>", out)
        self.assertIn('  1 -> 0 [label=" 1 ", dir=forward, color="#e69f00", penwidth=2]\n', out)
        self.assertIn(
            '  1 -> 2 [xlabel="1", dir=back, color="#0072b2", penwidth=2, constraint=false]\n', out
        )
        self.assertIn('  2 -> 0 [label=" 5 ", style=solid]\n', out)

    def test_a_link_that_is_down(self) -> None:
        report = twarp("seq", "--stop", 5, stdin=case_of("failure-and-repair"))
        out = self.assert_done(tool("draw", CASES / "failure-and-repair.spp", "-", stdin=report))
        self.assertRegex(out, r'2 -> 1 \[label=" 3 down ", style=dashed')
        self.assertIn("uses no path", out)
        report = twarp("seq", "--stop", 6, stdin=case_of("failure-and-repair"))
        out = self.assert_done(tool("draw", CASES / "failure-and-repair.spp", "-", stdin=report))
        self.assertIn('  2 -> 1 [label=" 3 ", style=solid]\n', out)

    def test_an_exchange_of_ranks(self) -> None:
        for stop, first, second in (8, "(1 0)", "(1 2 0)"), (9, "(1 2 0)", "(1 0)"):
            report = twarp("seq", "--stop", stop, stdin=case_of("rank-exchange"))
            out = self.assert_done(tool("draw", CASES / "rank-exchange.spp", "-", stdin=report))
            self.assertLess(out.index(first), out.index(second))

    def test_the_paths_of_one_router(self) -> None:
        out = self.assert_done(tool("draw", "--paths-of", 3, CASES / "bad-gadget.spp"))
        used = re.findall(r'(\d) -> (\d) .*dir=(\w+), color="([^"]+)"', out)
        hops = {
            ((tail, head) if way == "forward" else (head, tail), colour)
            for tail, head, way, colour in used
        }
        best, second = "#0072b2", "#e69f00"
        self.assertEqual(
            hops,
            {(("3", "4"), best), (("4", "2"), best), (("2", "0"), best), (("3", "0"), second)},
        )
        self.assertNotIn("(4 2 0)", out)

    def test_names_and_long_lists(self) -> None:
        with tempfile.TemporaryDirectory() as folder:
            names = Path(folder) / "names"
            names.write_text("0 65001\n1 a <b> & c\n")
            out = self.assert_done(
                tool("draw", "--names", names, "--list", 1, CASES / "disagree.spp")
            )
            self.assertIn("<B>0 AS65001</B>", out)
            self.assertIn("<B>1 a &lt;b&gt; &amp; c</B>", out)
            self.assertEqual(out.count("and 1 more"), 2)
            names.write_text("0 65001\n0 65002\n")
            done = tool("draw", "--names", names, CASES / "disagree.spp")
            self.assert_refused(done, "refused line 2: router 0 has a name already")
            names.write_text("zero\n")
            self.assert_refused(
                tool("draw", "--names", names, CASES / "disagree.spp"), "refused line 1: "
            )

    def test_what_is_not_of_the_case(self) -> None:
        self.assert_refused(tool("draw", "--paths-of", 3, CASES / "disagree.spp"), "no router 3")
        report = read("disagree-report.txt").replace("rib (1 0)", "rib (1 9 0)")
        done = tool("draw", CASES / "disagree.spp", "-", stdin=report)
        self.assert_refused(
            done, "standard input: refused line 12: (1 9 0) is no path of this router"
        )

    @needs_graphviz
    def test_graphviz_reads_it(self) -> None:
        for name in sorted(CASES.glob("*.spp")):
            report = twarp("seq", "--stop", 20, stdin=name.read_text())
            for words in [name], [name, "-"], ["--paths-of", 1, name]:
                with self.subTest(words):
                    out = self.assert_done(
                        tool("draw", *words, stdin=report if "-" in words else "")
                    )
                    svg = self.assert_done(run("dot", "-Tsvg", stdin=out))
                    self.assertIn(name.stem, texts(svg))


class Timeline(ToolTest):
    def draw(self, name: str, report: str, *words: object) -> str:
        return self.assert_done(tool("timeline", CASES / f"{name}.spp", "-", *words, stdin=report))

    def test_messages_bars_and_verdict(self) -> None:
        svg = self.draw("disagree", read("disagree-report.txt"))
        self.assertEqual(
            (
                len(elements(svg, "message")),
                len(elements(svg, "bar")),
                len(elements(svg, "start")),
            ),
            (6, 3, 1),
        )
        words = texts(svg)
        self.assertIn("disagree: verdict quiet 2\n", words)
        self.assertIn("\nrouter 2: path (2 1 0) from 2 on\n", words)
        self.assertIn("\n0 to 2, sent 0, arrives 5: path (0), session 0, heard\n", words)

    def test_a_failure_and_a_dropped_message(self) -> None:
        svg = self.draw("failure-and-repair", read("failure-and-repair-report.txt"))
        words = texts(svg)
        self.assertEqual((len(elements(svg, "fail")), len(elements(svg, "repair"))), (2, 2))
        self.assertEqual(len(elements(svg, "message dropped")), 1)
        self.assertEqual(len(elements(svg, "message withdrawal")), 1)
        self.assertIn("\n1 to 2, sent 3, arrives 6: path (1 0), session 0, dropped\n", words)
        self.assertIn("\n4: link 1 2 fails\n", words)
        self.assertIn("\n5: link 2 1 is repaired\n", words)

    def test_a_period_is_shaded(self) -> None:
        svg = self.draw("disagree-equal-delays", read("oscillation-report.txt"))
        self.assertIn("disagree-equal-delays: verdict oscillates from 3 period 2\n", texts(svg))
        self.assertIn("\nthe period from 3 to 5\n", texts(svg))
        self.assertEqual(len(elements(svg, "message underway")), 4)

    def test_as_many_marks_as_the_report_counts(self) -> None:
        for name in (
            "good-gadget",
            "bad-gadget",
            "ring-of-three",
            "rank-exchange",
            "failure-and-repair",
        ):
            with self.subTest(name):
                report = report_of(name, 20)
                svg = self.draw(name, report)
                bars = elements(svg, "bar") + elements(svg, "hollow")
                self.assertEqual(len(bars), total(report, "changed"))
                self.assertEqual(len(elements(svg, "message dropped")), total(report, "dropped"))
                arrived = [
                    element
                    for look in ("message", "message withdrawal", "message dropped")
                    for element in elements(svg, look)
                ]
                self.assertEqual(len(arrived), report.count(" update "))
                self.assertEqual(
                    len(arrived) + len(elements(svg, "message underway")), total(report, "sent")
                )

    def test_a_part_of_a_run(self) -> None:
        svg = self.draw(
            "bad-gadget", report_of("bad-gadget", 40), "--from", 10, "--to", 12,
            "--routers", "1,3-4",
        )
        self.assertEqual(re.findall(r'class="name"[^>]*>(\d)<', svg), ["1", "3", "4"])
        self.assertEqual(re.findall(r'class="quiet middle"[^>]*>(\d+)<', svg), ["10", "11", "12"])

    def test_a_crowd_asks_for_a_part(self) -> None:
        report = report_of("disagree-equal-delays", 2000)
        words = [CASES / "disagree-equal-delays.spp", "-"]
        self.assert_refused(
            tool("timeline", *words, stdin=report), "choose some by --from, --to and --routers"
        )
        svg = self.assert_done(tool("timeline", *words, "--to", 700, stdin=report))
        self.assertGreater(len(elements(svg, "message")), 2700)
        self.assertLess(len(svg), 3_000_000)

    def test_silence_is_folded(self) -> None:
        case = case_of_a_late_failure()
        with tempfile.NamedTemporaryFile("w", suffix=".spp") as file:
            file.write(case)
            file.flush()
            report = twarp("seq", "--stop", 3_000_000, "--log", stdin=case)
            svg = self.assert_done(tool("timeline", file.name, "-", stdin=report))
        self.assertIn("\nnothing happens from 9 to 1,000,000\n", texts(svg))
        self.assertLess(int(ElementTree.fromstring(svg).get("width")), 2000)

    def test_a_bad_line_of_a_report_is_named(self) -> None:
        report = read("disagree-report.txt")
        edits = [
            (1, "spp-report 1", "spp-report 2"),
            (2, "stop 20", "stop x"),
            (4, "event 0 0 start", "event 0 0 begin"),
            (5, "update 0 0 0 (0)", "update 0 0 0 (0"),
            (6, "event 2 0 update 1 0", "event 3 0 update 1 0"),
            (8, "event 3 1 update 2 1 0 (2 1 0)\n", ""),
            (11, "router 0", "router 1"),
            (12, "changed 1 rib (1 0)", "changed 2 rib (1 0)"),
            (13, "rib (2 1 0)", "rib (2 0)"),
            (14, "verdict quiet 2", "verdict silent"),
            (15, "verdict quiet 2\n", "verdict quiet 2\n\n"),
            (14, "verdict quiet 2\n", "verdict quiet 2"),
            (14, "verdict quiet 2\n", ""),
        ]
        for line, old, new in edits:
            with self.subTest(new, line=line):
                self.assertIn(old, report)
                done = tool("timeline", CASES / "disagree.spp", stdin=report.replace(old, new, 1))
                self.assert_refused(done, f"standard input: refused line {line}: ")

    def test_what_is_not_of_the_case(self) -> None:
        report = read("disagree-report.txt")
        short = re.sub(r"event .*\n", "", report)
        self.assert_refused(
            tool("timeline", CASES / "disagree.spp", stdin=short), "refused line 4: no event"
        )
        self.assert_refused(
            tool("timeline", CASES / "disagree-equal-delays.spp", stdin=report), "refused line 6: "
        )
        self.assert_refused(
            tool("timeline", CASES / "disagree.spp", "--routers", 3, stdin=report), "no router 3"
        )
        self.assert_refused(
            tool("timeline", CASES / "disagree.spp", "--from", 9, "--to", 8, stdin=report),
            "nothing is from",
        )

    def test_exchanged_ranks_and_names(self) -> None:
        with tempfile.NamedTemporaryFile("w") as names:
            names.write("1 65001\n")
            names.flush()
            svg = self.draw("rank-exchange", report_of("rank-exchange", 20), "--names", names.name)
        self.assertIn("\n1 AS65001\n", texts(svg))
        self.assertIn("\n8: router 1 exchanges places 1 and 2 of its order\n", texts(svg))


class ReplayTimeline(ToolTest):
    def draw(self, name: str) -> str:
        return self.assert_done(
            tool("timeline", INPUTS / f"{name}.txt", INPUTS / f"{name}-report.txt")
        )

    def test_what_was_undone(self) -> None:
        svg = self.draw("rollback")
        words = texts(svg)
        self.assertIn("rollback: replay of 17 steps, 2 undone\n", words)
        self.assertIn("\nbound 6; undone: step 3 by step 6, step 14 by step 17\n", words)
        self.assertIn(
            "\nstep 3 handles event 5 2 update 0 1 0 (0): handled, then undone by step 6\n", words
        )
        self.assertEqual((len(elements(svg, "undone")), len(elements(svg, "undo"))), (2, 2))
        self.assertEqual(len(elements(svg, "bar")), 6)
        # Steps 6 and 17 take back two messages each; one of the four antimessages arrives.
        self.assertEqual(len(elements(svg, "message anti gone")), 1)
        self.assertEqual(len(elements(svg, "message underway anti")), 3)
        self.assertEqual(len(elements(svg, "commit")), 1)

    def test_what_was_held_back(self) -> None:
        svg = self.draw("lazy")
        words = texts(svg)
        self.assertIn("\nbound 6; undone: step 3 by step 6, step 16 by step 19\n", words)
        # What step 6 undid had sent two messages, which step 18 takes back; what step 19 undoes
        # had sent two more, which are held.
        for time, router in (6, 1), (10, 0):
            antimessage = f"antimessage of event {time} {router} update 2 "
            self.assertRegex(words, rf"\n{antimessage}.*, sent by step 18: ")
        self.assertEqual(words.count("antimessage of event "), 2)

    def test_what_was_refused(self) -> None:
        svg = self.draw("refusals")
        codes = re.findall(r'class="refused middle"[^>]*>([A-Z]\d)<', svg)
        self.assertEqual(codes, ["K1", "S1", "S2", "S1", "S5", "S5", "S2"])
        self.assertIn("\nstep 10 undo 0: refused S5 Committed\n", texts(svg))

    def test_a_bad_line_is_named(self) -> None:
        need_program()
        text, report = read("rollback.txt"), read("rollback-report.txt")
        edits = [
            (text, "refused line 12 X3 Word", "deliver 2", "delivers 2"),
            (text, "refused line 12 X4 Number", "deliver 2", "deliver 02"),
            (text, "refused line 28 X6 End", "deliver 3\nend\n", "deliver 3\n"),
            (text, "refused line 3 I2 SelfLink", "link 0 1 1", "link 1 1 1"),
            (report, "refused line 5: ", "step 4 ok", "step 5 ok"),
            (
                text,
                "refused line 5: `deliver 9` can't be done here",
                "deliver 2\nhandle 2\ndeliver 1",
                "deliver 2\nhandle 2\ndeliver 9",
            ),
            (report, "refused line 18: ", "step 17 ok\n", ""),
            (report, "refused line 19: ", "bound 6", "bound 5"),
            (report, "refused line 20: ", "flight 7", "flight 6"),
            (report, "refused line 21: ", "event 1 1", "event 2 1"),
            (report, "refused line 22: ", "event 3 1 update 2 1 0 (2 1 0)\n", ""),
            (report, "refused line 23: ", "handled 2", "handled 3"),
        ]
        with tempfile.NamedTemporaryFile("w") as steps:
            for source, why, old, new in edits:
                with self.subTest(new, why=why):
                    self.assertIn(old, source)
                    steps.seek(0)
                    steps.truncate()
                    steps.write(text.replace(old, new, 1) if source is text else text)
                    steps.flush()
                    done = tool(
                        "timeline",
                        steps.name,
                        stdin=report.replace(old, new, 1) if source is report else report,
                    )
                    self.assert_refused(done, why)

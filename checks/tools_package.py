"""Tests of the Python package."""
from __future__ import annotations

import inspect
import json
import os
import re
import shutil
import tempfile
from pathlib import Path
from unittest import mock

import twarp
from common import STRAGGLER
from tools_every import BAD_CASES
from tools_common import (
    CASES,
    HAS_GRAPHVIZ,
    TOP,
    ToolTest,
    case_of,
    need_program,
    python_with,
    run,
    tool,
)
from tools_common import twarp as call
from twarp.report import read_case_and_steps, read_report

ROUND_TRIP = """
import networkx, sys, twarp
for name in sys.argv[1:]:
    case = twarp.Case.from_file(name)
    graph = case.to_networkx()
    assert graph.graph["scenes"] == list(map(str, case.scenes))
    again = twarp.Case.from_networkx(graph)
    assert again.delays() == case.delays() and again.orders() == case.orders(), name
try:
    twarp.Case.from_networkx(networkx.MultiGraph([(0, 1)]))
except twarp.Refused:
    pass
else:
    raise AssertionError("several links between two nodes")
# A ring of which the node `b` is the origin, without delays but one: paths by their length.
ring = networkx.Graph([("a", "b"), ("b", "c"), ("c", "d"), ("d", "a")])
ring.edges["c", "d"]["delay"] = 7
print(twarp.Case.from_networkx(ring, "b"), end="")
"""


class Package(ToolTest):
    def setUp(self) -> None:
        environment = mock.patch.dict(os.environ, {"TWARP": str(need_program())})
        environment.start()
        self.addCleanup(environment.stop)

    def disagree(self) -> twarp.Case:
        case = twarp.Case(3).link(0, 1, 1).link(0, 2, 5).link(1, 2, 1)
        return case.path(1, 2, 0).path(1, 0).path(2, 1, 0).path(2, 0)

    def test_cases_that_are_built_up(self) -> None:
        self.assertEqual(str(self.disagree()), case_of("disagree"))
        case = twarp.Case(3).link(0, 1, 1).link(0, 2, 5).link(1, 2, 1, 2)
        case.path(1, 2, 0).path(1, 0).path(2, 1, 0).path(2, 0).forbid(9, 2, 1).allow(20, 2, 1)
        self.assertEqual(str(case), case_of("forbidden-path"))
        case = twarp.Case(3).link(0, 1, 3).link(1, 2, 3).path(1, 0).path(2, 1, 0)
        self.assertEqual(str(case.fail(4, 1, 2).restore(5, 1, 2)), case_of("failure-and-repair"))
        for file in CASES.glob("*.spp"):
            self.assertEqual(str(twarp.Case.from_file(file)), file.read_text())

    def test_a_refusal_has_line_and_code(self) -> None:
        for fault, line, text in BAD_CASES:
            with self.subTest(fault, text=text[-40:]), self.assertRaises(twarp.Refused) as raised:
                twarp.Case.from_text(text)
            told = raised.exception
            self.assertEqual((told.line, f"{told.code} {told.name}"), (line, fault))
            # What the program tells people beside that.
            self.assertRegex(str(told), rf"\nline {line} is ")
        with self.assertRaises(twarp.Refused) as raised:
            twarp.trail(self.disagree(), 3, stop=9, keep=0)
        self.assertEqual((raised.exception.line, raised.exception.code), (None, "N1"))
        with self.assertRaisesRegex(ValueError, "^invalid value '0' for '--stop [^\\n]*$"):
            twarp.seq(self.disagree(), stop=0)

    def test_reports_say_what_the_program_says(self) -> None:
        for name in (
            "disagree",
            "bad-gadget",
            "failure-and-repair",
            "rank-exchange",
            "forbidden-path",
        ):
            case = twarp.Case.from_text(case_of(name))
            report = twarp.seq(case, stop=30, every=1, log=True)
            out = call("seq", "--stop", 30, "--every", 1, "--log", stdin=case_of(name))
            lines = ["spp-report 1", f"stop {report.stop}", f"bound {report.bound}"]
            lines += [*report.events, *report.routers, f"verdict {report.verdict}"]
            self.assertEqual("".join(f"{line}\n" for line in lines), out)
            by_workers = twarp.run(case, stop=30, every=1, log=True, workers=3, lazy=True, batch=2)
            self.assertEqual(by_workers, report)
            self.assertEqual(twarp.seq(case, stop=30, every=1).events, [])

    def test_a_report_as_json(self) -> None:
        told = json.loads(twarp.seq(self.disagree(), stop=20, log=True).to_json())
        # From the tutorial's section 1.
        self.assertEqual(told["verdict"], {"kind": "quiet", "last_change": 2})
        self.assertEqual(
            told["events"][0], {"time": 0, "dst": 0, "src": 0, "seq": 0, "kind": "start"}
        )
        last = {
            "time": 7,
            "dst": 0,
            "src": 2,
            "seq": 0,
            "kind": "update",
            "path": [2, 1, 0],
            "session": 0,
        }
        self.assertEqual(told["events"][-1], last)
        self.assertEqual(told["routers"][2]["rib"], [2, 1, 0])

    def test_a_report_that_is_none_is_refused_at_its_line(self) -> None:
        report = call("seq", "--stop", 20, "--log", stdin=case_of("disagree"))
        for old, new, line in (
            ("stop 20", f"stop {'9' * 5_000}", 2),
            ("event 3 1", f"event 3 {'1' * 5_000}", 8),
            ("quiet 2", "quiet 2\nquiet 2", 15),
            ("rib (0)", f"rib {'(' * 1_000_000}", 11),
        ):
            with self.subTest(old), self.assertRaises(twarp.Refused) as raised:
                read_report(report.replace(old, new).encode(), 3)
            self.assertEqual(raised.exception.line, line)
            self.assertLess(len(str(raised.exception)), 300)

    def test_replays_and_trails(self) -> None:
        text = STRAGGLER.read_text()
        case, steps = read_case_and_steps(text.encode())
        replay = twarp.replay(case, steps, stop=20)
        out = call("replay", "--stop", 20, stdin=text)
        self.assertEqual(
            [f"bound {replay.bound}", replay.loose], re.findall("^(?:bound|flight).*", out, re.M)
        )
        self.assertEqual(list(map(str, replay.events)), re.findall("^event .*", out, re.M))
        trail = twarp.trail(self.disagree(), 1, stop=20, keep=0)
        lines = ["spp-trail 1", trail.before]
        for undone in trail.undone:
            lines += [f"undo {undone.event}", *(f"send {event}" for event in undone.sends)]
        lines.append(trail.after)
        out = call("trail", "--router", 1, "--stop", 20, "--keep", 0, stdin=case_of("disagree"))
        self.assertEqual("".join(f"{line}\n" for line in lines), out)
        self.assertEqual(
            str(twarp.upgrade(self.disagree())), call("upgrade", stdin=case_of("disagree"))
        )

    def test_pictures_are_those_of_the_tools(self) -> None:
        report = twarp.seq(self.disagree(), stop=20, log=True)
        svg = twarp.pictures.timeline(self.disagree(), report, title="disagree", routers=[0, 2])
        out = call("seq", "--stop", 20, "--log", stdin=case_of("disagree"))
        words = [CASES / "disagree.spp", "--routers", "0,2"]
        self.assertEqual(svg, self.assert_done(tool("timeline", *words, stdin=out)))
        text = twarp.pictures.network_text(self.disagree(), report, title="disagree")
        words = [CASES / "disagree.spp", "-"]
        self.assertEqual(text, self.assert_done(tool("draw", *words, stdin=out)))
        if HAS_GRAPHVIZ:
            self.assertIn("(2 1 0)", twarp.pictures.network(self.disagree(), report))
        with self.assertRaises(twarp.Refused) as raised:
            other = twarp.Case.from_text(case_of("disagree-equal-delays"))
            twarp.pictures.timeline(other, report)
        self.assertEqual(raised.exception.line, 6)
        for routers in [3], [-1], [0, 3]:
            with self.assertRaisesRegex(twarp.Refused, f"the case has no router {routers[-1]}"):
                twarp.pictures.timeline(self.disagree(), report, routers=routers)

    def test_sweeps_are_those_of_the_tool(self) -> None:
        how = {"stop": 100, "every": 1, "runs": 30, "delays": "1-10"}
        trials = list(twarp.sweep(self.disagree(), **how))
        words = [
            "--stop",
            100,
            "--every",
            1,
            "--runs",
            30,
            "--delays",
            "1-10",
            CASES / "disagree.spp",
        ]
        with tempfile.TemporaryDirectory() as folder:
            picture = Path(folder) / "a.svg"
            told = tool("sweep", "--summary", "--quiet", "--picture", picture, *words)
            drawn = "delays 1 to 10 of all links"
            svg = twarp.pictures.outcomes(trials, title="disagree", drawn=drawn)
            self.assertEqual(svg, picture.read_text())
        self.assertEqual(twarp.Outcomes(trials).summary(), self.assert_done(told))
        # One that is given up ends its processes.
        few = twarp.sweep(self.disagree(), **how)
        self.assertEqual((few.columns[0], few.words), ("delay_0_1", drawn))
        self.assertEqual(next(few), trials[0])
        few.close()

    def test_networks_come_and_go(self) -> None:
        python = python_with("networkx")
        if python is None:
            self.skipTest("python3-networkx is not installed")
        environment = os.environ | {"PYTHONPATH": str(TOP / "python")}
        with mock.patch.dict(os.environ, environment):
            done = run(python, "-c", ROUND_TRIP, *CASES.glob("*.spp"))
        self.assertEqual(
            self.assert_done(done).splitlines(),
            [
                "spp 1",
                "nodes 4",
                "link 0 1 1",
                "link 1 3 1",
                "link 0 2 1",
                "link 2 3 7",
                "path 1 1 0",
                "path 1 1 3 2 0",
                "path 2 2 0",
                "path 2 2 3 1 0",
                "path 3 3 1 0",
                "path 3 3 2 0",
                "end",
            ],
        )

    def test_without_a_program(self) -> None:
        with mock.patch.dict(os.environ, {"TWARP": "/nowhere/twarp"}):
            with self.assertRaisesRegex(
                twarp.Stopped, r"/nowhere/twarp is no program; \./twarp --build"
            ):
                twarp.seq(self.disagree(), stop=9)

    def test_each_public_name_says_what_it_is(self) -> None:
        for name in twarp.__all__:
            self.assertTrue(inspect.getdoc(getattr(twarp, name)), name)
        text = (TOP / "python/pyproject.toml").read_text()
        self.assertEqual(twarp.version(), f"twarp {re.search('^version = .(.*).$', text, re.M)[1]}")


class InstalledByPip(ToolTest):
    def test_it_is_installed_without_a_network(self) -> None:
        python = python_with("pip", "setuptools", "wheel")
        if python is None:
            self.skipTest("pip, setuptools and wheel are not installed")
        with tempfile.TemporaryDirectory() as folder:
            source, target = Path(folder) / "source", Path(folder) / "target"
            shutil.copytree(TOP / "python", source)
            words = ["--quiet", "--no-index", "--no-build-isolation", "--target", target, source]
            done = run(python, "-m", "pip", "install", *words)
            self.assertEqual(done.status, 0, done.err)
            with mock.patch.dict(os.environ, {"PYTHONPATH": str(target)}):
                shown = "import twarp; print(twarp.__file__, twarp.Case(1))"
                out = self.assert_done(run(python, "-c", shown, cwd=folder))
            self.assertEqual(out, f"{target}/twarp/__init__.py spp 1\nnodes 1\nend\n\n")
            self.assertTrue((target / "twarp/py.typed").exists())


class WithoutProgram(ToolTest):
    """Where there is no program at all, a text is looked at as far as Python can."""

    def test_what_can_be_seen_of_a_text(self) -> None:
        with mock.patch("twarp.program.find", lambda named=None: None):
            for file in CASES.glob("*.spp"):
                self.assertEqual(str(twarp.Case.from_file(file)), file.read_text())
            for text in (
                "",
                "spp 1\n",
                "spp 3\nnodes 1\nend\n",
                "spp 1\nnodes 2\nlink 0 7 1\nend\n",
                "spp 1\nnodes 2\npath 1\nend\n",
                "spp 1\nnodes 2\npath 1 1 0\nend\n",
                "spp 1\nnodes 1\nend\nend\n",
                "spp 1\nnodes 1\nswap 1 0 1 2\nend\n",
            ):
                with self.subTest(text), self.assertRaisesRegex(
                    twarp.Refused, "which rule is broken is told by"
                ):
                    twarp.Case.from_text(text)

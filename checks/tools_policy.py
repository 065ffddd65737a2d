"""Tests of what the tools and the Python package make of twarp-policy: what holds for all timings.

What is expected is known from the literature (`cases/README.md`), or by hand.
"""
from __future__ import annotations

import csv
import json
import os
import re
import tempfile
import unittest
from pathlib import Path
from unittest import mock

import browser
import twarp
from tools_common import CASES, INPUTS, TOP, Done, ToolTest, case_of, need_policy, need_program, run, tool
from tools_install import completed, files_of, install
from tools_page import data_of
from twarp.calls import read_safety, read_stable

# The stable assignments that are known, without the origin's own path.
KNOWN = {
    "disagree": {((1, 2, 0), (2, 0)), ((1, 0), (2, 1, 0))},
    "good-gadget": {((1, 3, 0), (2, 0), (3, 0), (4, 3, 0))},
    "naughty-gadget": {((1, 3, 0), (2, 0), (3, 0), (4, 3, 0))},
    "bad-gadget": set(),
    "ring-of-three": set(),
    "one-violation": set(),
    "bad-backup": set(),
    "wedgie": {((1, 2, 3, 0), (2, 3, 0), (3, 0)), ((1, 0), (2, 1, 0), (3, 0))},
}
SAFE = {"good-gadget", "failure-and-repair", "shortest-1", "shortest-2"}

# What twarp-policy writes of DISAGREE and of GOOD GADGET, by hand from docs/FORMATS.md.
DISAGREE = """\
spp-safe 1
rounds 1
router 0 uses (0)
router 1 may use (1 2 0) (1 0)
router 2 may use (2 1 0) (2 0)
wheel 1 (1 0) (1 2 0)
wheel 2 (2 0) (2 1 0)
verdict wheel
"""
GOOD_GADGET = """\
spp-safe 1
rounds 3
router 0 uses (0)
router 1 uses (1 3 0)
router 2 uses (2 0)
router 3 uses (3 0)
router 4 uses (4 3 0)
rests before 5
verdict robust
"""
TWO = """\
spp-stable 1
assignment 1
router 0 rib (0)
router 1 rib (1 2 0)
router 2 rib (2 0)
assignment 2
router 0 rib (0)
router 1 rib (1 0)
router 2 rib (2 1 0)
verdict stable 2
"""


class Answers(ToolTest):
    def test_a_wheel(self) -> None:
        told = read_safety(DISAGREE.encode(), 3)
        self.assertEqual((told.rounds, told.verdict, told.is_safe), (1, "wheel", False))
        self.assertEqual(told.left, (((0,),), ((1, 2, 0), (1, 0)), ((2, 1, 0), (2, 0))))
        wheel = (twarp.Pivot(1, (1, 0), (1, 2, 0)), twarp.Pivot(2, (2, 0), (2, 1, 0)))
        self.assertEqual((told.wheel, told.undecided, told.uses), (wheel, (1, 2), None))

    def test_what_is_safe(self) -> None:
        told = read_safety(GOOD_GADGET.encode(), 5)
        self.assertEqual((told.rests_before, told.verdict, told.undecided), (5, "robust", ()))
        self.assertEqual(told.uses, ((0,), (1, 3, 0), (2, 0), (3, 0), (4, 3, 0)))

    def test_no_path_is_one_of_those_left(self) -> None:
        text = DISAGREE.replace("(2 1 0) (2 0)\n", "(2 1 0) ()\n")
        self.assertEqual(read_safety(text.encode(), 3).left[2], ((2, 1, 0), ()))

    def test_assignments(self) -> None:
        told = read_stable(TWO.encode(), 3)
        self.assertEqual({ribs[1:] for ribs in told.assignments}, KNOWN["disagree"])
        self.assertEqual((told.are_all, told.can_rest), (True, True))
        least = read_stable(TWO.replace("stable 2", "stable at least 2").encode(), 3)
        self.assertEqual((least.assignments, least.are_all), (told.assignments, False))
        none = read_stable(b"spp-stable 1\nverdict stable 0\n", 3)
        self.assertEqual((none.assignments, none.are_all, none.can_rest), ((), True, False))
        self.assertTrue(read_stable(b"spp-stable 1\nverdict stable at least 0\n", 3).can_rest)

    def test_what_is_no_answer(self) -> None:
        for line, text, nodes in (
            (1, TWO, 3),
            (3, DISAGREE.replace("router 0 uses (0)\n", ""), 3),
            (4, DISAGREE.replace("router 1", "router 2"), 3),
            (6, DISAGREE, 4),
            (6, DISAGREE.replace("(2 1 0) (2 0)\n", "(2 1 0) (2 0)\nrests before 5\n"), 3),
            (8, DISAGREE.replace("verdict wheel", "verdict safe"), 3),
            (8, GOOD_GADGET.replace("rests before 5\n", ""), 5),
            (9, GOOD_GADGET.replace("verdict robust", "verdict wheel"), 5),
            (9, DISAGREE + "\n", 3),
            (8, DISAGREE.rstrip("\n"), 3),
        ):
            with self.subTest(text), self.assertRaises(twarp.Refused) as raised:
                read_safety(text.encode(), nodes)
            self.assertEqual(raised.exception.line, line)
        for line, text in (
            (2, TWO.replace("assignment 1\n", "")),
            (3, TWO.replace("router 0", "router 1")),
            (6, TWO.replace("assignment 2", "assignment 3")),
            (10, TWO.replace("stable 2", "stable 1")),
        ):
            with self.subTest(text), self.assertRaises(twarp.Refused) as raised:
                read_stable(text.encode(), 3)
            self.assertEqual(raised.exception.line, line)


class WithPolicy(ToolTest):
    """A test for which both programs are there."""

    def setUp(self) -> None:
        named = {"TWARP": str(need_program()), "TWARP_POLICY": str(need_policy())}
        environment = mock.patch.dict(os.environ, named)
        environment.start()
        self.addCleanup(environment.stop)
        room = tempfile.TemporaryDirectory()
        self.addCleanup(room.cleanup)
        self.folder = Path(room.name)


class Package(WithPolicy):
    def test_stable_assignments_that_are_known(self) -> None:
        for name, known in KNOWN.items():
            with self.subTest(name):
                told = twarp.stable(twarp.Case.from_text(case_of(name)))
                self.assertTrue(told.are_all)
                self.assertEqual({ribs[1:] for ribs in told.assignments}, known)
                self.assertEqual(len(told.assignments), len(known))

    def test_what_is_safe_comes_to_rest(self) -> None:
        for name in SAFE | {*KNOWN}:
            with self.subTest(name):
                case = twarp.Case.from_text(case_of(name))
                told = twarp.safe(case)
                self.assertEqual(told.is_safe, name in SAFE)
                if told.is_safe:
                    report = twarp.seq(case, stop=told.rests_before)
                    self.assertIsInstance(report.verdict, twarp.Quiet)
                    self.assertEqual(told.uses, tuple(line.rib for line in report.routers))
                    self.assertEqual(twarp.stable(case).assignments, (told.uses,))

    def test_a_wheel_is_one(self) -> None:
        """Each pivot prefers its rim path to its spoke, and a rim path goes on with the next pivot's spoke."""
        for name in {*KNOWN} - SAFE:
            with self.subTest(name):
                case = twarp.Case.from_text(case_of(name))
                told, orders = twarp.safe(case), case.orders()
                self.assertGreater(len(told.wheel), 1)
                for pivot, following in zip(told.wheel, [*told.wheel[1:], told.wheel[0]]):
                    order = orders[pivot.router]
                    self.assertLess(order.index(pivot.rim), order.index(pivot.spoke))
                    self.assertEqual(following.spoke, pivot.rim[-len(following.spoke) :])
                    self.assertEqual(following.spoke[0], following.router)

    def test_a_hierarchy_is_robust(self) -> None:
        """Without a circle of providers it settles whatever fails (Gao and Rexford 2001)."""
        words = ["--destination", 2603, "--paths", 4, TOP / "tools/examples/research-networks.txt"]
        done = tool("relationships", *words)
        told = twarp.safe(twarp.Case.from_text(done.out))
        self.assertEqual((told.verdict, told.wheel), ("robust", ()))

    def test_splits_that_do_not_suffice(self) -> None:
        told = twarp.stable(twarp.Case.from_text(case_of("disagree")), splits=0)
        self.assertEqual((told.are_all, str(told)), (False, f"stable at least {len(told.assignments)}"))

    def test_a_refusal_has_line_and_code(self) -> None:
        for command in twarp.safe, twarp.stable:
            with self.assertRaises(twarp.Refused) as raised:
                command(twarp.Case(3).link(0, 1, 1_000_001))
            fault = raised.exception
            self.assertEqual((fault.line, fault.code, fault.name), (3, "I4", "Delay"))

    def test_where_the_program_is(self) -> None:
        case = twarp.Case.from_text(case_of("disagree"))
        missing = self.folder / "missing"
        with self.assertRaisesRegex(twarp.Stopped, "missing is no program; ./twarp-policy --build"):
            twarp.safe(case, program=missing)
        with mock.patch.dict(os.environ, TWARP_POLICY=str(missing)):
            with self.assertRaisesRegex(twarp.Stopped, "missing is no program"):
                twarp.safe(case)
            self.assertEqual(twarp.safe(case, program=need_policy()).verdict, "wheel")
        # Beside twarp, as both are installed, and as a clone has them.
        for beside in "bin/twarp-policy", "crates/twarp_policy/out/twarp_policy":
            with self.subTest(beside):
                one, other = self.folder / "bin/twarp", self.folder / beside
                one = one if beside.startswith("bin") else self.folder / "crates/twarp/out/twarp"
                for file, program in (one, need_program()), (other, need_policy()):
                    file.parent.mkdir(parents=True, exist_ok=True)
                    file.symlink_to(program)
                with mock.patch.dict(os.environ, TWARP=str(one)):
                    del os.environ["TWARP_POLICY"]
                    self.assertEqual(twarp.safe(case).verdict, "wheel")


class Installed(WithPolicy):
    FILES = (
        "bin/twarp-policy",
        "share/man/man1/twarp-policy.1",
        "share/bash-completion/completions/twarp-policy",
        "share/zsh/site-functions/_twarp-policy",
        "share/fish/vendor_completions.d/twarp-policy.fish",
    )

    def install(self, *words: object) -> str:
        return self.assert_done(install("--prefix", self.folder / "pre fix", "--program", need_program(), *words))

    def test_it_is_there_and_goes_again(self) -> None:
        before = files_of(self.folder)
        self.install("--policy", need_policy())
        prefix = self.folder / "pre fix"
        for name in self.FILES:
            self.assertTrue((prefix / name).is_file(), name)
        told = self.assert_done(run(prefix / "bin/twarp-policy", "stable", stdin=case_of("disagree")))
        self.assertTrue(told.endswith("verdict stable 2\n"), told)
        self.assert_done(install("--prefix", prefix, "--uninstall"))
        self.assertEqual(files_of(self.folder), before)

    def test_the_one_beside_is_taken_or_none(self) -> None:
        for name in "twarp", "twarp-policy":
            (self.folder / name).symlink_to(need_program() if name == "twarp" else need_policy())
        words = ["--prefix", self.folder / "other", "--program", self.folder / "twarp"]
        self.assert_done(install(*words))
        self.assertTrue((self.folder / "other/bin/twarp-policy").exists())
        (self.folder / "twarp-policy").unlink()
        self.assertIn("no twarp-policy", self.assert_done(install(*words)))
        self.assertFalse((self.folder / "other/bin/twarp-policy").exists())
        self.assert_refused(install(*words, "--policy", self.folder), "is no program")

    def manual(self, kind: str) -> Done:
        return tool("manual", "--program", need_policy(), kind)

    def test_the_man_page_says_what_the_help_says(self) -> None:
        page = self.assert_done(self.manual("man"))
        self.assertRegex(page, r"^\.TH TWARP-POLICY 1 ")
        shown = re.sub(r"\\f[BRI]|\\&", "", page).replace("\\-", "-").replace("\\e", "\\")
        for words in ["--help"], ["safe", "--help"], ["stable", "--help"]:
            for line in run(need_policy(), *words).out.splitlines():
                if not re.match(r"(Usage: |Commands:|Options:|Exit status:|  |-h)", line):
                    with self.subTest(words, line=line):
                        # The first line stands in NAME, with a small letter.
                        self.assertIn(re.sub("`([^`]*)`", r"\1", line).rstrip(".")[1:], shown)
        for name in "safe", "stable":
            self.assertRegex(page, rf"(?m)^\.SS twarp\\-policy {name}")

    def test_completions(self) -> None:
        script = self.assert_done(self.manual("bash"))
        self.assertGreaterEqual(completed(script, "twarp-policy "), {"safe", "stable", "--help", "--version"})
        self.assertEqual(completed(script, "twarp-policy st"), {"stable"})
        self.assertEqual(completed(script, "twarp-policy stable --s"), {"--splits"})
        for shell in "zsh", "fish":
            self.assertRegex(self.assert_done(self.manual(shell)), r"\bstable\b")


class Sweep(WithPolicy):
    DISAGREE = ["--delays", "1-10", "--links", "0-1,0-2", "--stop", 100]

    def sweep(self, *words: object, quiet: bool = True) -> Done:
        told = ["--quiet"] * quiet
        return tool("sweep", "--jobs", 2, "--program", need_program(), *told, *words)

    def rows(self, *words: object) -> list[dict[str, str]]:
        return [*csv.DictReader(self.assert_done(self.sweep(*words)).splitlines())]

    def test_of_a_safe_case_times_alone_are_measured(self) -> None:
        rows = self.rows("--delays", "1-10", "--apart", "--runs", 10, CASES / "good-gadget.spp")
        self.assertEqual({(row["verdict"], row["outcome"]) for row in rows}, {("quiet", "1")})
        self.assertEqual(rows[0]["paths"], "(0) (1 3 0) (2 0) (3 0) (4 3 0)")
        # Three rounds: at rest so many longest delays after the start, and one.
        for row in rows:
            longest = max(int(word) for name, word in row.items() if name.startswith("delay_"))
            self.assertLess(int(row["rest"]), 1 + 4 * longest)
        words = ["--delays", "1-3", "--failure-times", "0-50", "--runs", 5]
        rows = self.rows(*words, CASES / "failure-and-repair.spp")
        self.assertEqual({(row["verdict"], row["outcome"]) for row in rows}, {("quiet", "1")})

    def test_outcomes_have_the_numbers_of_stable_assignments(self) -> None:
        case = CASES / "disagree.spp"
        known = twarp.stable(twarp.Case.from_file(case)).assignments
        rows = self.rows(*self.DISAGREE, "--runs", 20, case)
        found = {int(row["outcome"]): row["paths"] for row in rows if row["paths"]}
        self.assertEqual({*found}, {1, 2})
        for number, paths in found.items():
            self.assertEqual(paths, " ".join(f"({' '.join(map(str, path))})" for path in known[number - 1]))
        by_seed = self.rows(*self.DISAGREE, "--runs", 20, "--outcomes", "seen", case)
        self.assertEqual([row["outcome"] for row in by_seed if row["paths"]], ["1", "2"])
        self.assertEqual([row["paths"] for row in by_seed], [row["paths"] for row in rows])
        with mock.patch.dict(os.environ, TWARP_POLICY=os.devnull):
            self.assertEqual(self.rows(*self.DISAGREE, "--runs", 20, case), by_seed)

    def test_numbers_stay_where_sweeps_go_on_and_are_merged(self) -> None:
        case, one, other = CASES / "disagree.spp", self.folder / "one.csv", self.folder / "other.csv"
        whole = self.assert_done(self.sweep(*self.DISAGREE, "--runs", 12, case))
        for name, seed in (one, 1), (other, 7):
            self.assert_done(self.sweep(*self.DISAGREE, "--runs", 6, "--seed", seed, "--summary", "--csv", name, case))
        self.assertEqual(self.assert_done(tool("sweep", "merge", other, one)), whole)
        self.assert_done(self.sweep(*self.DISAGREE, "--runs", 12, "--summary", "--resume", one, case))
        self.assertEqual(one.read_text(), whole)
        refused = self.sweep(*self.DISAGREE, "--runs", 13, "--outcomes", "seen", "--resume", one, case)
        self.assert_refused(refused, "--outcomes stable")

    def test_what_never_comes_to_rest_is_told(self) -> None:
        told = self.folder / "told.json"
        words = ["--delays", "1-10", "--runs", 3, "--stop", 50, "--summary", "--json", told]
        done = self.sweep(*words, CASES / "bad-gadget.spp", quiet=False)
        self.assertEqual(done.status, 0, done.err)
        self.assertRegex(done.out, r"open +3 .* no run ever comes to rest\n")
        self.assertIn("no stable assignment: no run ever comes to rest, whatever the delays", done.err)
        policy = json.loads(told.read_text())["policy"]
        self.assertEqual((policy["verdict"], policy["assignments"], policy["are_all"]), ("wheel", [], True))
        out = self.assert_done(self.sweep("--delays", "1", "--runs", 1, "--stop", 2, "--summary", CASES / "good-gadget.spp"))
        self.assertRegex(out, r"open +1 .* comes to rest after the stop\n")

    def test_where_no_stop_is_known(self) -> None:
        words = ["--delays", "1-10", "--runs", 2]
        self.assert_refused(self.sweep(*words, CASES / "disagree.spp"), "refused option --stop: it is missing")
        missing = self.sweep(*words, "--policy-program", self.folder / "missing", CASES / "good-gadget.spp")
        self.assertEqual((missing.status, missing.out), (2, ""))
        self.assertIn("missing is no program", missing.err)
        far = case_of("good-gadget").replace("end\n", "fail 999999999 0 1\nrestore 999999999 0 1\nend\n")
        late = tool("sweep", "--program", need_program(), "--quiet", *words, stdin=far)
        self.assertEqual(late.status, 2)
        self.assertIn("past 1,000,000,000", late.err)

    def test_cases_of_their_own(self) -> None:
        made = "--destination 2603 --paths 4 --delays 1-9 --failures 2 --until 100"
        rows = self.rows("--relationships", made, "--runs", 3, TOP / "tools/examples/research-networks.txt")
        self.assertEqual({row["verdict"] for row in rows}, {"quiet"})

    def test_from_python(self) -> None:
        case = twarp.Case.from_text(case_of("good-gadget"))
        trials = [*twarp.sweep(case, delays="1-10", runs=5, jobs=1)]
        for trial in trials:
            self.assertIsInstance(trial.end.verdict, twarp.Quiet)
            self.assertEqual(trial.end.ribs, twarp.safe(case).uses)


class Draw(ToolTest):
    """What is drawn of an answer, which is known by hand; no program is asked."""

    def draw(self, answer: str, name: str, *words: object) -> Done:
        return tool("draw", "--policy", "-", *words, CASES / f"{name}.spp", stdin=answer)

    def edges(self, text: str) -> set[tuple[str, str]]:
        """The arrows of a drawing, each with how it is drawn."""
        found = re.findall(r'^  (\d+) -> (\d+) \[.*dir=(\w+), .*?(penwidth=[\d.]+(?:, style=dashed)?)', text, re.M)
        return {(f"{a} {b}" if way == "forward" else f"{b} {a}", look) for a, b, way, look in found}

    def test_a_wheel_has_its_rim_and_its_spokes(self) -> None:
        text = self.assert_done(self.draw(DISAGREE, "disagree"))
        self.assertIn("disagree: verdict wheel of 2 pivots", text)
        rim, spoke = "penwidth=3", "penwidth=1.5, style=dashed"
        self.assertEqual(self.edges(text), {("1 2", rim), ("2 1", rim), ("1 0", spoke), ("2 0", spoke)})
        for path, role in ("1 2 0", "rim"), ("1 0", "spoke"), ("2 1 0", "rim"), ("2 0", "spoke"):
            self.assertIn(f">({path}) <I>{role}</I><", text)
        self.assertEqual(text.count('BGCOLOR="#f4d35e"'), 2)

    def test_what_is_safe_has_its_one_assignment(self) -> None:
        text = self.assert_done(self.draw(GOOD_GADGET, "good-gadget"))
        self.assertIn("good-gadget: verdict robust, rests before 5", text)
        used = "penwidth=2"
        self.assertEqual(self.edges(text), {("1 3", used), ("2 0", used), ("3 0", used), ("4 3", used)})
        self.assertRegex(text, r'BGCOLOR="#e69f00"><FONT [^>]*>\(2 0\)<')
        self.assertNotIn('BGCOLOR="#f4d35e"', text)

    def test_no_path_may_be_left(self) -> None:
        answer = DISAGREE.replace("(2 1 0) (2 0)\n", "(2 1 0) (2 0) ()\n")
        self.assertIn(">no path<", self.assert_done(self.draw(answer, "disagree")))

    def test_what_does_not_suit(self) -> None:
        for answer, name, line in (
            (GOOD_GADGET, "disagree", 6),
            (DISAGREE.replace("(2 1 0) (2 0)\n", "(2 1 0) (2 3 0)\n"), "disagree", 5),
            (DISAGREE.replace("wheel 1 (1 0) (1 2 0)", "wheel 1 (2 0) (1 2 0)"), "disagree", 6),
            (TWO, "disagree", 1),
        ):
            self.assert_refused(self.draw(answer, name), f"standard input: refused line {line}: ")
        for words in ["--ask-policy"], ["--paths-of", 1]:
            self.assertEqual(self.draw(DISAGREE, "disagree", *words).status, 3)
        done = tool("draw", "--policy", "-", stdin=DISAGREE)
        self.assertEqual(done.status, 3)
        self.assertIn("only one of CASE and --policy can be standard input", done.err)


class Page(ToolTest):
    """What a page shows of an answer, beside the run of checks/inputs."""

    def page(self, *words: object, answer: str = DISAGREE) -> Done:
        return tool("page", "--policy", "-", *words, CASES / "disagree.spp", INPUTS / "disagree-report.txt", stdin=answer)

    def test_its_script_knows_what_is_left_and_the_wheel(self) -> None:
        page = self.assert_done(self.page())
        self.assertIn("; for all timings: wheel of 2 pivots</p>", page)
        run_ = data_of(page)
        policy = run_["policy"]
        paths = [[run_["paths"][number] for number in left] for left in policy["left"]]
        self.assertEqual(paths, [[[0]], [[1, 2, 0], [1, 0]], [[2, 1, 0], [2, 0]]])
        self.assertEqual((policy["rim"], policy["spokes"]), ([[1, 2], [2, 1]], [[1, 0], [2, 0]]))
        # Of a part of the routers, the steps between them alone.
        policy = data_of(self.assert_done(self.page("--routers", "0,1")))["policy"]
        self.assertEqual((len(policy["left"]), policy["rim"], policy["spokes"]), (2, [], [[1, 0]]))

    def test_without_an_answer_it_has_nothing_of_it(self) -> None:
        page = self.assert_done(tool("page", CASES / "disagree.spp", INPUTS / "disagree-report.txt"))
        self.assertNotIn("policy", data_of(page))
        self.assertNotIn("all timings:", page)

    def test_what_does_not_suit(self) -> None:
        self.assert_refused(self.page(answer=GOOD_GADGET), "standard input: refused line 6: ")
        self.assertEqual(self.page("--ask-policy").status, 3)

    @unittest.skipUnless(browser.PROGRAM, "Chromium is not installed")
    def test_how_it_looks_in_chromium(self) -> None:
        with tempfile.NamedTemporaryFile("w", suffix=".html") as file, browser.Browser() as tab:
            file.write(self.assert_done(self.page()))
            file.flush()
            tab.open(Path(file.name), 1200)
            counts = "[...['.rim', '.spoke', '.choice']].map((look) => network.querySelectorAll(look).length)"
            self.assertEqual(tab.run(counts), [2, 2, 2])
            words = tab.run("document.getElementById('table').textContent")
            self.assertIn("Whatever the delays it may go on to use (1 2 0), (1 0).", words)
            self.assertEqual(tab.faults(), [])

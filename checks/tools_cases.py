"""Tests of the cases of the literature: what is known of each, and that twarp says so."""
from __future__ import annotations

import re
import tempfile
from collections.abc import Iterator
from itertools import product
from pathlib import Path

import tools_common
from tools_common import CASES, ToolTest, case_of, twarp
from twarp_tools import tutorial
from twarp.case import ORIGIN, Nodes, read_case, read_path

Assignment = tuple[Nodes, ...]

# The stable assignments of each case, by what the source says or as its few routers let one see by
# hand; of a case with a scenario those before it.
STABLE: dict[str, set[Assignment]] = {
    "shortest-1": {((0,), (1, 0), (2, 0), (3, 0), (4, 2, 0))},
    "shortest-2": {((0,), (1, 0), (2, 0), (3, 0), (4, 3, 0))},
    "good-gadget": {((0,), (1, 3, 0), (2, 0), (3, 0), (4, 3, 0))},
    "naughty-gadget": {((0,), (1, 3, 0), (2, 0), (3, 0), (4, 3, 0))},
    "bad-gadget": set(),
    "bad-backup": {((0,), (1, 3, 0), (2, 0), (3, 0), (4, 0))},
    "wedgie": {
        ((0,), (1, 2, 3, 0), (2, 3, 0), (3, 0)),
        ((0,), (1, 0), (2, 1, 0), (3, 0)),
    },
    "ring-of-three": set(),
    "one-violation": set(),
    "disagree": {((0,), (1, 0), (2, 1, 0)), ((0,), (1, 2, 0), (2, 0))},
    "slow-flap": {((0,), (1, 0), (2, 1, 0)), ((0,), (1, 2, 0), (2, 0))},
    "forbidden-path": {((0,), (1, 0), (2, 1, 0)), ((0,), (1, 2, 0), (2, 0))},
    "slow-one-way": {((0,), (1, 0), (2, 1, 0)), ((0,), (1, 2, 0), (2, 0))},
}


def with_lines(text: str, *lines: str) -> str:
    """The case with more lines of its scenario."""
    return text.removesuffix("end\n") + "".join(f"{line}\n" for line in lines) + "end\n"


def without_link(text: str, a: int, b: int) -> str:
    """The case without a link, the paths over it and its scenario."""
    hop = re.compile(
        rf"path .* ({a} {b}|{b} {a})\b|link {a} {b} |(fail|restore|swap|forbid|allow) "
    )
    return "".join(line for line in text.splitlines(keepends=True) if not hop.match(line))


def stable_assignments(text: str) -> Iterator[Assignment]:
    """Tries all choices of permitted paths, by the definition of Griffin, Shepherd and Wilfong."""
    orders = read_case(text.encode()).orders()

    def best(router: int, paths: Assignment) -> Nodes:
        if router == ORIGIN:
            return (ORIGIN,)
        return next((path for path in orders[router] if paths[path[1]] == path[1:]), ())

    for paths in product(*([*order, ()] for order in orders)):
        if all(best(router, paths) == path for router, path in enumerate(paths)):
            yield paths


def paths_of(report: str) -> Assignment:
    """The paths that the routers use in the end."""
    return tuple(map(read_path, re.findall(r"^router .* rib (.*)$", report, re.M)))


class CasesOfTheLiterature(ToolTest):
    def seq(self, text: str, stop: int, every: int = 1) -> tuple[Assignment, str]:
        """The paths at the end of a run, and its verdict."""
        report = twarp("seq", "--stop", stop, "--every", every, stdin=text)
        return paths_of(report), report.splitlines()[-1]

    def assert_quiet(self, text: str, paths: Assignment) -> None:
        used, verdict = self.seq(text, 1000)
        self.assertRegex(verdict, r"^verdict quiet \d+$")
        self.assertEqual(used, paths)

    def assert_oscillates(self, text: str) -> None:
        self.assertRegex(self.seq(text, 1000)[1], r"^verdict oscillates from \d+ period \d+$")

    def test_how_many_assignments_are_stable(self) -> None:
        for name, known in STABLE.items():
            with self.subTest(name):
                self.assertEqual(set(stable_assignments(case_of(name))), known)

    def test_shortest_paths_settle(self) -> None:
        # Times 1 and 2: the origin's neighbours have their paths at 1, and router 4 hears of them
        # at 2.
        for name in "shortest-1", "shortest-2":
            paths, verdict = self.seq(case_of(name), 100)
            self.assertEqual(({paths}, verdict), (STABLE[name], "verdict quiet 2"))

    def test_naughty_gadget_may_settle_or_not(self) -> None:
        text = case_of("naughty-gadget")
        self.assert_oscillates(text)
        (stable,) = STABLE["naughty-gadget"]
        self.assert_quiet(text.replace("link 2 4 1", "link 2 4 2"), stable)

    def test_bad_backup_is_bad_gadget_once_its_link_has_failed(self) -> None:
        text = case_of("bad-backup")
        self.assertEqual({self.seq(text, 20)[0]}, STABLE["bad-backup"])
        self.assert_oscillates(text)
        self.assertEqual(without_link(text, 0, 4), case_of("bad-gadget"))
        self.assert_quiet(with_lines(text, "restore 100 0 4"), *STABLE["bad-backup"])

    def test_a_wedgie_stays_until_the_other_link_fails(self) -> None:
        text = case_of("wedgie")
        meant, wedged = ((0,), (1, 2, 3, 0), (2, 3, 0), (3, 0)), ((0,), (1, 0), (2, 1, 0), (3, 0))
        failed = ((0,), (1, 0), (2, 1, 0), (3, 2, 1, 0))
        for stop, paths in (20, meant), (40, failed), (60, wedged), (100, meant):
            with self.subTest(stop=stop):
                self.assertEqual(self.seq(text, stop)[0], paths)
        # At 60 router 1 loses its link, at 61 router 2 goes by way of 3, at 62 router 1 by way of
        # both.
        self.assertEqual(self.seq(text, 100)[1], "verdict quiet 62")
        self.assert_quiet(re.sub("(fail 60|restore 80) 0 1\n", "", text), wedged)

    def test_one_violation_oscillates_until_it_is_mended(self) -> None:
        text = case_of("one-violation")
        # All change to the path of two links at even times, and back at odd ones; 3 is the first
        # time at which they have heard both kinds of paths.
        self.assertEqual(self.seq(text, 100)[1], "verdict oscillates from 3 period 2")
        mended = with_lines(text, "swap 20 3 1 2")
        # At 20 routers 1 and 2 change and router 3 no more; at 21 router 1 hears that router 2
        # goes by way of 3.
        self.assertEqual(
            self.seq(mended, 100), (((0,), (1, 0), (2, 3, 0), (3, 0)), "verdict quiet 21")
        )

    def test_a_long_period_is_found_at_distant_checkpoints(self) -> None:
        text = case_of("slow-flap")
        # Both change their paths at 1, 51, 101, ..: from 52 on, with what was sent to the origin
        # at 51 still under way, all is every 100 ticks as it was. The first checkpoint from which
        # this shows is 52, 60, 60 and 100.
        verdicts = {every: self.seq(text, 1000, every)[1] for every in (1, 2, 10, 30, 100)}
        expected = {1: "open", 2: (52, 100), 10: (60, 100), 30: (60, 300), 100: (100, 100)}
        for every, known in expected.items():
            if known != "open":
                known = f"oscillates from {known[0]} period {known[1]}"
            self.assertEqual(verdicts[every], f"verdict {known}")

    def test_a_path_forbidden_for_a_while_leaves_the_other_assignment(self) -> None:
        text = case_of("forbidden-path")
        before, after = ((0,), (1, 0), (2, 1, 0)), ((0,), (1, 2, 0), (2, 0))
        for stop, paths in (9, before), (12, after), (30, after):
            with self.subTest(stop=stop):
                self.assertEqual(self.seq(text, stop)[0], paths)
        # At 9 router 2 takes its own link, of which router 1 hears 2 ticks later.
        self.assertEqual(self.seq(text, 30)[1], "verdict quiet 11")

    def test_a_link_that_is_slow_one_way_decides_by_its_direction(self) -> None:
        # Router 1 has (1 0) at 1, 8, 15, .. and (1 2 0) at 6, 13, .., router 2 (2 0) at 5, 12, ..
        # and (2 1 0) at 7, 14, ..; the origin hears of (2 0) at 10 first, so all repeats from 11
        # on, every 7 ticks.
        text = case_of("slow-one-way")
        self.assertEqual(self.seq(text, 100)[1], "verdict oscillates from 11 period 7")
        # The other way round router 2 hears of (1 0) at 2, before the origin's own message.
        turned = text.replace("link 1 2 6 1", "link 1 2 1 6")
        self.assertEqual(
            self.seq(turned, 100), (((0,), (1, 0), (2, 1, 0)), "verdict quiet 2")
        )

    def test_the_page_of_the_cases_says_what_its_commands_say(self) -> None:
        page = (CASES / "README.md").read_text()
        told = re.findall(r"`((?:\./twarp|sed) [^`]+)`[^`]* says `(?:verdict )?([^`]+)`", page)
        self.assertGreaterEqual(len(told), len(re.findall("^### ", page, re.M)) - 1)
        with tempfile.TemporaryDirectory() as name:
            folder = Path(name)
            programs = {"twarp": tools_common.need_program(), "twarp-policy": tools_common.need_policy()}
            tutorial.lay_out(folder, programs)
            for command, verdict in told:
                with self.subTest(command):
                    output = tutorial.run(tutorial.Command(0, command), folder, programs)
                    self.assertEqual(output.splitlines()[-1], f"verdict {verdict}")

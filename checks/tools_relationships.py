"""Tests of the tool relationships, on networks that are small enough to be followed by hand."""
from __future__ import annotations

import re
import tempfile
from collections import Counter
from pathlib import Path

import tools_common
from tools_common import INPUTS, TOP, Done, ToolTest, read, tool

BAD_RELATIONSHIPS = [
    ("10|20\n", 1, "2 fields"),
    ("10|20|-1|bgp|2026\n", 1, "5 fields"),
    ("# two\n10 20 -1\n", 2, "1 fields"),
    ("10|AS20|-1\n", 1, "'AS20' is no AS number"),
    ("0|20|-1\n", 1, "'0' is no AS number"),
    ("10|4294967296|-1\n", 1, "'4294967296' is no AS number"),
    ("10|20|1\n", 1, "the relationship '1' is neither -1 nor 0"),
    ("10|10|0\n", 1, "AS 10 is its own neighbour"),
    ("10|20|-1\n\n20|10|0\n", 3, "AS 20 and AS 10 stand together on line 1 already"),
]


# Three peers; 6 and 7 are customers of 1, 4 of 3, and 5 of 4.
SHAPES = "1|2|0\n2|3|0\n1|3|0\n3|4|-1\n4|5|-1\n1|6|-1\n1|7|-1\n"


def by_ases(case: str, numbers: str) -> list[tuple[str, list[int], list[int]]]:
    """The lines of a case by AS numbers, in an order that routers' numbers do not decide.

    Of each its word, the ASes, of a path in their order, and its other number, if it has one.
    """
    ases = [int(line.split()[1]) for line in numbers.splitlines()]
    lines = []
    for line in case.splitlines():
        word, *fields = line.split()
        given = [int(field) for field in fields]
        if word == "link":
            lines.append((word, sorted(ases[end] for end in given[:2]), given[2:]))
        elif word in ("fail", "restore"):
            lines.append((word, sorted(ases[end] for end in given[1:]), given[:1]))
        elif word == "path":
            lines.append((word, [ases[node] for node in given[1:]], []))
        else:
            lines.append((word, [], given))
    # The sort is stable, so a router's paths stay in their order.
    return sorted(lines, key=lambda line: line if line[0] != "path" else (line[0], line[1][:1], []))


def distance(case: str) -> int:
    """How far apart the ends of links are in number, summed over all links."""
    return sum(abs(int(a) - int(b)) for a, b in re.findall(r"^link (\d+) (\d+)", case, re.M))


class Relationships(ToolTest):
    def make(self, *words: object, stdin: str = "") -> Done:
        """The tool's answer, whose case twarp has to accept, where it is there."""
        done = tool("relationships", *words, stdin=stdin)
        if tools_common.program:
            return self.assert_makes_a_case(done)
        self.assertEqual(done.status, 0, done.err)
        return done

    def test_the_case_and_the_numbers(self) -> None:
        with tempfile.TemporaryDirectory() as folder:
            numbers = Path(folder) / "numbers"
            done = self.make(
                "--destination", 40, "--delays", 3, "--map", numbers, INPUTS / "diamond.txt"
            )
            self.assertEqual(done.out, read("diamond.spp"))
            self.assertEqual(numbers.read_text(), read("diamond.map"))
        self.assertIn("no valley and at most 32 nodes: 1\n", done.err)

    def test_what_is_cut_is_told(self) -> None:
        done = self.make(
            "--destination", 40, "--delays", 3, "--routers", 4, "--paths", 2,
            stdin=read("diamond.txt"),
        )
        self.assertEqual(done.out, read("diamond-cut.spp"))
        self.assertIn("ASes left out, 4 nearer to AS 40 being taken: 4\n", done.err)
        self.assertIn("paths left out because each has at most 2: 2\n", done.err)

    def test_a_router_has_at_most_64_links(self) -> None:
        star = "".join(f"1|{number}|-1\n" for number in range(2, 101))
        done = self.make("--destination", 1, stdin=star)
        self.assertEqual(done.out.count("link "), 64)
        self.assertIn("with less than 64 links could be linked to: 35\n", done.err)
        mesh = "".join(f"{a}|{b}|0\n" for a in range(1, 71) for b in range(a + 1, 71))
        done = self.make("--destination", 1, stdin=mesh)
        ends = Counter(
            end for line in re.findall("link .*", done.out) for end in line.split()[1:3]
        )
        self.assertEqual(max(ends.values()), 64)

    def test_a_path_has_at_most_32_nodes(self) -> None:
        chain = "".join(f"{number}|{number + 1}|-1\n" for number in range(1, 40))
        done = self.make("--destination", 40, stdin=chain)
        self.assertEqual(done.out.count("path "), 31)
        self.assertIn("no valley and at most 32 nodes: 8\n", done.err)

    def test_a_router_has_at_most_200_paths(self) -> None:
        two_ways = "".join(
            f"{low + 10}|{low + side}|-1\n{low + side}|{low}|-1\n"
            for low in range(10, 100, 10)
            for side in (1, 2)
        )
        done = self.make("--destination", 10, "--paths", 200, stdin=two_ways)
        paths = Counter(line.split()[1] for line in re.findall("path .*", done.out))
        self.assertEqual(max(paths.values()), 200)
        self.assertIn("because each has at most 200", done.err)
        self.assertEqual(
            tool("relationships", "--destination", 10, "--paths", 201, stdin=two_ways).status, 3
        )

    def test_the_seed_decides_delays_and_failures(self) -> None:
        words = [
            "--destination", 40, "--delays", "5-9", "--failures", 4, "--until", 50,
            INPUTS / "diamond.txt",
        ]
        one, again, other = (self.make("--seed", seed, *words).out for seed in (1, 1, 2))
        self.assertEqual(one, again)
        self.assertNotEqual(one, other)
        delays = {int(line.split()[3]) for line in re.findall("link .*", one)}
        self.assertLessEqual(delays, set(range(5, 10)))
        self.assertGreater(len(delays), 1)
        failed, repaired = (
            {
                (a, b): int(time)
                for time, a, b in re.findall(rf"^{word} (\d+) (\d+) (\d+)$", one, re.M)
            }
            for word in ("fail", "restore")
        )
        self.assertEqual((len(failed), failed.keys()), (4, repaired.keys()))
        self.assertTrue(all(1 <= failed[link] < repaired[link] <= 50 for link in failed))

    def taken(self, *words: object) -> tuple[set[int], str]:
        """The ASes that are taken of `SHAPES`, and what is told."""
        with tempfile.TemporaryDirectory() as folder:
            numbers = Path(folder) / "numbers"
            done = self.make(*words, "--map", numbers, stdin=SHAPES)
            lines = numbers.read_text().splitlines()
        return {int(line.split()[1]) for line in lines}, done.err

    def test_a_core_with_the_way_to_it(self) -> None:
        for destination, most, ases, k in (
            (1, 3, {1, 2, 3}, 2),
            # 5 is below 4, and 4 below 3.
            (5, 5, {1, 2, 3, 4, 5}, 2),
            (5, 7, {1, 2, 3, 4, 5, 6, 7}, 1),
        ):
            with self.subTest(destination, most=most):
                taken, told = self.taken("--destination", destination, "--core", most)
                self.assertEqual(taken, ases)
                self.assertIn(f"the {k}-core, AS {destination} and the providers above", told)
                self.assertIn(f" it: {len(ases)} of 7 ASes\n", told)
        # Each core is larger: the nearest ASes of the last one are taken.
        taken, told = self.taken("--destination", 1, "--core", 2)
        self.assertEqual(taken, {1, 2})
        self.assertIn("2-core, AS 1 and the providers above it: 3 of 7 ASes\n", told)

    def test_a_core_of_a_larger_network(self) -> None:
        # A full mesh of six, a ring of 30 around it, and a star of 40 at one of the mesh.
        mesh = [(a, b) for a in range(1, 7) for b in range(a + 1, 7)]
        ring = [(node, node + 1) for node in range(100, 129)] + [(129, 100), (1, 100), (2, 115)]
        star = [(3, leaf) for leaf in range(200, 240)]
        lines = "".join(f"{a}|{b}|0\n" for a, b in mesh + ring)
        lines += "".join(f"{a}|{b}|-1\n" for a, b in star)
        for most, count, k in (6, 6, 5), (35, 6, 5), (36, 36, 2), (75, 36, 2), (76, 76, 1):
            done = tool("relationships", "--destination", 1, "--core", most, stdin=lines)
            whole = f"the {k}-core, AS 1 and the providers above it: {count} of 76 ASes\n"
            self.assertIn(whole, done.err)

    def test_a_customer_cone(self) -> None:
        taken, told = self.taken("--destination", 5, "--cone", 3)
        self.assertEqual(taken, {3, 4, 5})
        self.assertIn("the customer cone of AS 3: 3 of 7 ASes\n", told)
        taken, _ = self.taken("--destination", 5, "--cone", 3, "--keep-connected", 2)
        self.assertEqual(taken, {4, 5})
        for words, why in (
            (["--cone", 1], "refused option --cone: AS 5 is not in the customer cone of AS 1"),
            (["--cone", 9], "refused option --cone: the input has no AS 9"),
        ):
            done = tool("relationships", "--destination", 5, *words, stdin=SHAPES)
            self.assert_refused(done, why)

    def test_an_order_in_which_neighbours_are_near(self) -> None:
        cases, numbers = {}, {}
        with tempfile.TemporaryDirectory() as folder:
            for order in ("taken", "near"):
                file = Path(folder) / order
                cases[order] = self.make(
                    "--order", order, "--destination", 2603, "--failures", 5, "--map", file,
                    TOP / "tools" / "examples" / "research-networks.txt",
                ).out
                numbers[order] = file.read_text()
        self.assertEqual(*(by_ases(cases[order], numbers[order]) for order in cases))
        self.assertTrue(numbers["near"].startswith("0 2603\n"), numbers["near"])
        self.assertLess(distance(cases["near"]), distance(cases["taken"]))
        self.assert_done(tool("draw", stdin=cases["near"]))

    def test_a_bad_line_is_named(self) -> None:
        for text, line, why in BAD_RELATIONSHIPS:
            with self.subTest(text):
                done = tool("relationships", "--destination", 10, stdin=text)
                self.assert_refused(done, f"standard input: refused line {line}: ")
                self.assertIn(why, done.err)

    def test_options_that_the_input_does_not_meet(self) -> None:
        self.assert_refused(
            tool("relationships", "--destination", 41, INPUTS / "diamond.txt"), "no AS 41"
        )
        done = tool("relationships", "--destination", 40, "--failures", 10, INPUTS / "diamond.txt")
        self.assert_refused(done, "use 9 links")

    def test_providers_in_a_circle_are_told(self) -> None:
        done = self.make("--destination", 4, stdin="1|2|-1\n2|3|-1\n3|1|-1\n1|4|-1\n")
        self.assertIn("each of these is a provider of the next", done.err)

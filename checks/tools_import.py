"""Tests of what makes cases of published files: relationships by a stream, and tools/import."""
from __future__ import annotations

import bz2
import gzip
import random
import re
import resource
import tempfile
from collections.abc import Iterator
from itertools import permutations
from pathlib import Path

from tools_common import (
    TOP,
    Done,
    ToolTest,
    import_tool,
    needs_networkx,
    tool,
)

LINES = 500_000
ASES = 70_000
MOST_SECONDS = 60
MOST_KILOBYTES = 500_000


def published(lines: int) -> Iterator[str]:
    """Relationships in the form of serial-2: comments, then pairs of ASes with their sources."""
    draw = random.Random(1).random
    yield "# source:topology|BGP|20260101|none\n"
    for number in range(2, lines + 2):
        # Each pair is another, since the AS above the first round is paired with others in the
        # next ones.
        low, turn = number % ASES + 2, number // ASES
        yield f"{1 + int(low * draw()) // 8 * 8 + turn}|{low * 8}|{-1 if turn else 0}|bgp\n"


class Streams(ToolTest):
    def test_a_large_file_takes_little_time_and_memory(self) -> None:
        with tempfile.TemporaryDirectory() as folder:
            file = Path(folder) / "as-rel2.txt.bz2"
            with bz2.open(file, "wt") as packed:
                packed.writelines(published(LINES))
            before = resource.getrusage(resource.RUSAGE_CHILDREN)
            done = tool("relationships", "--destination", 16, file)
            after = resource.getrusage(resource.RUSAGE_CHILDREN)
        self.assertEqual(done.status, 0, done.err)
        self.assertIn("nodes 1024\n", done.out)
        # Processor time, since other programs may take turns with this one.
        self.assertLess(
            after.ru_utime + after.ru_stime - before.ru_utime - before.ru_stime, MOST_SECONDS
        )
        # The greatest size that any command had until now.
        self.assertLess(after.ru_maxrss, MOST_KILOBYTES)

    def test_packed_files_are_read(self) -> None:
        text = (TOP / "tools/examples/research-networks.txt").read_bytes()
        whole = self.assert_done(tool("relationships", "--destination", 2603, stdin=text))
        for pack in gzip.compress, bz2.compress:
            with self.subTest(pack):
                done = tool("relationships", "--destination", 2603, stdin=pack(text))
                self.assertEqual(self.assert_done(done), whole)
                done = tool("relationships", "--destination", 2603, stdin=pack(text)[:-20])
                self.assert_refused(done, "standard input: refused: it can't be unpacked: ")

    def test_serial_1_and_serial_2(self) -> None:
        one = "# inferred clique: 1 2\n1|2|0\n2|3|-1\n"
        two = "# source:topology|BGP|x\n1|2|0|mlp\n2|3|-1|bgp\n"
        outs = [
            self.assert_done(tool("relationships", "--destination", 3, stdin=text))
            for text in (one, two)
        ]
        self.assertEqual(*outs)
        self.assertIn("nodes 3\n", outs[0])


class ConnectedPart(ToolTest):
    def make(self, *words: object, stdin: str) -> Done:
        return self.assert_makes_a_case(tool("relationships", *words, stdin=stdin))

    def test_each_router_has_a_path(self) -> None:
        tree = "".join(f"{number // 3}|{number}|-1\n" for number in range(3, 2000))
        done = self.make("--destination", 1000, "--keep-connected", 40, "--seed", 5, stdin=tree)
        self.assertIn("nodes 40\n", done.out)
        self.assertEqual(
            {int(owner) for owner in re.findall(r"^path (\d+) ", done.out, re.M)},
            set(range(1, 40)),
        )
        self.assertIn("ASes left out, 40 being drawn: 1,959\n", done.err)

    def test_the_seed_decides_and_not_the_order_of_lines(self) -> None:
        lines = [f"{number // 3}|{number}|-1\n" for number in range(3, 2000)]
        words = ["--destination", 1000, "--keep-connected", 40, "--seed"]
        one, other = (self.make(*words, seed, stdin="".join(lines)).out for seed in (1, 2))
        self.assertNotEqual(one, other)
        self.assertEqual(one, self.make(*words, 1, stdin="".join(reversed(lines))).out)

    def test_a_part_of_all_is_all(self) -> None:
        star = "".join(f"1|{number}|-1\n" for number in range(2, 101))
        done = self.make("--destination", 1, "--keep-connected", 65, stdin=star)
        self.assertIn("nodes 65\n", done.out)
        for words in ["--keep-connected", 0], ["--keep-connected", 9, "--routers", 9]:
            self.assertEqual(
                tool("relationships", "--destination", 1, *words, stdin=star).status, 3
            )


# Three nodes in the form of the Topology Zoo: Vienna and Munich are 355 km apart, and the third
# has no place.
GML = """\
Creator "Topology Zoo Toolset"
graph [
  label "Test"
  directed 0
  node [
    id 0
    label "Vienna"
    Longitude 16.37208
    Latitude 48.20849
  ]
  node [
    id 1
    label "M&#252;nchen"
    Longitude 11.57549
    Latitude 48.13743
    graphics [ x 1.0 y 2.0 ]
  ]
  node [
    id 2
    label "7"
  ]
  edge [
    source 0
    target 1
    LinkSpeed "10"
  ]
  edge [
    source 1
    target 2
  ]
  edge [
    source 2
    target 1
  ]
]
"""
GML_CASE = "spp 1\nnodes 3\nlink 0 1 2\nlink 1 2 1\npath 1 1 0\npath 2 2 1 0\nend\n"

GRAPHML = """\
<?xml version="1.0" encoding="utf-8"?><graphml xmlns="http://graphml.graphdrawing.org/xmlns">
  <key attr.name="weight" attr.type="double" for="edge" id="d3" />
  <key attr.name="distance" attr.type="double" for="edge" id="d2" />
  <key attr.name="label" attr.type="string" for="node" id="d1" />
  <graph edgedefault="undirected">
    <node id="n0"><data key="d1">A</data></node>
    <node id="n1"><data key="d1">B</data></node>
    <node id="n2"><data key="d1">A</data></node>
    <edge source="n0" target="n1"><data key="d2">1.2</data><data key="d3">10</data></edge>
    <edge source="n1" target="n2"><data key="d2">70</data><data key="d3">1</data></edge>
    <edge source="n0" target="n2"><data key="d2">30</data><data key="d3">2.5</data></edge>
  </graph>
</graphml>
"""
# By weight B goes by n2, 3.5 and not 10; by distance it goes straight.
BY_WEIGHT = "path 1 1 2 0\npath 1 1 0\npath 2 2 0\npath 2 2 1 0\n"
BY_DISTANCE = "path 1 1 0\npath 1 1 2 0\npath 2 2 0\npath 2 2 1 0\n"

# An edit of a text, and what is said of it, from where it is to why.
BAD_GML = [
    ("Latitude 48.20849", "Latitude 98", "node '0': Latitude '98': this is not between -90 and 90"),
    (
        "Latitude 48.20849",
        'Latitude "north"',
        "node '0': Latitude 'north': this is no number",
    ),
    ("    id 2\n", "    id 1\n", "node id 1 is duplicated"),
    ("    id 2\n", "", "node #2 has no 'id' attribute"),
    ("target 1", "target 3", "edge #0 has undefined target 3"),
    ("    source 2\n", "", "edge #2 has no 'source' attribute"),
    ('"10"', '"10', "line 25: this quote has no end"),
    ("directed 0", "0 directed", "line 4: expected ']', found 0"),
    ("graph [", "graph [ [", "line 2: expected ']', found '['"),
    ("  ]\n]\n", "  ]\n", "line 35: expected ']', found EOF"),
    ("graph", "grape", "input contains no graph"),
    ("Creator", "graph [ ] Creator", "input contains more than one graph"),
    ("directed", "%" + 1000 * "x", f"line 4: this is no GML: '%{79 * 'x'}'..\n"),
]
BAD_GRAPHML = [
    (">1.2<", ">far<", "link from 'n0' to 'n1': distance 'far': this is no number"),
    (">70<", ">-70<", "link from 'n1' to 'n2': distance '-70': this is not between 0 and "),
    (
        ">70<",
        ">2e6<",
        "link from 'n1' to 'n2': its delay is 2,000,000, and at most 1,000,000 can be",
    ),
    ('target="n1"', 'target="n4"', "the 1. has the target 'n4', and there is no node of this id"),
    ('target="n1"', "", "link: the 1. has no target"),
    ('key="d2">70', 'key="d9">70', "Bad GraphML data: no key d9"),
    ('id="n2"', 'id="n1"', "node 'n1': there is a node of this id already"),
    ('id="n2"', "", "node: the 3. has no id"),
    ("</graph>", "</graf>", "line 12: this is no XML: mismatched tag"),
    ("<node", "<nodes", "line 6: this is no XML: mismatched tag"),
    ("</graph>", "</graph><graph/>", "a second graph stands beside the first"),
    ("graph edge", "grape edge", "line 12: this is no XML"),
    ("utf-8", "utf-5", "line 1: its encoding is not known"),
    (
        "</graph>",
        '<hyperedge id="h"><endpoint node="n0"/><endpoint node="n1"/></hyperedge></graph>',
        "hyperedge 'h': a link has two ends, and this has 2: 'n0', 'n1'",
    ),
    (
        '<node id="n2">',
        '<node id="n2"><graph/>',
        "node 'n2': it has a graph of its own, as only groups of yEd may",
    ),
    (
        'edgedefault="undirected"',
        'edgedefault="directed"><edge directed="false" source="n0" target="n1"/',
        "directed=false edge found in directed graph",
    ),
]

# A directed network: from A to B and back with two delays, and from B to C alone.
DIRECTED = """graph [
  directed 1
  node [ id 0 label "A" ]
  node [ id 1 label "B" ]
  node [ id 2 label "C" ]
  edge [ source 0 target 1 delay 3 ]
  edge [ source 1 target 0 delay 7 ]
  edge [ source 2 target 1 delay 5 ]
  edge [ source 0 target 2 delay 9 ]
]
"""
# C goes by B, since no link leads from it to A.
DIRECTED_CASE = """spp 2
nodes 3
link 0 1 3 7
link 0 2 9 9
link 1 2 5 5
path 1 1 0
path 2 2 1 0
end
"""

# As yEd writes a label, with a key that has no name, and with a group.
YED = """\
<graphml xmlns="http://graphml.graphdrawing.org/xmlns" xmlns:y="http://www.yworks.com/xml/graphml">
  <key for="node" id="d6" yfiles.type="nodegraphics"/>
  <key attr.name="delay" attr.type="int" for="edge" id="d9"><default>4</default></key>
  <graph edgedefault="undirected" id="G">
    <node id="n0"><data key="d6"><y:ShapeNode><y:NodeLabel>Wien</y:NodeLabel></y:ShapeNode></data>
    </node>
    <node id="g" yfiles.foldertype="group"><graph edgedefault="undirected" id="g:">
      <node id="g::n0"><data key="d6"><y:ShapeNode><y:NodeLabel>Graz</y:NodeLabel></y:ShapeNode>
      </data></node>
    </graph></node>
    <edge id="e0" source="n0" target="g::n0"><data key="d9">2</data></edge>
    <edge id="e0" source="g::n0" target="n0"/>
    <node id="n1"/>
    <edge id="e1" source="n1" target="n0"/>
  </graph>
</graphml>
"""


@needs_networkx
class Import(ToolTest):
    def make(self, *words: object, stdin: str | bytes) -> Done:
        return self.assert_makes_a_case(import_tool(*words, stdin=stdin))

    def test_gml_with_places_on_the_globe(self) -> None:
        with tempfile.TemporaryDirectory() as folder:
            names = Path(folder) / "names"
            done = self.make("--destination", "Vienna", "--map", names, stdin=GML)
            self.assertEqual(done.out, GML_CASE)
            self.assertEqual(names.read_text(), "0 Vienna\n1 München\n2 node 7\n")
            drawn = self.assert_done(tool("draw", "--names", names, stdin=done.out))
        self.assertIn("<B>1 München</B>", drawn)
        self.assertIn("a lighter or equal one: 1\n", done.err)
        self.assertIn(
            "link 0 1 36\n", self.make("--destination", 0, "--per-tick", 10, stdin=GML).out
        )

    def test_graphml_with_a_distance_and_a_weight(self) -> None:
        out = self.assert_done(self.make("--destination", "n0", stdin=GRAPHML))
        self.assertEqual(re.findall("link.*", out), ["link 0 1 1", "link 0 2 30", "link 1 2 70"])
        self.assertIn(BY_WEIGHT, out)
        self.assertIn(
            BY_DISTANCE,
            self.make("--destination", "n0", "--weight", "Distance", stdin=GRAPHML).out,
        )
        out = self.make(
            "--destination", "n0", "--delay", "weight", "--per-tick", "0.5", stdin=GRAPHML
        ).out
        self.assertEqual(re.findall("link.*", out), ["link 0 1 20", "link 0 2 5", "link 1 2 2"])

    def test_packed_it_is_the_same(self) -> None:
        out = self.make("--destination", "B", stdin=GRAPHML).out
        self.assertEqual(
            import_tool("--destination", "B", stdin=gzip.compress(GRAPHML.encode())).out, out
        )

    def test_at_most_so_many_paths(self) -> None:
        done = self.make("--destination", "n0", "--paths", 1, stdin=GRAPHML)
        self.assertEqual(re.findall("path.*", done.out), ["path 1 1 2 0", "path 2 2 0"])
        # Router 2 has no other path then, since (1 0) is not permitted.
        self.assertIn("paths left out because each has at most 1: 1\n", done.err)

    def test_all_paths_in_the_order_of_their_weights(self) -> None:
        weights = {(a, b): (7 * a * a + 5 * b) % 11 + a / 4 for b in range(6) for a in range(b)}
        links = (f"edge [ source {a} target {b} weight {w} ]\n" for (a, b), w in weights.items())
        nodes = (f"node [ id {node} ]\n" for node in range(6))
        text = "".join(["graph [\n", *nodes, *links, "]\n"])
        out = self.make("--destination", 0, "--paths", 200, stdin=text).out

        def order(path: tuple[int, ...]) -> tuple[float, int, tuple[int, ...]]:
            hops = (weights[min(hop), max(hop)] for hop in zip(path, path[1:]))
            return sum(hops), len(path), path

        for router in range(1, 6):
            others = [node for node in range(1, 6) if node != router]
            between = (part for count in range(5) for part in permutations(others, count))
            wanted = sorted(((router, *part, 0) for part in between), key=order)
            found = re.findall(rf"^path {router} (.*)$", out, re.M)
            self.assertEqual(found, [" ".join(map(str, path)) for path in wanted])

    def test_what_has_no_path_is_left_out(self) -> None:
        alone = GML.replace('id 2\n    label "7"', 'id 2\n    label "7"\n  ]\n  node [\n    id 3')
        done = self.make("--destination", "Vienna", stdin=alone)
        self.assertEqual(done.out, GML_CASE)
        self.assertIn("nodes left out that no path leads from: 1\n", done.err)

    def test_what_is_bad_is_named(self) -> None:
        for text, edits in (GML, BAD_GML), (GRAPHML, BAD_GRAPHML):
            for old, new, why in edits:
                with self.subTest(new, why=why):
                    self.assertIn(old, text)
                    node = "0" if text is GML else "n0"
                    done = import_tool("--destination", node, stdin=text.replace(old, new, 1))
                    self.assert_refused(done, "standard input: refused")
                    self.assertIn(why, done.err)

    def test_a_directed_network_has_two_delays(self) -> None:
        done = self.make("--destination", "A", stdin=DIRECTED)
        self.assertEqual(done.out, DIRECTED_CASE)
        self.assertIn(
            "links that lead in one direction alone, and have its delay in both: 2\n", done.err
        )
        even = DIRECTED.replace("directed 1", "directed 0").replace("delay 7", "delay 3")
        done = self.make("--destination", "A", stdin=even)
        self.assertTrue(done.out.startswith("spp 1\n"), done.out)
        self.assertNotIn("in one direction", done.err)

    def test_labels_groups_and_defaults_of_yed(self) -> None:
        with tempfile.TemporaryDirectory() as folder:
            names = Path(folder) / "names"
            done = self.make("--destination", "Wien", "--map", names, stdin=YED)
            self.assertEqual(names.read_text(), "0 Wien\n1 Graz\n2 n1\n")
        # Of the two links to Graz, one has the default of 4.
        self.assertEqual(re.findall("link.*", done.out), ["link 0 1 2", "link 0 2 4"])
        self.assertIn("a lighter or equal one: 1\n", done.err)

    def test_encodings(self) -> None:
        wanted = self.make("--destination", "Vienna", stdin=GML).out
        letters = GML.replace("M&#252;nchen", "München")
        for text in (
            letters.encode(),
            b"\xef\xbb\xbf" + letters.encode(),
            letters.encode("utf-16"),
            letters.encode("latin-1"),
            letters.replace("\n", "\r\n").encode(),
            letters.replace("München", "Mün\nchen").encode(),
        ):
            with self.subTest(text[:20]):
                done = self.make("--destination", "Vienna", stdin=text)
                self.assertEqual(done.out, wanted)
        drawn = GRAPHML.replace(">B<", ">Köln<")
        for name in "utf-8", "utf-16", "iso-8859-1", "iso-8859-15", "windows-1252":
            with self.subTest(name):
                text = drawn.replace("utf-8", name).encode(name)
                self.assertEqual(
                    self.make("--destination", "Köln", stdin=text).out,
                    self.make("--destination", "B", stdin=GRAPHML).out,
                )

    def test_a_text_without_the_namespace(self) -> None:
        text = re.sub(' xmlns="[^"]*"', "", GRAPHML)
        self.assertEqual(
            self.make("--destination", "B", stdin=text).out,
            self.make("--destination", "B", stdin=GRAPHML).out,
        )

    def test_a_node_has_at_most_64_neighbours(self) -> None:
        star = "graph [\n" + "".join(f"node [ id {node} ]\n" for node in range(66))
        star += "".join(f"edge [ source 0 target {node} ]\n" for node in range(1, 66)) + "]\n"
        self.assert_refused(
            import_tool("--destination", 0, stdin=star),
            "refused node '0': it has more than 64 neighbours",
        )

    def test_a_case_has_at_most_1024_routers(self) -> None:
        chain = "graph [\n" + "".join(f"node [ id {node} ]\n" for node in range(1025))
        chain += "".join(f"edge [ source {n} target {n + 1} ]\n" for n in range(1024)) + "]\n"
        self.assert_refused(
            import_tool("--destination", 0, stdin=chain),
            "a path leads from 1,024 nodes, and a case has 1,024 routers at most",
        )

    def test_options_that_the_network_does_not_meet(self) -> None:
        for words, why in (
            (["--destination", "Bonn"], "refused option --destination: 0 nodes are called 'Bonn'"),
            (["--destination", "A"], "refused option --destination: 2 nodes are called 'A'"),
            (
                ["--destination", "B", "--delay", "time"],
                "refused option --delay: no link has the attribute time",
            ),
            (
                ["--destination", "B", "--weight", "time"],
                "refused option --weight: no link has the attribute time",
            ),
        ):
            with self.subTest(words):
                self.assert_refused(import_tool(*words, stdin=GRAPHML), why)
        self.assertEqual(
            import_tool("--destination", "B", "--per-tick", "0", stdin=GRAPHML).status, 3
        )

    def test_no_entities_of_ones_own(self) -> None:
        text = GRAPHML.replace("<graphml", '<!DOCTYPE graphml [<!ENTITY a "b">]><graphml', 1)
        self.assert_refused(
            import_tool("--destination", "B", stdin=text), "entities of one's own are not taken"
        )


class ImportWithoutPackages(ToolTest):
    def test_it_says_how_to_get_them(self) -> None:
        done = tool("import", "--destination", 0, stdin=GML)
        self.assertEqual((done.status, done.out), (2, ""))
        self.assertIn("import: stopped packages: ", done.err)
        self.assertIn("apt-get install python3-networkx python3-defusedxml\n", done.err)
        self.assertIn("example", self.assert_done(tool("import", "--help")))

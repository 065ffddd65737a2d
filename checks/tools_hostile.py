"""Tests of the tools on inputs that are made to do harm.

Each is refused, soon and with little memory.
"""
from __future__ import annotations

import bz2
import gzip
import subprocess
import sys
import tempfile
from pathlib import Path

from tools_common import (
    CASES,
    NETWORK_PYTHON,
    TOP,
    Done,
    ToolTest,
    needs_networkx,
    run_within,
    tool,
)

MIB = 1 << 20
# Limits on a tool's processor time and memory, those of the machine's other work let aside.
SECONDS = 120
MEBIBYTES = 300
# networkx alone takes some of it.
NETWORK_MEBIBYTES = 900

GRAPHML = b'<graphml xmlns="http://graphml.graphdrawing.org/xmlns"><graph>'
END = b"</graph></graphml>"


class Relationships(ToolTest):
    def run_tool(self, *words: object, stdin: bytes) -> Done:
        words = (TOP / "tools/relationships", "--destination", 1, *words)
        return run_within(SECONDS, MEBIBYTES, sys.executable, "-S", *words, stdin=stdin)

    def test_a_line_has_a_limit(self) -> None:
        for pack in gzip.compress, bz2.compress, bytes:
            with self.subTest(pack):
                done = self.run_tool(stdin=pack(b"1|2|0\n" + b"x" * 100 * MIB))
                self.assert_refused(done, "refused line 2: it has more than 1,048,576 bytes\n")

    def test_the_unpacked_size_has_a_limit_that_can_be_raised(self) -> None:
        empty = gzip.compress(b"\n" * 40 * MIB)
        done = self.run_tool(stdin=empty)
        self.assert_refused(done, "refused line 33554433: the input has more than 32 MiB, unpacked")
        self.assertIn("--size-limit", done.err)
        some = b"1|2|0\n" + b"#" * (MIB - 7) + b"\n"
        self.assert_done(self.run_tool("--size-limit", 1, stdin=some))
        self.assert_refused(
            self.run_tool("--size-limit", 1, stdin=some + b"\n"),
            "refused line 3: the input has more than 1 MiB, unpacked",
        )
        self.assert_done(self.run_tool("--size-limit", 2, stdin=some + b"\n"))

    def test_a_message_quotes_at_most_80_characters(self) -> None:
        for text in (
            b"1|" + b"2" * 1_000_000 + b"|0\n",
            b"1|2|" + b"\x00" * 1_000_000 + b"\n",
        ):
            done = self.run_tool(stdin=text)
            self.assert_refused(done, "'.. ")
            self.assertLess(len(done.err), 500)
        self.assertIn(f"'{80 * '2'}'..", self.run_tool(stdin=b"1|" + b"2" * 100 + b"|0\n").err)

    def test_fields_of_blanks(self) -> None:
        done = self.run_tool(stdin=b"1|2|0|" + b" " * 1_000_000 + b"|\n")
        self.assert_refused(done, "there are 5 fields where 3 or 4 are wanted")


@needs_networkx
class Import(ToolTest):
    def run_tool(self, *words: object, stdin: bytes) -> Done:
        words = (TOP / "tools/import", "--destination", 1, *words)
        return run_within(SECONDS, NETWORK_MEBIBYTES, NETWORK_PYTHON, *words, stdin=stdin)

    def test_gml_that_is_nested_deep(self) -> None:
        for depth in 30_000, 1_000_000:
            for end in b"", b"] " * depth:
                done = self.run_tool(stdin=b"graph [ " + b"a [ " * depth + end)
                self.assert_refused(done, "refused: too much stands within one another\n")

    def test_xml_that_is_nested_deep(self) -> None:
        for tag in b"a", b'node id="x" yfiles.foldertype="group"><graph':
            depth = 500_000 if tag == b"a" else 20_000
            ends = b"".join(b"</%s>" % part.split(b" ")[0] for part in reversed(tag.split(b"><")))
            done = self.run_tool(stdin=GRAPHML + b"<%s>" % tag * depth + ends * depth + END)
            self.assertEqual((done.status, done.out), (1, ""), done.err)
            self.assertLess(len(done.err), 500)

    def test_data_over_many_lines(self) -> None:
        key = b'<key id="k" for="node" attr.name="label" attr.type="string"/><graph>'
        data = b'<node id="1"><data key="k">' + b"x\n" * 3_000_000 + b"</data></node>"
        done = self.run_tool(stdin=GRAPHML.replace(b"<graph>", key) + data + END)
        self.assertEqual(self.assert_done(done), "spp 1\nnodes 1\nend\n")

    def test_many_nodes_and_links(self) -> None:
        nodes = b"".join(b'<node id="%d"/>' % number for number in range(300_000))
        done = self.run_tool(stdin=GRAPHML + nodes + END)
        self.assertEqual((done.status, done.out), (0, "spp 1\nnodes 1\nend\n"), done.err)
        links = b"edge [ source 1 target 2 ]\n" * 200_000
        done = self.run_tool(stdin=b"graph [ node [ id 1 ] node [ id 2 ]\n" + links + b"]")
        self.assertIn("a lighter or equal one: 199,999\n", done.err)

    def test_a_full_mesh_with_as_many_paths_as_can_be(self) -> None:
        nodes = b"".join(b"node [ id %d ]\n" % node for node in range(1, 66))
        links = b"".join(
            b"edge [ source %d target %d ]\n" % (a, b) for b in range(2, 66) for a in range(1, b)
        )
        done = self.run_tool("--paths", 200, stdin=b"graph [\n" + nodes + links + b"]\n")
        self.assertEqual(done.out.count("path "), 64 * 200)

    def test_entities(self) -> None:
        entities = b'<!ENTITY a "aaaaaaaaaa">' + b"".join(
            b'<!ENTITY %c "%s">' % (letter + 1, b"&%c;" % letter * 10) for letter in range(97, 120)
        )
        for kind in entities, b'<!ENTITY a SYSTEM "file:///etc/passwd">':
            done = self.run_tool(stdin=b"<!DOCTYPE x [" + kind + b"]>" + GRAPHML + b"&a;" + END)
            self.assert_refused(done, "entities of one's own are not taken")

    def test_the_size_has_a_limit_that_can_be_raised(self) -> None:
        bomb = gzip.compress(b" " * 500 * MIB)
        done = self.run_tool(stdin=bomb)
        self.assert_refused(
            done, "the input has more than 8 MiB, unpacked: --size-limit allows more"
        )
        text = b"graph [ node [ id 1 ] ]\n" + b"#" * 9 * MIB + b"\n"
        self.assert_refused(self.run_tool(stdin=text), "more than 8 MiB")
        self.assertEqual(self.run_tool("--size-limit", 10, stdin=text).out, "spp 1\nnodes 1\nend\n")

    def test_words_of_others_are_cut(self) -> None:
        for text in b"graph [ a %" + b"x" * MIB, b"graph [ node [ id " + b"1" * MIB + b" ] ]":
            done = self.run_tool(stdin=text)
            self.assertEqual((done.status, done.out), (1, ""), done.err)
            self.assertLess(len(done.err), 500)


class Drawing(ToolTest):
    def test_inputs_without_end(self) -> None:
        case = CASES / "disagree.spp"
        for name, words, size in (
            ("draw", ["/dev/zero"], 64),
            ("timeline", [case, "/dev/zero"], 256),
            ("page", [case, "/dev/zero"], 256),
        ):
            with self.subTest(words):
                line = [sys.executable, "-S", TOP / "tools" / name, *words]
                done = run_within(SECONDS, NETWORK_MEBIBYTES, *line)
                self.assert_refused(done, f"/dev/zero: refused: it has more than {size} MiB\n")


class Map(ToolTest):
    def test_the_input_is_not_written_over(self) -> None:
        text = "1|2|0\n"
        with tempfile.TemporaryDirectory() as folder:
            file, link = Path(folder) / "input", Path(folder) / "link"
            file.write_text(text)
            link.symlink_to(file)
            for name in file, link, Path(folder) / "." / "input":
                words = ["--destination", 1, "--map", name]
                for kind in "relationships", "import":
                    done = tool(kind, *words, file)
                    self.assert_refused(done, f"refused option --map: {name} is the input\n")
                with open(file, "rb") as source:
                    done = self.redirected(words, stdin=source)
                self.assert_refused(done, f"refused option --map: {name} is the input\n")
            self.assertEqual(file.read_text(), text)

    def test_what_standard_output_writes_is_not_written_over(self) -> None:
        with tempfile.TemporaryDirectory() as folder:
            file = Path(folder) / "case"
            with open(file, "wb") as output:
                done = self.redirected(["--destination", 1, "--map", file], stdout=output)
            self.assertEqual(done.status, 1)
            self.assertIn("is where standard output goes", done.err)

    def redirected(self, words: list[object], **streams: object) -> Done:
        how = {"stdin": subprocess.DEVNULL, "stdout": subprocess.PIPE} | streams
        line = [sys.executable, "-S", TOP / "tools/relationships", *words]
        done = subprocess.run([*map(str, line)], stderr=subprocess.PIPE, check=False, **how)
        return Done(done.returncode, (done.stdout or b"").decode(), done.stderr.decode())

"""Tests of what all tools do: help, statuses, and how a case that is refused is told."""
from __future__ import annotations

import io
import os
import subprocess
from contextlib import redirect_stderr

from tools_common import CASES, TOP, ToolTest, run, tool, twarp
from twarp_tools import command


class EveryTool(ToolTest):
    NAMES = ("relationships", "import", "draw", "timeline", "page", "sweep", "pictures", "manual")

    def test_help_has_an_example(self) -> None:
        for name in self.NAMES:
            with self.subTest(name):
                out = self.assert_done(run(TOP / "tools" / name, "--help"))
                self.assertIn(f"tools/{name}", out)
                self.assertIn("example", out)

    def test_statuses(self) -> None:
        line, file = {}, TOP / "no such file"
        needed = {
            "relationships": ["--destination", "1"],
            "draw": [],
            "timeline": [],
            "page": [],
            "sweep": ["--delays", "1", "--stop", "1"],
        }
        for name, words in needed.items():
            line[name] = tool(name, "--no-such-option").status, tool(name, *words, file).status
        self.assertEqual(line, dict.fromkeys(line, (3, 2)))

    def test_a_full_device_stops_the_tool(self) -> None:
        with open("/dev/full", "wb") as full:
            done = subprocess.run(
                [TOP / "tools/draw", CASES / "disagree.spp"],
                stdout=full,
                stderr=subprocess.PIPE,
                check=False,
            )
        self.assertEqual(done.returncode, 2)
        self.assertEqual(done.stderr, b"draw: stopped device: No space left on device\n")

    def test_a_pipe_that_nobody_reads_stops_the_tool_without_a_word(self) -> None:
        here, there = os.pipe()
        os.close(here)
        with open(there, "wb") as pipe:
            words = [TOP / "tools/draw", CASES / "disagree.spp"]
            done = subprocess.run(words, stdout=pipe, stderr=subprocess.PIPE, check=False)
        self.assertEqual((done.returncode, done.stderr), (2, b""))

    def test_a_file_that_is_not_there_is_named(self) -> None:
        told = "draw: stopped device: no-such-file: No such file or directory\n"
        self.assertEqual(tool("draw", "no-such-file").err, told)

    def test_an_interrupt_is_told(self) -> None:
        def interrupted() -> None:
            raise KeyboardInterrupt

        with redirect_stderr(io.StringIO()) as told:
            self.assertEqual(command.tool(interrupted)(), 2)
        self.assertTrue(told.getvalue().endswith(": stopped interrupt\n"))


# The beginning of a case, also in version 2, and cases with what is repeated up to a limit: a star,
# a mesh and a chain of links.
CASE = "spp 1\nnodes 3\nlink 0 1 1\nlink 1 2 1\n"
SECOND = "spp 2\nnodes 3\nlink 0 1 1 2\nlink 1 2 1 1\n"
STAR = "spp 1\nnodes 80\n" + "".join(f"link 0 {node} 1\n" for node in range(1, 65))
MESH = "spp 1\nnodes 17\n" + "".join(f"link {a} {b} 1\n" for b in range(17) for a in range(b))
CHAIN = "spp 1\nnodes 33\n" + "".join(f"link {node} {node + 1} 1\n" for node in range(32))
MESH_PATHS = [f"path 1 1 {a} {b} 0\n" for a in range(2, 17) for b in range(2, 17) if a != b]
CHAIN_PATH = " ".join(str(node) for node in range(32, -1, -1))
# Each fault that a case can have, with its line and a text that has it.
BAD_CASES = [
    ("X1 Byte", 3, "spp 1\nnodes 3\nlink 0 1 A\nend\n"),
    ("X2 Header", 1, "spp 3\nnodes 3\nend\n"),
    ("X3 Word", 5, CASE + "links 0 2 1\nend\n"),
    ("X3 Word", 5, CASE + "link 0 2\nend\n"),
    ("X3 Word", 5, CASE + "link 0 2  1\nend\n"),
    ("X3 Word", 5, CASE + "\nend\n"),
    ("X4 Number", 5, CASE + "link 0 2 01\nend\n"),
    ("X5 Order", 2, "spp 1\nlink 0 1 1\nend\n"),
    ("X5 Order", 5, CASE + "nodes 3\nend\n"),
    ("X5 Order", 6, CASE + "path 1 1 0\nlink 0 2 1\nend\n"),
    ("X6 End", 5, CASE),
    ("X6 End", 5, CASE + "end"),
    ("X6 End", 6, CASE + "end\nend\n"),
    ("X6 End", 1, ""),
    ("I1 Range", 2, "spp 1\nnodes 1025\nend\n"),
    ("I1 Range", 5, CASE + "link 0 3 1\nend\n"),
    ("I2 SelfLink", 5, CASE + "link 2 2 1\nend\n"),
    ("I3 TwiceLink", 5, CASE + "link 2 1 1\nend\n"),
    ("I4 Delay", 5, CASE + "link 0 2 1000001\nend\n"),
    ("I5 PathOwner", 5, CASE + "path 2 1 0\nend\n"),
    ("I6 PathEnd", 5, CASE + "path 2 2 1\nend\n"),
    ("I7 PathRepeats", 5, CASE + "path 2 2 1 2 1 0\nend\n"),
    ("I8 PathNoLink", 5, CASE + "path 2 2 0\nend\n"),
    ("I9 TwicePath", 6, CASE + "path 1 1 0\npath 1 1 0\nend\n"),
    ("I10 TooMany", 67, STAR + "link 65 0 1\nend\n"),
    ("I10 TooMany", 339, MESH + "".join(MESH_PATHS)),
    ("I10 TooMany", 35, CHAIN + f"path 32 {CHAIN_PATH}\nend\n"),
    ("I10 TooMany", 4101, CASE + "fail 1 0 1\n" * 4097),
    ("I11 NoSuchLink", 5, CASE + "fail 1 0 2\nend\n"),
    ("I12 NoSuchPlace", 5, CASE + "swap 1 1 1 1\nend\n"),
    ("I13 Time", 5, CASE + "restore 1000000001 1 2\nend\n"),
    ("X3 Word", 5, CASE + "link 0 2 1 1\nend\n"),
    ("X3 Word", 5, CASE + "forbid 1 1 1\nend\n"),
    ("X3 Word", 5, CASE + "allow 1 1 1\nend\n"),
    ("X3 Word", 5, SECOND + "link 0 2 1\nend\n"),
    ("X3 Word", 5, SECOND + "forbid 1 1\nend\n"),
    ("X4 Number", 5, SECOND + "allow 1 1 01\nend\n"),
    ("X5 Order", 6, SECOND + "path 1 1 0\nlink 0 2 1 1\nend\n"),
    ("I1 Range", 5, SECOND + "forbid 1 3 1\nend\n"),
    ("I3 TwiceLink", 5, SECOND + "link 2 1 1 1\nend\n"),
    ("I4 Delay", 5, SECOND + "link 0 2 0 1\nend\n"),
    ("I4 Delay", 5, SECOND + "link 0 2 1 1000001\nend\n"),
    ("I10 TooMany", 4102, SECOND + "path 1 1 0\n" + "forbid 1 1 1\n" * 4097),
    ("I12 NoSuchPlace", 5, SECOND + "forbid 1 0 1\nend\n"),
    ("I12 NoSuchPlace", 6, SECOND + "path 1 1 0\nallow 1 1 2\nend\n"),
    ("I13 Time", 6, SECOND + "path 1 1 0\nforbid 1000000001 1 1\nend\n"),
]


class Cases(ToolTest):
    def test_a_bad_line_is_named_as_twarp_names_it(self) -> None:
        for fault, line, text in BAD_CASES:
            with self.subTest(fault, text=text[-40:]):
                self.assertEqual(twarp("check", stdin=text), f"refused line {line} {fault}\n")
                self.assert_refused(
                    tool("draw", stdin=text), f"standard input: refused line {line} {fault}\n"
                )

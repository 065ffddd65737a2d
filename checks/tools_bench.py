"""Tests of bench/bench.py compare, on programs that stand in for twarp and the plain program."""
from __future__ import annotations

import argparse
import io
import re
import sys
import tempfile
from contextlib import redirect_stdout
from pathlib import Path

from tools_common import TOP, Done, ToolTest, run

# These are found by what the line above imports.
import compare
from workloads import FOR_GROWTH, FOR_RUN, FOR_SEQ, Workload, makers_in

# A report that grows with nothing; what is behind the shebang answers each command line.
PROGRAM = """\
#!/bin/sh
cat >/dev/null
echo "router 0 sent 1 handled 7 dropped 0 changed 1 rib (0)"
echo "router 1 sent 1 handled 5 dropped 0 changed 1 rib (1 0)"
"""
# The makers of the plain program, as small as can be.
GEN = """\
def maker(**words):
    return "spp 1\\nnodes 1\\nend\\n"

MAKERS = {name: maker for name in ("gao-rexford", "disputes", "clique", "grid", "dense", "max")}
"""


class Compare(ToolTest):
    def setUp(self) -> None:
        room = tempfile.TemporaryDirectory()
        self.addCleanup(room.cleanup)
        self.folder = Path(room.name)
        self.program = self.write("twarp", PROGRAM)

    def write(self, name: str, text: str) -> Path:
        file = self.folder / name
        file.write_text(text)
        file.chmod(0o755)
        return file

    def compare(self, *words: object) -> Done:
        line = ["compare", "--program", self.program, "--turns", 2, "--short", *words]
        return run(sys.executable, TOP / "bench/bench.py", *line)

    def test_growth_is_told(self) -> None:
        out = self.assert_done(self.compare("growth", "--only", "gadgets"))
        self.assertRegex(out, r"^== growth: .*, [0-9]+ processors, .*, nice -?[0-9]+, load ")
        rows = re.findall(r"^\|gadgets\|(.*)\|$", out, re.M)
        self.assertEqual([row.split("|")[:2] for row in rows], [["50", "12"], ["486", "12"]])
        for row in rows:
            self.assertRegex(row, r"\|[0-9.]+ \([0-9.]+, [0-9]+%\)\|[0-9.]+\|[0-9.]+$")
        self.assertRegex(out, r"\n[0-9-]{10}, 2 turns: ")

    def test_run_is_told_beside_seq_and_beside_busy_processes(self) -> None:
        words = ["--beside", 1, "--only", "hierarchy"]
        out = self.assert_done(self.compare("run", "busy", *words))
        row = r"^\|hierarchy\|[0-9.]+ \([0-9.]+, [0-9]+%\)" + r"\|[0-9.]+ \([0-9.]+\)" * 4
        self.assertEqual(len(re.findall(row, out, re.M)), 2, out)
        self.assertIn("|Case|`seq`, s|`--workers 1`|`--workers 2`|`--workers 4`|left out|MB", out)
        self.assertIn(", beside 1 busy processes.\n", out)

    def test_another_report_is_refused(self) -> None:
        case = 'case "$*" in *"--workers 2"*) echo more ;; esac\n'
        self.program = self.write("other", PROGRAM + case)
        done = self.compare("run", "--only", "hierarchy")
        self.assertEqual(done.status, 1)
        self.assertIn(
            "run --stop 131072 --workers 2 writes another report of hierarchy\n", done.err
        )

    def test_a_program_that_fails_is_told(self) -> None:
        self.program = self.write("bad", "#!/bin/sh\necho stopped memory >&2\nexit 2\n")
        done = self.compare("growth", "--only", "hierarchy")
        self.assertEqual(done.status, 1)
        self.assertIn("ends with status 2: stopped memory\n", done.err)

    def bench(self, **words: object) -> compare.Bench:
        asked = argparse.Namespace(
            program=str(self.program), turns=2, beside=1, only="", short=True, **words
        )
        return compare.Bench(self.folder, asked)

    def test_seq_is_told_beside_plain_rust(self) -> None:
        self.write("gen.py", GEN)
        bench = self.bench(peer=self.folder, plain=str(self.write("plain", PROGRAM)))
        with redirect_stdout(io.StringIO()) as told:
            made = compare.seq_table(bench)
        rows = [line for line in made.splitlines()[2:] if line]
        self.assertEqual(len(rows), sum(workload.is_short for workload in FOR_SEQ))
        for row in rows:
            self.assertEqual(len(row.strip("|").split("|")), 8)
            self.assertIn("|12|", row)
        self.assertRegex(told.getvalue(), r"side by side: median [0-9.]+ s, least [0-9.]+, spread ")
        self.assertFalse((self.folder / "__pycache__").exists())

    def test_what_a_sample_tells(self) -> None:
        # The quartiles of 1, 2, 3, 4, 10 are 2, 3 and 4.
        sample = compare.Sample([4.0, 1.0, 10.0, 3.0, 2.0])
        self.assertEqual((sample.median, sample.least, sample.spread), (3.0, 1.0, 2 / 3))
        self.assertEqual(sample.cell(), "3.000 (1.000, 67%)")
        self.assertEqual(sample.beside(compare.Sample([2.0])), "1.50 (0.50)")

    def test_a_table_takes_its_place_alone(self) -> None:
        page = compare.README.read_text()
        for name in compare.TABLES:
            first = compare.with_table(page, name, "|one|\n")
            again = compare.with_table(first, name, "|other|\n")
            self.assertEqual(again, compare.with_table(page, name, "|other|\n"))
            self.assertEqual(again.count("|other|"), 1)
            self.assertEqual(re.sub(r"\n\|other\|\n\n", "", again).count("<!--"), 2 * len(compare.TABLES))

    def test_each_case_has_one_name_and_its_makers(self) -> None:
        for table in FOR_SEQ, FOR_RUN, FOR_GROWTH:
            names = [(workload.name, workload.options) for workload in table]
            self.assertEqual(len(names), len({*names}))
        self.write("gen.py", GEN)
        gen = makers_in(self.folder)
        assert gen is not None, "it was just written"
        plain = [workload for workload in FOR_SEQ if workload.is_of_plain_program]
        self.assertEqual({workload.text(gen) for workload in plain}, {"spp 1\nnodes 1\nend\n"})
        self.assertIsNone(makers_in(self.folder / "nowhere"))
        self.assertIsInstance(FOR_RUN[0], Workload)

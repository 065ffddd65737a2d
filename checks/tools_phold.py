"""Tests of what ./install, the man page and the completions make of twarp-phold."""
from __future__ import annotations

import re
import tempfile
from pathlib import Path

from tools_common import Done, ToolTest, need_phold, need_program, run, tool
from tools_install import completed, files_of, install

# The options of twarp-phold seq, from docs/FORMATS.md; twarp-phold run has two more.
OPTIONS = {
    "--processes", "--population", "--lookahead", "--longest", "--remote", "--seed", "--stop", "--stats"
}


class Installed(ToolTest):
    FILES = (
        "bin/twarp-phold",
        "share/man/man1/twarp-phold.1",
        "share/bash-completion/completions/twarp-phold",
        "share/zsh/site-functions/_twarp-phold",
        "share/fish/vendor_completions.d/twarp-phold.fish",
    )

    def setUp(self) -> None:
        room = tempfile.TemporaryDirectory()
        self.addCleanup(room.cleanup)
        self.folder = Path(room.name)

    def test_it_is_there_and_goes_again(self) -> None:
        prefix = self.folder / "pre fix"
        before = files_of(self.folder)
        self.assert_done(install("--prefix", prefix, "--program", need_program(), "--phold", need_phold()))
        for name in self.FILES:
            self.assertTrue((prefix / name).is_file(), name)
        told = self.assert_done(run(prefix / "bin/twarp-phold", "seq", "--processes", 2, "--stop", 10))
        self.assertRegex(told, r"\Aphold-report 1\nstop 10\nprocess 0 handled \d+\nprocess 1 handled \d+\nchecksum \d+\n\Z")
        self.assert_done(install("--prefix", prefix, "--uninstall"))
        self.assertEqual(files_of(self.folder), before)

    def test_the_one_beside_is_taken_or_none(self) -> None:
        for name, program in ("twarp", need_program()), ("twarp-phold", need_phold()):
            (self.folder / name).symlink_to(program)
        words = ["--prefix", self.folder / "other", "--program", self.folder / "twarp"]
        self.assert_done(install(*words))
        self.assertTrue((self.folder / "other/bin/twarp-phold").exists())
        (self.folder / "twarp-phold").unlink()
        self.assertIn("no twarp-phold", self.assert_done(install(*words)))
        self.assertFalse((self.folder / "other/bin/twarp-phold").exists())
        self.assert_refused(install(*words, "--phold", self.folder), "is no program")

    def manual(self, kind: str) -> Done:
        return tool("manual", "--program", need_phold(), kind)

    def test_the_man_page_says_what_the_help_says(self) -> None:
        page = self.assert_done(self.manual("man"))
        self.assertRegex(page, r"^\.TH TWARP-PHOLD 1 ")
        shown = re.sub(r"\\f[BRI]|\\&", "", page).replace("\\-", "-").replace("\\e", "\\")
        for words in ["--help"], ["seq", "--help"], ["run", "--help"]:
            for line in run(need_phold(), *words).out.splitlines():
                if not re.match(r"(Usage: |Commands:|Options:|Exit status:|  |-h)", line):
                    with self.subTest(words, line=line):
                        # The first line stands in NAME, with a small letter.
                        self.assertIn(re.sub("`([^`]*)`", r"\1", line).rstrip(".")[1:], shown)
        for command in "seq", "run":
            self.assertRegex(page, rf"(?m)^\.SS twarp\\-phold {command}")

    def test_completions(self) -> None:
        script = self.assert_done(self.manual("bash"))
        self.assertGreaterEqual(completed(script, "twarp-phold "), {"seq", "run", "--help", "--version"})
        self.assertGreaterEqual(completed(script, "twarp-phold seq "), OPTIONS)
        self.assertGreaterEqual(completed(script, "twarp-phold run "), OPTIONS | {"--workers", "--rounds"})
        self.assertEqual(completed(script, "twarp-phold seq --pop"), {"--population"})
        for shell in "zsh", "fish":
            self.assertRegex(self.assert_done(self.manual(shell)), r"\bpopulation\b")

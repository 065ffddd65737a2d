"""Tests of ./install, the man page and the completions."""
from __future__ import annotations

import os
import pty
import re
import select
import shutil
import stat
import subprocess
import sys
import tempfile
import unittest
from pathlib import Path
from typing import Any
from unittest import mock

import tools_common
from tools_common import CASES, TOP, Done, ToolTest, run, tool

# The commands and options of twarp, from docs/FORMATS.md.
OPTIONS = {
    "check": set(),
    "seq": {"--stop", "--every", "--log", "--progress", "--stats"},
    "run": {"--stop", "--every", "--log", "--workers", "--batch", "--lazy", "--blocks", "--rotate", "--progress", "--stats"},
    "trail": {"--router", "--stop", "--keep"},
    "replay": {"--stop", "--workers", "--lazy"},
    "upgrade": set(),
}
HELP = {"-h", "--help"}
# How long a shell may take for a key.
SECONDS = 300
TOOLS = ("relationships", "import", "draw", "timeline", "page", "sweep")
SHELLS = ("bash", "zsh", "fish")
FILES = (
    "bin/twarp",
    *(f"bin/twarp-{name}" for name in TOOLS),
    "share/man/man1/twarp.1",
    "share/man/man5/twarp.5",
    "share/doc/twarp/README.md",
    "share/doc/twarp/docs/TUTORIAL.md",
    "share/doc/twarp/docs/pictures/disagree.svg",
    "share/doc/twarp/cases/disagree.spp",
    "share/bash-completion/completions/twarp",
    "share/zsh/site-functions/_twarp",
    "share/fish/vendor_completions.d/twarp.fish",
)


def manual(kind: str) -> Done:
    return tool("manual", "--program", tools_common.need_program(), kind)


def install(*words: object, **how: Any) -> Done:
    return run(TOP / "install", *words, **how)


def files_of(folder: Path) -> dict[Path, bytes]:
    """The files and folders below a folder, with what the files hold."""
    return {
        found: found.read_bytes() if found.is_file() else b""
        for found in sorted(folder.rglob("*"))
    }


class Installed(ToolTest):
    def setUp(self) -> None:
        room = tempfile.TemporaryDirectory()
        self.addCleanup(room.cleanup)
        self.folder = Path(room.name)
        # A folder with a space in its name, which is not there yet.
        self.prefix = self.folder / "pre fix"

    def install(self, **how: Any) -> None:
        program = tools_common.need_program()
        done = install("--prefix", self.prefix, "--program", program, **how)
        self.assertIn("twarp is installed: ", self.assert_done(done))

    def test_what_is_there_works(self) -> None:
        self.install()
        for name in FILES:
            with self.subTest(name):
                self.assertTrue((self.prefix / name).is_file())
        bin_ = self.prefix / "bin"
        case = CASES / "disagree.spp"
        report = self.assert_done(
            run(bin_ / "twarp", "seq", "--stop", 20, "--log", stdin=case.read_text())
        )
        svg = self.assert_done(run(bin_ / "twarp-timeline", case, stdin=report))
        self.assertIn("disagree: verdict quiet 2", svg)
        page = self.assert_done(run(bin_ / "twarp-page", case, stdin=report))
        self.assertIn("</html>", page)
        for name in TOOLS:
            told = self.assert_done(run(bin_ / f"twarp-{name}", "--help"))
            self.assertIn(f"usage: twarp-{name} ", told)
            self.assertRegex(told, rf"examples?:\n.*\btwarp-{name} ")

    def test_the_program_beside_is_taken_before_others(self) -> None:
        self.install()
        other = self.folder / "bin"
        other.mkdir()
        (other / "twarp").write_text("#!/bin/sh\nexit 2\n")
        (other / "twarp").chmod(0o755)
        environment = {name: word for name, word in os.environ.items() if name != "TWARP"}
        environment |= {"PATH": f"{other}:{os.environ['PATH']}", "PYTHONPATH": str(self.prefix / "lib/twarp")}
        words = ["--delays", "1", "--stop", "20", "--runs", "1", "--quiet", CASES / "disagree.spp"]
        with mock.patch.dict(os.environ, environment, clear=True):
            out = self.assert_done(run(self.prefix / "bin/twarp-sweep", *words))
            self.assertRegex(out.splitlines()[1], "^1,1,1,1,open,")
            found = run(sys.executable, "-c", "import twarp.program; print(twarp.program.need())")
        self.assertEqual(self.assert_done(found), f"{(self.prefix / 'bin/twarp').resolve()}\n")

    def test_uninstalled_all_is_as_it_was(self) -> None:
        (self.prefix / "bin").mkdir(parents=True)
        (self.prefix / "bin/other").write_text("other\n")
        before = files_of(self.folder)
        self.install()
        # What Python keeps beside the modules goes too.
        self.assert_done(run(self.prefix / "bin/twarp-draw", "--help"))
        self.install()
        self.assert_done(install("--prefix", self.prefix, "--uninstall"))
        self.assertEqual(files_of(self.folder), before)

    def test_a_new_folder_is_taken_away(self) -> None:
        self.install()
        self.assert_done(install("--prefix", self.prefix, "--uninstall"))
        self.assertEqual(files_of(self.folder), {})
        self.assert_refused(
            install("--prefix", self.prefix, "--uninstall"), "no twarp is installed in"
        )

    def test_folders_above_are_taken_away_too(self) -> None:
        self.prefix = self.folder / "a/b/c"
        self.install()
        # A further installation knows of the folders that the first one made.
        (self.prefix / "bin/other").write_text("other\n")
        self.install()
        (self.prefix / "bin/other").unlink()
        self.assert_done(install("--prefix", f"{self.prefix}//", "--uninstall"))
        self.assertEqual(files_of(self.folder), {})

    def test_below_another_root(self) -> None:
        stage, prefix = self.folder / "stage", self.folder / "usr/local"
        how = {"env": os.environ | {"DESTDIR": str(stage)}}
        program = tools_common.need_program()
        before = files_of(self.folder)
        out = self.assert_done(install("--prefix", prefix, "--program", program, **how))
        self.assertIn(f"{stage}{prefix}/bin/twarp", out)
        for name in FILES:
            self.assertTrue(Path(f"{stage}{prefix}/{name}").is_file(), name)
        self.assert_done(install("--prefix", f"{prefix}/", "--uninstall", **how))
        self.assertEqual(files_of(self.folder), before)

    def test_what_was_made_below_another_root_is_moved(self) -> None:
        stage = self.folder / "stage"
        self.install(env=os.environ | {"DESTDIR": str(stage)})
        Path(f"{stage}{self.prefix}").rename(self.prefix)
        self.assert_done(run(self.prefix / "bin/twarp-draw", CASES / "disagree.spp"))
        self.assert_done(install("--prefix", self.prefix, "--uninstall"))
        self.assertFalse(self.prefix.exists())
        # The folders above are those of where the package was made.
        self.assertTrue(Path(f"{stage}{self.prefix.parent}").exists())

    def test_it_is_for_everyone(self) -> None:
        mask = os.umask(0o077)
        self.addCleanup(os.umask, mask)
        self.install()
        for found in self.folder.rglob("*"):
            mode = stat.S_IMODE(found.lstat().st_mode)
            wanted = 0o755 if found.is_dir() or mode & 0o100 else 0o644
            self.assertEqual(mode, 0o777 if found.is_symlink() else wanted, found)

    def test_what_was_broken_off_can_be_taken_away(self) -> None:
        # A program that is none of twarp has no help of which a man page could be made.
        done = install("--prefix", self.prefix, "--program", shutil.which("true"))
        self.assertEqual((done.status, done.out), (2, ""))
        self.assertIn("stopped: ", done.err)
        self.assertTrue((self.prefix / "bin/twarp").exists())
        self.assert_done(install("--prefix", self.prefix, "--uninstall"))
        self.assertEqual(files_of(self.folder), {})

    def test_files_of_others_stay(self) -> None:
        for name in "bin/twarp-draw", "lib/twarp/other", "share/man/man1/twarp.1":
            with self.subTest(name):
                file = self.prefix / name
                file.parent.mkdir(parents=True)
                file.write_text("of another\n")
                before = files_of(self.folder)
                done = install("--prefix", self.prefix, "--program", tools_common.need_program())
                self.assert_refused(done, "is there already, and is not of an installed twarp")
                self.assertEqual(files_of(self.folder), before)
                shutil.rmtree(self.prefix)

    def test_command_lines(self) -> None:
        for words in (
            (),
            ("--prefix",),
            ("--perfix", "x"),
            ("--prefix", "x", "--uninstall", "--program", "y"),
        ):
            with self.subTest(words):
                done = install(*words)
                self.assertEqual((done.status, done.out), (3, ""))
                self.assertIn("usage: ./install --prefix DIR", done.err)
        self.assertIn("./install --prefix DIR", self.assert_done(install("--help")))
        done = install("--prefix", self.prefix, "--program", self.folder)
        self.assert_refused(done, "is no program")


class ManPage(ToolTest):
    def test_it_says_what_the_help_says(self) -> None:
        page = self.assert_done(manual("man"))
        shown = re.sub(r"\\f[BRI]|\\&", "", page).replace("\\-", "-").replace("\\e", "\\")
        for words in ["--help"], *([name, "--help"] for name in OPTIONS):
            for line in run(tools_common.need_program(), *words).out.splitlines():
                if not re.match(r"(Usage: |Commands:|Options:|Exit status:|  |-h)", line):
                    with self.subTest(words, line=line):
                        # The first line stands in NAME, with a small letter.
                        self.assertIn(re.sub("`([^`]*)`", r"\1", line).rstrip(".")[1:], shown)
        for name in OPTIONS:
            self.assertRegex(page, rf"(?m)^\.SS twarp {name}")

    def test_the_page_of_formats_has_every_code(self) -> None:
        page = self.assert_done(manual("formats"))
        formats = (TOP / "docs/FORMATS.md").read_text()
        codes = re.findall(r"^\| ([XISKHN][0-9]+ \w+) \|", formats, re.M)
        self.assertGreater(len(codes), 20)
        for code in codes:
            self.assertIn(f"\n.TP\n{code}\n", page)

    @unittest.skipUnless(shutil.which("groff"), "groff is not installed")
    def test_groff_reads_them(self) -> None:
        words = self.shown("formats")
        for section in "NAME", "DESCRIPTION", "CASE TEXT", "EXIT STATUSES", "SEE ALSO":
            self.assertIn(f"\n{section}\n", words)
        self.assertRegex(words, r"\n +I2 SelfLink\n +a link.s two ends are equal\n")
        words = self.shown("man")
        for section in "NAME", "SYNOPSIS", "DESCRIPTION", "OPTIONS", "COMMANDS", "EXIT STATUS":
            self.assertIn(f"\n{section}\n", words)


    def shown(self, kind: str) -> str:
        """What a reader sees of a page."""
        shown = run("groff", "-man", "-ww", "-Tutf8", stdin=self.assert_done(manual(kind)))
        self.assertEqual((shown.status, shown.err), (0, ""))
        return re.sub(".\b", "", re.sub("\x1b\\[[0-9;]*m", "", shown.out))


def completed(script: str, line: str) -> set[str]:
    """What bash offers for the last word of a line, with this script."""
    words = line.split(" ")
    given = f"COMP_WORDS=({' '.join(map(repr, words))}); COMP_CWORD={len(words) - 1}"
    shown = 'printf "%s\\n" "${COMPREPLY[@]}"'
    function = f"_{words[0].replace('-', '_')}"
    done = run("bash", "--norc", "-c", "\n".join([script, given, function, shown]))
    assert (done.status, done.err) == (0, ""), done.err
    return set(done.out.split())


# Has bash show the line that it has once it has heeded all keys before this one, and a prompt that is known.
SHOW = "\x07"
READY = """
bind -x '"\\C-g": printf "[%s]" "$READLINE_LINE"'
PS1='ready> '
"""


def typed(script: Path, keys: str) -> str:
    """The line that bash has in the folder of the clone, once these keys were pressed."""
    process, terminal = pty.fork()
    if process == 0:
        os.chdir(TOP)
        os.environ.update(INPUTRC=os.devnull, TERM="dumb")
        os.execvp("bash", ["bash", "--noprofile", "--rcfile", str(script), "-i"])
    try:
        shown_with("ready> ", terminal)
        os.write(terminal, f"{keys}{SHOW}".encode())
        return shown_with(r"\[(.*)\]", terminal)[1]
    finally:
        os.close(terminal)
        os.waitpid(process, 0)


def shown_with(wanted: str, terminal: int) -> re.Match[str]:
    """Waits until a terminal has shown this."""
    shown = ""
    while not (found := re.search(wanted, shown)):
        assert select.select([terminal], [], [], SECONDS)[0], f"bash shows nothing more after {shown!r}"
        shown += os.read(terminal, 65_536).decode()
    return found


class Completions(ToolTest):
    @unittest.skipUnless(shutil.which("bash"), "bash is not installed")
    def test_bash(self) -> None:
        script = self.assert_done(manual("bash"))
        self.assertEqual(completed(script, "twarp "), {*OPTIONS, "help", *HELP, "--version", "-V"})
        self.assertEqual(completed(script, "twarp re"), {"replay"})
        self.assertEqual(completed(script, "twarp help "), {*OPTIONS})
        for name, options in OPTIONS.items():
            self.assertEqual(completed(script, f"twarp {name} "), options | HELP)
        self.assertEqual(completed(script, "twarp seq --stop "), set())
        self.assertEqual(completed(script, "twarp seq --stop 20 --e"), {"--every"})

    @unittest.skipUnless(shutil.which("bash"), "bash is not installed")
    def test_bash_completes_the_names_of_files(self) -> None:
        with tempfile.TemporaryDirectory() as folder:
            script = Path(folder) / "twarp"
            script.write_text(self.assert_done(manual("bash")) + READY)
            for keys, line in (
                ("twarp seq < cases/bad-g\t", "twarp seq < cases/bad-gadget.spp "),
                ("twarp seq <cases/bad-g\t", "twarp seq <cases/bad-gadget.spp "),
                ("twarp seq --stop cas\t", "twarp seq --stop cas"),
                ("twarp re\t--w\t", "twarp replay --workers "),
            ):
                with self.subTest(keys):
                    self.assertEqual(typed(script, keys), line)

    def test_each_shell_knows_all_names(self) -> None:
        for shell in SHELLS:
            script = self.assert_done(manual(shell))
            for name in {*OPTIONS, "version"}.union(*OPTIONS.values()):
                with self.subTest(shell, name=name):
                    self.assertRegex(script, rf"\b{name.lstrip('-')}\b")

    def test_each_shell_reads_its_own(self) -> None:
        for shell in SHELLS:
            if shutil.which(shell):
                with self.subTest(shell):
                    done = subprocess.run(
                        [shell, "-n"], input=manual(shell).out.encode(), capture_output=True
                    )
                    self.assertEqual((done.returncode, done.stderr), (0, b""))

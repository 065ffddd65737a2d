#!/usr/bin/env python3
"""Tests the scripts twarp, twarp-policy and twarp-phold with stand-ins for rt and rattle: nothing is proved or built.

    script.py                        takes some seconds
"""
from __future__ import annotations

import contextlib
import os
import shutil
import signal
import subprocess
import tempfile
import time
import unittest
from collections.abc import Collection, Iterator
from pathlib import Path
from typing import Any

from common import TOP, run_tests
from tools_common import Done
from twarp_tools import build

# Says what rt says at `try`.
RT = r"""#!/bin/sh
echo "$*" >>"$(dirname "$0")/calls"
case $1 in
try)
    shift 2
    case $1 in
    check) cat; echo "words $*" ;;
    seq) echo "error: a bad line" >&2; status=3 ;;
    run)
        echo 'checked: no-answer: the program did not end within the time limit' >&2
        echo 'run=no-answer proved=no' >&2
        exit 6 ;;
    trail) exec sleep 600 ;;
    esac
    status=${status:-0}
    printf 'checked: ended status=%s\nraces: not looked for\n' "$status" >&2
    echo "run=ended status=$status runners=1 proved=no" >&2
    exit "$status" ;;
esac
"""
# Builds a library, each time another one, over those that it is given, or an object file; waits as long as a file `slow` stands beside it.
RATTLE = r"""#!/bin/sh
echo "rattle $3" >>"$(dirname "$0")/calls"
while [ -e "$(dirname "$0")/slow" ]; do sleep 0.05; done
echo "fn good: proved"
[ ! -e src/bad.rt ] || { echo "fn bad: not proved"; exit 1; }
[ ! -e src/edited.rt ] || echo >>src/lib.rt
for word; do
    case $word in
    --extern=tw_*) [ -e "${word##*=}/format" ] || { echo "no library: $word"; exit 1; } ;;
    esac
    to=$word
done
case $to in
*.rlib) mkdir "$to" && echo "made by $$ at $(date +%s%N)" >"$to/format" ;;
*) : >"$to" ;;
esac
"""
# Makes a program that prints its words.
LINK = r"""#!/bin/sh
echo link >>"$(dirname "$0")/calls"
while [ "$1" != -o ]; do shift; done
printf '#!/bin/sh\necho proved "$@"\nexit 3\n' >"$2"
chmod +x "$2"
"""
CRATES = "# the crates\ntw_low:\ntw_high: tw_low\ntwarp: clap tw_low tw_high # the program\ntwarp_policy: tw_low\ntwarp_phold: tw_low\ntw_rows: tw_low\n"
# The calls of a build where nothing is kept.
ALL = ["rattle tw_low", "rattle tw_high", "rattle twarp", "link"]
NO_TOOLCHAIN = "/usr/bin:/bin"
SCRIPTS = "twarp", "twarp-policy", "twarp-phold"

# Seconds after which the script is given up.
LIMIT = 300


class ScriptTest(unittest.TestCase):
    def setUp(self) -> None:
        folder = tempfile.TemporaryDirectory()
        self.addCleanup(folder.cleanup)
        self.clone, self.kit = Path(folder.name, "clone"), Path(folder.name, "kit")
        shutil.copytree(TOP / "tools", self.clone / "tools")
        for name in SCRIPTS:
            shutil.copy(TOP / name, self.clone, follow_symlinks=False)
        (self.clone / "crates.txt").write_text(CRATES)
        for crate in "tw_low", "tw_high", "twarp", "twarp_policy", "twarp_phold":
            for part in "src", "specs", "proofs":
                (self.clone / "crates" / crate / part).mkdir(parents=True)
        (self.kit / "bin").mkdir(parents=True)
        (self.kit / "WHAT").write_text("one\n")
        for name, text in ("rt", RT), ("rattle", RATTLE), ("rattle-link", LINK):
            (self.kit / "bin" / name).write_text(text)
            (self.kit / "bin" / name).chmod(0o755)
        self.room = Path(folder.name, "room")
        self.room.mkdir()
        self.heard = 0
        self.age()

    def age(self) -> None:
        """Makes all files look old, so that what is changed next is newer."""
        for path in [self.clone / "crates.txt", *(self.clone / "crates").rglob("*")]:
            os.utime(path, (1, 1))

    @contextlib.contextmanager
    def start(
        self, *words: str, name: str = "twarp", path: str | None = None, stdin: int = subprocess.DEVNULL
    ) -> Iterator[subprocess.Popen[bytes]]:
        """A script, which is ended where a test gives it up."""
        with subprocess.Popen(
            [self.clone / name, *words],
            env={"PATH": path or f"{self.kit / 'bin'}:{NO_TOOLCHAIN}", "TMPDIR": str(self.room)},
            stdin=stdin,
            stdout=subprocess.PIPE,
            stderr=subprocess.PIPE,
        ) as script:
            try:
                yield script
            finally:
                script.kill()

    def run_script(self, *words: str, **how: Any) -> Done:
        with self.start(*words, **how) as script:
            out, err = script.communicate(timeout=LIMIT)
        return Done(script.returncode, out.decode(), err.decode())

    def calls(self) -> list[str]:
        """The calls of the toolchain since this was last asked."""
        file = self.kit / "bin/calls"
        said = file.read_text() if file.exists() else ""
        # A line that is still being written is left for the next time.
        start, self.heard = self.heard, said.rfind("\n") + 1
        return said[start : self.heard].splitlines()

    def assert_ended(self, done: Done, status: int, out: str) -> None:
        self.assertEqual((done.status, done.out), (status, out), done.err)

    def test_help_builds_nothing(self) -> None:
        for name in SCRIPTS:
            done = self.run_script("--help", name=name)
            self.assertEqual((done.status, done.err, self.calls()), (0, "", []))
            for word in f"{name} --build", f"{name} --try", "1 MiB", "a minute":
                self.assertIn(word, done.out)

    def test_each_program_has_its_own_script(self) -> None:
        self.assert_ended(self.run_script("--build"), 0, "")
        self.assertEqual(self.calls(), ALL)
        for name, crate in ("twarp-policy", "twarp_policy"), ("twarp-phold", "twarp_phold"):
            with self.subTest(name):
                done = self.run_script("seq", "x", name=name)
                self.assert_ended(done, 3, "proved seq x\n")
                self.assertRegex(done.err, rf"^{name}: proving and building the program: 2 crates")
                # What the build of twarp has proved is not proved again.
                self.assertEqual(self.calls(), [f"rattle {crate}", "link"])
                self.assertEqual(self.run_script("seq", name=name), Done(3, "proved seq\n", ""))
                self.assertEqual(self.run_script("seq"), Done(3, "proved seq\n", ""))
                self.assertEqual(self.calls(), [])
                done = self.run_script("--try", "check", name=name)
                self.assert_ended(done, 0, "words check\n")
                self.assertRegex(done.err, rf"^{name}: this run is not proved.*\./{name} --build")
                self.calls()

    def test_a_run_without_proofs_has_the_programs_ends(self) -> None:
        done = self.run_script("--try", "check", "a  b", "")
        self.assert_ended(done, 0, "words check a  b \n")
        self.assertRegex(done.err, r"^twarp: this run is not proved.*--build.*\n\Z")
        done = self.run_script("--try", "seq")
        self.assert_ended(done, 3, "")
        self.assertEqual(done.err.splitlines()[1:], ["error: a bad line"])

    def test_a_slow_pipe_is_read_to_its_end(self) -> None:
        with self.start("--try", "check", stdin=subprocess.PIPE) as script:
            assert script.stdin
            script.stdin.write(b"one\n")
            script.stdin.flush()
            time.sleep(2.5)
            out, _ = script.communicate(b"two\n", timeout=LIMIT)
        self.assertEqual(out, b"one\ntwo\nwords check\n")

    def test_a_limit_that_is_met_is_told(self) -> None:
        done = self.run_script("--try", "run")
        self.assert_ended(done, 126, "")
        self.assertIn("did not end within the time limit", done.err)
        self.assertIn("1 MiB", done.err)

    def await_call(self, script: subprocess.Popen[bytes]) -> None:
        given_up = time.monotonic() + LIMIT
        while not self.calls():
            self.assertIsNone(script.poll(), "it ended and has not called the toolchain")
            self.assertLess(time.monotonic(), given_up, "it has not called the toolchain")
            time.sleep(0.05)

    def end(self, script: subprocess.Popen[bytes], number: signal.Signals) -> None:
        """Ends the script by a signal once it has called the toolchain."""
        self.await_call(script)
        script.send_signal(number)
        # Standard output is at its end once no child has it open.
        script.communicate(timeout=LIMIT)
        self.assertEqual(script.returncode, 128 + number)

    def test_children_end_with_the_script(self) -> None:
        (self.kit / "bin/slow").touch()
        for number in signal.SIGINT, signal.SIGTERM, signal.SIGHUP:
            for words in ["--try", "trail"], ["--build"], ["seq"]:
                with self.subTest(words, number=number), self.start(*words) as script:
                    self.end(script, number)
                    self.assertEqual(list(self.room.glob("*")), [])

    def test_no_toolchain(self) -> None:
        for words in ["--try", "check"], ["--build"], ["check"]:
            done = self.run_script(*words, path=NO_TOOLCHAIN)
            self.assert_ended(done, 127, "")
            self.assertIn("the command rt", done.err)

    def test_it_is_built_once_and_again_where_something_changed(self) -> None:
        low, high, top = (self.clone / "crates" / name for name in ("tw_low/src/lib.rt", "tw_high/src/lib.rt", "twarp/src/main.rt"))
        changes = {
            "nothing built": (lambda: None, ALL),
            "a source below": (low.touch, ALL),
            "a source of the program": (top.touch, ALL[2:]),
            "a source below, touched alone": (low.touch, ALL[2:]),
            "a source between": (high.touch, ALL[1:]),
            "a source less": (low.unlink, ALL),
            "the toolchain": (lambda: (self.kit / "WHAT").write_text("two\n"), ALL),
        }
        for name, (change, wanted) in changes.items():
            with self.subTest(name):
                self.age()
                change()
                self.assert_ended(self.run_script("seq", "x"), 3, "proved seq x\n")
                self.assertEqual(self.calls(), wanted)
                self.assertEqual(self.run_script("seq", "x"), Done(3, "proved seq x\n", ""))
                self.assertEqual(self.calls(), [])
        done = self.run_script("seq", path=NO_TOOLCHAIN)
        self.assertEqual(done, Done(3, "proved seq\n", ""))

    def test_what_stood_on_another_library_is_not_taken(self) -> None:
        low, bad = self.clone / "crates/tw_low/src/lib.rt", self.clone / "crates/tw_high/src/bad.rt"
        self.assert_ended(self.run_script("--build"), 0, "")
        low.touch()
        bad.touch()
        self.assert_ended(self.run_script("--build"), 126, "")
        low.unlink()
        bad.unlink()
        self.calls()
        self.assert_ended(self.run_script("--build"), 0, "")
        self.assertEqual(self.calls(), ALL)

    def test_what_is_edited_while_it_is_proved_is_not_kept(self) -> None:
        edited = self.clone / "crates/tw_low/src/edited.rt"
        edited.touch()
        self.assert_ended(self.run_script("--build"), 0, "")
        self.assertEqual(list(self.clone.glob("out/libraries/tw_low*")), [])
        self.assertEqual(list(self.room.glob("*")), [])

    def test_a_build_says_where_it_is(self) -> None:
        done = self.run_script("--build")
        self.assert_ended(done, 0, "")
        said = r"(?s)0 of 3 crates after .* now tw_low\n.*2 of 3 .* now twarp\n.*built\n$"
        self.assertRegex(done.err, said)
        self.calls()
        self.assert_ended(self.run_script("--build"), 0, "")
        self.assertEqual(self.calls(), [])

    def test_a_second_build_waits_and_takes_what_the_first_made(self) -> None:
        slow = self.kit / "bin/slow"
        slow.touch()
        with self.start("--build") as first:
            self.await_call(first)
            with self.start("seq") as second:
                assert second.stderr
                self.assertIn(b"waiting for another build", second.stderr.readline())
                slow.unlink()
                out, _ = second.communicate(timeout=LIMIT)
            first.communicate(timeout=LIMIT)
        self.assertEqual((first.returncode, out), (0, b"proved seq\n"))
        self.assertEqual(self.calls(), ALL[1:])

    def test_a_build_that_fails_says_why_and_leaves_the_program_stale(self) -> None:
        (self.clone / "crates/tw_low/src/bad.rt").touch()
        for words in ["--build"], ["seq"]:
            done = self.run_script(*words)
            self.assert_ended(done, 126, "")
            self.assertIn("== tw_low\nfn bad: not proved\n", done.err)
            self.assertEqual(list(self.room.glob("*")), [])


class ScheduleTest(unittest.TestCase):
    GRAPH = build.graph_of(
        "top: left right\nleft: low side\nright: low\nlow: clap\nside:\nalone:\nother: alone\n"
    )
    SIZES = {"top": 1, "left": 3, "right": 5, "low": 2, "side": 1}
    CHAIN = build.chains(GRAPH, "top", SIZES)

    def choose(
        self, done: Collection[str], running: Collection[str], cores: int
    ) -> dict[str, int]:
        """The number of provers of each crate that is begun, below zero where it gives way to others."""
        begun = build.choose(self.GRAPH, self.CHAIN, {*done}, {*running}, cores)
        return {crate: -share.provers if share.gives_way else share.provers for crate, share in begun.items()}

    def test_only_what_the_top_stands_on(self) -> None:
        below = ["low", "side", "left", "right", "top"]
        self.assertEqual(build.below(self.GRAPH, "top"), below)
        self.assertEqual(self.CHAIN, {"top": 1, "left": 4, "right": 6, "low": 8, "side": 5})
        graph = build.graph_of((TOP / "crates.txt").read_text())
        self.assertFalse({"tw_rows", "tw_program_rows"} & {*build.below(graph, "twarp")})

    def test_the_longest_chain_comes_first(self) -> None:
        self.assertEqual(self.choose([], [], 1), {"low": 1})
        self.assertEqual(self.choose([], [], 2), {"low": 1, "side": -1})
        self.assertEqual(self.choose([], [], 4), {"low": 3, "side": -1})
        self.assertEqual(self.choose(["low", "side"], [], 4), {"right": 3, "left": -1})
        self.assertEqual(self.choose(["low", "side"], [], 1), {"right": 1})
        self.assertEqual(self.choose([*self.SIZES][1:], [], 2), {"top": 2})

    def test_what_waits_for_a_running_crate_counts(self) -> None:
        self.assertEqual(self.choose([], ["low", "side"], 4), {})
        self.assertEqual(self.choose([], ["low"], 4), {"side": 3})
        self.assertEqual(self.choose([], ["side"], 4), {"low": 3})
        self.assertEqual(self.choose(["low", "side"], ["right"], 4), {"left": 3})
        self.assertEqual(self.choose([], ["one", "two", "three"], 4), {"low": 2})

    def test_each_crate_is_proved_once_after_those_that_it_uses(self) -> None:
        graph = build.graph_of((TOP / "crates.txt").read_text())
        chain = build.chains(graph, "twarp", dict.fromkeys(graph, 1))
        for cores in 1, 2, 4, 16:
            done: list[str] = []
            running: list[str] = []
            while len(done) < len(chain):
                begun = build.choose(graph, chain, {*done}, {*running}, cores)
                self.assertTrue(all({*graph[crate]} <= {*done} for crate in begun))
                running += begun
                self.assertLessEqual(len(running), cores)
                done.append(running.pop(0))
            self.assertEqual(sorted(done), sorted(chain))


def main() -> None:
    loader = unittest.defaultTestLoader
    classes = ScriptTest, ScheduleTest
    run_tests(unittest.TestSuite(map(loader.loadTestsFromTestCase, classes)))


if __name__ == "__main__":
    main()

"""Tests of the tool sweep, on runs whose ends can be derived by hand."""
from __future__ import annotations

import csv
import hashlib
import json
import os
import pty
import re
import signal
import subprocess
import sys
import tempfile
import time
from collections import Counter
from collections.abc import Iterator, Mapping
from contextlib import contextmanager, suppress
from pathlib import Path
from typing import IO

from tools_common import (
    CASES,
    INPUTS,
    TOP,
    Done,
    ToolTest,
    case_of,
    need_program,
    run_within,
    texts,
    tool,
)
from twarp.sweeps import read_law


def by_hand(one: int, two: int) -> dict[str, str]:
    """How DISAGREE ends where the origin's links have these delays and the third link one of 1.

    The router that hears of the origin first takes its second path and tells the other, to which
    that is news where it comes before the origin's own message; else both go back and forth, in
    turns of 2 ticks.
    """
    if abs(one - two) <= 1:
        return {"verdict": "oscillates", "rest": "", "period": "2", "outcome": ""}
    return {
        "verdict": "quiet",
        "rest": str(min(one, two) + 1),
        "period": "",
        "sent": "6",
        "changed": "3",
    }


def shown_by(terminal: IO[bytes]) -> Iterator[str]:
    """What a terminal shows that nobody writes to any more."""
    # Linux tells its end so.
    with suppress(OSError):
        while part := terminal.read(4096):
            yield part.decode()


def heed_interrupts() -> None:
    """What a shell begins in the background ignores interrupts, and so would what it begins."""
    signal.signal(signal.SIGINT, signal.default_int_handler)


class Sweep(ToolTest):
    TWO_DELAYS = ("--delays", "1-10", "--links", "0-1,2-0", "--stop", 100, "--every", 1)

    def sweep(self, *words: object, start: object = None, stdin: str = "") -> Done:
        return tool("sweep", "--program", start or need_program(), "--quiet", *words, stdin=stdin)

    def rows(self, *words: object, stdin: str = "") -> list[dict[str, str]]:
        return list(csv.DictReader(self.assert_done(self.sweep(*words, stdin=stdin)).splitlines()))

    @contextmanager
    def stand_in(self, script: str) -> Iterator[Path]:
        """A program that is to be started in place of twarp, which the script calls by $TWARP."""
        with tempfile.TemporaryDirectory() as folder:
            file = Path(folder) / "stand-in"
            head = f"#!/bin/sh\nTWARP='{need_program().resolve()}'\ncd '{folder}' || exit 9\n"
            file.write_text(f"{head}{script}\n")
            file.chmod(0o755)
            yield file

    def test_each_run_ends_as_derived_by_hand(self) -> None:
        winners = set()
        for row in self.rows(*self.TWO_DELAYS, "--runs", 300, CASES / "disagree.spp"):
            one, two = int(row["delay_0_1"]), int(row["delay_0_2"])
            self.assertEqual(row, row | by_hand(one, two))
            if row["verdict"] == "quiet":
                winners.add((one < two, row["outcome"]))
        self.assertEqual(len(winners), 2, "an outcome for each winner")

    def test_a_repair_moves_with_its_failure(self) -> None:
        rows = self.rows(
            "--failure-times", "0-20", "--stop", 100, "--runs", 100,
            CASES / "failure-and-repair.spp",
        )
        for row in rows:
            # The link is repaired one tick after it failed, and what router 1 then uses is 3 ticks
            # under way.
            self.assertEqual(int(row["rest"]), max(6, int(row["fail_1_2"]) + 4))
        self.assertEqual({int(row["fail_1_2"]) for row in rows}, set(range(21)))

    def test_seeds_of_relationships(self) -> None:
        options = "--destination 40 --delays 1-9 --failures 3 --until 50"
        words = ["--relationships", options, "--stop", 200, INPUTS / "diamond.txt"]
        case = self.assert_done(self.sweep(*words, "--seed", 7, "--show"))
        self.assertEqual(
            case, tool("relationships", *options.split(), "--seed", 7, INPUTS / "diamond.txt").out
        )
        # Such a network has one stable outcome, whatever the delays (Gao and Rexford 2001).
        rows = self.rows(*words, "--runs", 30, "--check", "stable")
        self.assertEqual({(row["verdict"], row["outcome"]) for row in rows}, {("quiet", "1")})

    def test_the_seed_alone_decides(self) -> None:
        words = [*self.TWO_DELAYS, CASES / "disagree.spp"]
        one, many = (self.sweep(*words, "--runs", 40, "--jobs", jobs).out for jobs in (1, 7))
        self.assertEqual(one, many)
        self.assertTrue(one.startswith(self.sweep(*words, "--runs", 20).out))
        self.assertIn(
            f"\n{self.sweep(*words, '--runs', 1, '--seed', 31).out.splitlines()[1][:8]}", one
        )

    def test_the_summary(self) -> None:
        words = [
            "--failure-times", "4", "--stop", 100, "--runs", 10,
            "--summary", CASES / "failure-and-repair.spp",
        ]
        lines = self.assert_done(self.sweep(*words)).splitlines()
        # Wilson's interval of 10 in 10 goes down to 10 / (10 + 1.96 * 1.96). The run of the case
        # itself, whose link fails at 4, sends 6 messages.
        rows = {
            1: "1 10 100.0 % 72.2 to 100.0 % rest 8 1 (1 0) (2 1 0)",
            4: "1 rest 8 8 8 8 8",
            5: "1 messages 6 6 6 6 6",
        }
        for row, told in rows.items():
            self.assertEqual(lines[row].split(), told.split())
        self.assertEqual(len(lines), 6)

    def test_the_picture(self) -> None:
        with tempfile.TemporaryDirectory() as folder:
            picture, rows = Path(folder) / "runs.svg", Path(folder) / "runs.csv"
            words = [
                "--runs", 200, "--picture", picture, "--csv", rows,
                "--summary", CASES / "disagree.spp",
            ]
            self.assert_done(self.sweep(*self.TWO_DELAYS, *words))
            words = texts(picture.read_text())
            drawn = [
                (int(row["delay_0_1"]), int(row["delay_0_2"]))
                for row in csv.DictReader(rows.open())
            ]
        told = Counter()
        for time, count in re.findall(r"^rest at (\d+): (\d+) runs, outcome", words, re.M):
            told[time] += int(count)
        derived = Counter(by_hand(*delays)["rest"] for delays in drawn)
        oscillating = derived.pop("")
        self.assertEqual(told, derived)
        self.assertIn(f"\noscillates: {oscillating} of 200 runs, ", words)
        self.assertIn("\ndisagree: 200 runs, 3 outcomes\n", words)

    def test_a_run_that_fails_is_told(self) -> None:
        words = [
            "--delays", "1-3", "--links", "0-1", "--stop", 100, "--runs", 30,
            CASES / "disagree.spp",
        ]
        script = """
cat > $$
if grep -q "^link 0 1 2$" $$; then echo stopped memory >&2; exit 2; fi
"$TWARP" "$@" < $$
"""
        with self.stand_in(script) as start:
            done = self.sweep(*words, start=start)
        rows = list(csv.DictReader(done.out.splitlines()))
        failed = [row["seed"] for row in rows if row["delay_0_1"] == "2"]
        self.assertEqual([row["seed"] for row in rows if row["verdict"] == "failed"], failed)
        self.assertEqual((done.status, len(rows)), (2, 30))
        told = [
            f"sweep: the run with seed {seed} failed: status 2: stopped memory" for seed in failed
        ]
        *lines, last = done.err.splitlines()
        self.assertEqual(
            (sorted(lines), last),
            (sorted(told), f"sweep: stopped runs: {len(failed)} of 30 failed"),
        )

    def test_where_no_run_comes_to_an_end_nothing_is_counted(self) -> None:
        with self.stand_in('[ "$1" = check ] && exec "$TWARP" "$@"; exit 2') as start:
            picture = start.parent / "runs.svg"
            words = ["--delays", 1, "--stop", 9, "--runs", 3, "--summary", "--picture", picture]
            done = self.sweep(*words, CASES / "disagree.spp", start=start)
            self.assertIn("\ndisagree: 0 runs, 0 outcomes\n", texts(picture.read_text()))
        self.assertEqual((done.status, len(done.out.splitlines())), (2, 1))

    def test_stable_paths_pass(self) -> None:
        # A link that stays down, and ranks that were exchanged, count as they are at the end.
        broken = case_of("disagree").replace("end\n", "fail 5 0 1\nend\n")
        exchanged = case_of("rank-exchange")
        for text, words in (
            (broken, ["--failure-times", "0-9"]),
            (exchanged, ["--delays", "1-9", "--links", "0-2"]),
        ):
            words += ["--stop", 200, "--every", 1, "--runs", 60, "--check", "stable"]
            self.assertIn("quiet", {row["verdict"] for row in self.rows(*words, stdin=text)})
        # The other outcome is stable too, but only since router 1 has come to prefer (1 2 0).
        with self.stand_in('"$TWARP" "$@" | sed "s/(1 0)/(1 2 0)/;s/(2 1 0)/(2 0)/"') as start:
            words = [
                "--delays", 9, "--links", "0-2", "--stop", 100, "--runs", 1, "--check", "stable"
            ]
            out = self.assert_done(self.sweep(*words, start=start, stdin=exchanged))
        self.assertRegex(out.splitlines()[1], "^1,9,quiet,")

    def test_paths_that_are_not_stable_are_shown(self) -> None:
        broken = case_of("disagree").replace("end\n", "fail 5 0 1\nend\n")
        # What the program is made to say of a run, and what a router would choose then.
        edits = [
            (
                case_of("disagree"),
                "s/(2 1 0)/(2 0)/",
                "router 1 uses (1 0) and would choose (1 2 0)",
            ),
            (case_of("disagree"), "s/(2 1 0)/()/", "router 2 uses () and would choose (2 1 0)"),
            (
                broken,
                "s/(1 2 0)/(1 0)/;s/(2 0)/(2 1 0)/",
                "router 1 uses (1 0) and would choose ()",
            ),
        ]
        for case, edit, why in edits:
            with self.subTest(why), self.stand_in(f'"$TWARP" "$@" | sed "{edit}"') as start:
                words = ["--delays", "9", "--links", "0-2", "--stop", 100, "--runs", 5]
                self.assertEqual(self.sweep(*words, start=start, stdin=case).status, 0)
                done = self.sweep(*words, "--check", "stable", start=start, stdin=case)
                self.assertEqual(
                    (done.status, done.out), (1, case.replace("link 0 2 5", "link 0 2 9"))
                )
                self.assertEqual(
                    done.err, f"sweep: the run with seed 1 does not end with stable paths: {why}\n"
                )

    def test_an_interrupt_leaves_what_there_is(self) -> None:
        script = """
if [ "$3" = 100 ]; then echo >> begun; fi
if [ "$(wc -l < begun)" -gt 12 ]; then : > hangs; sleep 600; fi
exec "$TWARP" "$@"
"""
        with self.stand_in(script) as start:
            for number in signal.SIGINT, signal.SIGTERM:
                with self.subTest(number.name):
                    for name in "begun", "hangs":
                        (start.parent / name).unlink(missing_ok=True)
                    self.interrupt(start, number)

    def interrupt(self, start: Path, number: int) -> None:
        kept = start.parent / "kept.csv"
        words = [
            "--delays", "1-9", "--stop", "100", "--runs", "500", "--jobs", "2", "--csv", kept,
            CASES / "disagree.spp",
        ]
        command = [sys.executable, "-S", TOP / "tools/sweep", "--program", start, "--quiet", *words]
        pipe = subprocess.PIPE
        with subprocess.Popen(
            command, stdout=pipe, stderr=pipe, text=True, preexec_fn=heed_interrupts
        ) as process:
            while process.poll() is None and not (start.parent / "hangs").exists():
                time.sleep(0.05)
            for option in "--resume", "--csv":
                done = self.sweep(*words[:4], option, kept, CASES / "disagree.spp")
                self.assert_refused(done, "another sweep writes into it")
            process.send_signal(number)
            out, err = process.communicate(timeout=300)
        rows = list(csv.DictReader(out.splitlines()))
        self.assertEqual(process.returncode, 2)
        self.assertEqual(err, f"sweep: stopped interrupt: {len(rows)} of 500 runs are done\n")
        self.assertIn(len(rows), range(10, 13))
        # Those that the other process has ended out of turn stand there too.
        seeds = [int(row["seed"]) for row in rows]
        self.assertEqual(seeds, sorted(set(seeds)))
        self.assertEqual({row["verdict"] for row in rows} - {"quiet", "open"}, set())
        self.assertEqual(kept.read_text(), out)
        # What was interrupted goes on, also where its last line was broken off.
        kept.write_bytes(f"{out}77,7,".encode() + b"\xff\x00")
        words = [*words[:4], "--runs", 30, CASES / "disagree.spp"]
        whole = self.assert_done(self.sweep(*words))
        self.assertEqual(self.assert_done(self.sweep(*words, "--resume", kept)), whole)
        self.assertEqual(kept.read_text(), whole)

    def test_progress(self) -> None:
        words = [
            "--program", need_program(), "--delays", 1, "--stop", 20, "--runs", 30,
            CASES / "disagree.spp",
        ]
        # On a slow machine it says more than once how far it is.
        self.assertRegex(
            tool("sweep", *words).err,
            r"^(sweep: .* left\n)*sweep: 30 of 30 runs, [\d,]+ a second, .* in all\n$",
        )
        here, there = pty.openpty()
        with open(here, "rb", buffering=0) as terminal, open(os.devnull, "wb") as nothing:
            command = [sys.executable, TOP / "tools/sweep", *words]
            subprocess.run(list(map(str, command)), stdout=nothing, stderr=there, check=True)
            os.close(there)
            self.assertRegex(
                "".join(shown_by(terminal)),
                r"^(\rsweep: [^\r\n]*)*\rsweep: 30 of 30 runs[^\r\n]*\r\n$",
            )

    def test_what_does_not_suit(self) -> None:
        case, stop = CASES / "disagree.spp", ["--stop", 9]
        self.assert_refused(
            self.sweep("--delays", 1, "--links", "0-7", *stop, case), "the case has no link 0-7"
        )
        self.assert_refused(
            self.sweep("--failure-times", 1, *stop, case), "no link of the case fails"
        )
        late = self.sweep(
            "--failure-times", "9-1000000000", *stop, CASES / "failure-and-repair.spp"
        )
        self.assert_refused(late, "a repair would be at 1,000,000,001")
        failures = ["--failure-times", 1, "--links", "0-1"]
        both = ["--relationships", "", "--delays", 1]
        two = ["--resume", "a", "--csv", "b"]
        for words in [], failures, both, two, ["--delays", "3-2"], ["--relationships", "'"]:
            with self.subTest(words):
                self.assertEqual(self.sweep(*words, *stop, case).status, 3)

    def test_a_relative_program_is_that_file(self) -> None:
        words = ["--delays", 1, "--stop", 9, "--runs", 1, CASES / "disagree.spp"]
        with self.stand_in('echo run >> begun; exec "$TWARP" "$@"') as start:
            name = f"./{start.name}"
            for given in ["--program", name], []:
                with self.subTest(given):
                    environment = os.environ | {"TWARP": name if not given else "/nowhere/twarp"}
                    done = run_at(start.parent, environment, *given, *words)
                    self.assertEqual((done.status, len(done.out.splitlines())), (0, 2), done.err)
            # Of each sweep one call judges the case, and two run it, the second to see what moves.
            self.assertEqual((start.parent / "begun").read_text().count("run"), 6)
            done = run_at(start.parent, os.environ, "--program", "./twarp", *words)
            self.assertEqual((done.status, done.out), (2, ""))
            self.assertIn(f"{start.parent}/twarp is no program; ./twarp --build", done.err)

    def test_outputs_are_opened_before_the_first_run(self) -> None:
        words = ["--delays", 1, "--stop", 9, "--runs", 3]
        with self.stand_in('[ "$1" = seq ] && echo >> begun; exec "$TWARP" "$@"') as start:
            for option in "--csv", "--json", "--picture":
                with self.subTest(option):
                    given = [*words, option, "/nowhere/a", CASES / "disagree.spp"]
                    done = self.sweep(*given, start=start)
                    self.assertEqual((done.status, done.out), (2, ""))
            case = start.parent / "case.spp"
            case.write_text(case_of("disagree"))
            done = self.sweep(*words, "--csv", case, case, start=start)
            self.assert_refused(done, "is the input")
            other = start.parent / "a"
            done = self.sweep(*words, "--csv", other, "--json", other, case, start=start)
            self.assert_refused(done, "is another output")
            self.assertEqual(case.read_text(), case_of("disagree"))
            self.assertFalse((start.parent / "begun").exists())

    def test_only_the_same_sweep_goes_on(self) -> None:
        with tempfile.TemporaryDirectory() as folder:
            kept = Path(folder) / "kept.csv"
            case = CASES / "disagree.spp"
            words = ["--delays", "1-9", "--stop", 50, "--runs", 4]
            # One that is not there yet begins.
            self.assert_done(self.sweep(*words, "--resume", kept, case))
            begun = kept.read_text()
            for change in (
                ["--stop", 51],
                ["--delays", "1-8"],
                ["--seed", 2],
                ["--every", 1],
                ["--links", "0-1"],
            ):
                with self.subTest(change):
                    done = self.sweep(*words, *change, "--resume", kept, case)
                    self.assert_refused(done, "refused line 1: it is of ")
            done = self.sweep(*words, "--resume", kept, CASES / "disagree-equal-delays.spp")
            self.assert_refused(done, "refused line 1: it is of ")
            self.assertEqual(kept.read_text(), begun)
            # What is no CSV stays as it is.
            kept.write_text("other")
            done = self.sweep(*words, "--resume", kept, case)
            self.assert_refused(done, "kept.csv: refused line 1: ")
            self.assertEqual(kept.read_text(), "other")

    def test_parts_are_merged(self) -> None:
        with tempfile.TemporaryDirectory() as name:
            folder, words = Path(name), [*self.TWO_DELAYS, CASES / "disagree.spp"]
            whole = self.assert_done(self.sweep(*words, "--runs", 60))
            for first, runs in (1, 25), (26, 35):
                part = self.assert_done(self.sweep(*words, "--seed", first, "--runs", runs))
                (folder / f"{first}.csv").write_text(part)
            files = [folder / "26.csv", folder / "1.csv"]
            self.assertEqual(self.assert_done(tool("sweep", "merge", *files)), whole)
            self.assertEqual(
                self.assert_done(tool("sweep", "merge", "--summary", *files)),
                self.sweep(*words, "--runs", 60, "--summary").out,
            )
            twice = tool("sweep", "merge", files[0], files[0])
            self.assert_refused(twice, "has the run with seed 26 too")
            other = folder / "other.csv"
            other.write_text(self.sweep(*words, "--apart", "--runs", 2, "--seed", 90).out)
            self.assert_refused(tool("sweep", "merge", *files, other), "other.csv: it is of ")

    def test_a_csv_of_others_is_refused(self) -> None:
        row = "2,4,7,quiet,5,,,6,3,1,,(0) (1 0) (2 1 0),"
        head = "seed,delay_0_1,delay_0_2,verdict,rest,from,period,sent,changed,outcome,moving,paths,x"
        bad = {
            "": 1,
            "a,b\n": 1,
            f"{head}\n{row}\n{row}\n": 3,
            f"{head}\n{row}\n3,{row[2:]}\n{row}\n": 4,
            f"{head}\n{row.replace('quiet', 'quieter')}\n": 2,
            f"{head}\n{row.replace(',5,', f',{9 ** 99},')}\n": 2,
            f"{head}\n{row.replace(',1,,(0)', ',1,,,(0)')}\n": 2,
            f"{head}\n3,4,7,quiet,5,,,6,3,1,,,\n": 2,
            f"{head}\n{'9' * 5_000_000}\n": 2,
            f'{head}\n"{"9" * 100}\n"' * 3: 2,
        }
        for text, line in bad.items():
            with self.subTest(text[-60:]), tempfile.TemporaryDirectory() as folder:
                file = Path(folder) / "a.csv"
                file.write_text(text)
                self.assert_refused(tool("sweep", "merge", file), f"{file}: refused line {line}: ")
        command = [sys.executable, "-S", TOP / "tools/sweep", "merge", "/dev/zero"]
        self.assert_refused(run_within(60, 300, *command), "/dev/zero: refused line 1: ")

    def test_laws_of_delays(self) -> None:
        # The quantiles of the two laws, from their formulas: ln 2 of the mean is the median, and a
        # deviation above the median is the part 0.8413 of a normal law.
        exponential, log_normal = read_law("exponential:100"), read_law("log-normal:50:1")
        self.assertEqual([exponential.ticks(part) for part in (0, 0.5, 0.9)], [1, 69, 230])
        self.assertEqual([log_normal.ticks(part) for part in (0.5, 0.841345)], [50, 136])
        self.assertEqual(read_law("exponential:1000000").ticks(1 - 2**-53), 1_000_000)
        self.assertEqual(read_law("log-normal:9:100").ticks(0), 1)
        bad = "exponential:0", "log-normal:5", "log-normal:0:1", "normal:5", "0-5", "5-1", "1-"
        for words in bad:
            done = self.sweep("--delays", words, "--stop", 9, CASES / "disagree.spp")
            self.assertEqual(done.status, 3, words)
        words = ["--delays", "exponential:20", "--stop", 500, "--runs", 200]
        rows = self.rows(*words, CASES / "disagree.spp")
        drawn = [int(row["delay_0_1"]) for row in rows]
        # The mean of 200 draws is within four of its deviations of the law's.
        self.assertAlmostEqual(sum(drawn) / 200, 20, delta=4 * 20 / 200**0.5)

    def test_each_direction_apart(self) -> None:
        words = ["--delays", "1-50", "--apart", "--links", "1-2", "--stop", 300, "--every", 1]
        words.append(CASES / "disagree.spp")
        rows = self.rows(*words, "--runs", 40)
        self.assertGreater(len({(row["delay_1_2"], row["delay_2_1"]) for row in rows}), 30)
        one, two = rows[0]["delay_1_2"], rows[0]["delay_2_1"]
        self.assertEqual(
            self.assert_done(self.sweep(*words, "--show")).splitlines()[:5],
            ["spp 2", "nodes 3", "link 0 1 1 1", "link 0 2 5 5", f"link 1 2 {one} {two}"],
        )

    def test_which_routers_still_move(self) -> None:
        # Two pairs of routers as in DISAGREE, of which the second has equal delays and never rests.
        paths = ["1 2 0", "1 0", "2 1 0", "2 0", "3 4 0", "3 0", "4 3 0", "4 0"]
        links = ["0 1 1", "0 2 5", "1 2 1", "0 3 1", "0 4 1", "3 4 1"]
        lines = [f"link {link}" for link in links] + [f"path {path[0]} {path}" for path in paths]
        case = "\n".join(["spp 1", "nodes 5", *lines, "end", ""])
        words = ["--delays", "1", "--links", "0-3", "--stop", 101, "--runs", 3]
        for every, verdict in ([], "open"), (["--every", 1], "oscillates"):
            rows = self.rows(*words, *every, stdin=case)
            self.assertEqual({(row["verdict"], row["moving"]) for row in rows}, {(verdict, "3 4")})
            told = self.assert_done(self.sweep(*words, *every, "--summary", stdin=case))
            self.assertRegex(told, rf"\n{verdict} +3  3: 3, 4: 3\n")

    def test_json_tells_what_was_run_and_how_it_ended(self) -> None:
        with tempfile.TemporaryDirectory() as folder:
            file = Path(folder) / "a.json"
            words = [*self.TWO_DELAYS, "--runs", 100, "--json", file, CASES / "disagree.spp"]
            rows = list(csv.DictReader(self.assert_done(self.sweep(*words)).splitlines()))
            told = json.loads(file.read_text())
        text = case_of("disagree")
        self.assertEqual(told["case"], hashlib.sha256(text.encode()).hexdigest())
        self.assertIn("--delays 1-10 --links 0-1,2-0 --stop 100 --every 1 --seed 1", told["sweep"])
        self.assertRegex(told["versions"]["program"], r"^twarp \d")
        for outcome in told["outcomes"]:
            own = [row for row in rows if outcome["outcome"] in (row["outcome"], row["verdict"])]
            self.assertEqual(outcome["runs"], len(own))
            key = "rest" if "rest" in outcome else "period"
            for name, column in (key, key), ("messages", "sent"):
                values = sorted(int(row[column]) for row in own)
                spread = outcome[name]
                self.assertEqual((spread["least"], spread["greatest"]), (values[0], values[-1]))
                for percent in 50, 90, 99:
                    # So many in a hundred are at most this value, and fewer are below it.
                    value = spread[f"p{percent}"]
                    wanted = len(values) * percent / 100
                    self.assertGreaterEqual(sum(seen <= value for seen in values), wanted)
                    self.assertLess(sum(seen < value for seen in values), wanted)
                first, width = spread["histogram"]["first"], spread["histogram"]["width"]
                for place, count in enumerate(spread["histogram"]["counts"]):
                    low = first + place * width
                    self.assertEqual(count, sum(low <= seen < low + width for seen in values))
        winners = Counter(row["outcome"] for row in rows if row["outcome"])
        paths = {tuple(map(tuple, row["paths"])): row for row in told["outcomes"] if "paths" in row}
        self.assertEqual(set(paths), {((0,), (1, 0), (2, 1, 0)), ((0,), (1, 2, 0), (2, 0))})
        runs = {row["outcome"]: row["runs"] for row in paths.values()}
        self.assertEqual(runs, dict(winners))
        counts = {tuple(row["path"]): row["runs"] for row in told["routers"][1]["paths"]}
        self.assertEqual(
            counts, {key[1]: row["runs"] for key, row in paths.items()}
        )

    def test_a_process_that_dies_loses_no_run(self) -> None:
        # Two runs may count together: the folder is made by one alone.
        dies = '[ "$(wc -l < begun)" -ge 9 ] && mkdir dead 2> /dev/null && kill -9 "$PPID"'
        words = [*self.TWO_DELAYS, "--runs", 40, CASES / "disagree.spp"]
        with self.stand_in(f'echo >> begun; {dies}; exec "$TWARP" "$@"') as start:
            broken = self.assert_done(self.sweep(*words, "--jobs", 2, start=start))
            self.assertTrue((start.parent / "dead").exists())
        self.assertEqual(broken, self.sweep(*words).out)


def run_at(folder: Path, environment: Mapping[str, str], *words: object) -> Done:
    """How a sweep ends in a folder."""
    command = [sys.executable, "-S", str(TOP / "tools/sweep"), "--quiet", *map(str, words)]
    done = subprocess.run(command, cwd=folder, env=environment, capture_output=True, text=True)
    return Done(done.returncode, done.stdout, done.stderr)

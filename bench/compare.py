"""Programs compared on the same cases, in turns, and the tables of bench/README.md.

    bench.py compare [seq run busy options growth ..] [--write] [--peer FOLDER] [--prototype FOLDER]
                     [--program FILE] [--turns N] [--beside N] [--only WORD] [--short]

The programs run in turns on each case, as a user runs them: under the scheduler and the priority
that this command has itself, which it tells and doesn't change. Of each its median, its least and
its spread are told, which is the way from the first to the third quartile as a share of the median.
Their reports must have the same bytes.

    seq      twarp seq beside the plain program of --peer; and as many of it at the same time as
             there are processors
    run      twarp run by 1, 2 and 4 workers, and with --workers left out, beside seq and the
             prototype of --prototype
    busy     the same beside N processes that keep processors busy (4, or --beside N)
    options  what --lazy and --stats take of a run without them, in processor time
    growth   twarp seq on longer and longer runs, with --log and with checkpoints

--peer and --prototype name folders that cargo builds (release, without network); what it makes goes
into the folder out at the root. Where one is not named, its columns and cases are left out. --write
puts the tables into README.md, between the lines that mark their places; --short takes the short
cases alone, and --only those whose names have the word.
"""
from __future__ import annotations

import argparse
import datetime
import filecmp
import os
import platform
import re
import resource
import statistics
import subprocess
import sys
import tempfile
import time
from collections.abc import Callable, Iterator, Mapping, Sequence
from contextlib import ExitStack, contextmanager
from dataclasses import dataclass, field
from pathlib import Path
from types import ModuleType

from measuring import PROGRAM
from workloads import FOR_GROWTH, FOR_RUN, FOR_SEQ, Workload, makers_in

TOP = Path(__file__).resolve().parent.parent
README = TOP / "bench/README.md"
BUILT = TOP / "out/bench"

WORKERS = (1, 2, 4)
# A run that takes so many times as long as the slowest before, and so many seconds more, is ended
# and run again.
LIMIT_TIMES, LIMIT_SECONDS = 30, 20
MOST_ENDED = 5

# A process that keeps a processor busy for as long as the one that started it is there.
BUSY = """
import os
parent = os.getppid()
while os.getppid() == parent:
    for _ in range(1000000):
        pass
"""

Words = Sequence[str]


@dataclass(frozen=True)
class Took:
    """What one run of a program took: by the clock, and of all processors together."""

    seconds: float
    processor: float


@dataclass
class Sample:
    """The seconds of some runs of a program."""

    seconds: list[float] = field(default_factory=list)

    @property
    def median(self) -> float:
        return statistics.median(self.seconds)

    @property
    def least(self) -> float:
        return min(self.seconds)

    @property
    def spread(self) -> float:
        """The way from the first to the third quartile, as a share of the median."""
        if len(self.seconds) < 2:
            return 0.0
        first, _, third = statistics.quantiles(self.seconds, n=4, method="inclusive")
        return (third - first) / self.median

    def __str__(self) -> str:
        return f"median {self.median:.4f} s, least {self.least:.4f}, spread {self.spread:.0%}"

    def cell(self) -> str:
        return f"{self.median:.3f} ({self.least:.3f}, {self.spread:.0%})"

    def beside(self, other: Sample) -> str:
        """How many times those of another these are: by the medians, and by the leasts."""
        return f"{self.median / other.median:.2f} ({self.least / other.least:.2f})"


class Bench:
    """Where cases and reports are kept while programs are compared."""

    def __init__(self, folder: Path, asked: argparse.Namespace):
        self.folder = folder
        self.asked = asked
        self.gen: ModuleType | None = makers_in(asked.peer) if asked.peer else None
        self.slowest = 0.0

    def chosen(self, workloads: Sequence[Workload]) -> list[Workload]:
        """Those that the command line asks for and whose makers are there."""
        return [
            workload
            for workload in workloads
            if self.asked.only in workload.name
            and (workload.is_short or not self.asked.short)
            and (self.gen or not workload.is_of_plain_program)
        ]

    def case(self, workload: Workload) -> Path:
        file = self.folder / workload.key
        if not file.exists():
            file.write_text(workload.text(self.gen))
        return file

    def run_once(self, words: Words, case: Path, output: Path) -> Took:
        """What a program takes from its start to its end; one that doesn't end is run again."""
        for _ in range(MOST_ENDED):
            with open(case, "rb") as source, open(output, "wb") as written:
                before = processor_seconds()
                begin = time.perf_counter()
                with subprocess.Popen(
                    words, stdin=source, stdout=written, stderr=subprocess.PIPE
                ) as child:
                    try:
                        _, said = child.communicate(
                            timeout=LIMIT_TIMES * self.slowest + LIMIT_SECONDS
                        )
                    except subprocess.TimeoutExpired:
                        child.kill()
                        print(f"{' '.join(words)} did not end, and is run again", flush=True)
                        continue
                seconds = time.perf_counter() - begin
            if child.returncode:
                told = said.decode().strip()
                sys.exit(f"{' '.join(words)} ends with status {child.returncode}: {told}")
            self.slowest = max(self.slowest, seconds)
            return Took(seconds, processor_seconds() - before)
        sys.exit(f"{' '.join(words)} did not end {MOST_ENDED} times in a row")

    def in_turns(
        self, lines: Mapping[str, Words], case: Path, of_processors: bool = False
    ) -> dict[str, Sample]:
        """Runs each line once in each turn, another one first each time; all have to write the same."""
        samples = {name: Sample() for name in lines}
        first, output = self.folder / "first", self.folder / "output"
        self.slowest = 0.0
        names = [*lines]
        for turn in range(self.asked.turns):
            start = turn % len(names)
            for name in names[start:] + names[:start]:
                is_first = not any(sample.seconds for sample in samples.values())
                took = self.run_once(lines[name], case, first if is_first else output)
                samples[name].seconds.append(took.processor if of_processors else took.seconds)
                if not is_first and not filecmp.cmp(first, output, shallow=False):
                    sys.exit(f"{' '.join(lines[name])} writes another report of {case.name}")
        for name, sample in samples.items():
            print(f"  {name}: {sample}", flush=True)
        return samples

    def side_by_side(self, words: Words, case: Path) -> Sample:
        """The seconds of as many runs at the same time as there are processors, some times over."""
        sample = Sample()
        with ExitStack() as stack:
            nothing = stack.enter_context(open(os.devnull, "wb"))
            for _ in range(self.asked.turns):
                begin = time.perf_counter()
                children = []
                for _ in range(processors()):
                    with open(case, "rb") as source:
                        children.append(subprocess.Popen(words, stdin=source, stdout=nothing))
                running = {child.pid: child for child in children}
                while running:
                    # In whichever order they end.
                    pid, _ = os.wait()
                    if child := running.pop(pid, None):
                        sample.seconds.append(time.perf_counter() - begin)
                        child.returncode = 0
        print(f"  {len(children)} side by side: {sample}", flush=True)
        return sample

    def memory(self, words: Words, case: Path) -> float:
        """The greatest resident size of a run in MB, looked at while it runs: it only rises."""
        found = 0
        with open(case, "rb") as source, open(os.devnull, "wb") as nothing:
            with subprocess.Popen(words, stdin=source, stdout=nothing) as child:
                status = Path(f"/proc/{child.pid}/status")
                while child.poll() is None:
                    try:
                        peak = re.search(r"VmHWM:\s*(\d+)", status.read_text())
                    except OSError:
                        break
                    found = max(found, int(peak[1]) if peak else 0)
                    time.sleep(0.0005)
        return found * 1024 / 1e6

    def events(self) -> int:
        """How many events the report of the last turns tells of."""
        counts = re.findall(
            rb"^router .* handled (\d+)", (self.folder / "first").read_bytes(), re.M
        )
        return sum(map(int, counts))


def processor_seconds() -> float:
    """What all programs have taken of the processors that were run and have ended."""
    used = resource.getrusage(resource.RUSAGE_CHILDREN)
    return used.ru_utime + used.ru_stime


def processors() -> int:
    return len(os.sched_getaffinity(0))


@contextmanager
def busy(count: int) -> Iterator[None]:
    """So many processes that keep processors busy, until the end of the block."""
    children = [subprocess.Popen([sys.executable, "-c", BUSY]) for _ in range(count)]
    try:
        yield
    finally:
        for child in children:
            child.kill()
            child.wait()


def conditions() -> str:
    """Under what the programs are measured."""
    names = {os.SCHED_OTHER: "the ordinary scheduler", os.SCHED_BATCH: "the scheduler SCHED_BATCH"}
    scheduler = os.sched_getscheduler(0)
    found = names.get(scheduler, f"a scheduler that no user has by default (number {scheduler})")
    nice = os.getpriority(os.PRIO_PROCESS, 0)
    load = f"{os.getloadavg()[0]:.1f}"
    return f"{processors()} processors, {found}, nice {nice}, load {load} at the beginning"


def processor_name() -> str:
    try:
        found = re.search(r"model name\s*: (.*)", Path("/proc/cpuinfo").read_text())
    except OSError:
        found = None
    return " ".join(found[1].split()) if found else platform.machine()


def table(heads: Sequence[str], rows: Sequence[Sequence[str]]) -> str:
    lines = [heads, ["---"] * len(heads), *rows]
    return "".join(f"|{'|'.join(line)}|\n" for line in lines)


def seq_line(program: str, workload: Workload) -> list[str]:
    return [program, "seq", *workload.options.split()]


def seq_table(bench: Bench) -> str:
    asked = bench.asked
    rows = []
    for workload in bench.chosen(FOR_SEQ):
        print(f"{workload.name} ({workload.options})", flush=True)
        case = bench.case(workload)
        lines = {"seq": seq_line(asked.program, workload)}
        if asked.plain:
            lines["plain Rust"] = seq_line(asked.plain, workload)
        samples = bench.in_turns(lines, case)
        seq, events = samples["seq"], bench.events()
        memory = bench.memory(lines["seq"], case)
        many = bench.side_by_side(lines["seq"], case)
        row = [workload.name, f"{events:,}", seq.cell(), f"{memory:.1f}", many.beside(seq)]
        if asked.plain:
            plain = samples["plain Rust"]
            row += [
                plain.cell(),
                f"{bench.memory(lines['plain Rust'], case):.1f}",
                seq.beside(plain),
            ]
        rows.append(row)
    heads = ["Case", "Events", "`seq`, s", "MB", f"{processors()} `seq` at once, of one"]
    heads += ["Plain Rust, s", "MB", "`seq`, of plain Rust"] if asked.plain else []
    return table(heads, rows)


def run_lines(asked: argparse.Namespace, workload: Workload) -> dict[str, list[str]]:
    """The command lines that are compared, by what the table calls them."""
    options = workload.options.split()
    run = [asked.program, "run", *options]
    lines = {"seq": [asked.program, "seq", *options]}
    lines |= {f"`--workers {count}`": [*run, "--workers", str(count)] for count in WORKERS}
    lines["left out"] = run
    if asked.parallel:
        lines["prototype, 4"] = [asked.parallel, "run", *options, "--workers", "4"]
    return lines


def run_table(bench: Bench) -> str:
    rows, heads = [], []
    for workload in bench.chosen(FOR_RUN):
        print(f"{workload.name} ({workload.options})", flush=True)
        lines = run_lines(bench.asked, workload)
        case = bench.case(workload)
        samples = bench.in_turns(lines, case)
        seq, *others = samples.values()
        row = [workload.name, seq.cell(), *(other.beside(seq) for other in others)]
        heads = ["Case", "`seq`, s", *[*lines][1:]]
        if bench.asked.parallel:
            row.append(samples["`--workers 4`"].beside(samples["prototype, 4"]))
            heads.append("`--workers 4`, of the prototype")
        heads.append("MB, 4 workers")
        row.append(f"{bench.memory(lines['`--workers 4`'], case):.1f}")
        rows.append(row)
    return table(heads, rows)


def busy_table(bench: Bench) -> str:
    with busy(bench.asked.beside):
        # They have begun by then.
        time.sleep(1)
        return run_table(bench)


def options_table(bench: Bench) -> str:
    rows = []
    for workload in bench.chosen(FOR_RUN):
        print(f"{workload.name} ({workload.options})", flush=True)
        seq = seq_line(bench.asked.program, workload)
        run = [bench.asked.program, "run", *workload.options.split(), "--workers"]
        lines = {"seq": seq, "--stats": [*seq, "--stats"]}
        for count in map(str, WORKERS):
            lines |= {count: [*run, count], f"{count}, --lazy": [*run, count, "--lazy"]}
        samples = bench.in_turns(lines, bench.case(workload), of_processors=True)
        lazy = [samples[f"{count}, --lazy"].beside(samples[f"{count}"]) for count in WORKERS]
        rows.append([workload.name, *lazy, samples["--stats"].beside(samples["seq"])])
    heads = [f"`--lazy`, {count} worker{'s' * (count > 1)}" for count in WORKERS]
    return table(["Case", *heads, "`seq --stats`"], rows)


def growth_table(bench: Bench) -> str:
    rows = []
    for workload in bench.chosen(FOR_GROWTH):
        print(f"{workload.name} ({workload.options})", flush=True)
        case, line = bench.case(workload), seq_line(bench.asked.program, workload)
        sample = bench.in_turns({"seq": line}, case)["seq"]
        events = bench.events()
        stop = f"{int(workload.options.split()[1]):,}"
        rate = f"{events / sample.median / 1e6:.1f}"
        rows.append(
            [
                workload.name,
                stop,
                f"{events:,}",
                sample.cell(),
                rate,
                f"{bench.memory(line, case):.1f}",
            ]
        )
    return table(["Case", "Stop", "Events", "`seq`, s", "Million events a second", "MB"], rows)


TABLES: dict[str, Callable[[Bench], str]] = {
    "seq": seq_table,
    "run": run_table,
    "busy": busy_table,
    "options": options_table,
    "growth": growth_table,
}


def with_table(page: str, name: str, made: str) -> str:
    """The page with another table between the lines that mark its place."""
    place = re.compile(
        rf"(?<=<!-- {name}: bench\.py compare writes this -->\n).*?(?=<!-- end -->)", re.DOTALL
    )
    if not place.search(page):
        sys.exit(f"{README} has no place for the table {name}")
    return place.sub(lambda _: f"\n{made}\n", page, count=1)


def built(folder: Path | None) -> str | None:
    """The program that cargo builds of a folder."""
    if not folder:
        return None
    target = BUILT / folder.resolve().name
    words: list[str | Path] = [
        "cargo",
        "build",
        "--release",
        "--offline",
        "--quiet",
        "--manifest-path",
        folder / "Cargo.toml",
    ]
    done = subprocess.run(words, env=os.environ | {"CARGO_TARGET_DIR": str(target)}, check=False)
    programs = [
        file
        for file in sorted((target / "release").glob("*"))
        if file.is_file() and not file.suffix and os.access(file, os.X_OK)
    ]
    if done.returncode or not programs:
        sys.exit(f"cargo makes no program of {folder}")
    return str(programs[0])


def command_line(words: Sequence[str]) -> argparse.Namespace:
    parser = argparse.ArgumentParser(
        prog="bench.py compare",
        description=__doc__,
        formatter_class=argparse.RawDescriptionHelpFormatter,
    )
    parser.add_argument("tables", nargs="*", choices=[*TABLES, []], metavar="TABLE")
    parser.add_argument("--write", action="store_true")
    parser.add_argument("--peer", type=Path)
    parser.add_argument("--prototype", type=Path)
    parser.add_argument("--program", default=str(PROGRAM))
    parser.add_argument("--turns", type=int, default=9)
    parser.add_argument("--beside", type=int, default=4)
    parser.add_argument("--only", default="")
    parser.add_argument("--short", action="store_true")
    asked = parser.parse_args(words)
    asked.plain, asked.parallel = built(asked.peer), built(asked.prototype)
    return asked


def main(words: Sequence[str]) -> None:
    asked = command_line(words)
    with tempfile.TemporaryDirectory() as folder:
        bench = Bench(Path(folder), asked)
        for name in asked.tables or TABLES:
            write_table(bench, name)


def write_table(bench: Bench, name: str) -> None:
    """Makes a table and shows it, with what it was made under; puts it into its place if asked."""
    found = conditions()
    if name == "busy":
        found += f", beside {bench.asked.beside} busy processes"
    print(f"== {name}: {processor_name()}, {found}", flush=True)
    day = datetime.date.today().isoformat()
    made = f"{TABLES[name](bench)}\n{day}, {bench.asked.turns} turns: {found}.\n"
    print(f"\n{made}", flush=True)
    if bench.asked.write:
        README.write_text(with_table(README.read_text(), name, made))

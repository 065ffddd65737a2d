"""Runs a case many times, each time with other delays, other times of its failures, or both, and tells how the runs end.

A line for each run is written on standard output, as CSV; with --summary tables of the outcomes stand there instead.
What is drawn for a run depends on its seed alone, so the same options write the same bytes, however many runs go on
side by side. INT or TERM ends the sweep with what there is; --resume goes on.

sweep merge A.csv B.csv .. puts several sweeps with one case and the same options, and with other seeds, together.

examples:
  tools/sweep --delays 1-10 --links 0-1,0-2 --stop 100 --every 1 --summary cases/disagree.spp
  tools/sweep --failure-times 0-50 --stop 1000 --csv runs.csv --picture runs.svg --summary cases/failure-and-repair.spp
  tools/sweep --relationships '--destination 2603 --paths 4 --failures 2 --until 100' --stop 1000 --runs 200 \\
      tools/examples/research-networks.txt > runs.csv
"""

import argparse
import contextlib
import hashlib
import platform
import re
import shlex
import signal
import sys
import threading
from collections.abc import Iterator, Sequence
from functools import partial

from twarp import program
from twarp.calls import Ribs, version
from twarp.case import GREATEST_TIME, MOST_ROUTERS, Case, read_case
from twarp.outcomes import Outcomes, Table, read_table
from twarp.program import Refused, Stopped
from twarp.sweeps import CaseSource, Ends, Policy, at_rest, cluster, read_law, read_range
from twarp.trials import Batches, Failed, Plan, Source, Trial, workers_of
from twarp_tools import relationships
from twarp_tools.command import Input, Parser, number_between, tell, title_of, tool, write_output
from twarp_tools.sweep_outputs import Outputs, Progress

MOST_RUNS, MOST_JOBS = 1_000_000, 1_024

# The options that say what the runs are; a CSV names them, and goes on with the same ones alone.
NAMED = ("delays", "links", "apart", "failure_times", "relationships", "stop", "every", "outcomes", "seed")


def read_links(words: str) -> list[Ends]:
    """The links of a list as 0-1,0-2."""
    links = []
    for word in words.split(","):
        found = re.fullmatch("([0-9]{1,4})-([0-9]{1,4})", word)
        if not found or max(a := int(found[1]), b := int(found[2])) >= MOST_ROUTERS:
            raise ValueError(f"{word[:80]!r} is no link as 0-1")
        links.append((a, b))
    return links


def command_line() -> argparse.Namespace:
    parser = Parser(__doc__)
    flag, option, time = parser.add_argument, parser.option, number_between(1, GREATEST_TIME)
    flag("case", metavar="CASE", nargs="?", default="-", help="the case; - is standard input")
    law = "draw delays, in whole ticks, by LOW-HIGH, exponential:MEAN, or log-normal:MEDIAN:SIGMA"
    option("--delays", "LAW", law, read_law, is_kept=True)
    option("--links", "LIST", "draw the delays of these links alone, as 0-1,0-2", read_links, is_kept=True)
    flag("--apart", action="store_true", help="draw a delay for each direction of a link")
    times = partial(read_range, least=0, greatest=GREATEST_TIME)
    option("--failure-times", "LOW-HIGH", "draw each failure's time; its repair moves with it", times, is_kept=True)
    made = "CASE has AS relationships: make a case for each run, by tools/relationships with these options and the seed"
    option("--relationships", "OPTIONS", made, shlex.split, is_kept=True)
    option("--runs", "N", "how many runs", number_between(1, MOST_RUNS), 1_000)
    option("--seed", "N", "the first run's seed", number_between(0, GREATEST_TIME - MOST_RUNS), 1)
    rest = "where it is at rest whatever its delays, of a case that twarp-policy calls safe"
    option("--stop", "TIME", f"run each case to this time (default: {rest})", time)
    option("--every", "N", "look for oscillation each N ticks, as twarp does", time)
    numbers = "number outcomes at rest by first seeds, or as twarp-policy stable does"
    numbers += " (default: stable, where it lists several)"
    flag("--outcomes", choices=["seen", "stable"], help=numbers)
    add_outputs(parser)
    option("--resume", "FILE", "run what is missing in this CSV of the same case, options and seed, and write into it")
    check = "see whether each run at rest has stable paths; if one has not, write its case and end with status 1"
    flag("--check", choices=["stable"], help=check)
    flag("--show", action="store_true", help="write the case of the first run, and run nothing")
    jobs = "so many runs side by side (default: one for each processor, or thread of the cluster's workers)"
    option("--jobs", "N", jobs, number_between(1, MOST_JOBS))
    option("--scheduler", "ADDRESS", "run on the Dask cluster with this scheduler, as tcp://HOST:8786")
    flag("--quiet", action="store_true", help="do not tell how far it is")
    option("--program", "FILE", "the built program (default: $TWARP, the clone's, the installed one, or on the PATH)")
    where = "the built program twarp-policy (default: $TWARP_POLICY, beside twarp, or on the PATH)"
    option("--policy-program", "FILE", where)
    line = parser.parse_args()
    is_drawn, is_made = line.delays or line.failure_times, line.relationships is not None
    is_known = line.stop or line.show or program.find_policy(line.policy_program, line.program)
    faults = {
        "one of --delays, --failure-times and --relationships has to say what is drawn": not (is_drawn or is_made),
        "--relationships draws delays and failures itself": is_drawn and is_made,
        "--outcomes goes with one case, and --relationships makes one for each run": line.outcomes and is_made,
        "--links and --apart go with --delays": (line.links or line.apart) and not line.delays,
        "--resume names the CSV itself": line.csv and line.resume,
        "--stop is missing, and no twarp-policy is here that would tell when the runs are at rest": not is_known,
    }
    for fault in (words for words, is_met in faults.items() if is_met):
        parser.error(fault)
    return line


def add_outputs(parser: Parser) -> None:
    """The options that say what is written."""
    parser.add_argument("--summary", action="store_true", help="write tables of the outcomes in place of the CSV")
    parser.option("--csv", "FILE", "write the CSV into this file too, as the runs end")
    parser.option("--json", "FILE", "write into this file what was run, and the outcomes, as JSON")
    parser.option("--picture", "FILE", "draw outcomes, times and messages into this file, as SVG")
    parser.option("--title", "TITLE", "what the picture's title begins with (default: the case's name)")


class RelationshipsSource:
    """A case of its own for each run: the one that the tool relationships makes with the run's seed."""

    columns: list[str] = []

    def __init__(self, options: Sequence[str], file: str):
        self.line = relationships.command_line([*options, file])
        if self.line.map:
            raise Refused("refused option --relationships: --map is for the tool relationships alone")
        self.neighbours = relationships.read(self.line)
        self.words = f"seeds of relationships {shlex.join(options)}"

    def draw(self, seed: int) -> tuple[Case, tuple[int, ...]]:
        _, _, case = relationships.make(self.neighbours, argparse.Namespace(**{**vars(self.line), "seed": seed}))
        return case, ()


def source_of(line: argparse.Namespace) -> tuple[Source, str]:
    """Where the cases come from, and a checksum: of the case's text, or of that of seed 0."""
    if line.relationships is not None:
        source: Source = RelationshipsSource(shlex.split(line.relationships), line.case)
        case, _ = source.draw(0)
    else:
        named = None if line.scheduler else line.program
        case = Input(line.case).read(lambda text: read_case(text, named))
        links = read_links(line.links) if line.links else None
        source = CaseSource(case, line.delays, links, line.apart, line.failure_times)
    return source, hashlib.sha256(str(case).encode()).hexdigest()


def judged(line: argparse.Namespace, source: Source) -> tuple[str, Policy | None]:
    """The program twarp-policy, and what it says of the one case; stopped where it is missing and asked for.

    Where nothing but delays is drawn, no stop has to be named for a case that is safe.
    """
    try:
        file = str(program.need_policy(line.policy_program, line.program))
    except Stopped:
        if not line.scheduler and (line.policy_program or not line.stop or line.outcomes == "stable"):
            raise
        return "twarp-policy", None
    if not isinstance(source, CaseSource):
        return file, None
    try:
        policy = Policy.of(source.case, file)
    except (OSError, Refused, Stopped, ValueError) as fault:
        if not line.stop:
            raise Stopped(f"policy: {file} does not tell when the runs are at rest: {fault}") from None
        tell(f"{file} does not judge the case: {fault}")
        return file, None
    if not (line.stop or line.failure_times or policy.safety.is_safe):
        raise Refused(f"refused option --stop: it is missing, and no time is known by which all rest: {policy.words()}")
    if not line.quiet:
        tell(policy.words())
    return file, policy


@contextlib.contextmanager
def interruption() -> Iterator[threading.Event]:
    """Within it INT and TERM are noted. A second one ends the tool at once."""
    has_come = threading.Event()

    def note(number: int, _: object) -> None:
        has_come.set()
        signal.signal(number, signal.SIG_DFL)

    with contextlib.ExitStack() as ends:
        for number in signal.SIGINT, signal.SIGTERM:
            if (handler := signal.getsignal(number)) is not signal.SIG_IGN:
                ends.callback(signal.signal, number, handler)
                signal.signal(number, note)
        yield has_come


def run_all(line: argparse.Namespace, plan: Plan, batches: Batches, outputs: Outputs, done: int) -> int:
    """Runs until all runs are done, or INT or TERM comes, and gives how many are."""
    progress = Progress(line.runs, line.quiet, done)
    with interruption() as has_come:
        for trial in batches:
            if has_come.is_set() and not batches.is_stopped:
                batches.stop()
            if trial is None:
                outputs.flush()
                progress.show(done)
                continue
            if isinstance(trial.end, Failed):
                progress.tell(f"the run with seed {trial.seed} failed: {trial.end.why}")
            elif trial.end.fault:
                case, _ = plan.source.draw(trial.seed)
                write_output(str(case))
                raise Refused(f"the run with seed {trial.seed} does not end with stable paths: {trial.end.fault}")
            outputs.take(trial)
            done += 1
    outputs.flush()
    progress.show(done, is_end=True)
    return done


@tool
def main() -> None:
    if sys.argv[1:2] == ["merge"]:
        return merge()
    line = command_line()
    source, checksum = source_of(line)
    if line.show:
        case, _ = source.draw(line.seed)
        return write_output(str(case))
    where = str((program.find(line.program) or "twarp") if line.scheduler else program.need(line.program))
    judge, policy = judged(line, source)
    line.outcomes = "stable" if policy and policy.numbers and line.outcomes != "seen" else None
    plan = Plan(source, where, line.stop or partial(at_rest, judge), line.every, line.check == "stable")
    numbers = policy.numbers if policy and line.outcomes else {}
    # With other times of failures a run may stand elsewhere once its script is over.
    notes = policy.notes if policy and not line.failure_times else {}
    given = program.words_of({name.replace("_", "-"): getattr(line, name) for name in NAMED})
    made_by = f"sweep {checksum[:16]} {shlex.join(given)}"
    record: dict[str, object] = {"sweep": made_by, "case": checksum, "first_seed": line.seed}
    if policy:
        record["policy"] = policy.record()
    with cluster(line.scheduler) if line.scheduler else contextlib.nullcontext((None, None)) as (executor, threads):
        workers = workers_of(plan, executor, line.jobs or threads)
        outputs = Outputs(line, Table(source.columns, made_by, Outcomes((), numbers, notes)), [line.case])
        known = {trial.seed for trial in outputs.known}
        seeds = [seed for seed in range(line.seed, line.seed + line.runs) if seed not in known]
        try:
            done = run_all(line, plan, Batches(plan, seeds, workers), outputs, line.runs - len(seeds))
        finally:
            outputs.flush()
        if seeds and known and min(seeds) < max(known):
            outputs.put_in_order()
        if line.json:
            told = executor.submit(version_of, where).result() if executor else version_of(where)
            record["versions"] = {"program": told, "python": platform.python_version()}
        outputs.end(title_of(line.title, line.case), source.words, record)
    if done < line.runs:
        raise Stopped(f"interrupt: {done:,} of {line.runs:,} runs are done")
    if failed := outputs.table.outcomes.failed:
        raise Stopped(f"runs: {failed:,} of {line.runs:,} failed")


def version_of(file: str) -> str | None:
    """What a program says of its version, where it says something."""
    with contextlib.suppress(OSError, Refused, Stopped, ValueError):
        return version(program=file)
    return None


def without_seed(made_by: str) -> str:
    return re.sub(r" --seed \d+$", "", made_by)


def merge() -> None:
    about = "Puts CSVs of sweep with one case and the same options together, by rising seeds."
    parser = Parser(f"{about}\n\nexample:\n  tools/sweep merge first.csv second.csv > both.csv\n")
    parser.prog += " merge"
    parser.add_argument("files", metavar="FILE", nargs="+", help="a CSV of sweep")
    add_outputs(parser)
    parser.set_defaults(resume=None, check=None)
    line = parser.parse_args(sys.argv[2:])
    runs: dict[int, Trial] = {}
    # Those of stable assignments; other numbers that a CSV has are its own, and are given anew.
    numbers: dict[Ribs, int] = {}
    tables: list[Table] = []
    for name in line.files:
        with open(name, newline="", errors="replace") as source:
            table, trials = read_table(source)
        tables.append(table)
        if [*map(without_seed, table.head)] != [*map(without_seed, tables[0].head)]:
            made, first = table.head[-1][:200], tables[0].head[-1][:200]
            raise Refused(f"{name}: it is of `{made}`, and {line.files[0]} of `{first}`")
        for trial in trials:
            if runs.setdefault(trial.seed, trial) is not trial:
                raise Refused(f"{name}: a file before has the run with seed {trial.seed} too")
        if " --outcomes stable" in table.head[-1]:
            taken = {*numbers.values()}
            new = {ribs: number for ribs, number in table.outcomes.numbers.items() if number not in taken}
            numbers = new | numbers
    least = min(runs, default=0)
    made = f"{without_seed(tables[0].head[-1])} --seed {least}"
    outputs = Outputs(line, Table(tables[0].columns, made, Outcomes(numbers=numbers)), line.files)
    for _, trial in sorted(runs.items()):
        outputs.take(trial)
    outputs.flush()
    outputs.end(title_of(line.title, line.files[0]), made, {"sweep": made, "first_seed": least})

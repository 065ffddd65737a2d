"""How the runs of a sweep ended: as lines of a table, and counted by outcome."""

import csv
import io
import json
import re
from collections import Counter
from collections.abc import Iterable, Iterator, Mapping, Sequence
from dataclasses import astuple, dataclass, field
from functools import cached_property
from math import ceil, sqrt
from statistics import NormalDist
from typing import Any, TextIO

from twarp.case import PATH, Nodes, read_path, write_path
from twarp.program import Refused
from twarp.report import Open, Oscillates, Quiet, Verdict
from twarp.svg import nice_step
from twarp.trials import End, Failed, Ribs, Trial

# The intervals are such that 95 of 100 hold the share that infinitely many runs would have.
DEVIATIONS = NormalDist().inv_cdf(0.975)
# How many routers' paths tell an outcome from the others in a line, and how many lines a table of routers has.
MOST_TOLD, MOST_LINES = 4, 20
MOST_COLUMNS = 40
# More letters than the names of 65,536 delays take.
MOST_LINE = 1 << 22
# What is told of numbers: the least one, three percentiles, and the greatest one.
PERCENTS = (0, 50, 90, 99, 100)
NOTHING: Mapping[Any, Any] = {}

HEAD = ["outcome", "runs", "share", "95 % interval", "time", "first seed", "paths"]
RUN_COLUMNS = ["verdict", "rest", "from", "period", "sent", "changed", "outcome", "moving", "paths"]
# Numbers, and shares and their intervals, in a table.
NUMERIC = re.compile(r"[\d,]*|[\d.]+ %|[\d.]+ to [\d.]+ %")
# The columns of what a verdict says.
TIMES = {"quiet": ["rest"], "oscillates": ["from", "period"], "open": []}


@dataclass
class Outcome:
    """A way in which runs end: at rest with these paths, or as the verdict's word says.

    `number` counts the outcomes at rest, in the order of their first seeds where nothing else names them.
    """

    word: str
    first: int
    number: int | None = None
    ribs: Ribs | None = None
    runs: int = 0
    # How often which times of rest, or periods, were seen; which numbers of messages; and which routers moved.
    times: Counter[int] = field(default_factory=Counter)
    messages: Counter[int] = field(default_factory=Counter)
    moving: Counter[int] = field(default_factory=Counter)

    @property
    def name(self) -> str:
        return self.word if self.number is None else str(self.number)

    @property
    def time_word(self) -> str:
        return "rest" if self.ribs is not None else "period"

    def take(self, end: End) -> None:
        self.runs += 1
        self.messages[end.sent] += 1
        self.moving.update(end.moving)
        match end.verdict:
            case Quiet(time) | Oscillates(_, time):
                self.times[time] += 1

    def time_words(self) -> str:
        if not self.times:
            return ""
        least, middle, *_, greatest = percentiles(self.times)
        return f"{self.time_word} {least:,}" + (f" to {greatest:,}, median {middle:,}" if least < greatest else "")

    def record(self, total: int) -> dict[str, Any]:
        told = {"outcome": self.name, "runs": self.runs, "share": self.runs / total}
        told |= {"interval": interval(self.runs, total), "first_seed": self.first}
        told |= {self.time_word: spread(self.times)} if self.times else {}
        moving = [{"router": router, "runs": runs} for router, runs in sorted(self.moving.items())]
        last = {"paths": self.ribs} if self.ribs is not None else {"moving": moving}
        return {**told, "messages": spread(self.messages), **last}


def percentiles(counts: Counter[int]) -> list[int]:
    """For each of `PERCENTS` the least value such that so many in a hundred are at most this one."""
    values = sorted(counts.elements())
    return [values[max(0, ceil(len(values) * percent / 100) - 1)] for percent in PERCENTS]


def width_of(counts: Counter[int]) -> int:
    """How many values a column of a histogram has room for."""
    return nice_step((max(counts) + 1 - min(counts)) / MOST_COLUMNS)


def columns_of(counts: Counter[int], width: int) -> Counter[int]:
    """How many values stand in each column, the first one's number being 0 if it has the value 0."""
    return Counter(value // width for value in counts.elements())


def spread(counts: Counter[int]) -> dict[str, Any]:
    """Percentiles and a histogram: column k counts the values from `first + k * width` on, below the next column's."""
    columns = columns_of(counts, width := width_of(counts))
    heights = [columns[number] for number in range(min(columns), max(columns) + 1)]
    histogram = {"first": min(columns) * width, "width": width, "counts": heights}
    return dict(zip(["least", "p50", "p90", "p99", "greatest"], percentiles(counts))) | {"histogram": histogram}


class Outcomes:
    """The outcomes of a sweep's runs, of which failed ones are no part."""

    def __init__(
        self, trials: Iterable[Trial] = (), numbers: Mapping[Ribs, int] = NOTHING, notes: Mapping[str, str] = NOTHING
    ):
        """`numbers` has the numbers of some outcomes at rest; others have those behind them, in the order of first seeds.

        `notes` has what is known of outcomes that are not at rest, by the verdict's word.
        """
        self.by_end: dict[Ribs | str, Outcome] = {}
        self.given, self.numbers, self.notes = numbers, dict(numbers), notes
        self.last_number = max(self.numbers.values(), default=0)
        self.total = self.failed = 0
        for trial in trials:
            self.take(trial)

    def take(self, trial: Trial) -> Outcome | None:
        """Counts a run, and gives its outcome where it did not fail."""
        if isinstance(end := trial.end, Failed):
            self.failed += 1
            return None
        self.total += 1
        self.__dict__.pop("differing", None)
        word, ribs = str(end.verdict).split()[0], end.ribs if isinstance(end.verdict, Quiet) else None
        if not (outcome := self.by_end.get(ribs or word)):
            number = self.numbers.setdefault(ribs, self.last_number + 1) if ribs else None
            self.last_number = max(self.last_number, number or 0)
            outcome = self.by_end[ribs or word] = Outcome(word, trial.seed, number, ribs)
        outcome.take(end)
        return outcome

    def ranked(self) -> list[Outcome]:
        """The outcomes, the most frequent first; of equally frequent ones that with the lower first seed."""
        return sorted(self.by_end.values(), key=lambda outcome: (-outcome.runs, outcome.first))

    @property
    def at_rest(self) -> dict[Ribs, Outcome]:
        """The outcomes at rest by their paths."""
        return {outcome.ribs: outcome for outcome in self.by_end.values() if outcome.ribs is not None}

    @cached_property
    def differing(self) -> list[int]:
        """The routers whose paths tell the outcomes at rest apart; all but the origin where there is one outcome."""
        columns = [*zip(*self.at_rest)]
        return [router for router, paths in enumerate(columns) if router and (len(paths) == 1 or len({*paths}) > 1)]

    def path_words(self, outcome: Outcome) -> str:
        """The paths that tell an outcome at rest from the others, or what is known of one that is not at rest."""
        if outcome.ribs is None:
            return self.notes.get(outcome.word, "")
        told = ((router, outcome.ribs[router]) for router in self.differing[:MOST_TOLD])
        # A path begins with its router unless it is empty.
        words = " ".join(write_path(path) if path else f"{router}: ()" for router, path in told)
        return more(words, len(self.differing) - MOST_TOLD)

    def path_counts(self, router: int) -> list[tuple[Nodes, int]]:
        """The paths of a router with which runs are at rest, each with how many these are, the most first."""
        counts = Counter[Nodes]()
        for ribs, outcome in self.at_rest.items():
            counts[ribs[router]] += outcome.runs
        return counts.most_common()

    def summary(self) -> str:
        """Tables: outcomes, the most frequent first; percentiles; which routers move; who ends at which path."""
        tables = [self.outcome_table(), self.percentile_table(), self.moving_table(), self.path_table()]
        return "\n".join(aligned(table) for table in tables if len(table) > 1 or table[0] == HEAD)

    def outcome_table(self) -> list[list[str]]:
        told = ((one, share_words(one.runs, self.total), self.path_words(one)) for one in self.ranked())
        return [HEAD, *([one.name, *share, one.time_words(), str(one.first), paths] for one, share, paths in told)]

    def percentile_table(self) -> list[list[str]]:
        rows = [["outcome", "of", "least", "50 %", "90 %", "99 %", "greatest"]]
        for outcome in self.ranked():
            for words, counts in (outcome.time_word, outcome.times), ("messages", outcome.messages):
                if counts:
                    rows.append([outcome.name, words, *(f"{value:,}" for value in percentiles(counts))])
        return rows

    def moving_table(self) -> list[list[str]]:
        rows = [["outcome", "runs", "routers that still move, and in how many runs"]]
        for outcome in (outcome for outcome in self.ranked() if outcome.moving):
            ranked = sorted(outcome.moving.items(), key=lambda item: (-item[1], item[0]))
            words = ", ".join(f"{router}: {runs:,}" for router, runs in ranked[:MOST_LINES])
            rows.append([outcome.name, f"{outcome.runs:,}", more(words, len(ranked) - MOST_LINES)])
        return rows

    def path_table(self) -> list[list[str]]:
        resting = sum(outcome.runs for outcome in self.at_rest.values())
        counts = ((node, *row) for node in self.differing for row in self.path_counts(node) if len(self.at_rest) > 1)
        rows = [[str(router), *share_words(runs, resting), write_path(path)] for router, path, runs in counts]
        if (left := len(rows) - MOST_LINES) > 0:
            rows[MOST_LINES:] = [["..", f"{left:,} more lines", "", "", ""]]
        return [["router", "runs", "share", "95 % interval", "path at rest"], *rows]

    def record(self) -> dict[str, Any]:
        """The outcomes as JSON has them, with percentiles and histograms; and of each router its paths at rest."""
        counts = map(self.path_counts, range(len(next(iter(self.at_rest), ()))))
        paths = ([{"path": path, "runs": runs} for path, runs in row] for row in counts)
        routers = [{"router": router, "paths": row} for router, row in enumerate(paths)]
        outcomes = [outcome.record(self.total) for outcome in self.ranked()]
        return {"runs": self.total, "failed": self.failed, "outcomes": outcomes, "routers": routers}

    def to_json(self) -> str:
        return json.dumps(self.record())


def more(words: str, left: int) -> str:
    return f"{words} and {left:,} more" if left > 0 else words


def share_words(runs: int, total: int) -> list[str]:
    share, low, high = (100 * share for share in (runs / total, *interval(runs, total)))
    return [f"{runs:,}", f"{share:.1f} %", f"{low:.1f} to {high:.1f} %"]


def interval(count: int, total: int) -> tuple[float, float]:
    """The 95 % interval of a share of which `count` of `total` were seen.

    E. B. Wilson: Probable inference, the law of succession, and statistical inference, Journal of the American
    Statistical Association 22(158), 1927.
    """
    share, square = count / total, DEVIATIONS**2
    middle = share + square / (2 * total)
    reach = DEVIATIONS * sqrt(share * (1 - share) / total + square / (4 * total**2))
    return max(0.0, (middle - reach) / (1 + square / total)), min(1.0, (middle + reach) / (1 + square / total))


def aligned(rows: list[list[str]]) -> str:
    """A table in columns, words to the left and numbers to the right."""
    columns = [list(column) for column in zip(*rows)]
    for place, column in enumerate(columns):
        is_number = place > 0 and all(NUMERIC.fullmatch(word) for word in column[1:])
        adjust, width = str.rjust if is_number else str.ljust, max(map(len, column))
        columns[place] = [adjust(word, width) for word in column]
    return "".join("  ".join(row).rstrip() + "\n" for row in zip(*columns))


class Table:
    """The CSV of a sweep: a line for each run, and as its last column's name what made it."""

    def __init__(self, columns: Sequence[str], made_by: str, outcomes: Outcomes | None = None):
        self.columns, self.outcomes = columns, outcomes or Outcomes()
        self.head = ["seed", *columns, *RUN_COLUMNS, made_by]
        self.head_line = line_of(self.head)

    def line(self, trial: Trial) -> str:
        """The line of a run, which is counted. The paths stand in the first line of each outcome at rest."""
        outcome, end = self.outcomes.take(trial), trial.end
        told: dict[str, object] = {"verdict": "failed"}
        if outcome and isinstance(end, End):
            told = {"verdict": outcome.word, "sent": end.sent, "changed": end.changed, "outcome": outcome.number}
            told |= zip(TIMES[outcome.word], astuple(end.verdict))
            told["moving"] = " ".join(map(str, end.moving))
            if outcome.runs == 1 and outcome.ribs is not None:
                told["paths"] = " ".join(map(write_path, outcome.ribs))
        return line_of([trial.seed, *trial.values, *(told.get(name) for name in RUN_COLUMNS), None])


def line_of(fields: Iterable[object]) -> str:
    text = io.StringIO()
    csv.writer(text, lineterminator="\n").writerow(fields)
    return text.getvalue()


def rows_of(source: TextIO, is_cut: bool) -> Iterator[list[str]]:
    """The fields of each line, none of which may be longer than those that a sweep writes."""
    while line := source.readline(MOST_LINE):
        if len(line) == MOST_LINE:
            raise ValueError("the line is too long")
        if line[-1] != "\n" and is_cut:
            return
        if line[-1] != "\n":
            raise ValueError("the line is not ended")
        yield next(csv.reader([line], strict=True))


def read_table(source: TextIO, is_cut: bool = False) -> tuple[Table, list[Trial]]:
    """The CSV of a sweep, a file: what its head says, and its runs; if it `is_cut` its last line need not be ended."""
    csv.field_size_limit(MOST_LINE)
    rows, number, ribs, trials = rows_of(source, is_cut), 1, dict[str, Ribs](), dict[int, Trial]()
    try:
        head: list[str] = next(rows, [])
        count = len(head) - len(RUN_COLUMNS) - 2
        if count < 0 or head[0] != "seed" or head[1 + count : -1] != RUN_COLUMNS:
            raise ValueError("this is no head")
        number = 2
        for row in rows:
            trial = read_row(row, count, ribs)
            if trials.setdefault(trial.seed, trial) is not trial:
                raise ValueError("a line before has the same seed")
            number += 1
    except (ValueError, KeyError, IndexError, csv.Error) as fault:
        raise Refused(f"{source.name}: refused line {number}: this is no CSV of a sweep: {fault}") from None
    numbers = {paths: int(name) for name, paths in ribs.items()}
    return Table(head[1 : 1 + count], head[-1], Outcomes(numbers=numbers)), [*trials.values()]


def number_of(word: str) -> int:
    if not re.fullmatch("[0-9]{1,18}", word):
        raise ValueError(f"{word[:80]!r} is no number")
    return int(word)


def read_row(row: list[str], count: int, ribs: dict[str, Ribs]) -> Trial:
    """A run; the paths of the outcomes before are known by their numbers."""
    seed, *values = map(number_of, row[: 1 + count])
    word, rest, start, period, sent, changed, number, moving, paths, _ = row[1 + count :]
    match word:
        case "failed":
            return Trial(seed, tuple(values), Failed("it failed before"))
        case "quiet":
            verdict: Verdict = Quiet(number_of(rest))
            if paths and number_of(number):
                ribs[number] = tuple(map(read_path, re.findall(PATH, paths)))
            if len(ribs[number]) != len(next(iter(ribs.values()))):
                raise ValueError("the paths are those of another number of routers")
        case "oscillates":
            verdict = Oscillates(number_of(start), number_of(period))
        case "open":
            verdict = Open()
        case _:
            raise ValueError(f"{word[:80]!r} is no verdict")
    end = End(verdict, number_of(sent), number_of(changed), ribs.get(number, ()), tuple(map(number_of, moving.split())))
    return Trial(seed, tuple(values), end)

"""What `--stats` writes on standard error: the names of its lines, and the sums that must hold."""
from __future__ import annotations

import re
from collections.abc import Iterator, Sequence
from itertools import zip_longest
from typing import NamedTuple

from common import Ended, Word, name_of, run_program

A_NUMBER = re.compile(r"0|[1-9]\d*")
SECONDS = re.compile(r"(?:0|[1-9]\d*)\.\d{6}")
A_SHARE = re.compile(r"0\.\d{4}|1\.0000")

# The lines in their order, and what their values look like.
LINES = {
    "workers": A_NUMBER,
    "stretches-by-one": A_NUMBER,
    "stretches-by-all": A_NUMBER,
    "handled": A_NUMBER,
    "undone": A_NUMBER,
    "committed": A_NUMBER,
    "efficiency": A_SHARE,
    "rollbacks": A_NUMBER,
    "longest-rollback": A_NUMBER,
    "antimessages": A_NUMBER,
    "matched": A_NUMBER,
    "annihilated-pending": A_NUMBER,
    "annihilated-kept": A_NUMBER,
    "meetings": A_NUMBER,
    "bounds": A_NUMBER,
    "naps": A_NUMBER,
    "moved": A_NUMBER,
    "seconds-reading": SECONDS,
    "seconds-running": SECONDS,
    "seconds-writing": SECONDS,
    "events-per-second": A_NUMBER,
}

# And those of each worker, whose number stands before them.
OWN_LINES = {"handled": A_NUMBER, "undone": A_NUMBER, "waited": SECONDS}

# What one thread never does.
OF_WORKERS = (
    "undone",
    "rollbacks",
    "longest-rollback",
    "antimessages",
    "matched",
    "annihilated-pending",
    "annihilated-kept",
    "meetings",
    "bounds",
    "naps",
    "moved",
)


def lines_of(workers: int) -> Iterator[tuple[str, re.Pattern[str]]]:
    """The lines of a run by so many workers."""
    yield from LINES.items()
    for worker in range(workers):
        for name, value in OWN_LINES.items():
            yield f"worker-{worker}-{name}", value


class Figures(NamedTuple):
    """The lines of a run. Numbers of seconds are in millionths, and shares in parts of ten thousand."""

    values: dict[str, int]

    @classmethod
    def read(cls, text: bytes) -> Figures | None:
        """The lines of a text; `None` where it has others, or in another order, or another value."""
        lines = text.decode().splitlines(keepends=True)
        words = [line.removesuffix("\n").split(" ") for line in lines if line.endswith("\n")]
        workers = words[0][-1] if words else ""
        if len(words) < len(lines) or not A_NUMBER.fullmatch(workers):
            return None
        for found, due in zip_longest(words, lines_of(int(workers))):
            if not found or not due or len(found) != 2 or found[0] != due[0] or not due[1].fullmatch(found[1]):
                return None
        return cls({name: int(value.replace(".", "")) for name, value in words})

    def __getitem__(self, name: str) -> int:
        return self.values[name]

    def sum_of(self, name: str) -> int:
        """That of all workers."""
        return sum(self[f"worker-{worker}-{name}"] for worker in range(self["workers"]))


def without_figures(done: Ended) -> Ended:
    """How a command ended, without the lines of `--stats` behind its report."""
    return done._replace(err=b"") if done.status == 0 and Figures.read(done.err) else done


def handled_in(report: bytes) -> int:
    """How many events the routers of a report have handled."""
    return sum(int(count) for count in re.findall(rb"^router .* handled (\d+) ", report, re.M))


def broken(figures: Figures, report: bytes) -> Iterator[str]:
    """What does not hold of the lines of a run, of those that hold of every run."""
    handled, undone, committed = (figures[name] for name in ("handled", "undone", "committed"))
    if committed != handled_in(report):
        yield f"{handled_in(report)} events are in the report"
    if handled - undone != committed:
        yield "what is handled and not undone is committed"
    if figures["efficiency"] != committed * 10_000 // handled:
        yield "the efficiency is committed of handled"
    for name in "handled", "undone":
        if figures.sum_of(name) != figures[name]:
            yield f"the workers' {name} are {figures.sum_of(name)}"
    running, rate = figures["seconds-running"], figures["events-per-second"]
    if not committed * 10**6 // (running + 1) <= rate or (running and rate > committed * 10**6 // running):
        yield "events a second are those committed in the seconds of running"
    for worker in range(figures["workers"]):
        if figures[f"worker-{worker}-waited"] > running:
            yield f"worker {worker} has waited longer than the run took"


def broken_by_one(figures: Figures) -> Iterator[str]:
    """And of those that hold of a run by one thread."""
    if [figures[name] for name in ("workers", "stretches-by-one", "stretches-by-all")] != [1, 1, 0]:
        yield "one thread has gone on once"
    if any(figures[name] for name in OF_WORKERS) or figures["worker-0-waited"]:
        yield "one thread has nobody to meet, and undoes nothing"


def broken_by_all(figures: Figures, words: Sequence[Word]) -> Iterator[str]:
    """And of those that hold of a run by as many workers as its words say, more than one."""
    workers = figures["workers"]
    if words[words.index("--workers") + 1] != str(workers):
        yield "there are as many workers as were told"
    if figures["stretches-by-one"] or not figures["stretches-by-all"]:
        yield "all workers have gone on, and nobody alone"
    if figures["antimessages"] != figures["annihilated-pending"] + figures["annihilated-kept"]:
        yield "each antimessage has met its message"
    if figures["matched"] and "--lazy" not in words:
        yield "nothing is held without --lazy"
    rollbacks, longest = figures["rollbacks"], figures["longest-rollback"]
    if not max(rollbacks, longest) <= figures["undone"] <= rollbacks * longest:
        yield "what is undone is undone in rollbacks"
    if not figures["meetings"] >= max(workers, figures["bounds"]) or not figures["bounds"]:
        yield "each worker meets the others, and the bound rises at meetings"


def wrong_figures(words: Sequence[Word], plain: Ended, done: Ended, moved: int | None = 0) -> str | None:
    """What is wrong with how a run with `--stats` and these words ended, which ended so without it. So many routers are
    to have gone from worker to worker, where that is known."""
    figures = Figures.read(done.err)
    if (plain.status, plain.err) != (0, b"") or done[:2] != plain[:2] or figures is None:
        return f"it ended with {done}, and without --stats with {plain}"
    faults = [*broken(figures, done.out)]
    if "--workers" in words and words[words.index("--workers") + 1] != "1":
        faults += broken_by_all(figures, words)
    elif words[0] == "seq" or "--workers" in words:
        faults += broken_by_one(figures)
    if moved not in (None, figures["moved"]):
        faults.append(f"{moved} routers have moved")
    return f"it wrote {done.err.decode()!r}, but: {'; '.join(faults)}" if faults else None

#!/usr/bin/env python3
"""Makes replay texts at scale from a seed, and measures the built program on them.

    replay.py make [--steps N] [--flight N] [--seed N] > big.replay
    replay.py run  [--steps N ..] [--flight N ..] [--seed N] [--workers N ..] [--program FILE]

The case has 100 routers: nine relays on one origin, and at each ten routers that all prefer to go
through one another, with all delays 1. The steps are drawn so that routers run far ahead of one
another: a message at any place in flight is delivered, or a router handles what it has, and at
times the bound is found and every router commits. Messages in flight stay below `--flight`. No
step is refused. `run` prints for each text its size, the seconds (the least of three runs) and the
greatest memory in use.
"""
from __future__ import annotations

import sys
from collections.abc import Iterable, Iterator
from random import Random

from at_scale import cliques
from measuring import measure, parser_of, stored
from twarp.case import Case
from twarp.protocol import Machine
from twarp.report import Step

# The stop of the machine: routers of the case always have something to do before it.
STOP = 1_000_000

# Steps between two bounds.
ROUND = 20_000


class Schedule:
    """Draws steps that the machine can do, and does them."""

    def __init__(self, case: Case, draw: Random, flight: int) -> None:
        self.machine = Machine(case, STOP, is_lazy=False)
        self.routers = range(len(self.machine.routers))
        self.draw = draw
        self.flight = flight
        self.most_in_flight = 0

    def steps(self, count: int) -> Iterator[Step]:
        for number in range(count):
            step = self.step(number)
            self.do(step)
            self.most_in_flight = max(self.most_in_flight, len(self.machine.flight))
            yield step

    def step(self, number: int) -> Step:
        """What is drawn, or a step of the end of a round: the bound, or the commit of a router."""
        place = number % ROUND - (ROUND - 1 - len(self.routers))
        if place < 0:
            return self.drawn_step()
        return Step("commit", place - 1) if place else Step("bound")

    def do(self, step: Step) -> None:
        """Does the step, and forgets what is kept for pictures, and what is committed."""
        self.machine.do(step)
        for kept in self.machine.handlings, self.machine.messages, self.machine.bounds:
            kept.clear()
        if step.word == "commit":
            handled = self.machine.handled[step.number]
            handled[:] = [handling for handling in handled if handling.committed_at is None]

    def drawn_step(self) -> Step:
        """A delivery where much is in flight, or where no router drawn has anything to handle."""
        in_flight = len(self.machine.flight)
        for router in self.draw.sample(self.routers, self.routers_drawn(in_flight)):
            if self.can_handle(router):
                return Step("handle", router)
        return Step("deliver", self.place(in_flight))

    def routers_drawn(self, in_flight: int) -> int:
        if in_flight > self.flight * 0.9:
            return 0
        return 8 if in_flight else len(self.routers)

    def can_handle(self, router: int) -> bool:
        pending, handled = self.machine.pending[router], self.machine.handled[router]
        first = min(pending, key=self.machine.key, default=None)
        return first is not None and not (handled and handled[-1].event == first)

    def place(self, in_flight: int) -> int:
        """One of the first places, or, one time in four, any place."""
        last = in_flight if self.draw.random() < 0.25 else min(in_flight, 100)
        return self.draw.randint(1, last)


def make(steps: int, flight: int, seed: int) -> str:
    draw = Random(seed)
    case = cliques(draw)
    schedule = Schedule(case, draw, flight)
    lines = [f"{step}\n" for step in schedule.steps(steps)]
    told = f"at most {schedule.most_in_flight} in flight, bound {schedule.machine.bound}"
    print(told, file=sys.stderr)
    return "".join([str(case), *lines, "end\n"])


def run(program: str, text: str, workers: Iterable[int]) -> None:
    with stored(text) as file:
        size = file.stat().st_size
        for count in workers:
            words = ["replay", "--stop", str(STOP), "--workers", str(count)]
            whole = measure(program, words, file, 3)
            refused = sum(" refused " in line for line in whole.out.splitlines())
            print(
                f"{size} bytes, {count} workers: {whole.seconds:.2f} s, "
                f"{whole.mebibytes:.0f} MiB, {refused} steps refused",
                flush=True,
            )


def main() -> None:
    parser = parser_of(__doc__, ["make", "run"])
    parser.add_argument("--steps", type=int, nargs="*", default=[10**6])
    parser.add_argument("--flight", type=int, nargs="*", default=[10**4])
    parser.add_argument("--workers", type=int, nargs="*", default=[1, 4, 16])
    line = parser.parse_args()
    if line.what == "make":
        sys.stdout.write(make(line.steps[0], line.flight[0], line.seed))
        return
    for steps in line.steps:
        for flight in line.flight:
            print(f"{steps} steps:", flush=True)
            run(line.program, make(steps, flight, line.seed), line.workers)


if __name__ == "__main__":
    main()

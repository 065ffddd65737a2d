"""What a router does with an event, as docs/PROTOCOL.md has it; runs and replays, followed along what twarp wrote."""
from __future__ import annotations

import copy
import enum
import heapq
import math
from collections import defaultdict
from collections.abc import Iterable, Iterator, Sequence
from dataclasses import dataclass, field, replace
from itertools import chain, zip_longest
from typing import NamedTuple

from twarp.case import ORIGIN, Case, Nodes, write_path
from twarp.program import Refused
from twarp.report import FIRST_EVENT, Allow, Event, Fail, Forbid, Replay, Report, Restore, RouterLine, Start, Step
from twarp.report import Swap, Update, opening_events


@dataclass
class Router:
    """A router's state. `delays` has its neighbours in ascending order, `given` its paths as they were given."""

    node: int
    delays: dict[int, int]
    given: tuple[Nodes, ...]
    order: list[Nodes]
    barred: set[Nodes] = field(default_factory=set)
    rib: Nodes = ()
    heard: dict[int, Nodes] = field(default_factory=dict)
    down: set[int] = field(default_factory=set)
    sessions: dict[int, int] = field(default_factory=lambda: defaultdict(int))
    sent: int = 0
    handled: int = 0
    dropped: int = 0
    changed: int = 0

    def handle(self, event: Event) -> list[Event]:
        """Changes the state as the event asks, and gives the messages sent."""
        self.handled += 1
        match event.body:
            case Update(path, session) if event.src not in self.down and session == self.sessions[event.src]:
                self.heard[event.src] = path
            case Update():
                self.dropped += 1
                return []
            case Fail(peer) if peer not in self.down:
                self.down.add(peer)
                self.heard.pop(peer, None)
            case Restore(peer) if peer in self.down:
                self.down.remove(peer)
                self.sessions[peer] += 1
                return [self.update(peer, event.time)]
            case Swap(first, second):
                order, i, j = self.order, first - 1, second - 1
                order[i], order[j] = order[j], order[i]
            case Forbid(place) if self.given[place - 1] not in self.barred:
                self.barred.add(self.given[place - 1])
            case Allow(place) if self.given[place - 1] in self.barred:
                self.barred.remove(self.given[place - 1])
            case Start():
                pass
            case _:
                return []
        return self.settle(event.time)

    def settle(self, time: int) -> list[Event]:
        if self.rib == (best := self.best()):
            return []
        self.rib = best
        self.changed += 1
        return [self.update(peer, time) for peer in self.delays if peer not in self.down]

    def best(self) -> Nodes:
        if self.node == ORIGIN:
            return (ORIGIN,)
        offered = {(self.node, *path) for path in self.heard.values()}
        return next((path for path in self.order if path in offered and path not in self.barred), ())

    def update(self, peer: int, time: int) -> Event:
        self.sent += 1
        return Event(time + self.delays[peer], peer, self.node, self.sent - 1, Update(self.rib, self.sessions[peer]))

    @property
    def counters(self) -> list[int]:
        return [self.sent, self.handled, self.dropped, self.changed]

    def line(self) -> RouterLine:
        return RouterLine(self.node, *self.counters, self.rib)

    def copy(self) -> Router:
        """A router that later events of this one leave as it is."""
        other = copy.copy(self)
        for name in "order", "barred", "heard", "down", "sessions":
            setattr(other, name, getattr(self, name).copy())
        return other


def opening_routers(case: Case) -> list[Router]:
    rows = zip(case.delays(), case.orders())
    return [Router(node, delays, tuple(order), order) for node, (delays, order) in enumerate(rows)]


def after_script(case: Case, bound: float = math.inf) -> list[Router]:
    """How the routers stand after their own scripted events alone, those below the bound, and without what was heard."""
    routers = opening_routers(case)
    for scene in sorted(opening_events(case), key=lambda scene: scene.key({})):
        if scene.time < bound:
            routers[scene.dst].handle(scene)
    return routers


def reached(case: Case, report: Report) -> list[Router]:
    """Where the run stands that was reported: after what the scenario has below its bound, without what was heard."""
    routers = after_script(case, report.bound)
    for number, (router, line) in enumerate(zip(routers, report.routers), report.router_number):
        if line.rib and line.rib not in router.order:
            raise Refused.at_line(number, f"{write_path(line.rib)} is no path of this router in the case")
        router.rib = line.rib
    return routers


def unstable_routers(routers: Sequence[Router]) -> Iterator[str]:
    """The routers whose ribs are not as stable ones are by docs/PROTOCOL.md, in words; none where paths are stable."""
    for router in routers:
        heard = {peer: routers[peer].rib for peer in router.delays if peer not in router.down}
        if router.rib != (chosen := replace(router, heard=heard).best()):
            yield f"router {router.node} uses {write_path(router.rib)} and would choose {write_path(chosen)}"


class Fate(enum.Enum):
    """What became of a message, in a run or in a replay."""

    HEARD = "heard"
    DROPPED = "dropped"
    UNDER_WAY = "under way"
    IN_FLIGHT = "in flight"
    PENDING = "pending"
    ANNIHILATED = "annihilated"
    KEPT = "kept until its message comes"


@dataclass(slots=True)
class Message:
    """A message, or an antimessage that takes one back, with the time, in a replay the step, at which it was sent."""

    sent: int
    event: Event
    fate: Fate = Fate.UNDER_WAY
    is_anti: bool = False
    delivered: int | None = None

    @property
    def update(self) -> Update:
        """What it says."""
        assert isinstance(self.event.body, Update), "routers send updates alone"
        return self.event.body


class Change(NamedTuple):
    """A router's path from a time on."""

    time: int
    router: int
    path: Nodes


class Run:
    """The one-thread run of a case, as far as it was followed: what happened, in order, and where the routers stand."""

    def __init__(self, case: Case):
        self.routers = opening_routers(case)
        self.changes: list[Change] = []
        self.messages: list[Message] = []
        self.scenes: list[Event] = []
        self.path_numbers = case.path_numbers()
        opening = ((event.key(self.path_numbers), event) for event in opening_events(case))
        self.pending: list[tuple[tuple[int, ...], Event, Message | None]] = [(*one, None) for one in sorted(opening)]

    def least(self) -> Event | None:
        return self.pending[0][1] if self.pending else None

    def handle_least(self) -> None:
        _, event, message = heapq.heappop(self.pending)
        router = self.routers[event.dst]
        changed, dropped = router.changed, router.dropped
        for send in router.handle(event):
            self.messages.append(Message(event.time, send))
            heapq.heappush(self.pending, (send.key(self.path_numbers), send, self.messages[-1]))
        if router.changed > changed:
            self.changes.append(Change(event.time, router.node, router.rib))
        if message is None:
            self.scenes.append(event)
        else:
            message.fate = Fate.DROPPED if router.dropped > dropped else Fate.HEARD


def follow(case: Case, report: Report, run: Run | None = None) -> Run:
    """What the report's events did, in this run of the case or a new one; refused at the first line that is not its."""
    run = run or Run(case)
    if report.routers[0].handled and not report.events:
        why = "no event stands above this line: the report has to be one with --log"
        raise Refused.at_line(report.router_number, why)
    for number, event in enumerate(report.events, FIRST_EVENT):
        if event != run.least():
            raise Refused.at_line(number, f"in the run of this case {written(run.least())} stands here")
        run.handle_least()
    if (least := run.least()) and least.time < report.bound:
        raise Refused.at_line(report.router_number, f"in the run of this case {written(least)} stands here")
    compare_routers(report, run.routers)
    return run


def written(event: Event | None) -> str:
    return f"`{event}`" if event else "no further event"


def compare_routers(report: Report | Replay, routers: Iterable[Router]) -> None:
    """Refuses the first router line that is not the router's."""
    for number, (line, router) in enumerate(zip(report.routers, routers), report.router_number):
        if line != router.line():
            raise Refused.at_line(number, f"what stands above leads to `{router.line()}`")


@dataclass(slots=True)
class Handling:
    """One handling of an event, with the steps that did, undid and committed it."""

    event: Event
    before: Router
    sends: list[Event]
    done_at: int
    undone_at: int | None = None
    committed_at: int | None = None


class Machine:
    """The Time Warp machine of a replay: routers with what is pending, handled, in flight, kept and held.

    `number` is that of the step under way, from 1.
    Where it `is_lazy`, what an undone event had sent is held until its router sends it again or releases it.

    The run's stop is not told. The last bound is the stop where nothing loose is at it or before it, and else a time
    before the stop, which limits the bounds found as the stop does.

    Taken from Jefferson (1985): stragglers, antimessages, annihilation in either order of arrival, aggressive
    cancellation; and from Gafni (1988): lazy cancellation.
    """

    def __init__(self, case: Case, last_bound: int, is_lazy: bool):
        self.routers = opening_routers(case)
        self.path_numbers = case.path_numbers()
        self.pending: list[list[Event]] = [[] for _ in self.routers]
        self.handled: list[list[Handling]] = [[] for _ in self.routers]
        self.flight: list[Message] = []
        self.kept: list[Event] = []
        self.held: list[Event] = []
        self.is_lazy = is_lazy
        self.bound = 0
        self.last_bound = last_bound
        self.is_at_stop = False
        self.number = 0
        # What the steps did, in their order; a bound stands with the step that found it.
        self.handlings: list[Handling] = []
        self.messages: list[Message] = []
        self.bounds: list[tuple[int, int]] = []
        for event in opening_events(case):
            self.pending[event.dst].append(event)

    def key(self, event: Event) -> tuple[int, ...]:
        return event.key(self.path_numbers)

    def do(self, step: Step) -> bool:
        """Does a step, where it is at a router that is there, and there is something to handle, undo or deliver."""
        is_there = step.number is not None and step.number < len(self.routers)
        match step:
            case Step("handle", int(router)) if is_there and self.pending[router]:
                self.handle(router)
            case Step("undo", int(router)) if is_there and self.handled[router]:
                self.undo_last(router)
            case Step("deliver", int(place)) if 1 <= place <= len(self.flight):
                self.deliver(place)
            case Step("commit" | "release" as word, int(router)) if is_there:
                getattr(self, word)(router)
            case Step("bound"):
                self.find_bound()
            case _:
                return False
        return True

    def find_bound(self) -> None:
        flying = (message.event for message in self.flight)
        loose = [event.time for event in chain(flying, self.kept, self.held, *self.pending)]
        self.is_at_stop |= all(time > self.last_bound for time in loose)
        self.bound = max(self.bound, min(loose + [self.last_bound]))
        self.bounds.append((self.number, self.bound))

    def commit(self, router: int) -> None:
        for handling in self.handled[router]:
            if handling.committed_at is None and handling.event.time < self.bound:
                handling.committed_at = self.number

    def handle(self, router: int) -> None:
        event, before = min(self.pending[router], key=self.key), self.routers[router].copy()
        self.pending[router].remove(event)
        handling = Handling(event, before, self.routers[router].handle(event), self.number)
        self.handled[router].append(handling)
        self.handlings.append(handling)
        # What is held was sent before, and is held no more.
        going = [event for event in handling.sends if event not in self.held]
        self.held = [event for event in self.held if event not in handling.sends]
        self.send(going, is_anti=False)

    def send(self, events: Iterable[Event], is_anti: bool) -> None:
        messages = [Message(self.number, event, Fate.IN_FLIGHT, is_anti) for event in events]
        self.flight += messages
        self.messages += messages

    def undo_last(self, router: int) -> None:
        handling = self.handled[router].pop()
        handling.undone_at = self.number
        self.routers[router] = handling.before
        self.pending[router].append(handling.event)
        if self.is_lazy:
            self.held += handling.sends
        else:
            self.send(handling.sends, is_anti=True)

    def release(self, router: int) -> None:
        released = [event for event in self.held if event.src == router]
        self.held = [event for event in self.held if event.src != router]
        self.send(sorted(released, key=self.key), is_anti=True)

    def deliver(self, place: int) -> None:
        message = self.flight.pop(place - 1)
        message.delivered = self.number
        message.fate = (self.receive_anti if message.is_anti else self.receive)(message.event)

    def receive(self, event: Event) -> Fate:
        if event in self.kept:
            self.kept.remove(event)
            return Fate.ANNIHILATED
        handled = self.handled[event.dst]
        while handled and self.key(handled[-1].event) > self.key(event):
            self.undo_last(event.dst)
        self.pending[event.dst].append(event)
        return Fate.PENDING

    def receive_anti(self, event: Event) -> Fate:
        pending, handled = self.pending[event.dst], self.handled[event.dst]
        if event not in pending and all(handling.event != event for handling in handled):
            self.kept.append(event)
            return Fate.KEPT
        while event not in pending:
            self.undo_last(event.dst)
        pending.remove(event)
        return Fate.ANNIHILATED

    def loose_line(self) -> str:
        pending, held = sum(map(len, self.pending)), f" held {len(self.held)}" if self.is_lazy else ""
        ahead = sum(handling.committed_at is None for row in self.handled for handling in row)
        return f"flight {len(self.flight)} pending {pending} kept {len(self.kept)} ahead {ahead}{held}"


def follow_replay(case: Case, steps: list[Step], replay: Replay) -> Machine:
    """What the steps did; refused at the first line that is not what they lead to."""
    machine = Machine(case, replay.bound, replay.is_lazy)
    for machine.number, (step, refusal) in enumerate(zip(steps, replay.answers), 1):
        if refusal is None and not machine.do(step):
            raise Refused.at_line(machine.number + 1, f"`{step}` can't be done here")
    latest = max((handling.event.time for handling in machine.handlings), default=0)
    number = replay.bound_number
    if machine.is_at_stop and latest >= machine.last_bound:
        raise Refused.at_line(number, f"an event at {latest} was handled, so the bound is later")
    if machine.bound != replay.bound:
        raise Refused.at_line(number, f"the steps lead to `bound {machine.bound}`")
    if machine.loose_line() != replay.loose:
        raise Refused.at_line(number + 1, f"the steps lead to `{machine.loose_line()}`")
    committed = [handling.event for row in machine.handled for handling in row if handling.committed_at]
    due = zip_longest(replay.events, sorted(committed, key=machine.key))
    for number, (event, wanted) in enumerate(due, number + 2):
        if event is None or event != wanted:
            raise Refused.at_line(min(number, replay.router_number), f"the steps lead to {written(wanted)} here")
    compare_routers(replay, machine.routers)
    return machine

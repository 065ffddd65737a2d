"""What twarp writes: reports of runs and of replays, and the steps of a replay."""

import json
import re
from dataclasses import asdict, astuple, dataclass
from typing import Any, NamedTuple

from twarp.case import NUMBER, PATH, WHICH, BarScene, Case, LinkScene, Nodes, SwapScene, case_and_rest, lines_of
from twarp.case import read_path, write_path
from twarp.program import Refused, quote

REPLAY_HEADER = "spp-replay 1"
# The number of a report's first line behind its head.
FIRST_EVENT = 4
ROUTER_LINE = "router {} sent {} handled {} dropped {} changed {} rib {}"
VERDICT_LINE = f"verdict (?:quiet ({NUMBER})|oscillates from ({NUMBER}) period ({NUMBER})|open)"
ANSWER_LINE = "step {step} (?:ok|refused ([A-Z][0-9]+ [A-Za-z]+))"
LOOSE_LINE = f"flight {NUMBER} pending {NUMBER} kept {NUMBER} ahead {NUMBER}(?: held {NUMBER})?"
STEP_LINE = rf"(?:(handle|undo|deliver|commit|release) ({NUMBER})|(bound))\n"


@dataclass(frozen=True, slots=True)
class Start:
    pass


@dataclass(frozen=True, slots=True)
class Fail:
    peer: int


@dataclass(frozen=True, slots=True)
class Restore:
    peer: int


@dataclass(frozen=True, slots=True)
class Swap:
    first: int
    second: int


@dataclass(frozen=True, slots=True)
class Forbid:
    """The path at this place among those given for the router, from 1, is forbidden."""

    place: int


@dataclass(frozen=True, slots=True)
class Allow:
    """The path at this place among those given for the router, from 1, is allowed again."""

    place: int


class Update(NamedTuple):
    """A named tuple, as an event is, since a log has many."""

    path: Nodes
    session: int


def record(value: Any) -> dict[str, Any]:
    """The fields of one of several kinds of things, with its kind, as JSON has it."""
    return {"kind": type(value).__name__.lower(), **{name: getattr(value, name) for name in value.__match_args__}}


Body = Start | Fail | Restore | Swap | Forbid | Allow | Update
# The classes of bodies, each with its place in the order of events.
CLASSES = {kind: place for place, kind in enumerate((Start, Fail, Restore, Swap, Forbid, Allow, Update))}
UPDATES = CLASSES[Update]
KINDS: dict[str, Any] = {kind.__name__.lower(): kind for kind in CLASSES}


class Event(NamedTuple):
    """What happens at the router `dst` at a time, by its scenario or by a message of `src`."""

    time: int
    dst: int
    src: int
    seq: int
    body: Body

    def __str__(self) -> str:
        match self.body:
            case Update(path, session):
                rest: tuple[object, ...] = self.src, self.seq, session, write_path(path)
            case Start():
                rest = ()
            case Fail(peer) | Restore(peer):
                rest = peer, self.seq
            case body:
                rest = self.seq, *astuple(body)
        return " ".join(map(str, ("event", self.time, self.dst, type(self.body).__name__.lower(), *rest)))

    def record(self) -> dict[str, Any]:
        return {"time": self.time, "dst": self.dst, "src": self.src, "seq": self.seq, **record(self.body)}

    def key(self, path_numbers: dict[Nodes, int]) -> tuple[int, ...]:
        """By this key the events of a case are ordered."""
        body = self.body
        if type(body) is Update:
            return self.time, self.dst, UPDATES, self.src, self.seq, path_numbers[body.path], body.session
        return (self.time, self.dst, CLASSES[type(body)], self.src, self.seq, *astuple(body))


# Of most events a log has many, so these are read in one pass.
UPDATE_LINE = re.compile(rf"event ({NUMBER}) ({NUMBER}) update ({NUMBER}) ({NUMBER}) ({NUMBER}) ({PATH})\n")
OTHER_LINE = re.compile(rf"event ({NUMBER}) ({NUMBER}) ([a-z]+)((?: {NUMBER})*)\n")


def read_event(text: str) -> Event | None:
    """The event of an event line with its end."""
    if found := UPDATE_LINE.fullmatch(text):
        time, dst, src, seq, session = map(int, found.groups()[:5])
        return Event(time, dst, src, seq, Update(read_path(found[6]), session))
    if not (found := OTHER_LINE.fullmatch(text)):
        return None
    time, dst, kind = int(found[1]), int(found[2]), KINDS.get(found[3])
    match [*map(int, found[4].split())]:
        case [] if kind is Start:
            return Event(time, dst, dst, 0, Start())
        case [peer, seq] if kind in (Fail, Restore):
            return Event(time, dst, dst, seq, kind(peer))
        case [seq, *rest] if kind in (Swap, Forbid, Allow) and len(rest) == len(kind.__match_args__):
            return Event(time, dst, dst, seq, kind(*rest))
    return None


def opening_events(case: Case) -> list[Event]:
    """The start, and an event at each end of each scenario line, with the line's place as its number."""
    events = [Event(0, 0, 0, 0, Start())]
    for seq, scene in enumerate(case.scenes, 1):
        match scene:
            case LinkScene(word, time, a, b):
                events += [Event(time, end, end, seq, KINDS[word](peer)) for end, peer in ((a, b), (b, a))]
            case SwapScene(time, router, first, second):
                events.append(Event(time, router, router, seq, Swap(first, second)))
            case BarScene(word, time, router, place):
                events.append(Event(time, router, router, seq, KINDS[word](place)))
    return events


@dataclass(frozen=True, slots=True)
class RouterLine:
    """A router's counters and path."""

    router: int
    sent: int
    handled: int
    dropped: int
    changed: int
    rib: Nodes

    def __str__(self) -> str:
        *counters, rib = astuple(self)
        return ROUTER_LINE.format(*counters, write_path(rib))


@dataclass(frozen=True, slots=True)
class Quiet:
    last_change: int

    def __str__(self) -> str:
        return f"quiet {self.last_change}"


@dataclass(frozen=True, slots=True)
class Oscillates:
    start: int
    period: int

    def __str__(self) -> str:
        return f"oscillates from {self.start} period {self.period}"


@dataclass(frozen=True, slots=True)
class Open:
    def __str__(self) -> str:
        return "open"


Verdict = Quiet | Oscillates | Open


@dataclass(frozen=True)
class Report:
    """What twarp wrote of a run. Its events are there where they were asked for, by `log`."""

    stop: int
    bound: int
    events: list[Event]
    routers: list[RouterLine]
    verdict: Verdict

    @property
    def router_number(self) -> int:
        """The number of the first router's line. Events stand from line 4 on."""
        return FIRST_EVENT + len(self.events)

    def to_json(self) -> str:
        """The report as JSON: each event and the verdict with its `kind`, paths as lists of nodes, the origin last."""
        fields = asdict(self) | {"events": [event.record() for event in self.events], "verdict": record(self.verdict)}
        return json.dumps(fields)


@dataclass(frozen=True)
class Replay:
    """What twarp wrote of a replay. An answer is None where the step was done, else the refusal's code and name."""

    answers: list[str | None]
    bound: int
    loose: str
    events: list[Event]
    routers: list[RouterLine]

    @property
    def is_lazy(self) -> bool:
        """Whether it was asked for with --lazy: then it tells how much is held."""
        return " held " in self.loose

    @property
    def bound_number(self) -> int:
        """The number of the line of the bound, behind the answers from line 2 on. Events begin 2 lines later."""
        return 2 + len(self.answers)

    @property
    def router_number(self) -> int:
        return self.bound_number + 2 + len(self.events)


@dataclass(frozen=True)
class Undone:
    """An event that was undone, and what it had sent."""

    event: Event
    sends: list[Event]


@dataclass(frozen=True)
class Trail:
    """A router after its events, those of them that were undone, the last first, and the router after that."""

    before: RouterLine
    undone: list[Undone]
    after: RouterLine


@dataclass(frozen=True, slots=True)
class Step:
    word: str
    number: int | None = None

    def __str__(self) -> str:
        return self.word if self.number is None else f"{self.word} {self.number}"


class Cursor:
    """The lines of a text that twarp wrote, taken one after the other."""

    def __init__(self, text: bytes, header: str):
        self.lines = lines_of(text)
        self.number = 1
        self.take(header, f"`{header}`")

    def take(self, pattern: str, wanted: str) -> re.Match[str]:
        """How the next line matches; refused where it is not there, not whole or does not match."""
        if not (line := self.next_line()):
            raise Refused.at_line(self.number, f"the text ends where {wanted} should stand")
        if not (found := re.fullmatch(pattern, line.removesuffix("\n"))):
            raise Refused.at_line(self.number, f"{quote(line)} stands where {wanted} should stand")
        if line[-1] != "\n":
            raise Refused.at_line(self.number, "the line is not ended")
        self.number += 1
        return found

    def next_line(self) -> str:
        """The next line with its end; nothing at the end of the text."""
        return self.lines[self.number - 1] if self.number <= len(self.lines) else ""

    def take_number(self, word: str) -> int:
        return int(self.take(rf"{word} ({NUMBER})", f"`{word}` and a number")[1])

    def take_events(self, word: str = "") -> list[Event]:
        """The event lines that come next, each behind this word."""
        events: list[Event] = []
        while (line := self.next_line()).startswith(word) and (event := read_event(line[len(word) :])):
            events.append(event)
            self.number += 1
        return events

    def take_router(self, router: int, wanted: str) -> RouterLine:
        *counters, rib = self.take(ROUTER_LINE.format(router, *[f"({NUMBER})"] * 4, f"({PATH})"), wanted).groups()
        return RouterLine(router, *map(int, counters), rib=read_path(rib))

    def take_routers(self, nodes: int) -> list[RouterLine]:
        """The router line of each router, in ascending order."""
        return [self.take_router(router, f"an event or the line of router {router}") for router in range(nodes)]

    def take_end(self) -> None:
        if line := self.next_line():
            raise Refused.at_line(self.number, f"{quote(line)} stands where the text should end")


def read_report(text: bytes, nodes: int) -> Report:
    """The report of a run of a case with so many routers."""
    cursor = Cursor(text, "spp-report 1")
    stop, bound = cursor.take_number("stop"), cursor.take_number("bound")
    events, routers = cursor.take_events(), cursor.take_routers(nodes)
    last_change, start, period = cursor.take(VERDICT_LINE, "the verdict").groups()
    cursor.take_end()
    verdict: Verdict = Oscillates(int(start), int(period)) if start else Open()
    return Report(stop, bound, events, routers, Quiet(int(last_change)) if last_change else verdict)


def read_replay(text: bytes, nodes: int, steps: int) -> Replay:
    """What twarp wrote of the replay of so many steps on a case with so many routers."""
    cursor = Cursor(text, REPLAY_HEADER)
    told = ((ANSWER_LINE.format(step=step), f"the answer to step {step}") for step in range(1, steps + 1))
    answers = [cursor.take(*answer)[1] for answer in told]
    bound = cursor.take_number("bound")
    loose = cursor.take(LOOSE_LINE, "the line `flight ..`")[0]
    replay = Replay(answers, bound, loose, cursor.take_events(), cursor.take_routers(nodes))
    cursor.take_end()
    return replay


def read_trail(text: bytes, router: int) -> Trail:
    """What twarp wrote of the trail of a router."""
    cursor, wanted = Cursor(text, "spp-trail 1"), f"the line of router {router}"
    before, undone = cursor.take_router(router, wanted), []
    while events := cursor.take_events("undo "):
        undone += [Undone(event, []) for event in events]
        undone[-1].sends.extend(cursor.take_events("send "))
    trail = Trail(before, undone, cursor.take_router(router, wanted))
    cursor.take_end()
    return trail


def read_case_and_steps(text: bytes) -> tuple[Case, list[Step]]:
    """The case and the steps of a replay text, which is refused as the program refuses it."""
    case, rest = case_and_rest(text, ["replay", "--stop", "1"])
    if not rest or rest[-1][1] != "end\n":
        raise Refused(f"refused: the text ends before the line `end` of its steps; {WHICH}")
    steps = []
    for number, line in rest[:-1]:
        if not (found := re.fullmatch(STEP_LINE, line)):
            raise Refused.at_line(number, f"{quote(line)} is no step; {WHICH}")
        steps.append(Step(found[1], int(found[2])) if found[1] else Step("bound"))
    return case, steps

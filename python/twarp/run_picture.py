"""The pictures of runs and of replays: a lane for each router, time or steps to the right."""

from collections import defaultdict
from collections.abc import Iterable, Iterator, Mapping, Sequence
from itertools import chain
from typing import ClassVar, NamedTuple
from xml.etree.ElementTree import Element

from twarp.case import Case, Nodes, write_path
from twarp.protocol import Change, Fate, Handling, Machine, Message, Run
from twarp.report import Allow, Event, Fail, Forbid, Oscillates, Quiet, Replay, Report, Restore, Start, Step, Swap
from twarp.svg import MOST_LANES, MOST_MARKS, PLACES, TOP, Lanes, Picture, Sample, View, add, clipped, draw_legend, fit
from twarp.svg import place_of, refuse_crowd, sample_box, sample_circle, sample_line, sample_path, sample_square

# Beyond so many events of the scenario what happens to a link or a path stands in tooltips alone.
MOST_NOTES = 16
LETTER_WIDTH = 6.4
LEAST_WIDTH = 640.0
# How wide the bar of a path is that was given up at the time at which it was taken.
MOMENT = 4.0
# How far the bars of a run that is at rest go on beyond its last event.
REST = 36.0
# How far below a bar, and from one another, times in which paths are forbidden are drawn; others share the last place.
BAN_BELOW, BAN_STEP, MOST_BANS = 7.0, 6.0, 3
# How wide the column of a step is.
COLUMN = 52.0

FATES = {Fate.DROPPED: " dropped", Fate.UNDER_WAY: " underway", Fate.IN_FLIGHT: " underway", Fate.ANNIHILATED: " gone"}


def message_look(message: Message) -> str:
    fate = FATES.get(message.fate, "")
    if message.is_anti:
        return "message underway anti" if fate == " underway" else f"message anti{fate}"
    return "message withdrawal" if message.fate is Fate.HEARD and not message.update.path else f"message{fate}"


class LanePicture:
    """What is in view of a run or of a replay, and where it stands."""

    # What the looks of messages are called.
    looks: ClassVar[Mapping[str, str]]
    # How far below the lanes the legend is.
    legend_below: ClassVar[float]
    right: float
    # What stands in the picture beside messages.
    marks: Sequence[Sequence[object]]

    def __init__(self, view: View, messages: Iterable[Message]):
        self.view = view
        self.lanes = Lanes(view)
        self.messages = list(messages)

    def draw(self, title: str, subtitle: str) -> str:
        marks = sum(map(len, (self.messages, *self.marks)))
        refuse_crowd(marks, MOST_MARKS, "marks to be drawn, and one can tell apart")
        refuse_crowd(len(self.view.routers), MOST_LANES, "lanes to be drawn, and one can tell apart")
        picture = Picture(title, subtitle)
        self.draw_onto(picture.root, picture.root, picture.root)
        right = max(self.right, LEAST_WIDTH)
        below = draw_legend(picture.root, right, self.lanes.bottom + self.legend_below, self.legend())
        return picture.text(right + 16, below)

    def draw_onto(self, ground: Element, times: Element, names: Element) -> None:
        """Draws all but the titles and the legend: the columns' heads and the lanes' names where these are to be."""
        raise NotImplementedError

    def legend(self) -> list[tuple[str, Sample]]:
        """A sample of each mark that the picture has, here of its messages."""
        seen = set(map(message_look, self.messages))
        return [(name, sample_line(class_=look)) for look, name in self.looks.items() if look in seen]


class Bar(NamedTuple):
    """A router's path while it stays, to the run's end if there is no `end`: in use, or forbidden and at a `level`."""

    router: int
    path: Nodes
    start: int
    end: int | None
    level: int | None = None

    def is_seen(self, view: View) -> bool:
        """Whether the path stays at some time in view; one that is forbidden does so at its end too."""
        last = view.last if self.end is None else self.end if self.level is not None else max(self.start, self.end - 1)
        return self.router in view.shown and view.meets(self.start, last)

    @property
    def tooltip(self) -> str:
        until = "on" if self.end is None else f"to {self.end}"
        state = "" if self.level is None else " forbidden"
        return f"router {self.router}: path {write_path(self.path)}{state} from {self.start} {until}"


def bars_of(run: Run) -> Iterator[Bar]:
    latest: dict[int, Change] = {}
    for change in run.changes:
        if earlier := latest.get(change.router):
            yield Bar(change.router, earlier.path, earlier.time, change.time)
        latest[change.router] = change
    yield from (Bar(change.router, change.path, change.time, None) for change in latest.values())


def bans_of(run: Run) -> tuple[list[Bar], dict[Event, tuple[Nodes, int]]]:
    """The times in which paths are forbidden; and of each event that forbids or allows one, the path and its level."""
    bans: list[Bar] = []
    marks: dict[Event, tuple[Nodes, int]] = {}
    # For each router the paths forbidden now, each with a level of its own, from 0, and the time from which on it is.
    now: dict[int, dict[Nodes, tuple[int, int]]] = defaultdict(dict)
    for scene in run.scenes:
        if isinstance(scene.body, (Forbid, Allow)):
            row, path = now[scene.dst], run.routers[scene.dst].given[scene.body.place - 1]
            free = min({*range(len(row) + 1)} - {level for level, _ in row.values()})
            level, start = row.get(path, (free, scene.time))
            marks[scene] = path, level
            if isinstance(scene.body, Forbid):
                row[path] = level, start
            elif row.pop(path, None):
                bans.append(Bar(scene.dst, path, start, scene.time, level))
    bans += [Bar(router, path, start, None, level) for router in now for path, (level, start) in now[router].items()]
    return bans, marks


def last_time(report: Report) -> int:
    """Where the picture of a whole run ends: at its last event where nothing is under way then, else at its bound."""
    if isinstance(report.verdict, Quiet):
        return max((event.time for event in report.events), default=0)
    return report.bound


class RunPicture(LanePicture):
    """A run: bars for paths in use, arrows for messages, marks for what the scenario has."""

    looks = {
        "message": "message",
        "message withdrawal": "message without a path",
        "message dropped": "dropped message",
        "message underway": "under way at the end",
    }
    legend_below = 34.0
    # Whether bars without room have their words too, which are not seen.
    has_hidden_words = False

    def __init__(self, case: Case, report: Report, run: Run, view: View):
        seen = (message for message in run.messages if view.meets(message.sent, message.event.time))
        super().__init__(view, (message for message in seen if message.event.dst in view.shown))
        self.verdict = report.verdict
        self.places = {path: place_of(place) for order in case.orders() for place, path in enumerate(order)}
        self.bars = [bar for bar in bars_of(run) if bar.is_seen(view)]
        self.scenes = [scene for scene in run.scenes if scene.dst in view.shown and view.meets(scene.time, scene.time)]
        bans, self.ban_marks = bans_of(run)
        self.bans = [ban for ban in bans if ban.is_seen(view)]
        self.marks = self.bars, self.scenes, self.bans
        spans = [(message.sent, message.event.time) for message in self.messages]
        spans += [(scene.time, scene.time) for scene in self.scenes]
        moments = {time for time in chain.from_iterable(spans) if view.meets(time, time)}
        self.axis = fit(view.first, view.last, self.lanes.left, len(moments), spans)
        is_at_rest = isinstance(report.verdict, Quiet) and view.last >= last_time(report)
        self.right = self.axis.x(view.last) + (REST if is_at_rest else 0.0)

    def draw_onto(self, ground: Element, times: Element, names: Element) -> None:
        if isinstance(self.verdict, Oscillates):
            self.draw_period(ground, self.verdict.start, self.verdict.period)
        self.draw_axis(ground, times)
        self.lanes.draw(ground, names, self.right)
        left = self.axis.x(self.view.first) - 10
        area = clipped(ground, left, TOP - 14, self.right - left, self.lanes.bottom - TOP + 28)
        for message in self.messages:
            self.draw_message(area, message)
        for bar in self.bars:
            self.draw_bar(area, bar)
        for ban in self.bans:
            (start, end), y = self.ends(ban), self.ban_height(ban.router, ban.level or 0)
            add(area, "line", "", ban.tooltip, class_="ban", x1=start, y1=y, x2=end, y2=y)
        for scene in self.scenes:
            self.draw_scene(area, scene)

    def draw_axis(self, lines: Element, times: Element) -> None:
        add(times, "text", "time", class_="quiet name", x=self.lanes.left - 18, y=TOP - 14)
        for time in self.axis.ticks():
            self.draw_upright(lines, time, "grid")
            add(times, "text", f"{time:,}", class_="quiet middle", x=self.axis.x(time), y=TOP - 14)
        for start, end in self.axis.folds:
            self.draw_stretch(lines, start, end, "fold", f"nothing happens from {start:,} to {end:,}")

    def draw_upright(self, parent: Element, time: int, look: str) -> None:
        x = self.axis.x(time)
        add(parent, "line", class_=look, x1=x, y1=TOP - 8, x2=x, y2=self.lanes.bottom)

    def draw_period(self, parent: Element, start: int, period: int) -> None:
        """Shades the period that the verdict found, and marks where it begins again."""
        first, last = max(start, self.view.first), min(start + period, self.view.last)
        if first < last:
            self.draw_stretch(parent, first, last, "period", f"the period from {start} to {start + period}")
            middle = (self.axis.x(first) + self.axis.x(last)) / 2
            add(parent, "text", f"period {period}", class_="quiet middle", x=middle, y=self.lanes.bottom + 14)
        repeats = max(2, -(-(self.view.first - start) // period))
        for time in range(start + period * repeats, self.view.last + 1, period):
            self.draw_upright(parent, time, "again")

    def draw_stretch(self, parent: Element, start: int, end: int, look: str, tooltip: str) -> None:
        """Shades all lanes over a stretch of time."""
        x, height = self.axis.x(start), self.lanes.bottom - TOP + 8
        add(parent, "rect", "", tooltip, class_=look, x=x, y=TOP - 8, width=self.axis.x(end) - x, height=height)

    def ends(self, bar: Bar) -> tuple[float, float]:
        """Where it begins and ends, as far as it is in view."""
        end = self.right if bar.end is None or bar.end > self.view.last else self.axis.x(bar.end)
        return self.axis.x(max(bar.start, self.view.first)), end

    def draw_bar(self, parent: Element, bar: Bar) -> None:
        start, end = self.ends(bar)
        if start == end:
            start -= MOMENT
        words, look, ink = write_path(bar.path), {"class_": "hollow"}, {"class_": "path quiet"}
        if bar.path:
            place = self.places[bar.path]
            look, ink = {"class_": "bar", "fill": place.fill}, {"class_": "path", "style": f"fill:{place.ink}"}
        group = add(parent, "g", "", bar.tooltip)
        add(group, "rect", **look, **self.lanes.box(bar.router, start, end))
        if bar.start != bar.end:
            at = {"x": start + 4, "y": self.lanes.y(bar.router) + 3.8}
            if LETTER_WIDTH * len(words) + 6 <= end - start:
                add(group, "text", words, **ink, **at)
            elif self.has_hidden_words:
                add(group, "text", words, **{"class_": "", "display": "none", **at, **ink})

    def ban_height(self, router: int, level: int) -> float:
        """Where a path's time of being forbidden is drawn, below the router's bar."""
        return self.lanes.y(router) + self.lanes.bar / 2 + BAN_BELOW + BAN_STEP * min(level, MOST_BANS - 1)

    def draw_message(self, parent: Element, message: Message) -> None:
        event = message.event
        x1, x2, here = self.axis.x(message.sent), self.axis.x(event.time), self.lanes.y(event.dst)
        if event.src in self.lanes.places:
            y1, y2 = self.lanes.edge(event.src, here), self.lanes.edge(event.dst, self.lanes.y(event.src))
        else:
            # The sender is not in view: a short arrow from above stands for the message.
            y2 = here - self.lanes.bar / 2
            x1, y1 = x2 - 9, y2 - 12
        words = f"path {write_path(message.update.path)}, session {message.update.session}, {message.fate.value}"
        tooltip = f"{event.src} to {event.dst}, sent {message.sent}, arrives {event.time}: {words}"
        add(parent, "line", "", tooltip, class_=message_look(message), x1=x1, y1=y1, x2=x2, y2=y2)

    def draw_scene(self, parent: Element, scene: Event) -> None:
        x, y = self.axis.x(scene.time), self.lanes.y(scene.dst)
        _, draw = SCENES[type(scene.body)]
        match scene.body:
            case Fail(peer) | Restore(peer):
                self.draw_link_scene(parent, scene, draw, x, peer)
            case Swap(first, second):
                tooltip = f"{scene.time}: router {scene.dst} exchanges places {first} and {second} of its order"
                draw(add(parent, "g", "", tooltip), x, y - self.lanes.bar / 2 - 7)
            case Forbid() | Allow():
                self.draw_bar_scene(parent, scene, draw, x)
            case _:
                draw(add(parent, "g", "", f"{scene.time}: start"), x - 5, y)

    def draw_bar_scene(self, parent: Element, scene: Event, draw: Sample, x: float) -> None:
        """A mark where a path is forbidden or allowed. Words stand at the highest one of those that forbid alone."""
        path, level = self.ban_marks[scene]
        y, words = self.ban_height(scene.dst, level), "forbidden" if isinstance(scene.body, Forbid) else "allowed"
        group = add(parent, "g", "", f"{scene.time}: path {write_path(path)} is {words} at router {scene.dst}")
        draw(group, x, y)
        if words == "forbidden" and level == 0 and len(self.scenes) <= MOST_NOTES:
            note = f"{write_path(path)} {words}"
            # At the end of the picture the words stand before the mark.
            is_last = x + 8 + LETTER_WIDTH * len(note) > self.right
            at = {"x": x - 8, "text_anchor": "end"} if is_last else {"x": x + 8}
            add(group, "text", note, class_="note failnote", y=y + 15, **at)

    def draw_link_scene(self, parent: Element, scene: Event, draw: Sample, x: float, peer: int) -> None:
        """A mark at this end of a link, and once for both ends the link between them and what happens to it."""
        here, is_whole = self.lanes.y(scene.dst), peer in self.lanes.places
        there = self.lanes.y(peer) if is_whole else here - 2 * self.lanes.bar
        toward = 1 if there > here else -1
        look, words = ("fail", "fails") if isinstance(scene.body, Fail) else ("repair", "is repaired")
        group = add(parent, "g", "", f"{scene.time}: link {scene.dst} {peer} {words}")
        draw(group, x, here + toward * (self.lanes.bar / 2 + 7))
        if is_whole and scene.dst > peer:
            return
        # The words stand on the other side of the bar, since the messages of a repair go along the link.
        beyond = here - toward * (self.lanes.bar / 2 + 12)
        add(group, "line", class_=f"{look} link", x1=x, y1=beyond, x2=x, y2=there)
        if len(self.scenes) <= MOST_NOTES:
            add(group, "text", f"{scene.dst}–{peer} {words}", class_=f"note {look}note", x=x + 6, y=beyond + 4)

    def legend(self) -> list[tuple[str, Sample]]:
        places = {self.places[bar.path] for bar in self.bars if bar.path}
        entries = [(f"{place.name} path", sample_box(fill=place.fill)) for place in PLACES if place in places]
        bodies = {type(scene.body) for scene in self.scenes}
        entries += [("no path", sample_box(class_="hollow"))] * (not all(bar.path for bar in self.bars))
        entries += super().legend()
        entries += [mark for body, mark in SCENES.items() if body in bodies]
        entries += [("while it is forbidden", sample_line(class_="ban"))] * bool(self.bans)
        entries += [("the period found", sample_box(class_="period"))] * isinstance(self.verdict, Oscillates)
        return entries + [("nothing happens", sample_box(class_="fold"))] * bool(self.axis.folds)


# What the marks of the scenario are called, and how they are drawn.
SCENES: dict[type, tuple[str, Sample]] = {
    Start: ("start", sample_path(4, 6, "l8 6l-8 6z", class_="start")),
    Fail: ("link fails", sample_path(4, 4, "l8 8m0 -8l-8 8", class_="fail")),
    Restore: ("link is repaired", sample_circle("repair", 4)),
    Swap: ("ranks exchanged", sample_path(0, 6, "l5 6l-5 6l-5 -6z", class_="swap")),
    Forbid: ("path forbidden", sample_square("forbid", 8)),
    Allow: ("path allowed again", sample_square("allow", 8)),
}

# What became of an event that was handled: its words, its ground and the ink on it.
HANDLINGS = {
    "committed": ("committed", "#0072b2", "#fff"),
    "ahead": ("handled, not committed", "#56b4e9", "#000"),
    "undone": ("handled, then undone", "#fff", "#c1121f"),
}


def handling_look(handling: Handling) -> str:
    return "undone" if handling.undone_at else "committed" if handling.committed_at else "ahead"


draw_commit = sample_path(6, 0, "l4 5l8 -10", class_="commit")
draw_kept = sample_circle("fail", 5)


class ReplayPicture(LanePicture):
    """A replay, and which of its steps were undone. The view goes from one step to another, counted from 1."""

    looks = {
        "message": "message",
        "message gone": "message taken back",
        "message anti": "antimessage",
        "message anti gone": "antimessage that takes one back",
        "message underway": "in flight at the end",
        "message underway anti": "antimessage in flight at the end",
    }
    legend_below = 36.0

    def __init__(self, steps: list[Step], replay: Replay, machine: Machine, view: View):
        seen = (message for message in machine.messages if view.meets(message.sent, message.delivered or view.last))
        super().__init__(view, (message for message in seen if {message.event.src, message.event.dst} <= view.shown))
        numbered = enumerate(zip(steps, replay.answers), 1)
        self.steps = [(number, *answer) for number, answer in numbered if view.meets(number, number)]
        handled = (handling for handling in machine.handlings if handling.event.dst in view.shown)
        self.handlings = [one for one in handled if view.meets(one.done_at, one.undone_at or one.done_at)]
        self.bounds = [(number, bound) for number, bound in machine.bounds if view.meets(number, number)]
        self.marks = self.steps, self.handlings
        self.right = self.x(view.last) + COLUMN / 2

    def x(self, number: int) -> float:
        """The middle of a step's column."""
        return self.lanes.left + COLUMN * (number - self.view.first + 0.5)

    def draw_onto(self, ground: Element, times: Element, names: Element) -> None:
        self.draw_steps(times)
        self.lanes.draw(ground, names, self.right)
        width, height = self.right - self.lanes.left, self.lanes.bottom - TOP + 16
        area = clipped(ground, self.lanes.left, TOP - 8, width, height)
        for message in self.messages:
            self.draw_message(area, message)
        for handling in self.handlings:
            self.draw_handling(area, handling)
        for number, step, refusal in self.steps:
            if step.word == "commit" and not refusal and step.number in self.lanes.places:
                draw_commit(add(area, "g", "", f"step {number} {step}"), self.x(number), self.lanes.y(step.number))

    def draw_steps(self, parent: Element) -> None:
        """The head of each column, with what was refused and the bounds found."""
        for number, step, refusal in self.steps:
            x, look = self.x(number), "refused" if refusal else "quiet"
            head = add(parent, "g", "", f"step {number} {step}: {f'refused {refusal}' if refusal else 'ok'}")
            add(head, "text", str(number), class_=f"{look} middle", x=x, y=TOP - 34)
            for line, word in enumerate(str(step).split()):
                add(head, "text", word, class_=f"{look} step", x=x, y=TOP - 20 + 12 * line)
            add(parent, "line", class_="grid", x1=x, y1=TOP - 4, x2=x, y2=self.lanes.bottom)
            if refusal:
                add(head, "text", refusal.split()[0], class_="refused middle", x=x, y=self.lanes.bottom + 14)
        for number, bound in self.bounds:
            x = self.x(number)
            add(parent, "line", class_="bound", x1=x, y1=TOP - 4, x2=x, y2=self.lanes.bottom)
            add(parent, "text", f"bound {bound}", class_="repairnote middle", x=x, y=self.lanes.bottom + 14)

    def draw_handling(self, parent: Element, handling: Handling) -> None:
        x, y = self.x(handling.done_at), self.lanes.y(handling.event.dst)
        name, fill, ink = HANDLINGS[handling_look(handling)]
        tooltip = f"step {handling.done_at} handles {handling.event}: {name}"
        group = add(parent, "g", "", tooltip + (f" by step {handling.undone_at}" if handling.undone_at else ""))
        width, words = COLUMN - 6, f"at {handling.event.time}"
        box = self.lanes.box(handling.event.dst, x - width / 2, x + width / 2)
        add(group, "rect", class_="undone" if handling.undone_at else "bar", fill=fill, **box)
        if LETTER_WIDTH * len(words) <= width:
            add(group, "text", words, class_="path middle", style=f"fill:{ink}", x=x, y=y + 3.8)
        if handling.undone_at:
            end, top = self.x(handling.undone_at), y - self.lanes.bar / 2
            curve = f"M{end:.1f} {top:.1f}Q{(x + end) / 2:.1f} {top - 28:.1f} {x:.1f} {top:.1f}"
            add(group, "path", class_="undo", d=curve)
            add(group, "circle", class_="refused", cx=end, cy=top, r=2.5)

    def draw_message(self, parent: Element, message: Message) -> None:
        event = message.event
        here, there = self.lanes.y(event.dst), self.lanes.y(event.src)
        x1, y1, y2 = self.x(message.sent), self.lanes.edge(event.src, here), self.lanes.edge(event.dst, there)
        x2 = self.x(message.delivered) if message.delivered else self.right
        kind = "antimessage of" if message.is_anti else "message"
        way = f"delivered by step {message.delivered}, " if message.delivered else ""
        tooltip = f"{kind} {event}, sent by step {message.sent}: {way}{message.fate.value}"
        add(parent, "line", "", tooltip, class_=message_look(message), x1=x1, y1=y1, x2=x2, y2=y2)
        if message.fate is Fate.KEPT:
            draw_kept(parent, x2, here)

    def legend(self) -> list[tuple[str, Sample]]:
        seen = set(map(handling_look, self.handlings))
        looks = {key: {"class_": key} if key == "undone" else {"fill": hue} for key, (_, hue, _) in HANDLINGS.items()}
        entries = [(HANDLINGS[key][0], sample_box(**look)) for key, look in looks.items() if key in seen]
        entries += super().legend()
        entries += [("antimessage kept", draw_kept)] * any(message.fate is Fate.KEPT for message in self.messages)
        return entries + [("commit", draw_commit)] * any(step.word == "commit" for _, step, _ in self.steps)

"""Makes a page of the run of a case on standard output, one HTML file that needs no network: the network, the timeline, a
slider of time that moves both, and each router's table. The report has to be one with --log. A page has at most 300
routers and 5,000 events; of more, choose a part. With what twarp-policy safe wrote the network has the dispute wheel and
the routers that have a choice, and the tables which paths are left for all timings.

examples:
  ./twarp seq --stop 20 --every 1 --log < cases/bad-gadget.spp | tools/page cases/bad-gadget.spp > bad-gadget.html
  ./twarp seq --stop 20 --log < cases/disagree.spp | tools/page --ask-policy cases/disagree.spp > disagree.html
"""

import json
from collections.abc import Iterator
from dataclasses import asdict
from html import escape
from pathlib import Path
from string import Template
from typing import Any
from xml.etree import ElementTree
from xml.etree.ElementTree import Element

from twarp import svg
from twarp.calls import Safety
from twarp.case import Case, write_path
from twarp.pictures import subtitle_of, view_of_run
from twarp.protocol import Fate, Router, Run, follow
from twarp.report import Allow, Event, Fail, Forbid, Report, Restore, Swap, Update
from twarp.run_picture import LETTER_WIDTH, Bar, RunPicture
from twarp.svg import TOP, View, add, attribute, refuse_crowd, sample_circle, sample_line, written
from twarp_tools.command import MOST_OF_REPORT, Input, title_of, tool, write_output
from twarp_tools.draw import add_policy, parser_of, part_of, read_run, safety_of
from twarp_tools.layout import NetworkDrawing

PARTS = Path(__file__).resolve().parent / "page_parts"
MOST_ROUTERS = 300
MOST_EVENTS = 5_000
# The slider stops at each tick where there are not more of them, else where something happens.
MOST_TICKS = 2_000

# How far the timeline goes on above its lanes, where the times stand, and beyond its ends.
TIMES_HEIGHT = 24.0
ABOVE, BELOW, BESIDE = 8.0, 22.0, 14.0
# The room of a mark in the legend.
SAMPLE_WIDTH, SAMPLE_HEIGHT = 34.0, 22.0

# What the page's script reads.
Json = dict[str, Any]


class Recording(Run):
    """A run, with how each router in view begins, and what each event changes there, with numbers for paths."""

    def __init__(self, case: Case, view: View):
        super().__init__(case)
        self.view = view
        # The routers in view as they are before the first event from the view's beginning on.
        self.opening: dict[int, Router] = {}
        self.events: list[Json] = []

    def begin(self) -> None:
        """Keeps the routers as they are, where that is not done yet."""
        self.opening = self.opening or {router: self.routers[router].copy() for router in self.view.routers}

    def handle_least(self) -> None:
        _, event, _ = self.pending[0]
        if event.time >= self.view.first:
            self.begin()
        before = self.routers[event.dst].copy()
        super().handle_least()
        if event.dst in self.view.shown and self.view.meets(event.time, event.time):
            self.events.append(self.event(event, before, self.routers[event.dst]))

    def event(self, event: Event, before: Router, after: Router) -> Json:
        """What happens, in words, and what is other than before at the router."""
        words = f"router {event.dst} {told(event, before, after)}"
        if before.rib != after.rib:
            words += f" and takes {write_path(after.rib)}" if after.rib else " and has no path any more"
        made: Json = {"time": event.time, "router": after.node, "words": words, "counters": after.counters}
        was, now = self.state(before), self.state(after)
        made |= {name: now[name] for name in ("rib", "order", "barred") if now[name] != was[name]}
        if isinstance(event.body, (Fail, Restore, Update)):
            made["row"] = self.row(after, event.src if isinstance(event.body, Update) else event.body.peer)
        return made

    def state(self, router: Router) -> Json:
        return {
            "rib": self.path_numbers[router.rib],
            "order": [self.path_numbers[path] for path in router.order],
            "barred": sorted(self.path_numbers[path] for path in router.barred),
            "rows": [self.row(router, peer) for peer in router.delays],
            "counters": router.counters,
        }

    def row(self, router: Router, peer: int) -> list[int]:
        """A neighbour, the delay to it, whether the link is up, its session, and the path heard last."""
        heard = self.path_numbers[router.heard.get(peer, ())]
        return [peer, router.delays[peer], int(peer not in router.down), router.sessions[peer], heard]

    def seen_messages(self) -> Iterator[Json]:
        """The messages between routers in view that are under way at some time in view."""
        for message in self.messages:
            event = message.event
            if self.view.meets(message.sent, event.time) and {event.src, event.dst} <= self.view.shown:
                ends = {"from": event.src, "to": event.dst, "sent": message.sent, "arrives": event.time}
                path, is_dropped = self.path_numbers[message.update.path], message.fate is Fate.DROPPED
                yield ends | {"path": path, "is_dropped": is_dropped}


def told(event: Event, before: Router, after: Router) -> str:
    """What happens at the event's router."""
    match event.body:
        case Fail(peer):
            return f"loses the link to {peer}"
        case Restore(peer):
            return f"has the link to {peer} again"
        case Swap(first, second):
            return f"exchanges places {first} and {second} of its order"
        case Forbid(place):
            return f"may not use {write_path(after.given[place - 1])} from now on"
        case Allow(place):
            return f"may use {write_path(after.given[place - 1])} again"
        case Update(path) if after.dropped > before.dropped:
            why = "since the link is down" if event.src in after.down else "which is of an earlier session"
            return f"drops {write_path(path)} from {event.src}, {why}"
        case Update(path):
            return f"hears {write_path(path)} from {event.src}"
    return "starts"


class PagePicture(RunPicture):
    """The picture of a run that the page's script can widen, in which what keeps its width says where it stands."""

    has_hidden_words = True

    def draw_scene(self, parent: Element, scene: Event) -> None:
        super().draw_scene(parent, scene)
        parent[-1].set("data-at", attribute(self.axis.x(scene.time)))

    def draw_bar(self, parent: Element, bar: Bar) -> None:
        super().draw_bar(parent, bar)
        if bar.start == bar.end:
            # The path was given up at once: its bar ends where it began.
            parent[-1].set("data-at", attribute(self.axis.x(bar.start)))


class Page:
    """What the page of a part of a run has."""

    def __init__(self, case: Case, report: Report, recording: Recording, safety: Safety | None = None):
        self.recording, self.view, self.safety = recording, recording.view, safety
        self.network = NetworkDrawing(case, self.view)
        self.picture = PagePicture(case, report, recording, self.view)
        self.messages, axis = [*recording.seen_messages()], self.picture.axis
        # The times at which the slider stops.
        if axis.last - axis.first - sum(end - start - 1 for start, end in axis.folds) < MOST_TICKS:
            moments = {time for start, end in axis.stretches() for time in range(start, end + 1)}
        else:
            moments = {message[end] for message in self.messages for end in ("sent", "arrives")}
            moments |= {axis.first, axis.last, *(event["time"] for event in recording.events)}
        self.stops = sorted(time for time in moments if self.view.meets(time, time))

    def html(self, title: str, subtitle: str) -> str:
        light, dark = ("".join(f"--{name}: {hue}; " for name, hue in table.items()) for table in (svg.LIGHT, svg.DARK))
        root = f":root {{ color-scheme: light dark; {light}}}\n"
        root += f"@media (prefers-color-scheme: dark) {{ :root {{ {dark}}} }}\n"
        parts = {
            "title": escape(title),
            "subtitle": escape(subtitle),
            "last_stop": str(len(self.stops) - 1),
            "style": root + svg.STYLE.substitute(VARIABLES) + (PARTS / "page.css").read_text(),
            "timeline": "\n".join(map(written, self.timeline())),
            "marks": "\n".join(self.marks()),
            "run": json.dumps(self.json(), separators=(",", ":")).replace("<", "\\u003c"),
            "script": (PARTS / "page.js").read_text(),
        }
        return Template((PARTS / "page.html").read_text()).substitute(parts)

    def json(self) -> Json:
        """What the script has to know."""
        picture, recording, safety = self.picture, self.recording, self.safety
        widths = {"fold_width": svg.FOLD_WIDTH, "digit_width": svg.DIGIT_WIDTH, "letter_width": LETTER_WIDTH}
        heights = {"right": picture.right, "top": TOP - 8, "bottom": picture.lanes.bottom, "times": TOP - 14}
        return {
            **self.network.json(),
            **({"policy": self.policy_json(safety)} if safety else {}),
            "stops": self.stops,
            "axis": asdict(picture.axis) | widths | heights,
            "xs": [round(picture.axis.x(time), 1) for time in self.stops],
            "places": [asdict(place) for place in svg.PLACES],
            "paths": list(recording.path_numbers),
            "routers": list(self.routers()),
            "messages": self.messages,
            "events": recording.events,
        }

    def policy_json(self, safety: Safety) -> Json:
        """What holds for all timings: of the routers in view, with paths by their numbers, and steps between them."""
        paths, shown = self.recording.path_numbers, self.view.shown
        left = [[paths[path] for path in safety.left[router]] for router in self.view.routers]
        steps = {"rim": safety.rim_hops, "spokes": safety.spoke_hops}
        return {"left": left} | {name: [hop for hop in hops if shown.issuperset(hop)] for name, hops in steps.items()}

    def routers(self) -> Iterator[Json]:
        left, top = self.network.left, self.network.top
        for router, point, words in zip(self.view.routers, self.network.points, self.network.words):
            place = {"x": point.real + left, "y": point.imag + top, "words_y": words.imag + top}
            state = self.recording.state(self.recording.opening[router])
            yield {"router": router, "name": self.view.names.get(router, ""), **place, "opening": state}

    def timeline(self) -> list[Element]:
        """The pictures that make the timeline: its corner, its times, its names, and its lanes with the cursor."""
        lanes, left, top = self.picture.lanes, self.picture.lanes.left - BESIDE, TOP - ABOVE
        width, height = self.picture.right - left + BESIDE, lanes.bottom - top + BELOW
        corner = pane("corner", 0, top - TIMES_HEIGHT, left, TIMES_HEIGHT)
        times = pane("times", left, top - TIMES_HEIGHT, width, TIMES_HEIGHT)
        names, area = pane("names", 0, top, left, height), pane("area", left, top, width, height)
        area.append(ElementTree.fromstring(svg.DEFINITIONS.substitute(VARIABLES)))
        self.picture.draw_onto(area, times, names)
        add(area, "rect", class_="later", x=left, y=top, width=0, height=height)
        add(area, "line", class_="cursor", x1=left, y1=top, x2=left, y2=lanes.bottom)
        # The word `time` belongs above the names.
        corner.append(times[0])
        times.remove(times[0])
        return [corner, times, names, area]

    def marks(self) -> Iterator[str]:
        """The legend, of the network's marks and then of the timeline's: a sample of each, and what it is."""
        for name, draw in [*NETWORK_MARKS, *(POLICY_MARKS if self.safety else []), *self.picture.legend()]:
            sample = pane("", 0, 0, SAMPLE_WIDTH, SAMPLE_HEIGHT)
            draw(sample, SAMPLE_WIDTH / 2, SAMPLE_HEIGHT / 2)
            yield f"<li>{written(sample)} {escape(name)}</li>"


NETWORK_MARKS = [
    ("message on its way", sample_circle("dot", 6)),
    ("on its way, without a path", sample_circle("dot withdrawal", 6)),
    ("on its way, will be dropped", sample_circle("dot lost", 6)),
    ("link that is down", sample_line(class_="wire down")),
]
POLICY_MARKS = [
    ("router that has a choice whatever the delays", sample_circle("choice", 7)),
    ("rim of the dispute wheel", sample_line(class_="rim")),
    ("spoke of the dispute wheel", sample_line(class_="spoke")),
]
# The colours as variables of the page, which stand for those on light or on dark ground.
VARIABLES = {name: f"var(--{name})" for name in svg.LIGHT}


def pane(look: str, x: float, y: float, width: float, height: float) -> Element:
    """A picture that shows a part of a drawing, a pixel for each of its units."""
    box = f"{x:.1f} {y:.1f} {width:.1f} {height:.1f}"
    return Element("svg", {"class": look, "viewBox": box, "width": f"{width:.1f}", "height": f"{height:.1f}"})


@tool
def main() -> None:
    parser = parser_of(__doc__)
    add_policy(parser, "the wheel in the network, and which paths each router may still use whatever the delays")
    line = parser.parse_pair()
    case_text, report_text = Input(line.case), Input(line.report, MOST_OF_REPORT)
    case, report = read_run(case_text, report_text)
    view = view_of_run(case, report, **part_of(line))
    refuse_crowd(len(view.routers), MOST_ROUTERS, "routers to be shown, and a page has")
    seen = sum(event.dst in view.shown and view.meets(event.time, event.time) for event in report.events)
    refuse_crowd(seen, MOST_EVENTS, "events to be shown, and a page has")
    recording = Recording(case, view)
    report_text.read(lambda _: follow(case, report, recording))
    recording.begin()
    safety = safety_of(line, case)
    subtitle = subtitle_of(report) + (f"; for all timings: {safety}" if safety else "")
    title = f"{title_of(line.title, line.case, 'run')}: verdict {report.verdict}"
    write_output(Page(case, report, recording, safety).html(title, subtitle))

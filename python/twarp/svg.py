"""The colours that all pictures share, and pictures in SVG with their marks."""

import math
from collections.abc import Callable, Iterable, Iterator, Mapping, Sequence
from dataclasses import dataclass
from functools import cached_property
from importlib import resources
from itertools import accumulate, chain, count
from string import Template
from xml.etree import ElementTree
from xml.etree.ElementTree import Element

from twarp.program import Refused

Span = tuple[int, int]
FOLD_WIDTH = 40.0
DIGIT_WIDTH = 7.0
LEAST_WIDTH, GREATEST_WIDTH = 760.0, 12_000.0
TOP = 104.0
MOST_MARKS, MOST_LANES = 5_000, 200


@dataclass(frozen=True, slots=True)
class Place:
    """What a path's place in its router's order is called, with the colours of its ground and of the text on it."""

    name: str
    fill: str
    ink: str


# The best first. This is the palette of Okabe and Ito, which colour-blind people can tell apart.
PLACES = [
    Place("1st", "#0072b2", "#ffffff"),
    Place("2nd", "#e69f00", "#000000"),
    Place("3rd", "#009e73", "#000000"),
    Place("4th", "#cc79a7", "#000000"),
    Place("5th", "#56b4e9", "#000000"),
    Place("6th", "#d55e00", "#000000"),
    Place("7th or later", "#7a6a9f", "#ffffff"),
]


def place_of(number: int) -> Place:
    """The look of a place counted from 0; all later places share the last one."""
    return PLACES[min(number, len(PLACES) - 1)]


# What else has a colour, on light ground and on dark ground.
COLOURS = {
    "ground": ("#fff", "#15181c"), "ink": ("#222", "#e6e8ea"), "quiet": ("#666", "#a3abb4"),
    "lane": ("#bbb", "#4a525b"), "grid": ("#ececec", "#262b31"), "hollow": ("#999", "#8a939d"),
    "wire": ("#84898f", "#747d87"), "message": ("#43505e", "#b4bec9"), "underway": ("#9aa5b1", "#78828d"),
    "bad": ("#c1121f", "#ff7b7b"), "faint": ("#e5a3a7", "#8f5257"), "good": ("#1a7f37", "#5fc97e"),
    "swap": ("#7b2cbf", "#c69bf0"), "period": ("#f4d35e", "#8a7426"), "again": ("#c79a00", "#d9b13b"),
    "hatch": ("#e3e3e3", "#333941"), "focus": ("#0b57d0", "#8ab4f8"),
}
LIGHT = {name: light for name, (light, _) in COLOURS.items()}
DARK = {name: dark for name, (_, dark) in COLOURS.items()}

# What stands in the folder of the package, with colours to be put in: the style of marks, and the heads of arrows.
STYLE, DEFINITIONS = (
    Template("\n" + resources.files("twarp").joinpath(name).read_text()) for name in ("picture.css", "marks.svg")
)


def attribute(value: object) -> str:
    """A number with at most one decimal; any other value as it is."""
    return f"{value:.1f}".removesuffix(".0") if isinstance(value, float) else str(value)


def add(parent: Element, tag: str, text: str = "", tooltip: str = "", /, **attributes: object) -> Element:
    """Adds an element. `class_` and `stroke_width` stand for `class` and `stroke-width`."""
    names = {name.rstrip("_").replace("_", "-"): attribute(value) for name, value in attributes.items()}
    element = ElementTree.SubElement(parent, tag, names)
    element.text = text or None
    if tooltip:
        ElementTree.SubElement(element, "title").text = tooltip
    return element


def clipped(parent: Element, x: float, y: float, width: float, height: float) -> Element:
    """A group of which only this area is seen."""
    area = add(parent, "clipPath", id="area")
    add(area, "rect", x=x, y=y, width=width, height=height)
    return add(parent, "g", clip_path="url(#area)")


def written(picture: Element) -> str:
    """The text of a picture, each element on a line of its own."""
    ElementTree.indent(picture, "")
    return ElementTree.tostring(picture, "unicode")


class Picture:
    """A picture on a white ground, with a title above. Its elements are added to `root`."""

    def __init__(self, title: str, subtitle: str):
        self.root = Element("svg", xmlns="http://www.w3.org/2000/svg")
        add(self.root, "title", title)
        add(self.root, "style", STYLE.substitute(LIGHT))
        self.root.append(ElementTree.fromstring(DEFINITIONS.substitute(LIGHT)))
        add(self.root, "rect", width="100%", height="100%", fill=LIGHT["ground"])
        add(self.root, "text", title, class_="title", x=16, y=27)
        add(self.root, "text", subtitle, class_="quiet", x=16, y=46)

    def text(self, width: float, height: float) -> str:
        """The picture as SVG, in this size."""
        size = {"width": f"{round(width)}", "height": f"{round(height)}"}
        self.root.attrib |= {"viewBox": "0 0 {width} {height}".format(**size), **size}
        return written(self.root) + "\n"


def silences(first: int, last: int, busy: Iterable[Span]) -> list[Span]:
    """The stretches in which nothing happens, where they are long beside those in which something does."""
    spans = sorted((max(a, first), min(b, last)) for a, b in busy if a <= last and b >= first)
    ends = accumulate((b for _, b in spans), max, initial=first)
    gaps = [(end, start) for end, start in zip(ends, [*(a for a, _ in spans), last]) if start > end]
    total = max(1, last - first - sum(b - a for a, b in gaps))
    return [(a, b) for a, b in gaps if 4 * (b - a) > total and b - a > 2]


def nice_step(least: float) -> int:
    """The least of 1, 2, 5, 10, 20, .. that is not below `least`."""
    return next(step for power in count() for step in (10**power, 2 * 10**power, 5 * 10**power) if step >= least)


@dataclass(frozen=True)
class TimeAxis:
    """Times from `first` to `last`, with so many pixels a tick; a folded stretch takes a fixed width."""

    first: int
    last: int
    left: float
    scale: float
    folds: list[Span]

    def x(self, time: int) -> float:
        """Where a time stands; also for times outside the axis."""
        folded, folds = 0.0, 0.0
        for a, b in self.folds:
            if time >= b:
                folded, folds = folded + (b - a), folds + FOLD_WIDTH
            elif time > a:
                folded, folds = folded + (time - a), folds + FOLD_WIDTH * (time - a) / (b - a)
        return self.left + (time - self.first - folded) * self.scale + folds

    def stretches(self) -> Iterable[Span]:
        """Those between the folds, the ends of folds among them."""
        ends = [self.first, *chain.from_iterable(self.folds), self.last]
        return zip(ends[::2], ends[1::2])

    def ticks(self) -> Iterator[int]:
        """Times to be written at the axis, none within a folded stretch."""
        step = nice_step(DIGIT_WIDTH * (len(f"{self.last:,}") + 3) / self.scale)
        for start, end in self.stretches():
            yield from range(-(-start // step) * step, end + 1, step)


def fit(first: int, last: int, left: float, moments: int, busy: Iterable[Span]) -> TimeAxis:
    """An axis on which so many different moments have room, within reason."""
    folds = silences(first, last, busy)
    ticks = max(1, last - first - sum(b - a for a, b in folds))
    width = 54.0 * min(moments, 40) + 16.0 * max(0, moments - 40)
    return TimeAxis(first, last, left, min(min(max(LEAST_WIDTH, width), GREATEST_WIDTH) / ticks, 120.0), folds)


@dataclass(frozen=True)
class View:
    """What is to be seen: times, or steps of a replay, from `first` to `last`, and the lanes of some routers."""

    first: int
    last: int
    routers: Sequence[int]
    names: Mapping[int, str]

    @cached_property
    def shown(self) -> frozenset[int]:
        """The routers that have a lane."""
        return frozenset(self.routers)

    def meets(self, start: int, end: int) -> bool:
        """Whether some of a stretch is in view."""
        return start <= self.last and end >= self.first


def refuse_crowd(count: int, most: int, what: str) -> None:
    """Refuses a picture or a page in which nobody could tell so many things apart."""
    if count > most:
        raise Refused(f"there are {count:,} {what} at most {most:,}: choose some by --from, --to and --routers")


class Lanes:
    """The lanes of a view's routers, from top to bottom."""

    def __init__(self, view: View):
        self.names = {router: f"{router} {view.names.get(router, '')}".rstrip() for router in view.routers}
        self.places = {router: place for place, router in enumerate(view.routers)}
        count = len(self.places)
        self.left = 48 + 7.5 * max(map(len, self.names.values()))
        self.height = 66.0 if count <= 12 else 48.0 if count <= 40 else 34.0
        self.bar = 18.0 if count <= 40 else 14.0
        self.bottom = TOP + self.height * count

    def y(self, router: int) -> float:
        """The middle of the router's lane."""
        return TOP + self.height * (self.places[router] + 0.5)

    def edge(self, router: int, other: float) -> float:
        """That edge of the router's bar which is nearer to the height `other`."""
        return self.y(router) + math.copysign(self.bar / 2, other - self.y(router))

    def box(self, router: int, start: float, end: float) -> dict[str, float]:
        """A bar in the router's lane."""
        return {"x": start, "y": self.y(router) - self.bar / 2, "width": end - start, "height": self.bar, "rx": 3}

    def draw(self, lines: Element, names: Element, right: float) -> None:
        for router, name in self.names.items():
            y = self.y(router)
            add(lines, "line", class_="lane", x1=self.left, y1=y, x2=right, y2=y)
            add(names, "text", name, class_="name", x=self.left - 18, y=y + 4)


# Draws a mark, or a sample of it, around a point.
Sample = Callable[[Element, float, float], Element]


def sample_box(**attributes: object) -> Sample:
    return lambda parent, x, y: add(parent, "rect", x=x - 13, y=y - 6, width=26, height=12, rx=3, **attributes)


def sample_line(**attributes: str) -> Sample:
    return lambda parent, x, y: add(parent, "line", x1=x - 14, y1=y, x2=x + 12, y2=y, **attributes)


def sample_square(look: str, side: float) -> Sample:
    box = {"width": side, "height": side}
    return lambda parent, x, y: add(parent, "rect", class_=look, x=x - side / 2, y=y - side / 2, **box)


def sample_circle(look: str, radius: float) -> Sample:
    return lambda parent, x, y: add(parent, "circle", class_=look, cx=x, cy=y, r=radius)


def sample_path(left: float, up: float, way: str, **attributes: object) -> Sample:
    """A path that begins so far to the left and above the point, and goes on as `way` says."""
    return lambda parent, x, y: add(parent, "path", **attributes, d=f"M{x - left:.1f} {y - up:.1f}{way}")


def draw_legend(parent: Element, right: float, y: float, entries: list[tuple[str, Sample]]) -> float:
    """Draws samples with their names beside them, in as many lines as they take, and gives the height below them."""
    x = left = 16.0
    for name, draw in entries:
        width = 52 + 6.9 * len(name)
        if x > left and x + width > right:
            x, y = left, y + 22
        draw(parent, x + 14, y)
        add(parent, "text", name, x=x + 34, y=y + 4)
        x += width
    return y + 22

"""Pictures of runs, of replays and of sweeps as SVG, and of networks as Graphviz text."""

import itertools
import shutil
import subprocess
from collections import Counter, defaultdict
from collections.abc import Iterable, Iterator, Mapping, Sequence
from dataclasses import dataclass
from html import escape
from typing import Any
from xml.etree.ElementTree import Element

from twarp.calls import Hop, Safety, standing
from twarp.case import GREATEST_TIME, ORIGIN, Case, Link, Nodes, hops_from, write_path
from twarp.outcomes import Outcome, Outcomes, columns_of, interval, share_words, width_of
from twarp.program import Refused, Stopped
from twarp.protocol import Router, follow, follow_replay, opening_routers, reached
from twarp.report import Quiet, Replay, Report, Step
from twarp.run_picture import ReplayPicture, RunPicture, last_time
from twarp.svg import DIGIT_WIDTH, LIGHT, TOP, Picture, Sample, View, add, draw_legend, nice_step, place_of, sample_box
from twarp.svg import sample_path
from twarp.trials import Trial

HEAD = """\
digraph {{
  graph [label=<<B>{title}</B>{note}>, labelloc=t, fontname="Helvetica", fontsize=15, nodesep=0.8, ranksep=0.6]
  node [shape=plain, fontname="Helvetica", fontsize=12]
  edge [dir=none, color="#8a95a1", fontname="Helvetica", fontsize=11, fontcolor="#555555"]
"""
BOX = '<TABLE BORDER="1" CELLBORDER="0" CELLSPACING="0" CELLPADDING="3" BGCOLOR="white" COLOR="#555555">{}</TABLE>'
NOTE = '<BR/><FONT POINT-SIZE="11">{}</FONT>'
NAME_ROW = '<TR><TD BGCOLOR="{ground}"><B>{name}</B></TD></TR>'
PATH_ROW = '<TR><TD ALIGN="LEFT"{ground}><FONT FACE="monospace" POINT-SIZE="11" COLOR="{ink}">{words}</FONT></TD></TR>'

RIM = f'color="{LIGHT["swap"]}", penwidth=3'
SPOKE = f'color="{LIGHT["swap"]}", penwidth=1.5, style=dashed'
WHEEL = "the wheel: its rim solid, its spokes dashed; routers in yellow have a choice, among the paths in black"
REST = "so every run comes to rest, whatever the delays"

# How the outcomes of a sweep are drawn.
LANE, BAR = 48.0, 18.0
WIDTH, BESIDE = 460.0, 240.0
GAP, HEIGHT, WIDEST_COLUMN = 86.0, 200.0, 48.0
# Beyond so many outcomes the rarest share a lane.
MOST_LANES = 12
MOST_LETTERS = 96
# Room for the names of the axes.
LEAST_LETTERS = 8
OTHERS = "#b8bfc6"
# On white ground; the whiskers are those of the intervals.
WHISKER = {"stroke": "#222", "stroke_width": 1.3, "fill": "none"}

# How many undone steps the title of a replay names.
MOST_TOLD = 8
NO_NAMES: Mapping[int, str] = {}
# For each step from a router to a neighbour the places, from 0, of the paths that take it.
Uses = Mapping[Hop, list[int]]


@dataclass
class Drawing:
    """What is to be drawn: at most so many paths at a router, and those of one router only where that is asked for.

    Without a run the routers use no paths yet. With `safety` it shows the paths that are left, and the wheel where there is
    one; the routers stand as `twarp.calls.standing` gives them.
    """

    case: Case
    routers: Sequence[Router]
    has_run: bool
    names: Mapping[int, str]
    most: int
    only: int | None = None
    safety: Safety | None = None

    def __post_init__(self) -> None:
        wheel = self.safety.wheel if self.safety else ()
        self.roles = {pivot.rim: " <I>rim</I>" for pivot in wheel} | {pivot.spoke: " <I>spoke</I>" for pivot in wheel}
        self.parts = [({*self.safety.rim_hops}, RIM), ({*self.safety.spoke_hops}, SPOKE)] if self.safety else []

    def text(self, title: str) -> str:
        lines, uses = [self.box(router) for router in self.routers], self.uses()
        found = hops_from(ORIGIN, self.case.delays().__getitem__)
        # How many links each router is from the origin; for one without a way there, the number of routers.
        depth = [found.get(node, self.case.nodes) for node in range(self.case.nodes)]
        for link in self.case.links:
            lines += self.edges(link, uses, depth)
        note = NOTE.format(REST if self.safety.is_safe else WHEEL) if self.safety else ""
        return HEAD.format(title=escape(title), note=note) + "".join(f"  {line}\n" for line in lines) + "}\n"

    def uses(self) -> Uses:
        """The first step of each router's path, or all steps of one router's permitted paths."""
        uses: dict[Hop, list[int]] = defaultdict(list)
        for router in self.routers:
            for place, path in enumerate(router.order):
                way = path if self.only == router.node else path[:2] if (self.only, path) == (None, router.rib) else ()
                for hop in zip(way, way[1:]):
                    uses[hop].append(place)
        return uses

    def box(self, router: Router) -> str:
        # The paths that the router may still use, where that is shown.
        node, left = router.node, self.safety.left[router.node] if self.safety else None
        ground = LIGHT["period"] if left and len(left) > 1 else "#d9d9d9" if node == ORIGIN else "#eeeeee"
        name = escape(f"{node} {self.names[node]}" if node in self.names else str(node))
        rows = [NAME_ROW.format(name=name, ground=ground)]
        if self.only in (None, node):
            rows += self.path_rows(router, left)
        return f"{node} [label=<{BOX.format(''.join(rows))}>]"

    def path_rows(self, router: Router, left: tuple[Nodes, ...] | None) -> Iterator[str]:
        """A row for each path: coloured where it is used or one router's paths are shown, grey where it is not left."""
        more = 0
        for number, path in enumerate(router.order):
            is_coloured = path == router.rib or self.only is not None
            if number >= self.most and not is_coloured and path not in (left or ()):
                more += 1
                continue
            place, words, ground = place_of(number), write_path(path), ""
            ink = "#222222" if left is None or path in left else "#a0a6ad"
            if is_coloured:
                ground, ink = f' BGCOLOR="{place.fill}"', place.ink
            if path in router.barred:
                ink, words = "#c1121f", f"<S>{words}</S>"
            yield PATH_ROW.format(ground=ground, ink=ink, words=words + self.roles.get(path, ""))
        if more:
            yield PATH_ROW.format(ground="", ink="#777777", words=f"and {more} more")
        if () in left if left else self.has_run and not router.rib:
            words = "no path" if left and len(left) > 1 else "uses no path"
            yield PATH_ROW.format(ground="", ink="#c1121f", words=words)

    def looks(self, link: Link, ends: Hop, uses: Uses) -> list[tuple[Hop, str]]:
        """The directions in which a link is used, each with how its arrow looks: by a wheel, or else by paths."""
        ways = (link.a, link.b), (link.b, link.a)
        if looks := [(hop, look) for hop in ways for hops, look in self.parts if hop in hops]:
            return looks
        fills = {hop: dict.fromkeys(place_of(place).fill for place in uses.get(hop, ())) for hop in (ends, ends[::-1])}
        return [(hop, f'color="{":".join(row)}", penwidth=2') for hop, row in fills.items() if row]

    def edges(self, link: Link, uses: Uses, depth: list[int]) -> Iterator[str]:
        """An arrow for each way in which the link is used, or else a line."""
        # From the end that is farther from the origin, so that the origin is at the bottom.
        tail, head = sorted((link.a, link.b), key=lambda node: (-depth[node], node))
        is_down = head in self.routers[tail].down
        apart = f"{link.a} to {link.b}: {link.delay}\\n{link.b} to {link.a}: {link.back}"
        words = (str(link.delay) if link.is_even else apart) + " down" * is_down
        label, level = f'label=" {words} ", ', ""
        if depth[tail] == depth[head]:
            # It moves neither end, and its label is placed afterwards, since dot fails on such labels otherwise.
            label, level = f'xlabel="{words}", ', ", constraint=false"
        line = 'style=dashed, color="#c1121f", fontcolor="#c1121f"' if is_down else "style=solid"
        arrows = {(tail, head): "dir=forward, ", (head, tail): "dir=back, "}
        for look in [arrows[hop] + look for hop, look in self.looks(link, (tail, head), uses)] or [line]:
            yield f"{tail} -> {head} [{label}{look}{level}]"
            label = ""


class Lane:
    """Outcomes that share a lane, which are one but for the rarest ones, with their look and their names."""

    def __init__(self, name: str, look: dict[str, str], outcomes: Sequence[Outcome]):
        self.name, self.look, self.outcomes = name, look, outcomes
        self.count = sum(outcome.runs for outcome in outcomes)
        alone = f"outcome {name}" if outcomes[0].number else name
        self.words = f"{len(outcomes):,} other outcomes" if len(outcomes) > 1 else alone


def lanes_of(ranked: Sequence[Outcome]) -> list[Lane]:
    """A lane for each outcome, in the colours of paths for those at rest, and one for the rarest together."""
    alone = ranked if len(ranked) <= MOST_LANES else ranked[: MOST_LANES - 1]
    lanes, places = [], map(place_of, itertools.count())
    for outcome in alone:
        look = {"class_": "period" if outcome.word == "oscillates" else "hollow"}
        if outcome.ribs is not None:
            look = {"class_": "bar", "fill": next(places).fill}
        lanes.append(Lane(outcome.name, look, [outcome]))
    if rest := ranked[len(alone) :]:
        lanes.append(Lane(f"{len(rest):,} others", {"class_": "bar", "fill": OTHERS}, rest))
    return lanes


class OutcomePicture:
    """The outcomes as bars, with their intervals, and below them the times of rest as a histogram."""

    def __init__(self, outcomes: Outcomes):
        self.outcomes = outcomes
        self.lanes = lanes_of(outcomes.ranked())
        self.left = 48 + 7.5 * max([LEAST_LETTERS, *(len(lane.name) for lane in self.lanes)])
        self.right = self.left + WIDTH
        greatest = max((interval(lane.count, outcomes.total)[1] for lane in self.lanes), default=1.0)
        self.step = nice_step(100 * greatest / 8)
        self.most = min(100, self.step * -(-int(100 * greatest + 1) // self.step))
        self.bottom = TOP + LANE * len(self.lanes)

    def draw(self, title: str, subtitle: str) -> str:
        total, count = self.outcomes.total, len(self.outcomes.by_end)
        ways = f"{count:,} outcome{'' if count == 1 else 's'}"
        picture = Picture(f"{title}: {total:,} run{'' if total == 1 else 's'}, {ways}", f"drawn: {subtitle}")
        self.draw_shares(picture.root)
        for place, lane in enumerate(self.lanes):
            self.draw_lane(picture.root, lane, TOP + LANE * (place + 0.5))
        entries: list[tuple[str, Sample]] = [(lane.words, sample_box(**lane.look)) for lane in self.lanes]
        entries.append(("95 % interval", sample_path(12, 4, "v8m0 -4h24m0 -4v8", **WHISKER)))
        times = [sum((one.times for one in lane.outcomes if one.ribs is not None), Counter()) for lane in self.lanes]
        messages = [sum((one.messages for one in lane.outcomes), Counter()) for lane in self.lanes]
        base = self.draw_histogram(picture.root, self.bottom + GAP, "rest at", times, "no run came to rest")
        base = self.draw_histogram(picture.root, base + GAP, "messages", messages, "")
        right = self.right + BESIDE
        return picture.text(right + 16, draw_legend(picture.root, right, base + 56, entries))

    def x(self, share: float) -> float:
        return self.left + WIDTH * 100 * share / self.most

    def draw_shares(self, parent: Element) -> None:
        add(parent, "text", "share", class_="quiet name", x=self.left - 18, y=TOP - 14)
        for share in range(0, self.most + 1, self.step):
            x = self.x(share / 100)
            add(parent, "line", class_="grid", x1=x, y1=TOP - 8, x2=x, y2=self.bottom)
            add(parent, "text", f"{share} %", class_="quiet middle", x=x, y=TOP - 14)

    def draw_lane(self, parent: Element, lane: Lane, y: float) -> None:
        _, share, reach = share_words(lane.count, self.outcomes.total)
        words, width = f"{share} ({reach})", self.x(lane.count / self.outcomes.total) - self.left
        add(parent, "line", class_="lane", x1=self.left + width, y1=y - 6, x2=self.right, y2=y - 6)
        add(parent, "text", lane.name, class_="name", x=self.left - 18, y=y - 2)
        group = add(parent, "g", "", f"{lane.words}: {lane.count:,} of {self.outcomes.total:,} runs, {words}")
        add(group, "rect", x=self.left, y=y - 6 - BAR / 2, width=width, height=BAR, rx=3, **lane.look)
        start, end = map(self.x, interval(lane.count, self.outcomes.total))
        add(group, "path", d=f"M{start:.1f} {y - 10:.1f}v8m0 -4H{end:.1f}m0 -4v8", **WHISKER)
        add(group, "text", words, class_="note", x=end + 10, y=y - 2)
        if len(lane.outcomes) == 1:
            paths = self.outcomes.path_words(lane.outcomes[0]) or lane.outcomes[0].time_words()
            paths = paths if len(paths) <= MOST_LETTERS else f"{paths[:MOST_LETTERS]} .."
            add(group, "text", paths, class_="path note", x=self.left + 4, y=y + 16)

    def draw_histogram(self, parent: Element, top: float, word: str, rows: list[Counter[int]], nothing: str) -> float:
        """How many runs of each lane have which number, in the lane's own colour; gives the height of its base."""
        if not (whole := sum(rows, Counter[int]())):
            add(parent, "text", nothing, class_="quiet", x=self.left, y=top)
            return top
        base, columns = top + HEIGHT, columns_of(whole, width := width_of(whole))
        first, last, tallest = min(columns), max(columns), max(columns.values())
        pixels = min(WIDEST_COLUMN, (WIDTH + BESIDE) / (last + 1 - first))
        self.draw_counts(parent, tallest, self.left + pixels * (last + 1 - first), base)
        heights: Counter[int] = Counter()
        for lane, counts in zip(self.lanes, rows):
            for number, runs in sorted(columns_of(counts, width).items()):
                heights[number] += runs
                where = f"{word} {number * width:,}" + (f" to {(number + 1) * width - 1:,}" if width > 1 else "")
                group = add(parent, "g", "", f"{where}: {runs:,} runs, {lane.words}")
                x, y = self.left + pixels * (number - first), base - HEIGHT * heights[number] / tallest
                add(group, "rect", x=x, y=y, width=pixels, height=HEIGHT * runs / tallest, **lane.look)
        # The columns whose times are written, so far apart that they don't touch.
        step = nice_step(DIGIT_WIDTH * (len(f"{last * width:,}") + 2) / pixels)
        for number in range(-(-first // step) * step, last + 1, step):
            x = self.left + pixels * (number - first) + (pixels / 2 if width == 1 else 0)
            add(parent, "text", f"{number * width:,}", class_="quiet middle", x=x, y=base + 20)
        add(parent, "text", word, class_="quiet name", x=self.left - 18, y=base + 20)
        return base

    def draw_counts(self, parent: Element, tallest: int, right: float, base: float) -> None:
        """The heights that numbers of runs have."""
        step = nice_step(tallest / 5)
        add(parent, "text", "runs", class_="quiet name", x=self.left - 18, y=base - HEIGHT - 22)
        for count in range(0, tallest + 1, step):
            y = base - HEIGHT * count / tallest
            add(parent, "line", class_="grid", x1=self.left, y1=y, x2=right, y2=y)
            add(parent, "text", f"{count:,}", class_="quiet", text_anchor="end", x=self.left - 18, y=y + 4)


def network_text(
    case: Case, report: Report | None = None, *, title: str = "case", names: Mapping[int, str] = NO_NAMES,
    most: int = 8, paths_of: int | None = None, safety: Safety | None = None,
) -> str:
    """A network as Graphviz text: each router with at most so many of its paths, and, with a report, those in use.

    With `paths_of` the permitted paths of this router alone are shown; with `safety` what holds for all timings: the paths
    that each router may still use, and a dispute wheel, or the paths with which every run comes to rest.
    """
    if safety:
        drawing = Drawing(case, standing(case, safety), True, names, most, safety=safety)
        return drawing.text(f"{title}: verdict {safety}")
    routers = reached(case, report) if report else opening_routers(case)
    if paths_of is not None and paths_of not in range(case.nodes):
        raise Refused(f"refused option --paths-of: the case has no router {paths_of}")
    title += f": verdict {report.verdict}" if report else ""
    title += "" if paths_of is None else f": paths of {paths_of}"
    return Drawing(case, routers, report is not None, names, most, paths_of).text(title)


def network(case: Case, report: Report | None = None, **how: Any) -> str:
    """What `network_text` gives of the same, drawn by Graphviz (Debian: graphviz); Stopped where that is missing."""
    if (dot := shutil.which("dot")) is None:
        raise Stopped("packages: Graphviz is missing (Debian: graphviz)")
    text = network_text(case, report, **how)
    return subprocess.run([dot, "-Tsvg"], input=text, stdout=subprocess.PIPE, text=True, check=True).stdout


def view_of(
    nodes: int, whole: range, end: int, first: int | None = None, last: int | None = None,
    routers: Sequence[int] | None = None, names: Mapping[int, str] = NO_NAMES,
) -> View:
    """A part of a run of so many routers, from the beginning of `whole` to `end`; nothing beyond `whole` is known."""
    routers = routers or range(nodes)
    for router in routers:
        if router not in range(nodes):
            raise Refused(f"refused option --routers: the case has no router {router}")
    first = max(whole.start, first or 0)
    last = end if last is None else min(last, whole.stop - 1)
    if first > last:
        raise Refused(f"refused options --from and --to: nothing is from {first:,} to {last:,}")
    return View(first, last, routers, names)


def view_of_run(case: Case, report: Report, **part: Any) -> View:
    """A part of the run that was reported, as `view_of` takes it."""
    whole = range((GREATEST_TIME if isinstance(report.verdict, Quiet) else report.bound) + 1)
    return view_of(case.nodes, whole, last_time(report), **part)


def subtitle_of(report: Report) -> str:
    return f"{len(report.events):,} event{'' if len(report.events) == 1 else 's'} below {report.stop:,}"


def timeline(
    case: Case, report: Report, *, title: str = "run", first: int | None = None, last: int | None = None,
    routers: Sequence[int] | None = None, names: Mapping[int, str] = NO_NAMES,
) -> str:
    """The picture of a run: a lane for each router, or for those named, from one time to another.

    Refused where the report is not that of the run of the case with its events, at the first line that differs.
    """
    view = view_of_run(case, report, first=first, last=last, routers=routers, names=names)
    picture = RunPicture(case, report, follow(case, report), view)
    return picture.draw(f"{title}: verdict {report.verdict}", subtitle_of(report))


def replayed(case: Case, steps: Sequence[Step], replay: Replay, *, title: str = "run", **part: Any) -> str:
    """The picture of a replay: steps to the right, and which of them were undone; a part is named as for `timeline`."""
    machine, end = follow_replay(case, list(steps), replay), max(1, len(steps))
    view = view_of(case.nodes, range(1, end + 1), end, **part)
    undone = [f"step {one.done_at} by step {one.undone_at}" for one in machine.handlings if one.undone_at]
    told = undone[:MOST_TOLD] + [".."] * (len(undone) > MOST_TOLD)
    subtitle = f"bound {replay.bound:,}; undone: {', '.join(told) or 'none'}"
    title = f"{title}: replay of {len(steps):,} steps, {len(undone):,} undone"
    return ReplayPicture(list(steps), replay, machine, view).draw(title, subtitle)


def outcomes(runs: Outcomes | Iterable[Trial], *, title: str = "case", drawn: str = "") -> str:
    """The picture of a sweep: the outcomes' shares, and how times of rest and messages are spread."""
    return OutcomePicture(runs if isinstance(runs, Outcomes) else Outcomes(runs)).draw(title, drawn)

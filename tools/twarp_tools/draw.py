"""Draws a case as Graphviz text on standard output; dot -Tsvg makes the picture. Each router is a box with its permitted
paths, the best at the top. With a report the path that a router uses is coloured by its place, and so is the arrow to
the router that it goes to next. With what twarp-policy safe wrote the paths are shown that are left for all timings, and
a dispute wheel.

examples:
  tools/draw cases/disagree.spp | dot -Tsvg > disagree.svg
  ./twarp seq --stop 20 < cases/disagree.spp | tools/draw cases/disagree.spp - | dot -Tsvg > disagree.svg
  tools/draw --paths-of 3 cases/bad-gadget.spp | dot -Tsvg > paths.svg
  ./twarp-policy safe < cases/disagree.spp | tools/draw --policy - cases/disagree.spp | dot -Tsvg > wheel.svg
"""
import argparse
import re
from functools import partial
from typing import Any

from twarp import calls, pictures
from twarp.case import GREATEST_TIME, MOST_PATHS, MOST_ROUTERS, Case, lines_of, read_case
from twarp.program import Refused
from twarp.report import REPLAY_HEADER, Report, read_case_and_steps, read_replay, read_report
from twarp_tools.command import MOST_OF_REPORT, Input, Parser, number_between, title_of, tool, write_output

# What the help of timeline says.
TIMELINE = """\
Draws the run of a case as an SVG picture on standard output: a lane for each router, bars for the paths that it uses,
arrows for messages. The report has to be one with --log. Of a replay it draws the steps and which of them were undone;
the first file is then the text that was replayed.

example:
  ./twarp seq --stop 20 --log < cases/disagree.spp | tools/timeline cases/disagree.spp > disagree.svg"""

NAME_LINE = re.compile(r"(0|[1-9][0-9]{0,3}) (\S.*)\n?")
NAMES = "--names", "FILE", "names of routers: lines of a number and a name, as relationships --map writes"


def names_of(file: str | None) -> dict[int, str]:
    """The names by router in the file of the option, where one is given. An AS number becomes `AS` and the number."""

    def read(text: bytes) -> dict[int, str]:
        names: dict[int, str] = {}
        for number, line in enumerate(lines_of(text), 1):
            if not (found := NAME_LINE.fullmatch(line)):
                raise Refused.at_line(number, "a router's number, a space and its name are wanted")
            router, name = int(found[1]), found[2]
            if router in names:
                raise Refused.at_line(number, f"router {router} has a name already")
            names[router] = f"AS{name}" if name.isdigit() else name
        return names

    return Input(file).read(read) if file else {}


def read_routers(words: str) -> list[int]:
    """The routers of a list as 0,2,5-9, in the order given."""
    routers: dict[int, None] = {}
    number = number_between(0, MOST_ROUTERS - 1)
    for word in words.split(","):
        first, dash, last = word.partition("-")
        row = range(number(first), number(last if dash else first) + 1)
        if not row:
            raise ValueError(f"{word!r} goes downwards")
        routers |= dict.fromkeys(row)
    return list(routers)


def parser_of(told: str | None, case: str = "the case", unit: str = "") -> Parser:
    """Of a case, its report and a part of it, with names; `unit` says what else than times is counted."""
    parser = Parser(told)
    parser.add_argument("case", metavar="CASE", help=f"{case}; - is standard input")
    parser.add_argument("report", metavar="REPORT", nargs="?", default="-", help="the report; else standard input")
    time = number_between(0, GREATEST_TIME)
    parser.option("--from", "TIME", f"leave out what is earlier{unit}", time, dest="first")
    parser.option("--to", "TIME", f"leave out what is later{unit}", time, dest="last")
    parser.option("--routers", "LIST", "draw these routers' lanes alone, as in 0,2,5-9", read_routers)
    parser.option("--title", "TITLE", "what the title begins with (default: the case's name)")
    parser.option(*NAMES)
    return parser


def read_run(case_text: Input, report_text: Input) -> tuple[Case, Report]:
    case = case_text.read(read_case)
    return case, report_text.read(lambda text: read_report(text, case.nodes))


def part_of(line: argparse.Namespace) -> dict[str, Any]:
    """What the line asks to see, as the functions of twarp.pictures take it."""
    return {"first": line.first, "last": line.last, "routers": line.routers, "names": names_of(line.names)}


def add_policy(parser: Parser, shown: str) -> None:
    """Adds the options that say where what twarp-policy says comes from; `shown` says what is made of it."""
    parser.option("--policy", "FILE", f"what `twarp-policy safe` wrote of the case: show {shown}; - is standard input")
    asked = "show the same, as twarp-policy tells ($TWARP_POLICY, or beside twarp)"
    parser.add_argument("--ask-policy", action="store_true", help=asked)


def safety_of(line: argparse.Namespace, case: Case) -> calls.Safety | None:
    """What holds of the case for all timings, where the line asks; refused where that is told of another case."""

    def read(text: bytes) -> calls.Safety:
        safety = calls.read_safety(text, case.nodes)
        calls.standing(case, safety)
        return safety

    if line.ask_policy:
        return calls.safe(case)
    return Input(line.policy).read(read) if line.policy else None


@tool
def main() -> None:
    parser = Parser(__doc__)
    parser.add_argument("case", metavar="CASE", nargs="?", default="-", help="the case; else standard input")
    parser.add_argument("report", metavar="REPORT", nargs="?", help="the report of a run of it; - is standard input")
    router, count = number_between(0, MOST_ROUTERS - 1), number_between(0, MOST_PATHS)
    parser.option("--paths-of", "ROUTER", "show one router's permitted paths, each in the colour of its place", router)
    parser.option("--list", "N", "list at most N paths at a router and the one in use", count, 8, dest="most")
    parser.option("--title", "TITLE", "what stands above the picture (default: the case's name)")
    add_policy(parser, "the wheel, and which paths each router may still use whatever the delays")
    parser.option(*NAMES)
    line = parser.parse_pair()
    if (line.policy or line.ask_policy) and (line.report or line.paths_of is not None):
        parser.error("--policy and --ask-policy go with neither a REPORT nor --paths-of")
    case = Input(line.case).read(read_case)
    title, names = title_of(line.title, line.case), names_of(line.names)
    draw = partial(pictures.network_text, case, title=title, names=names, most=line.most, paths_of=line.paths_of)
    if line.report:
        write_output(Input(line.report, MOST_OF_REPORT).read(lambda text: draw(read_report(text, case.nodes))))
    else:
        write_output(draw(safety=safety_of(line, case)))


@tool
def timeline() -> None:
    line = parser_of(TIMELINE, "the case, or what was replayed", " (of a replay: steps)").parse_pair()
    case_text, report_text = Input(line.case), Input(line.report, MOST_OF_REPORT)
    how = part_of(line)
    how["title"] = title_of(line.title, line.case, "run")
    if report_text.text.startswith(REPLAY_HEADER.encode()):
        case, steps = case_text.read(read_case_and_steps)
        replay = report_text.read(lambda text: read_replay(text, case.nodes, len(steps)))
        write_output(report_text.read(lambda _: pictures.replayed(case, steps, replay, **how)))
    else:
        case, report = read_run(case_text, report_text)
        write_output(report_text.read(lambda _: pictures.timeline(case, report, **how)))

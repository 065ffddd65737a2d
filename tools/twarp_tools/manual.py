"""Writes the man page twarp(1), man, or completions for a shell on standard output, made of what twarp --help and the
--help of each command say; or twarp(5), formats, made of docs/FORMATS.md. Where --program names twarp-policy or
twarp-phold the page is twarp-policy(1) or twarp-phold(1), and the completions are its own.

examples:
  tools/manual man > twarp.1 && man -l twarp.1
  tools/manual --program crates/twarp_policy/out/twarp_policy man > twarp-policy.1
"""

import re
import subprocess
from collections.abc import Iterable, Iterator
from itertools import groupby
from pathlib import Path
from string import Template

from twarp.program import Refused
from twarp_tools.build import ROOT
from twarp_tools.command import Parser, tool, write_output
from twarp_tools.tutorial import PROGRAM_OPTION

FORMATS = ROOT / "docs/FORMATS.md"
SHELLS = Path(__file__).resolve().parent / "shells"

A_FLAG = re.compile(r"\s{2,6}(?:(-\w), )?(--[\w-]+)(?: <(\w+)>)?(?:\s{2,}(\S.*))?")
AN_ENTRY = re.compile(r"  (\S+)\s+(\S.*)")
# A section begins with a line at the margin that ends with a colon.
A_SECTION = re.compile(r"^(\w[\w ]*):$", re.M)

AN_ITEM = re.compile(r"(?:([0-9]+)\.|[-*]) (.*)")
A_RULE = re.compile(r"[-|: ]+")
A_CELL = re.compile(r"(?<!\\)\|")
# What the lines of a document belong to, the first that matches.
KINDS = {
    "blank": re.compile(r"\s*$"),
    "table": re.compile(r"\|"),
    "heading": re.compile(r"#+ "),
    "list": AN_ITEM,
    "code": re.compile("    "),
    "text": re.compile(""),
}


class Flag:
    """An option with its names, its value's name where it has one, and what is said of it, in full and short."""

    def __init__(self, found: re.Match[str], rest: list[str]):
        self.short, self.long, self.value, first = found.groups()
        self.lines = [first, *rest] if first else rest
        self.names: list[str] = [name for name in (self.short, self.long) if name]
        self.summary = " ".join("\n".join(self.lines).partition("\n\n")[0].split())


class Help:
    """The help of the program, or of one of its commands."""

    def __init__(self, text: str):
        about, found, rest = text.partition("\nUsage: ")
        if not found:
            raise Refused("refused: the help has no line of usage")
        usage, *parts = A_SECTION.split(rest)
        sections = {name: body.splitlines() for name, body in zip(parts[::2], parts[1::2])}
        # What is indented stands as it is, as code does in Markdown.
        self.about = [re.sub("^  ", "    ", line) for line in about.strip("\n").splitlines()]
        self.usage = usage.partition("\n")[0]
        self.commands = entries_of(sections.get("Commands", []))
        self.flags = [Flag(*item) for item in items_of(sections.get("Options", []), A_FLAG)]
        self.names = [name for flag in self.flags for name in flag.names]
        self.statuses = entries_of(sections.get("Exit status", []))


def items_of(lines: Iterable[str], first: re.Pattern[str]) -> list[tuple[re.Match[str], list[str]]]:
    """The items of a section, each with how its first line matches, and its other lines."""
    items: list[tuple[re.Match[str], list[str]]] = []
    for line in lines:
        if found := first.fullmatch(line):
            items.append((found, []))
        elif items:
            items[-1][1].append(line.strip())
    return items


def entries_of(lines: Iterable[str]) -> dict[str, str]:
    """Words with what is said of them, which may go on over several lines."""
    return {found[1]: " ".join(filter(None, [found[2], *rest])) for found, rest in items_of(lines, AN_ENTRY)}


class Manual:
    """The help of a program and of each of its commands that has one."""

    def __init__(self, program: Path):
        self.top = Help(ask(program, "--help"))
        # clap's own command `help` has no help of its own.
        self.commands = {name: Help(ask(program, name, "--help")) for name in self.top.commands if name != "help"}
        self.version = ask(program, "--version").strip()
        self.name = self.version.split()[0]


def ask(program: Path, *words: str) -> str:
    """What the program writes on standard output."""
    done = subprocess.run([program, *words], stdin=subprocess.DEVNULL, capture_output=True, check=False)
    if done.returncode:
        raise Refused(f"refused: {program} {' '.join(words)} ends with status {done.returncode}")
    return done.stdout.decode()


def escaped(text: str) -> str:
    """Text in which nothing is taken for a request of roff; words in backticks are bold."""
    text = text.replace("\\", "\\e").replace("-", "\\-")
    text = re.sub("`([^`]+)`", r"\\fB\1\\fR", text)
    text = re.sub("[^\x00-\x7f]", lambda found: f"\\[u{ord(found[0]):04X}]", text)
    return f"\\&{text}" if text.startswith((".", "'")) else text


def inline(text: str) -> str:
    """A line in which code and what is strong is bold, and a link is its words."""
    text = re.sub(r"\[([^\]]*)\]\([^)]*\)", r"\1", text)
    return escaped(re.sub(r"\*\*([^*]+)\*\*", r"`\1`", text.replace("\\|", "|")))


def table_lines(rows: list[str]) -> Iterator[str]:
    """A row is its first cell with what the others say; of several, each under its column's name."""
    heads, *cells = ([cell.strip() for cell in A_CELL.split(row)[1:-1]] for row in rows if not A_RULE.fullmatch(row))
    for first, *others in cells:
        yield from (".TP", inline(first) or "\\&")
        named = [f"{inline(head)}: {inline(cell)}" for head, cell in zip(heads[1:], others)]
        yield inline(others[0]) if len(others) == 1 else "\n.br\n".join(named)


def roff_lines(document: Iterable[str]) -> Iterator[str]:
    """The lines of a Markdown document below its title."""
    for kind, lines in groupby(document, lambda line: next(kind for kind in KINDS if KINDS[kind].match(line))):
        match kind:
            case "blank":
                yield ".PP"
            case "heading":
                for line in lines:
                    marks, _, words = line.partition(" ")
                    yield f".SH {inline(words).upper()}" if len(marks) == 2 else f".SS {inline(words)}"
            case "table":
                yield from table_lines([*lines])
            case "list":
                for found in filter(None, map(AN_ITEM.match, lines)):
                    mark = f"{found[1]}." if found[1] else "\\(bu"
                    yield from (f".IP {mark} 4", inline(found[2]))
            case "code":
                yield from (".RS 4", ".EX", *(escaped(line[4:]) for line in lines), ".EE", ".RE")
            case _:
                yield from map(inline, lines)


def flag_lines(flags: list[Flag]) -> Iterator[str]:
    for flag in flags:
        value = f" \\fI{flag.value}\\fR" if flag.value else ""
        yield from (".TP", ", ".join(f"\\fB{escaped(name)}\\fR" for name in flag.names) + value)
        yield from (escaped(line) or ".IP" for line in "\n".join(flag.lines).strip().splitlines())


def page_lines(manual: Manual) -> Iterator[str]:
    top = manual.top
    yield f'.TH {manual.name.upper()} 1 "" "{manual.version}" "User Commands"'
    summary = top.about[0].rstrip(".")
    yield from (".SH NAME", f"{escaped(manual.name)} \\- {escaped(summary[0].lower() + summary[1:])}", ".SH SYNOPSIS")
    for command in manual.commands.values():
        yield from (f"\\fB{escaped(command.usage)}\\fR", ".br")
    # The first line stands under NAME.
    if text := top.about[2:]:
        yield from (".SH DESCRIPTION", *roff_lines(text))
    yield from (".SH OPTIONS", *flag_lines(top.flags), ".SH COMMANDS")
    for name, summary in top.commands.items():
        if page := manual.commands.get(name):
            yield from (f".SS {escaped(page.usage)}", *roff_lines(page.about), *flag_lines(page.flags))
        else:
            yield from (f".SS {escaped(manual.name)} {name}", escaped(summary))
    yield ".SH EXIT STATUS"
    for status, meaning in top.statuses.items():
        yield from (".TP", f"\\fB{status}\\fR", escaped(meaning))


def man_page(manual: Manual) -> str:
    # What the other programs do.
    programs = {
        "twarp": "\\fBtwarp\\fR(1) runs a case.",
        "twarp-policy": "\\fBtwarp\\-policy\\fR(1) judges a case for all timings.",
        "twarp-phold": "\\fBtwarp\\-phold\\fR(1) runs PHOLD, the usual workload of parallel simulators.",
    }
    others = [line for name, said in programs.items() if name != manual.name for line in (said, ".PP")]
    see = "\\fBtwarp\\fR(5) has the texts, the codes of what is refused, and the exit statuses."
    return "\n".join([*page_lines(manual), ".SH SEE ALSO", *others, see, ""])


def formats_page(manual: Manual) -> str:
    summary = "twarp \\- the texts that twarp reads and writes, their codes, and exit statuses"
    head = [f'.TH TWARP 5 "" "{manual.version}" "File Formats"', ".SH NAME", summary, ".SH DESCRIPTION"]
    # The document's first line is its title.
    _, *document = FORMATS.read_text(encoding="utf-8").splitlines()
    return "\n".join([*head, *roff_lines(document), ".SH SEE ALSO", "\\fBtwarp\\fR(1)", ""])


class Shell(Template):
    """The text of a completion, in the folder `shells`, whose shell has a meaning for $."""

    delimiter = "@"

    @classmethod
    def write(cls, shell: str, manual: Manual, **parts: str) -> str:
        function = f"_{manual.name.replace('-', '_')}"
        return cls((SHELLS / f"{shell}.sh").read_text()).substitute(parts, name=manual.name, function=function)


def bash(manual: Manual) -> str:
    commands, top = manual.commands, manual.top
    valued = {name for page in commands.values() for flag in page.flags if flag.value for name in flag.names}
    rows = {name: page.names for name, page in commands.items()}
    rows |= {"help": [*commands]} if "help" in top.commands else {}
    # What follows one of these is a number.
    shown = "compopt +o default 2>/dev/null\n        return ;;"
    numbers = f"    {'|'.join(sorted(valued))})\n        {shown}\n" if valued else ""
    cases = "".join(f"    {name}) words='{' '.join(row)}' ;;\n" for name, row in rows.items())
    words, names = " ".join([*top.commands, *top.names]), "|".join(top.commands)
    return Shell.write("bash", manual, commands=names, numbers=numbers, words=words, cases=cases)


def quoted_for_zsh(text: str) -> str:
    return "'" + text.replace("'", "'\\''") + "'"


def zsh_flag(flag: Flag) -> str:
    """An argument of _arguments, in whose words brackets and colons have a meaning."""
    words = re.sub(r"([][:])", r"\\\1", flag.summary)
    said = quoted_for_zsh(f"[{words}]" + (f":{flag.value}: " if flag.value else ""))
    if flag.short:
        return f"'({flag.short} {flag.long})'{{{flag.short},{flag.long}}}{said}"
    return f"{flag.long}{'=' if flag.value else ''}{said}"


def zsh(manual: Manual) -> str:
    commands = (f"        {quoted_for_zsh(f'{name}:{summary}')}\n" for name, summary in manual.top.commands.items())
    options = (f"        {zsh_flag(flag)} \\\n" for flag in manual.top.flags)
    rows = {name: ["_arguments", *map(zsh_flag, page.flags)] for name, page in manual.commands.items()}
    rows |= {"help": [f"_values command {' '.join(manual.commands)}"]} if "help" in manual.top.commands else {}
    words = {name: " \\\n            ".join(row) if row != ["_arguments"] else ":" for name, row in rows.items()}
    cases = "".join(f"        {name}) {said} ;;\n" for name, said in words.items())
    return Shell.write("zsh", manual, commands="".join(commands), options="".join(options), cases=cases)


def quoted_for_fish(text: str) -> str:
    return "'" + re.sub(r"([\\'])", r"\\\1", text) + "'"


def fish(manual: Manual) -> str:
    complete, first, after = f"complete -c {manual.name}", "__fish_use_subcommand", "__fish_seen_subcommand_from"
    lines = [f"# fish completion for {manual.name}", f"{complete} -f"]
    for name, summary in manual.top.commands.items():
        lines.append(f"{complete} -n {first} -a {name} -d {quoted_for_fish(summary)}")
    pages = {f"{after} {name}; and not {after} help": page for name, page in manual.commands.items()}
    for condition, page in [(first, manual.top), *pages.items()]:
        for flag in page.flags:
            words = f"{f' -s {flag.short[1:]}' if flag.short else ''} -l {flag.long[2:]}{' -x' if flag.value else ''}"
            lines.append(f"{complete} -n {quoted_for_fish(condition)}{words} -d {quoted_for_fish(flag.summary)}")
    if "help" in manual.top.commands:
        lines.append(f"{complete} -n '{after} help' -a {quoted_for_fish(' '.join(manual.commands))}")
    return "\n".join([*lines, ""])


WRITERS = {"man": man_page, "formats": formats_page, "bash": bash, "zsh": zsh, "fish": fish}


@tool
def main() -> None:
    parser = Parser(__doc__)
    parser.add_argument("kind", choices=WRITERS, help="what is to be written")
    parser.option(*PROGRAM_OPTION)
    line = parser.parse_args()
    write_output(WRITERS[line.kind](Manual(line.program.absolute())))

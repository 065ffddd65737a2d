"""Networks in GraphML and GML, read by networkx and defusedxml; what both would let pass, or lose, is refused here."""

import codecs
import re
import sys
import warnings
from collections.abc import Mapping
from fractions import Fraction
from itertools import chain, repeat
from typing import Any
from xml.etree.ElementTree import Element

from twarp.program import MOST_QUOTED, Refused, Stopped, quote

MISSING = f"""\
packages: networkx and defusedxml are needed, and not there for {sys.executable}
Debian has them as python3-networkx and python3-defusedxml, for its own /usr/bin/python3:
    apt-get install python3-networkx python3-defusedxml
    /usr/bin/python3 {sys.argv[0]} ..
any other Python gets them by
    {sys.executable} -m pip install networkx defusedxml"""

# How texts of two bytes a letter begin.
WIDE = (codecs.BOM_UTF16_LE, codecs.BOM_UTF16_BE)

# Names in the namespace of GraphML.
GRAPHML = "{{http://graphml.graphdrawing.org/xmlns}}{}".format
KEY, GRAPH, NODE, EDGE = map(GRAPHML, ("key", "graph", "node", "edge"))
# What the reader of networkx says of a word that it does not know, with the rest of the line.
AT_A_LINE = re.compile(r"(?:cannot tokenize (.*)|(.*)) at \(([0-9]+), [0-9]+\)", re.DOTALL)

# Parts of a GML text that may hide others, and where its graph begins.
A_PART = re.compile(r'#[^\n]*|"[^"]*"|"|\bgraph\s*\[')
# What the reader of networkx may end with on a text that it does not understand.
FAULTS = (ValueError, TypeError, KeyError, IndexError, AttributeError, OverflowError)
# A decimal number, also one with an exponent, of a size that stays quick to count with.
A_DECIMAL = re.compile(r"[+-]?([0-9]{1,20}(\.[0-9]{0,20})?|\.[0-9]{1,20})([eE][+-]?[0-9]{1,3})?")


class Item:
    """A node or a link: its place in messages, and its attributes, whose names may have letters of any case."""

    def __init__(self, place: str, defaults: Mapping[str, str], values: Mapping[str, Any]):
        self.place = place
        # Values as they are written: of several the first, and none that is empty or has parts.
        firsts = {name: value[0] if isinstance(value, list) and value else value for name, value in values.items()}
        own = {name: str(one) for name, one in firsts.items() if one != "" and isinstance(one, (str, int, float))}
        # One without a value counts as not given, and of two names that are alike the first counts.
        self.attributes = {name.lower(): (name, text) for name, text in reversed((defaults | own).items()) if text}

    def has(self, *names: str) -> bool:
        return all(name.lower() in self.attributes for name in names)

    def number(self, name: str, least: int, most: int) -> Fraction | None:
        """The number of an attribute, where it is given; refused where it is no number or not between these."""
        if not self.has(name):
            return None
        name, text = self.attributes[name.lower()]
        is_number = A_DECIMAL.fullmatch(text.strip())
        if is_number and least <= (number := Fraction(text.strip())) <= most:
            return number
        why = f"this is not between {least} and {most:,}" if is_number else "this is no number"
        raise Refused(f"refused {self.place}: {name} {quote(text)}: {why}")


class Network:
    """The nodes of a graph of networkx by their ids, in the file's order, and its links, which may lead one way."""

    def __init__(self, graph: Any):
        self.is_directed: bool = graph.is_directed()
        self.nodes: dict[str, Item] = {}
        # What the graph has for all of them.
        of_nodes, of_links = (graph.graph.get(kind) or {} for kind in ("node_default", "edge_default"))
        for node, values in graph.nodes(data=True):
            item = Item(f"node {quote(str(node))}", of_nodes, values)
            if self.nodes.setdefault(str(node), item) is not item:
                raise Refused(f"refused {item.place}: there is a node of this id already")
        self.links: list[tuple[str, str, Item]] = []
        for source, target, values in graph.edges(data=True):
            item = Item(f"link from {quote(str(source))} to {quote(str(target))}", of_links, values)
            self.links.append((str(source), str(target), item))

    def name(self, node: str) -> str:
        """What a node is called: its label, and its id where it has none."""
        _, label = self.nodes[node].attributes.get("label", ("", ""))
        return " ".join(label.split()) or node


def read_network(text: bytes) -> Network:
    """A network in XML, which begins with `<`, or in GML."""
    try:
        import defusedxml  # noqa: F401: it is seen here that both are there
        import networkx
    except ImportError:
        raise Stopped(MISSING) from None
    is_xml = text.removeprefix(codecs.BOM_UTF8).lstrip().startswith(b"<")
    is_xml |= text.startswith(WIDE) and b"<" in text[:4]
    try:
        with warnings.catch_warnings():
            # What is not known to networkx is nothing that a case has.
            warnings.simplefilter("ignore")
            graph = read_graphml(text) if is_xml else read_gml(text)
    except RecursionError:
        raise Refused("refused: too much stands within one another") from None
    except (networkx.NetworkXError, *FAULTS) as fault:
        words = str(fault) if isinstance(fault, networkx.NetworkXError) else f"{type(fault).__name__}: {fault}"
        if not (found := AT_A_LINE.fullmatch(words)):
            raise Refused(f"refused: {shortened(words)}") from None
        why = shortened(found[2]) if found[1] is None else f"this is no GML: {quote(found[1])}"
        raise Refused.at_line(int(found[3]), why) from None
    return Network(graph)


def shortened(words: str) -> str:
    """What another program says, in one line that is not too long."""
    line = " ".join(words.split())
    return line if len(line) <= 2 * MOST_QUOTED else f"{line[: 2 * MOST_QUOTED]}.."


def read_graphml(text: bytes) -> Any:
    from networkx.readwrite.graphml import GraphMLReader

    root = read_xml(text)
    prepare(root)
    if len(graphs := root.findall(GRAPH)) != 1:
        raise Refused(f"refused: {'a second graph stands beside the first' if graphs else 'there is no graph'}")
    refuse_faults(root)
    reader = GraphMLReader(force_multigraph=True)
    keys, defaults = reader.find_graphml_keys(root)
    graph = reader.make_graph(graphs[0], keys, defaults)
    for id_, default in defaults.items():
        # Those of nodes and of links alone are there already.
        if keys[id_]["for"] in (None, "all"):
            for kind in "node_default", "edge_default":
                graph.graph[kind][keys[id_]["name"]] = default
    return graph


def read_xml(text: bytes) -> Element:
    from defusedxml import DefusedXmlException
    from defusedxml.ElementTree import ParseError, fromstring

    try:
        return fromstring(text)
    except ParseError as fault:
        line, _ = fault.position
        raise Refused.at_line(line, f"this is no XML: {str(fault).partition(':')[0]}") from None
    except DefusedXmlException:
        raise Refused("refused: entities of one's own are not taken") from None
    except (LookupError, ValueError) as fault:
        raise Refused.at_line(1, f"its encoding is not known: {shortened(str(fault))}") from None


def prepare(root: Element) -> None:
    """Prepares GraphML for networkx: names in the one namespace, and values as they are written."""
    for element in root.iter():
        if not element.tag.startswith("{"):
            element.tag = GRAPHML(element.tag)
    for key in root.findall(KEY):
        if not key.get("yfiles.type"):
            key.set("attr.type", "string")
            key.set("attr.name", key.get("attr.name") or key.get("id") or "")
    for edge in root.iter(EDGE):
        # networkx would take the second of two links of one id for the first.
        edge.attrib.pop("id", None)


def refuse_faults(root: Element) -> None:
    """Refuses hyperedges, graphs in nodes that are no groups, nodes without own ids, and links without ends."""
    for hyperedge in root.iter(GRAPHML("hyperedge")):
        ends = [quote(end.get("node", "")) for end in hyperedge.findall(GRAPHML("endpoint"))]
        why = f"a link has two ends, and this has {len(ends)}: {shortened(', '.join(ends))}"
        raise Refused(f"refused hyperedge {quote(hyperedge.get('id', ''))}: {why}")
    for kind, tag in ("node", NODE), ("edge", EDGE):
        for part in root.iter(tag):
            is_group = part.get("yfiles.foldertype") == "group"
            if (part.find(GRAPH) is None) == is_group:
                why = "it has no graph" if is_group else "it has a graph of its own, as only groups of yEd may"
                raise Refused(f"refused {kind} {quote(part.get('id', ''))}: {why}")
    known: set[str] = set()
    for place, node in enumerate(root.iter(NODE), 1):
        if (id_ := node.get("id")) is None:
            raise Refused(f"refused node: the {place}. has no id")
        if id_ in known:
            raise Refused(f"refused node {quote(id_)}: there is a node of this id already")
        known.add(id_)
    for place, edge in enumerate(root.iter(EDGE), 1):
        for end in "source", "target":
            if (id_ := edge.get(end)) is None:
                raise Refused(f"refused link: the {place}. has no {end}")
            if id_ not in known:
                why = f"has the {end} {quote(id_)}, and there is no node of this id"
                raise Refused(f"refused link: the {place}. {why}")


def read_gml(text: bytes) -> Any:
    from networkx import parse_gml

    # The first graph is told to have several links between two nodes.
    marks = chain([" multigraph 1 "], repeat(""))

    def prepared(found: re.Match[str]) -> str:
        """Puts texts over several lines into one, with as many line ends behind."""
        part = found[0]
        if part == '"':
            raise Refused.at_line(found.string.count("\n", 0, found.start()) + 1, "this quote has no end")
        if part.startswith('"'):
            lines = part.splitlines()
            return " ".join(lines) + "\n" * (len(lines) - 1)
        return part if part.startswith("#") else part + next(marks)

    return parse_gml(A_PART.sub(prepared, letters_of(text)), label="id")


def letters_of(text: bytes) -> str:
    """The letters of a GML text: UTF-8, two bytes a letter where it begins so, else Latin 1; lines end by \\n."""
    if text.startswith(WIDE):
        return text.decode("utf-16", "replace").replace("\r\n", "\n")
    try:
        letters = text.decode("utf-8-sig")
    except UnicodeDecodeError:
        letters = text.decode("latin-1")
    return letters.replace("\r\n", "\n").replace("\r", "\n")

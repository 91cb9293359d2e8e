"""Flow tables as a graph in the language of Graphviz: tables, groups, ports, and the arrows between them."""

from __future__ import annotations

import html
import ipaddress

from .flow_text import Bucket, Configuration, Flow, Group, Words
from .trace_text import FromBucket, FromFlow, Walk, Way

# Reserved ports (OpenFlow 1.3.5, 7.2.1).
_PORTS = {
    "4294967288": "IN_PORT",
    "4294967289": "TABLE",
    "4294967291": "FLOOD",
    "4294967292": "ALL",
    "4294967293": "CONTROLLER",
}

_HEAD = """digraph flows {
rankdir=LR; nodesep=0.25; ranksep=0.9; fontname=Helvetica;
node [shape=plain, fontname=Helvetica, fontsize=11]; edge [fontname=Helvetica, fontsize=9, color="#555555"];
in [shape=circle, label="in", width=0.5, fixedsize=true];"""

_TABLE = "table border='0' cellborder='1' cellspacing='0' cellpadding='4'"
_TAKEN = 'color="#0060c0", fontcolor="#0060c0", penwidth=2'
_GRAY = "#999999"
# The ground of the flows that the frame hits, and of those that other frames of its path hit.
_HIT = "bgcolor='#cfe8ff'"
_ALSO = "bgcolor='#eaf4ff'"


def draw(configuration: Configuration, never: set[tuple[int, int]], walk: Walk, also: set[tuple[int, int]] | None = None) -> str:
    """The graph. Flows that never win are gray; the flows that the frame of `walk` hits, and its arrows, are blue.

    The flows of `also`, which other frames of the same path hit, are light blue.
    """
    lines = [_HEAD]
    lines += [_table(configuration, table, never, walk, also or set()) for table in configuration.tables()]
    lines += [_group(it) for it in configuration.groups]
    ways = _ways(configuration)
    lines += [_port(it) for it in sorted({words[1] for _, words in ways if words[0] == "output"}, key=int)]
    lines += [f"in -> t0:head:w [{_TAKEN if walk.hits or walk.misses else ''}];"]
    lines += [_edge(way, walk, never) for way in ways]
    return "\n".join([*lines, "}", ""])


def port_name(number: str) -> str:
    return _PORTS.get(number, f"port {number}")


def _value(name: str, hexadecimal: str) -> str:
    """A value of a match field in its usual notation."""
    digits = hexadecimal.removeprefix("0x")
    if name in ("ipv4_src", "ipv4_dst", "arp_spa", "arp_tpa"):
        return str(ipaddress.IPv4Address(int(digits, 16)))
    if name in ("ipv6_src", "ipv6_dst"):
        return str(ipaddress.IPv6Address(int(digits, 16)))
    if name in ("eth_dst", "eth_src", "arp_sha", "arp_tha"):
        return ":".join(digits[i : i + 2] for i in range(0, 12, 2))
    if name in ("in_port", "ip_proto", "tcp_src", "tcp_dst", "udp_src", "udp_dst"):
        return str(int(digits, 16))
    return hexadecimal


def _mask(name: str, hexadecimal: str) -> str:
    """A mask; for an address it is a prefix length, if the mask is a prefix."""
    digits = hexadecimal.removeprefix("0x")
    bits = f"{int(digits, 16):0{4 * len(digits)}b}"
    if name.startswith("ip") and "01" not in bits:
        return f"/{bits.count('1')}"
    return f"/{_value(name, hexadecimal)}"


def field_text(words: Words) -> str:
    """A match field in its usual notation, such as `ipv4_dst=10.0.0.0/8`."""
    name, value, *mask = words
    if value == "absent":
        return f"no {name}"
    return f"{name}={_value(name, value)}{_mask(name, mask[0]) if mask else ''}"


def action_text(words: Words) -> str:
    return f"set {field_text(words[1:])}" if words[0] == "set" else " ".join(words)


def _actions(actions: list[Words]) -> str:
    """The actions that change the packet; outputs are arrows."""
    return ", ".join(action_text(it) for it in actions if it[0] not in ("output", "to_group"))


def _does(flow: Flow) -> list[str]:
    changed, written = _actions(flow.apply), _actions(flow.write)
    lines = [f"apply: {changed}"] * bool(changed) + ["clear"] * flow.clears + [f"write: {written}"] * bool(written)
    if flow.metadata:
        lines.append(f"metadata {' '.join(flow.metadata)}")
    if not (flow.apply or flow.write) and flow.goto is None:
        lines.append("drop")
    if flow.idle or flow.hard:
        lines.append(", ".join([f"idle {flow.idle} s"] * bool(flow.idle) + [f"hard {flow.hard} s"] * bool(flow.hard)))
    return lines


def _text(lines: list[str], color: str = "") -> str:
    """Lines of a cell, aligned left, in a color if one is named."""
    text = "".join(f"{html.escape(it)}<br align='left'/>" for it in lines) or " "
    return f"<font color='{color}'>{text}</font>" if color else text


def _cell(lines: list[str], attributes: str = "", color: str = "") -> str:
    return f"<td align='left' {attributes}>{_text(lines, color)}</td>"


def _row(flow: Flow, is_never: bool, ground: str) -> str:
    color = _GRAY if is_never else ""
    fields = [" ".join(field_text(it) for it in flow.match) or "any packet"]
    does = _does(flow) + ["never wins"] * is_never
    cells = [
        _cell([str(flow.priority)], ground, color),
        _cell(fields, ground, color),
        _cell(does, f"{ground} port='e{flow.place}'", color),
    ]
    return f"<tr>{''.join(cells)}</tr>"


def _ground(place: tuple[int, int], walk: Walk, also: set[tuple[int, int]]) -> str:
    if place in walk.hits:
        return _HIT
    return _ALSO if place in also else ""


def _wide(lines: list[str], attributes: str = "", color: str = "") -> str:
    """A row of one cell."""
    whole = f"colspan='3' {attributes}"
    return f"<tr>{_cell(lines, whole, color)}</tr>"


def _labelled(name: str, head: str, ground: str, rows: list[str]) -> str:
    """A node that is a table with a head."""
    first = f"<tr><td port='head' colspan='3' bgcolor='{ground}'><b>{html.escape(head)}</b></td></tr>"
    return f"{name} [label=<<{_TABLE}>{first}{''.join(rows)}</table>>];"


def _table(configuration: Configuration, table: int, never: set[tuple[int, int]], walk: Walk, also: set[tuple[int, int]]) -> str:
    flows = sorted(configuration.flows_of(table), key=lambda it: (-it.priority, it.place))
    rows = [_row(it, (table, it.place) in never, _ground((table, it.place), walk, also)) for it in flows]
    if table in walk.misses:
        rows.append(_wide(["no flow matches"], _HIT))
    elif not flows:
        rows.append(_wide(["no flows"]))
    seen = walk.sees.get(table, [])
    if seen:
        rows.append(_wide([f"the packet has {field_text(tuple(it.split()))}" for it in seen], color="#0060c0"))
    return _labelled(f"t{table}", f"table {table}", "#eeeeee", rows)


def _bucket(place: int, bucket: Bucket) -> str:
    changes = _actions(bucket.actions)
    lines = [f"watches {bucket.watches}"] * bool(bucket.watches) + [changes] * bool(changes)
    port = f"port='b{place}' colspan='2'"
    return f"<tr>{_cell([str(place)])}{_cell(lines, port)}</tr>"


def _group(group: Group) -> str:
    rows = [_bucket(place, it) for place, it in enumerate(group.buckets)]
    return _labelled(f"g{group.number}", f"group {group.number} {group.kind}", "#ffe9c9", rows)


def _port(number: str) -> str:
    return f'p{int(number)} [shape=box, style="rounded,filled", fillcolor="#e4f5e0", label="{html.escape(port_name(number))}", margin="0.1,0.05"];'


def _ways(configuration: Configuration) -> list[Way]:
    """Each arrow between tables, groups and ports, once."""
    ways: list[Way] = []
    for flow in configuration.flows:
        ways += [(FromFlow(flow.table, flow.place, "apply"), it) for it in _onward(flow.apply)]
        ways += [(FromFlow(flow.table, flow.place, "write"), it) for it in _onward(flow.write)]
        if flow.goto is not None:
            ways.append((FromFlow(flow.table, flow.place, "goto"), ("goto", str(flow.goto))))
    for group in configuration.groups:
        for place, bucket in enumerate(group.buckets):
            ways += [(FromBucket(group.number, place), it) for it in _onward(bucket.actions)]
    return list(dict.fromkeys(ways))


def _onward(actions: list[Words]) -> list[Words]:
    return [it[:2] for it in actions if it[0] in ("output", "to_group")]


def _edge(way: Way, walk: Walk, never: set[tuple[int, int]]) -> str:
    source, (verb, target) = way
    ends = {"goto": f"t{target}:head:w", "output": f"p{target}", "to_group": f"g{target}:head:w"}
    steps = walk.ways.get(way, [])
    if isinstance(source, FromFlow):
        start, label = f"t{source.table}:e{source.place}:e", "" if source.by == "goto" else source.by
        style = ["style=dashed"] * (source.by == "write") + [f'color="{_GRAY}"'] * ((source.table, source.place) in never)
    else:
        start, label, style = f"g{source.group}:b{source.bucket}:e", "", ['color="#7a3c00"']
    if steps:
        label = " ".join([label, "step " + ", ".join(steps)]).strip()
        style = [it for it in style if not it.startswith("color=")] + [_TAKEN]
    style += [f'label="{label}"'] * bool(label)
    return f"{start} -> {ends[verb]} [{', '.join(style)}];"

"""The fields of messages, by the names of the standard's structures (OpenFlow 1.3.5, 7)."""

from __future__ import annotations

import ipaddress
from collections.abc import Callable
from typing import Any

from .errors import error_name
from .message_types import MULTIPART_NAMES, MessageType, message_name

Fields = dict[str, Any]

PORT_NAMES = {
    0xFFFFFFF8: "IN_PORT",
    0xFFFFFFF9: "TABLE",
    0xFFFFFFFA: "NORMAL",
    0xFFFFFFFB: "FLOOD",
    0xFFFFFFFC: "ALL",
    0xFFFFFFFD: "CONTROLLER",
    0xFFFFFFFE: "LOCAL",
    0xFFFFFFFF: "ANY",
}

# Fields that name a port: a reserved one has its name.
_PORTS = {"port_no", "in_port", "out_port", "watch_port", "port"}

_OPENFLOW_BASIC = 0x8000
_OXM_NAMES = (
    "in_port in_phy_port metadata eth_dst eth_src eth_type vlan_vid vlan_pcp ip_dscp ip_ecn ip_proto ipv4_src ipv4_dst tcp_src"
    " tcp_dst udp_src udp_dst sctp_src sctp_dst icmpv4_type icmpv4_code arp_op arp_spa arp_tpa arp_sha arp_tha ipv6_src ipv6_dst"
    " ipv6_flabel icmpv6_type icmpv6_code ipv6_nd_target ipv6_nd_sll ipv6_nd_tll mpls_label mpls_tc mpls_bos pbb_isid tunnel_id"
    " ipv6_exthdr"
).split(" ")
_HARDWARE = {"eth_dst", "eth_src", "arp_sha", "arp_tha", "ipv6_nd_sll", "ipv6_nd_tll"}
_IPV4 = {"ipv4_src", "ipv4_dst", "arp_spa", "arp_tpa"}
_IPV6 = {"ipv6_src", "ipv6_dst", "ipv6_nd_target"}

_GROUP_TYPES = ["ALL", "SELECT", "INDIRECT", "FF"]
_ROLES = ["NOCHANGE", "EQUAL", "MASTER", "SLAVE"]
_REASONS = {
    MessageType.PACKET_IN: ["NO_MATCH", "ACTION", "INVALID_TTL"],
    MessageType.FLOW_REMOVED: ["IDLE_TIMEOUT", "HARD_TIMEOUT", "DELETE", "GROUP_DELETE"],
    MessageType.PORT_STATUS: ["ADD", "DELETE", "MODIFY"],
}
_FLOW_COMMANDS = ["ADD", "MODIFY", "MODIFY_STRICT", "DELETE", "DELETE_STRICT"]
_GROUP_COMMANDS = ["ADD", "MODIFY", "DELETE"]

# The fields that a short line about a message shows.
_BRIEF = ("command", "priority", "match", "instructions", "in_port", "actions")

# Structures: a name, and a number of bytes, or `h` for a hardware address, or `sN` for a text of N bytes. `pad` is left out.
_PORT = "port_no 4 pad 4 hw_addr h pad 2 name s16 config 4 state 4 curr 4 advertised 4 supported 4 peer 4 curr_speed 4 max_speed 4"
_PORT_STATS = (
    "port_no 4 pad 4 rx_packets 8 tx_packets 8 rx_bytes 8 tx_bytes 8 rx_dropped 8 tx_dropped 8 rx_errors 8 tx_errors 8"
    " rx_frame_err 8 rx_over_err 8 rx_crc_err 8 collisions 8 duration_sec 4 duration_nsec 4"
)
_DESC = "mfr_desc s256 hw_desc s256 sw_desc s256 serial_num s32 dp_desc s256"
_TABLE = "table_id 1 pad 3 active_count 4 lookup_count 8 matched_count 8"
_QUEUE = "port_no 4 queue_id 4 tx_bytes 8 tx_packets 8 tx_errors 8 duration_sec 4 duration_nsec 4"
_AGGREGATE = "packet_count 8 byte_count 8 flow_count 4 pad 4"
_GROUP_FEATURES = "types 4 capabilities 4" + "".join(f" max_groups_{it} 4" for it in range(4)) + "".join(f" actions_{it} 4" for it in range(4))
_METER_FEATURES = "max_meter 4 band_types 4 capabilities 4 max_bands 1 max_color 1 pad 2"
_FLOW_STATS = (
    "length 2 table_id 1 pad 1 duration_sec 4 duration_nsec 4 priority 2 idle_timeout 2 hard_timeout 2 flags 2 pad 4 cookie 8"
    " packet_count 8 byte_count 8"
)
_GROUP_STATS = "length 2 pad 2 group_id 4 ref_count 4 pad 4 packet_count 8 byte_count 8 duration_sec 4 duration_nsec 4"
_TABLE_FEATURES = "length 2 table_id 1 pad 5 name s32 metadata_match 8 metadata_write 8 config 4 max_entries 4"

# The bodies of messages that have nothing but fixed fields.
_BODIES = {
    MessageType.FEATURES_REPLY: "datapath_id 8 n_buffers 4 n_tables 1 auxiliary_id 1 pad 2 capabilities 4 reserved 4",
    MessageType.GET_CONFIG_REPLY: "flags 2 miss_send_len 2",
    MessageType.SET_CONFIG: "flags 2 miss_send_len 2",
    MessageType.PORT_MOD: "port_no 4 pad 4 hw_addr h pad 2 config 4 mask 4 advertise 4 pad 4",
    MessageType.TABLE_MOD: "table_id 1 pad 3 config 4",
    MessageType.QUEUE_GET_CONFIG_REQUEST: "port 4 pad 4",
    **dict.fromkeys(
        [MessageType.GET_ASYNC_REPLY, MessageType.SET_ASYNC],
        "packet_in_mask 4 packet_in_mask_slave 4 port_status_mask 4 port_status_mask_slave 4 flow_removed_mask 4 flow_removed_mask_slave 4",
    ),
}


class Bytes:
    """Bytes that are read from their beginning. ValueError if they end too early."""

    def __init__(self, data: bytes) -> None:
        self.data = data
        self.at = 0

    def __bool__(self) -> bool:
        return self.at < len(self.data)

    def take(self, size: int) -> bytes:
        if size < 0 or self.at + size > len(self.data):
            raise ValueError("a message is truncated, or has an impossible length")
        self.at += size
        return self.data[self.at - size : self.at]

    def number(self, size: int) -> int:
        return int.from_bytes(self.take(size), "big")

    def rest(self) -> bytes:
        return self.take(len(self.data) - self.at)

    def structure(self, text: str) -> Fields:
        words = text.split(" ")
        found: Fields = {}
        for name, kind in zip(words[::2], words[1::2]):
            value: Any
            if kind == "h":
                value = self.take(6).hex(":")
            elif kind.startswith("s"):
                value = self.take(int(kind[1:])).split(b"\0")[0].decode("ascii", "backslashreplace")
            else:
                value = self.number(int(kind))
            if name in _PORTS:
                value = PORT_NAMES.get(value, value)
            if name != "pad":
                found[name] = value
        return found

    def part(self, size: int) -> Bytes:
        return Bytes(self.take(size))

    def part_of_length(self) -> Bytes:
        """The next structure, whose length of two bytes is at this place."""
        return self.part(int.from_bytes(self.data[self.at : self.at + 2], "big"))


def fields_of(message: bytes) -> Fields:
    """The fields of a message after its header, by name. ValueError if the message cannot be read."""
    kind = MessageType(message[1]) if len(message) >= 8 and message[1] <= MessageType.METER_MOD else None
    body = Bytes(message[8:])
    if kind in _BODIES:
        return body.structure(_BODIES[kind])
    read = _READERS.get(kind) if kind is not None else None
    return read(body) if read else {"data": body.rest().hex()} if body else {}


def summary(message: bytes, most: int = 60) -> str:
    """A message in words: for an ERROR the refused message and the error; for others the name, the xid and the fields.

    Each field is cut to this many characters.
    """
    if len(message) < 8:
        return message.hex()
    name = message_name(message)
    if len(message) >= 12 and message[1] == MessageType.ERROR:
        refused = message_name(message[12:]) if len(message) >= 20 else "a message"
        return f"{refused} refused: {error_name(int.from_bytes(message[8:10], 'big'), int.from_bytes(message[10:12], 'big'))}"
    try:
        told = [f"{key} {short(text, most)}" for key, value in fields_of(message).items() if (text := words(value))]
    except ValueError as fault:
        told = [str(fault)]
    return ", ".join([f"{name} xid {int.from_bytes(message[4:8], 'big')}", *told])


def brief(message: bytes) -> str:
    """The name of a message, and the fields of it that say the most about a switch."""
    if len(message) < 8:
        return message.hex()
    try:
        fields = fields_of(message)
    except ValueError as fault:
        return f"{message_name(message)}, {fault}"
    return ", ".join([message_name(message), *(f"{it} {words(fields[it])}" for it in _BRIEF if fields.get(it))])


def words(value: object) -> str:
    """A value of a field: names and values with spaces between them, entries of a list with `;`."""
    if isinstance(value, dict):
        return " ".join(f"{name} {words(it)}" for name, it in value.items())
    return "; ".join(map(words, value)) if isinstance(value, list) else str(value)


def short(text: str, most: int) -> str:
    return text if len(text) <= most else f"{text[:most]}.."


def _named(names: list[str], number: int) -> str | int:
    return names[number] if number < len(names) else number


def port_word(number: int) -> str:
    return PORT_NAMES.get(number, str(number))


# ---- matches, actions and instructions


def _value(name: str, data: bytes, is_masked: bool) -> Any:
    if name in _HARDWARE and len(data) == 6:
        return data.hex(":")
    if name in _IPV4 and len(data) == 4:
        return str(ipaddress.IPv4Address(data))
    if name in _IPV6 and len(data) == 16:
        return str(ipaddress.IPv6Address(data))
    return f"0x{data.hex()}" if is_masked or name == "metadata" else int.from_bytes(data, "big")


def oxm_field(data: Bytes) -> tuple[str, Any]:
    """The name and the value of a match field; with a mask the value is a string such as `10.0.0.0/255.0.0.0`."""
    oxm_class, second, size = data.number(2), data.number(1), data.number(1)
    number, has_mask = second >> 1, second & 1
    is_known = oxm_class == _OPENFLOW_BASIC and number < len(_OXM_NAMES)
    name = _OXM_NAMES[number] if is_known else f"class {oxm_class:#06x} field {number}"
    body = data.take(size)
    if not has_mask:
        return name, _value(name, body, False)
    half = size // 2
    return name, f"{_value(name, body[:half], True)}/{_value(name, body[half:], True)}"


def _match(data: Bytes) -> Fields:
    kind, size = data.number(2), data.number(2)
    oxms = data.part(size - 4)
    data.take(-size % 8)
    if kind != 1:
        return {"type": kind, "data": oxms.rest().hex()}
    found: Fields = {}
    while oxms:
        name, value = oxm_field(oxms)
        found[name] = value
    return found


_ACTIONS: dict[int, str] = {
    11: "copy_ttl_out",
    12: "copy_ttl_in",
    15: "set_mpls_ttl B",
    16: "dec_mpls_ttl",
    17: "push_vlan X",
    18: "pop_vlan",
    19: "push_mpls X",
    20: "pop_mpls X",
    21: "set_queue I",
    22: "to_group I",
    23: "set_nw_ttl B",
    24: "dec_nw_ttl",
    26: "push_pbb X",
    27: "pop_pbb",
}


def _action(data: Bytes) -> str:
    """An action, in the words of flow text (docs/FLOWTEXT.md)."""
    kind, size = data.number(2), data.number(2)
    body = data.part(size - 4)
    if kind == 0:
        return f"output {port_word(body.number(4))} {body.number(2)}"
    if kind == 25:
        name, value = oxm_field(body)
        return f"set {name} {value}"
    if kind not in _ACTIONS:
        return f"action {kind} {body.rest().hex()}"
    name, *argument = _ACTIONS[kind].split(" ")
    if argument == ["X"]:
        return f"{name} 0x{body.number(2):04x}"
    return f"{name} {body.number({'B': 1, 'I': 4}[argument[0]])}" if argument else name


def _actions(data: Bytes) -> list[str]:
    found = []
    while data:
        found.append(_action(data))
    return found


def _instructions(data: Bytes) -> Fields:
    found: Fields = {}
    while data:
        kind, size = data.number(2), data.number(2)
        body = data.part(size - 4)
        if kind == 1:
            found["goto"] = body.number(1)
        elif kind == 2:
            body.take(4)
            found["metadata"] = f"0x{body.take(8).hex()}/0x{body.take(8).hex()}"
        elif kind in (3, 4):
            body.take(4)
            found["write" if kind == 3 else "apply"] = _actions(body)
        elif kind == 5:
            found["clear"] = True
        elif kind == 6:
            found["meter"] = body.number(4)
        else:
            found[f"instruction {kind}"] = body.rest().hex()
    return found


def _buckets(data: Bytes) -> list[Fields]:
    found = []
    while data:
        body = data.part_of_length()
        bucket = body.structure("length 2 weight 2 watch_port 4 watch_group 4 pad 4")
        del bucket["length"]
        found.append({**bucket, "actions": _actions(body)})
    return found


def _bands(data: Bytes) -> list[Fields]:
    found = []
    while data:
        kind, size = data.number(2), data.number(2)
        body = data.part(size - 4)
        found.append({"type": kind, **body.structure("rate 4 burst_size 4"), "data": body.rest().hex()})
    return found


# ---- messages


def _hello(body: Bytes) -> Fields:
    found = []
    while body:
        kind, size = body.number(2), body.number(2)
        found.append({"type": kind, "data": body.part(size - 4).rest().hex()})
        body.take(min(-size % 8, len(body.data) - body.at))
    return {"elements": found}


def _error(body: Bytes) -> Fields:
    found = body.structure("type 2 code 2")
    return {**found, "name": error_name(found["type"], found["code"]), "data": body.rest().hex()}


def _reasoned(kind: MessageType, found: Fields) -> Fields:
    return {**found, "reason": _named(_REASONS[kind], found["reason"])}


def _packet_in(body: Bytes) -> Fields:
    found = _reasoned(MessageType.PACKET_IN, body.structure("buffer_id 4 total_len 2 reason 1 table_id 1 cookie 8"))
    found["match"] = _match(body)
    body.take(2)
    return {**found, "data": body.rest().hex()}


def _flow_removed(body: Bytes) -> Fields:
    text = "cookie 8 priority 2 reason 1 table_id 1 duration_sec 4 duration_nsec 4 idle_timeout 2 hard_timeout 2 packet_count 8 byte_count 8"
    found = _reasoned(MessageType.FLOW_REMOVED, body.structure(text))
    return {**found, "match": _match(body)}


def _port_status(body: Bytes) -> Fields:
    found = _reasoned(MessageType.PORT_STATUS, body.structure("reason 1 pad 7"))
    return {**found, "desc": body.structure(_PORT)}


def _packet_out(body: Bytes) -> Fields:
    found = body.structure("buffer_id 4 in_port 4 actions_len 2 pad 6")
    found["actions"] = _actions(body.part(found.pop("actions_len")))
    return {**found, "data": body.rest().hex()}


def _flow_mod(body: Bytes) -> Fields:
    found = body.structure(
        "cookie 8 cookie_mask 8 table_id 1 command 1 idle_timeout 2 hard_timeout 2 priority 2 buffer_id 4 out_port 4 out_group 4"
        " flags 2 pad 2"
    )
    found["command"] = _named(_FLOW_COMMANDS, found["command"])
    found["match"] = _match(body)
    return {**found, "instructions": _instructions(body)}


def _group_mod(body: Bytes) -> Fields:
    found = body.structure("command 2 type 1 pad 1 group_id 4")
    found["command"] = _named(_GROUP_COMMANDS, found["command"])
    found["type"] = _named(_GROUP_TYPES, found["type"])
    return {**found, "buckets": _buckets(body)}


def _role(body: Bytes) -> Fields:
    found = body.structure("role 4 pad 4 generation_id 8")
    return {**found, "role": _named(_ROLES, found["role"])}


def _meter_mod(body: Bytes) -> Fields:
    return {**body.structure("command 2 flags 2 meter_id 4"), "bands": _bands(body)}


# ---- multipart messages


def _each(read: Callable[[Bytes], Fields]) -> Callable[[Bytes], list[Fields]]:
    def entries(body: Bytes) -> list[Fields]:
        found = []
        while body:
            found.append(read(body))
        return found

    return entries


def _fixed(text: str) -> Callable[[Bytes], Fields]:
    return lambda body: body.structure(text)


def _with_length(read: Callable[[Bytes], Fields]) -> Callable[[Bytes], list[Fields]]:
    def one(body: Bytes) -> Fields:
        found = read(body.part_of_length())
        found.pop("length", None)
        return found

    return _each(one)


def _flow_entry(body: Bytes) -> Fields:
    found = body.structure(_FLOW_STATS)
    found["match"] = _match(body)
    return {**found, "instructions": _instructions(body)}


def _group_entry(body: Bytes) -> Fields:
    return {**body.structure(_GROUP_STATS), "buckets": _each(_fixed("packet_count 8 byte_count 8"))(body)}


def _group_desc(body: Bytes) -> Fields:
    found = body.structure("length 2 type 1 pad 1 group_id 4")
    found["type"] = _named(_GROUP_TYPES, found["type"])
    return {**found, "buckets": _buckets(body)}


def _meter_entry(body: Bytes) -> Fields:
    meter, size = body.number(4), body.number(2)
    one = body.part(size - 6)
    found = one.structure("pad 6 flow_count 4 packet_in_count 8 byte_in_count 8 duration_sec 4 duration_nsec 4")
    return {"meter_id": meter, **found, "bands": _each(_fixed("packet_band_count 8 byte_band_count 8"))(one)}


def _meter_config(body: Bytes) -> Fields:
    found = body.structure("length 2 flags 2 meter_id 4")
    return {**found, "bands": _bands(body)}


def _table_features(body: Bytes) -> Fields:
    found = body.structure(_TABLE_FEATURES)
    properties: list[Fields] = []
    while body:
        kind, size = body.number(2), body.number(2)
        properties.append({"type": kind, "data": body.part(size - 4).rest().hex()})
        body.take(min(-size % 8, len(body.data) - body.at))
    return {**found, "properties": properties}


_REPLIES: dict[str, Callable[[Bytes], Any]] = {
    "DESC": _fixed(_DESC),
    "FLOW": _with_length(_flow_entry),
    "AGGREGATE": _fixed(_AGGREGATE),
    "TABLE": _each(_fixed(_TABLE)),
    "PORT_STATS": _each(_fixed(_PORT_STATS)),
    "QUEUE": _each(_fixed(_QUEUE)),
    "GROUP": _with_length(_group_entry),
    "GROUP_DESC": _with_length(_group_desc),
    "GROUP_FEATURES": _fixed(_GROUP_FEATURES),
    "METER": _each(_meter_entry),
    "METER_CONFIG": _with_length(_meter_config),
    "METER_FEATURES": _fixed(_METER_FEATURES),
    "TABLE_FEATURES": _with_length(_table_features),
    "PORT_DESC": _each(_fixed(_PORT)),
}


def _multipart(body: Bytes, readers: dict[str, Callable[[Bytes], Any]]) -> Fields:
    found = body.structure("type 2 flags 2 pad 4")
    found["type"] = _named(MULTIPART_NAMES, found["type"])
    read = readers.get(found["type"])
    if read is None:
        return {**found, "data": body.rest().hex()} if body else found
    return {**found, "body": read(body)}


def _multipart_reply(body: Bytes) -> Fields:
    return _multipart(body, _REPLIES)


def _flow_request(body: Bytes) -> Fields:
    found = body.structure("table_id 1 pad 3 out_port 4 out_group 4 pad 4 cookie 8 cookie_mask 8")
    return {**found, "match": _match(body)}


def _multipart_request(body: Bytes) -> Fields:
    return _multipart(
        body,
        {
            "FLOW": _flow_request,
            "AGGREGATE": _flow_request,
            "PORT_STATS": _fixed("port_no 4 pad 4"),
            "GROUP": _fixed("group_id 4 pad 4"),
            "QUEUE": _fixed("port_no 4 queue_id 4"),
            "METER": _fixed("meter_id 4 pad 4"),
            "METER_CONFIG": _fixed("meter_id 4 pad 4"),
        },
    )


_READERS: dict[MessageType, Callable[[Bytes], Fields]] = {
    MessageType.HELLO: _hello,
    MessageType.ERROR: _error,
    MessageType.PACKET_IN: _packet_in,
    MessageType.FLOW_REMOVED: _flow_removed,
    MessageType.PORT_STATUS: _port_status,
    MessageType.PACKET_OUT: _packet_out,
    MessageType.FLOW_MOD: _flow_mod,
    MessageType.GROUP_MOD: _group_mod,
    MessageType.MULTIPART_REQUEST: _multipart_request,
    MessageType.MULTIPART_REPLY: _multipart_reply,
    MessageType.ROLE_REQUEST: _role,
    MessageType.ROLE_REPLY: _role,
    MessageType.METER_MOD: _meter_mod,
}

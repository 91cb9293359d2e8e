"""Frames in words, as `ofswitch trace` prints them (docs/TRACE.md): for what a test prints. Headers that are not whole are left out."""

from __future__ import annotations

import ipaddress
from collections.abc import Iterator

_TAGS = (0x8100, 0x88A8)
_IPV4, _ARP, _IPV6 = 0x0800, 0x0806, 0x86DD

# The headers behind IP, by protocol: a name, whether the ports come first, or the type and the code, and how long it is.
_TRANSPORT = {6: ("tcp", True, 20), 17: ("udp", True, 8), 1: ("icmp", False, 4), 58: ("icmpv6", False, 4)}


def in_words(frame: bytes) -> str:
    """The headers of a frame, and its length."""
    return ", ".join([*_ethernet(frame), f"{len(frame)} bytes"])


def _ethernet(frame: bytes) -> Iterator[str]:
    if len(frame) < 14:
        return
    at, tag = 12, None
    while _number(frame, at) in _TAGS and len(frame) >= at + 6:
        tag = _number(frame, at + 2) if tag is None else tag
        at += 4
    kind, packet = _number(frame, at), frame[at + 2 :]
    yield f"eth {frame[6:12].hex(':')} > {frame[:6].hex(':')}"
    yield f"eth_type 0x{kind:04x}"
    if tag is not None:
        yield f"vlan {tag & 0xFFF} priority {tag >> 13}"
    if kind == _ARP and len(packet) >= 28:
        yield f"arp {_address(packet[14:18])} > {_address(packet[24:28])}"
        yield f"arp_op {_number(packet, 6)}"
    elif kind == _IPV4 and len(packet) >= 20:
        is_first = _number(packet, 6) & 0x1FFF == 0
        behind = packet[(packet[0] & 15) * 4 :] if is_first else b""
        yield from _ip("ipv4", packet[12:16], packet[16:20], packet[9], packet[8], behind)
    elif kind == _IPV6 and len(packet) >= 40:
        yield from _ip("ipv6", packet[8:24], packet[24:40], packet[6], packet[7], packet[40:])


def _ip(name: str, source: bytes, target: bytes, protocol: int, ttl: int, behind: bytes) -> Iterator[str]:
    yield f"{name} {_address(source)} > {_address(target)}"
    yield f"ip_proto {protocol}"
    kind, has_ports, size = _TRANSPORT.get(protocol, ("", False, 0))
    if kind and len(behind) >= size:
        yield f"{kind} {_number(behind, 0)} > {_number(behind, 2)}" if has_ports else f"{kind} type {behind[0]} code {behind[1]}"
    yield f"ttl {ttl}"


def _address(octets: bytes) -> str:
    return str(ipaddress.ip_address(octets))


def _number(data: bytes, at: int) -> int:
    return int.from_bytes(data[at : at + 2], "big")

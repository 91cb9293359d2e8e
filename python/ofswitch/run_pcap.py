"""A run of a switch as a capture."""

from __future__ import annotations

import struct
from collections.abc import Iterable, Mapping

from .effects import Answer, Effect, Sent
from .pcap import WIRESHARK_UPPER_PDU, Writer
from .program import StrPath
from .units import messages_of

# The bytes before a message that is not a packet of a network: the tag of a dissector's name (12), and the end of tags.
_OPENFLOW = struct.pack("!HH8sI", 12, 8, b"openflow", 0)


def write_pcap(path: StrPath, run_of: Iterable[tuple[str, list[Effect]]], names: Mapping[int, str] | None = None) -> None:
    """Writes a run of rows with their effects as a pcapng file.

    Each port is an interface with the frames in both directions, and has the port's name in `names`, or else `port N`. The
    connection of the controller is also an interface, whose messages Wireshark shows as OpenFlow. What the switch sends is
    outbound. Bytes of an incomplete message are left out.
    """
    known = names or {}
    with open(path, "wb") as file:
        writer = Writer(file)
        channel = writer.interface("openflow", WIRESHARK_UPPER_PDU)
        ports: dict[int, int] = {}
        now, rest = 0, b""

        def frame(port: int, data: bytes, is_outbound: bool) -> None:
            if port not in ports:
                ports[port] = writer.interface(known.get(port, f"port {port}"))
            writer.packet(ports[port], now, data, is_outbound=is_outbound)

        for row, effects in run_of:
            word, *words = row.split(" ")
            if word == "t":
                now = max(now, int(words[0]))
            elif word in ("connect", "lost"):
                rest = b""
            elif word == "f" and words[1] != "-":
                frame(int(words[0]), bytes.fromhex(words[1]), False)
            elif word == "c" and words[0] != "-":
                whole, rest = messages_of(rest + bytes.fromhex(words[0]))
                for data in whole:
                    writer.packet(channel, now, _OPENFLOW + data, is_outbound=False)
            for it in effects:
                if isinstance(it, Sent):
                    frame(it.port, it.frame, True)
                elif isinstance(it, Answer):
                    writer.packet(channel, now, _OPENFLOW + it.data, is_outbound=True)

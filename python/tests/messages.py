"""Messages of a controller, as bytes (OpenFlow 1.3.5, 7)."""

import struct

HELLO = bytes.fromhex("0400000800000001")
ANY = 0xFFFFFFFF
CONTROLLER = 0xFFFFFFFD
NO_BUFFER = 0xFFFFFFFF


def echo(xid, data=b""):
    return struct.pack("!BBHI", 4, 2, 8 + len(data), xid) + data


def echo_reply(xid, data=b""):
    return struct.pack("!BBHI", 4, 3, 8 + len(data), xid) + data


def barrier(xid):
    return struct.pack("!BBHI", 4, 20, 8, xid)


def barrier_reply(xid):
    return struct.pack("!BBHI", 4, 21, 8, xid)


def features_request(xid):
    return struct.pack("!BBHI", 4, 5, 8, xid)


def output(port, max_len=0xFFFF):
    return struct.pack("!HHIH6x", 0, 16, port, max_len)


def group(number):
    return struct.pack("!HHI", 22, 8, number)


def flow(*actions, in_port=None, priority=10, hard=0, flags=0, xid=2, command=0):
    """A FLOW_MOD that adds a flow to table 0, or modifies (1) or deletes it (3)."""
    match = struct.pack("!HHII4x", 1, 12, 0x80000004, in_port) if in_port else struct.pack("!HH4x", 1, 4)
    applied = b"".join(actions)
    instructions = struct.pack("!HH4x", 4, 8 + len(applied)) + applied if actions else b""
    body = struct.pack("!QQBBHHHIIIH2x", 0, 0, 0, command, 0, hard, priority, NO_BUFFER, ANY, ANY, flags)
    return header(14, xid, body + match + instructions)


def failover_group(number, *ports, xid=3, command=0):
    """A GROUP_MOD that adds a FAST-FAILOVER group, with a bucket for each port that watches it, or modifies (1) or deletes it (2)."""
    buckets = b"".join(struct.pack("!HHII4x", 32, 0, port, ANY) + output(port) for port in ports)
    return header(15, xid, struct.pack("!HBxI", command, 3, number) + buckets)


def packet_out(frame, *actions, in_port=CONTROLLER, xid=4):
    listed = b"".join(actions)
    return header(13, xid, struct.pack("!IIH6x", NO_BUFFER, in_port, len(listed)) + listed + frame)


def header(kind, xid, body):
    return struct.pack("!BBHI", 4, kind, 8 + len(body), xid) + body


def packet_in_frame(message):
    """The frame of a PACKET_IN."""
    size = struct.unpack_from("!H", message, 26)[0]
    return message[24 + (size + 7) // 8 * 8 + 2 :]


def messages_of(data):
    """The whole messages of a stream."""
    found = []
    while data:
        size = struct.unpack_from("!H", data, 2)[0]
        found.append(data[:size])
        data = data[size:]
    return found

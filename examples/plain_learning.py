"""A learning switch in Python alone, without os-ken: an `Application` for docs/EXPLORE.md, with the messages as bytes.

`Learning` deletes the flows of a host that moves to another port. `Forgetful` does not: the fault of learning_faulty.py.
"""
import struct

# types of messages, ports and other numbers (OpenFlow 1.3.5, 7)
HELLO, PACKET_IN, PACKET_OUT, FLOW_MOD = 0, 10, 13, 14
ADD, DELETE, ALL_TABLES = 0, 3, 0xFF
FLOOD, CONTROLLER, ANY = 0xFFFFFFFB, 0xFFFFFFFD, 0xFFFFFFFF
IN_PORT, ETH_DST, ETH_SRC = 0x80000004, 0x80000606, 0x80000806


def message(kind, body=b""):
    return struct.pack("!BBHI", 4, kind, 8 + len(body), 1) + body


def output(port):
    return struct.pack("!HHIH6x", 0, 16, port, 0xFFFF)


def flow_mod(command, priority, fields, actions=b""):
    """A FLOW_MOD whose match has these fields, each with its value as bytes."""
    listed = b"".join(struct.pack("!I", field) + value for field, value in fields)
    match = struct.pack("!HH", 1, 4 + len(listed)) + listed
    todo = struct.pack("!HH4x", 4, 8 + len(actions)) + actions if actions else b""
    table = ALL_TABLES if command == DELETE else 0
    numbers = struct.pack("!QQBBHHHIIIH2x", 0, 0, table, command, 0, 0, priority, ANY, ANY, ANY, 0)
    return message(FLOW_MOD, numbers + match + bytes(-len(match) % 8) + todo)


class Learning:
    def __init__(self):
        self.sends, self.learned = {}, {}

    def connected(self, dpid, send):
        self.sends[dpid] = send
        # an empty match: the flows of an earlier connection go, and all frames come here
        for data in (message(HELLO), flow_mod(DELETE, 0, []), flow_mod(ADD, 0, [], output(CONTROLLER))):
            send(data)

    def lost(self, dpid):
        del self.sends[dpid]

    def message(self, dpid, data):
        if data[1] == PACKET_IN:
            # the match of this PACKET_IN begins with IN_PORT, and is followed by padding and the frame
            port, end = int.from_bytes(data[32:36], "big"), 24 + (int.from_bytes(data[26:28], "big") + 7) // 8 * 8 + 2
            self.packet_in(self.sends[dpid], self.learned.setdefault(dpid, {}), port, data[end:])

    def packet_in(self, send, learned, port, frame):
        to, source = frame[:6], frame[6:12]
        if learned.get(source, port) != port:
            self.moved(send, source)
        learned[source] = port
        out = learned.get(to, FLOOD)
        if out != FLOOD:
            send(flow_mod(ADD, 1, [(IN_PORT, struct.pack("!I", port)), (ETH_DST, to), (ETH_SRC, source)], output(out)))
        send(message(PACKET_OUT, struct.pack("!IIH6x", ANY, port, 16) + output(out) + frame))

    def moved(self, send, address):
        for field in (ETH_DST, ETH_SRC):
            send(flow_mod(DELETE, 0, [(field, address)]))


class Forgetful(Learning):
    def moved(self, send, address):
        pass

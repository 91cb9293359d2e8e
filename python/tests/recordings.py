"""Captures that tests make, and the command that reads them."""

import pathlib
import struct
import subprocess
import sys

import messages

CAPTURES = pathlib.Path(__file__).resolve().parent / "captures"
COMMAND = [sys.executable, "-m", "ofswitch", "capture"]
FRAME = bytes.fromhex("020000000002020000000001") + bytes.fromhex("88b5") + bytes(46)


def ran(*words, status=0):
    done = subprocess.run([*COMMAND, *map(str, words)], capture_output=True, text=True, timeout=120)
    assert done.returncode == status, done.stderr
    return done


# ---- files of other forms, made of the captures


def records(path):
    """The head of a pcap file of this machine's order, and its packets with their heads."""
    data = path.read_bytes()
    found, at = [], 24
    while at < len(data):
        size = struct.unpack_from("<I", data, at + 8)[0]
        found.append(data[at : at + 16 + size])
        at += 16 + size
    return data[:24], found


def written(tmp_path, head, found):
    path = tmp_path / "made.pcap"
    path.write_bytes(head + b"".join(found))
    return path


def changed(record, data, size=None):
    """The packet with other bytes, of which so many were on the wire."""
    return record[:8] + struct.pack("<II", len(data), len(data) if size is None else size) + data


def flags(record):
    return record[16 + 14 + 20 + 13]


def has_data(record):
    ip = record[16 + 14 :]
    return struct.unpack_from("!H", ip, 2)[0] > 20 + (ip[20 + 12] >> 4) * 4


def of_link(head, link):
    return head[:20] + struct.pack("<I", link)


def segments(talk, ports=(40_000, 6653), six=False, ends=(0, 1)):
    """The packets of a connection: pairs of a side (0 connects) and bytes; at the end both sides end it, in this order."""
    address = (bytes(15) + b"\1" if six else bytes([10, 0, 0, 1])), (bytes(15) + b"\2" if six else bytes([10, 0, 0, 2]))
    places = [1000, 0xFFFFFFF0]
    for side, data, bits in [(0, b"", 2), (1, b"", 18), *((side, data, 24) for side, data in talk), *((side, b"", 17) for side in ends)]:
        other = 1 - side
        ack = places[other] if bits & 16 else 0
        tcp_head = struct.pack("!HHIIBBHHH", ports[side], ports[other], places[side], ack, 0x50, bits, 1000, 0, 0)
        places[side] = (places[side] + len(data) + bool(bits & 3)) & 0xFFFFFFFF
        if six:
            ip = struct.pack("!IHBB", 0x60000000, 20 + len(data), 6, 64) + address[side] + address[other]
        else:
            ip = struct.pack("!BBHIBBH", 0x45, 0, 40 + len(data), 0, 64, 6, 0) + address[side] + address[other]
        yield bytes(12) + (b"\x86\xdd" if six else b"\x08\x00") + ip + tcp_head + data


def recorded(tmp_path, *packets):
    """A pcap file of these packets, a millisecond after each other."""
    head = struct.pack("<IHHiIII", 0xA1B2C3D4, 2, 4, 0, 0, 65535, 1)
    return written(tmp_path, head, [struct.pack("<4I", 1, 1000 * n, len(it), len(it)) + it for n, it in enumerate(packets)])


def features_reply(xid, datapath):
    return messages.header(6, xid, struct.pack("!QIBB2xII", datapath, 256, 16, 0, 15, 0))


def packet_in(port, frame):
    match = struct.pack("!HHII4x", 1, 12, 0x80000004, port)
    return messages.header(10, 0, struct.pack("!IHBBQ", messages.NO_BUFFER, len(frame), 1, 0, 0) + match + bytes(2) + frame)


HELLOS = [(0, messages.HELLO), (1, bytes.fromhex("04000010000000000001000800000010"))]


def rows_of(path, *words):
    """The rows of a capture, without times."""
    return [it for it in ran("events", path, *words).stdout.splitlines() if not it.startswith("t ")]


def port_description(number, hw, state=0):
    return struct.pack("!I4x6s2x16s8I", number, bytes.fromhex(hw), b"eth%d" % number, 0, state, *[0] * 6)


def port_status(reason, number, hw, state=0):
    return messages.header(12, 0, struct.pack("!B7x", reason) + port_description(number, hw, state))


def ports_reply(xid, *ports, more=0):
    return messages.header(19, xid, struct.pack("!HH4x", 13, more) + b"".join(ports))


def ports_request(xid):
    return messages.header(18, xid, struct.pack("!HH4x", 13, 0))

"""Blocks of pcapng files that other programs write (draft-ietf-opsawg-pcapng), made by hand, and those that the module writes."""

import io
import struct
import subprocess
import sys

import pytest
from ofswitch.pcap import CaptureError, Packet, Writer, packets

BILLION = 1_000_000_000
FRAME = bytes(range(30))


def block(kind, body, order="<"):
    body += bytes(-len(body) % 4)
    size = struct.pack(f"{order}I", len(body) + 12)
    return struct.pack(f"{order}I", kind) + size + body + size


def section(order="<"):
    # no length is said
    return block(0x0A0D0D0A, struct.pack(f"{order}IHHq", 0x1A2B3C4D, 1, 0, -1), order)


def interface(link, *options, most=0, order="<"):
    listed = b"".join(struct.pack(f"{order}HH", code, len(value)) + value + bytes(-len(value) % 4) for code, value in options)
    return block(1, struct.pack(f"{order}HHI", link, 0, most) + listed, order)


def packet(place, ticks, data, order="<"):
    return block(6, struct.pack(f"{order}5I", place, ticks >> 32, ticks & 0xFFFFFFFF, len(data), len(data)) + data, order)


def simple(data):
    return block(3, struct.pack("<I", len(data)) + data)


def read(tmp_path, *blocks):
    path = tmp_path / "made.pcapng"
    path.write_bytes(b"".join(blocks))
    return list(packets(path))


def test_a_resolution_of_powers_of_two(tmp_path):
    """if_tsresol 0x8a: 2 to the 10 ticks a second. Half a second is 512 of them."""
    [found] = read(tmp_path, section(), interface(1, (9, b"\x8a")), packet(0, 7 * 1024 + 512, FRAME))
    assert found == Packet(1, 7 * BILLION + BILLION // 2, 1, FRAME, 30)


def test_a_resolution_of_powers_of_ten(tmp_path):
    found = read(tmp_path, section(), interface(1), interface(1, (9, b"\x03")), packet(0, 2_000_001, FRAME), packet(1, 2_001, FRAME))
    # microseconds, unless an option says something else
    assert [it.nanoseconds for it in found] == [2 * BILLION + 1000, 2 * BILLION + 1_000_000]


def test_an_offset_in_seconds(tmp_path):
    [found] = read(tmp_path, section(), interface(1, (14, struct.pack("<q", 1))), packet(0, 5, FRAME))
    assert found.nanoseconds == BILLION + 5000


@pytest.mark.parametrize("seconds", [-1, 1 << 40])
def test_a_time_that_no_row_has(tmp_path, seconds):
    """Before 1970, and in 36,812 years."""
    with pytest.raises(CaptureError, match="a block after packet 0 is malformed"):
        read(tmp_path, section(), interface(1, (14, struct.pack("<q", seconds))), packet(0, 5, FRAME))


@pytest.mark.parametrize("order", "<>")
def test_each_section_has_its_own_interfaces(tmp_path, order):
    """Interface 0 of the second section is Linux cooked, and counts nanoseconds; the second section may have another byte order."""
    first = [section(), interface(1, (9, b"\x03")), packet(0, 1, FRAME)]
    second = [section(order), interface(113, (9, b"\x09"), order=order), packet(0, 1, FRAME, order)]
    found = read(tmp_path, *first, *second)
    assert [(it.number, it.nanoseconds, it.link) for it in found] == [(1, 1_000_000, 1), (2, 1, 113)]


def test_a_simple_packet_is_cut_as_its_interface_says(tmp_path):
    [whole] = read(tmp_path, section(), interface(1), simple(FRAME))
    assert whole == Packet(1, 0, 1, FRAME, 30)
    # behind its 21 bytes there are three of padding
    cut = block(3, struct.pack("<I", 30) + FRAME[:21])
    [part] = read(tmp_path, section(), interface(1, most=21), cut)
    assert part == Packet(1, 0, 1, FRAME[:21], 30) and part.is_cut


@pytest.mark.parametrize("size", [0, 4, 8, 11])
def test_a_block_that_is_too_short_ends_the_file(tmp_path, size):
    path = tmp_path / "made.pcapng"
    path.write_bytes(section() + interface(1) + packet(0, 1, FRAME) + struct.pack("<III", 5, size, size))
    # a reader that does not go on from such a block would run for ever
    code = "import sys; from ofswitch.pcap import packets\nfor it in packets(sys.argv[1]): print(it.number)"
    done = subprocess.run([sys.executable, "-c", code, path], capture_output=True, text=True, timeout=60)
    assert done.stdout == "1\n" and "ends inside a block, after packet 1" in done.stderr


def test_an_interface_that_is_missing(tmp_path):
    with pytest.raises(CaptureError, match="a block after packet 0 is malformed"):
        read(tmp_path, section(), packet(0, 1, FRAME))


@pytest.mark.parametrize("size", [14, 15, 16, 17])
def test_what_is_written_is_padded(size):
    """All parts of a block are of 32 bits: the data is padded, and the options begin behind it."""
    file = io.BytesIO()
    writer = Writer(file)
    writer.packet(writer.interface("abc"), 3 << 32 | 7, FRAME[:size], is_outbound=True)
    data, blocks = file.getvalue(), []
    while data:
        kind, length = struct.unpack_from("<II", data)
        assert length % 4 == 0 and data[length - 4 : length] == data[4:8]
        blocks.append((kind, data[8 : length - 4]))
        data = data[length:]
    assert [kind for kind, _ in blocks] == [0x0A0D0D0A, 1, 6]
    body = blocks[2][1]
    assert struct.unpack_from("<5I", body) == (0, 3, 7, size, size)
    # epb_flags: outbound is 2 in its lowest bits; then the end of the options
    options = struct.pack("<HHI", 2, 4, 2) + bytes(4)
    assert body[20:] == FRAME[:size] + bytes(-size % 4) + options

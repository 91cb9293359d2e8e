"""A small world of frames, each with its port: those that the random matches of tests/random_matches.py tell apart, and a few others."""
from tests.random_matches import ADDRESS, ARP, ETHER, IPV4, TCP, UDP
from tests.second_model import IPV6, renewed


def summed(data):
    """The checksum of data whose own is 0."""
    return renewed(0xFFFF, bytes(len(data)), data).to_bytes(2, "big")


def segment(protocol, port, addresses):
    """A TCP or UDP header with its checksum."""
    pseudo = addresses + bytes([0, protocol])
    if protocol == TCP:
        head, tail = (5).to_bytes(2, "big") + port.to_bytes(2, "big") + bytes(8) + bytes.fromhex("50020000"), bytes(2)
    else:
        head, tail = (5).to_bytes(2, "big") + port.to_bytes(2, "big") + bytes.fromhex("0008"), b""
    size = len(head) + 2 + len(tail)
    return head + summed(pseudo + size.to_bytes(2, "big") + head + bytes(2) + tail) + tail


def ipv4(last, protocol, port=None, ttl=64, fragment=0):
    addresses = (ADDRESS + 9).to_bytes(4, "big") + (ADDRESS + last).to_bytes(4, "big")
    carried = b"" if port is None else segment(protocol, port, addresses)
    head = bytes([0x45, 0]) + (20 + len(carried)).to_bytes(2, "big") + bytes(2) + fragment.to_bytes(2, "big") + bytes([ttl, protocol])
    return head + summed(head + bytes(2) + addresses) + addresses + carried


def ipv6(protocol, port, ttl=64):
    addresses = bytes(31) + b"\x01"
    carried = segment(protocol, port, addresses)
    return bytes.fromhex("60000000") + len(carried).to_bytes(2, "big") + bytes([protocol, ttl]) + addresses + carried


def payloads():
    """Types with what follows them."""
    yield ETHER, b"\x01"
    for operation in (1, 2, 3):
        yield ARP, bytes.fromhex("000108000604") + operation.to_bytes(2, "big") + bytes(20)
    # a type without its header
    yield IPV4, b""
    for last in range(4):
        yield IPV4, ipv4(last, 99)
        yield IPV4, ipv4(last, TCP)
        for protocol, port in ((TCP, 80), (TCP, 81), (TCP, 82), (UDP, 80), (UDP, 82)):
            yield IPV4, ipv4(last, protocol, port)
    for ttl in (0, 1, 2):
        yield IPV4, ipv4(1, UDP, 81, ttl)
    yield IPV4, ipv4(2, TCP, 80, ttl=1)
    yield IPV4, ipv4(3, 99, ttl=0)
    # a later fragment, a UDP header without a checksum, and a header with a wrong one, followed by bytes that fill the frame
    yield IPV4, ipv4(2, TCP, 80, fragment=1)
    yield IPV4, ipv4(3, UDP, 80)[:26] + bytes(2)
    yield IPV4, ipv4(1, 99)[:10] + b"\xff\xff" + ipv4(1, 99)[12:] + bytes(10)
    yield IPV6, ipv6(TCP, 80)
    yield IPV6, ipv6(UDP, 81, 1)


TAGS = [[], [0x0000], [0x0001], [0x2002], [0x2001, 0x0002]]


def tagged(tags):
    return b"".join(bytes.fromhex("8100") + it.to_bytes(2, "big") for it in tags)


FRAMES = [
    destination.to_bytes(6, "big") + bytes(6) + tagged(tags) + kind.to_bytes(2, "big") + rest
    for destination in range(4)
    for tags in TAGS
    for kind, rest in payloads()
]
WORLD = [(port, frame) for frame in FRAMES for port in (1, 2, 3)]

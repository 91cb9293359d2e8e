"""Frames in words: written by hand, and as the program prints them."""

import os
import subprocess

import pytest
from ofswitch import Sent, Switch
from ofswitch.frame_text import in_words

PROGRAM = os.environ.get("OFSWITCH", "ofswitch")
ETHERNET = bytes.fromhex("020000000002020000000001")
IPV4 = bytes.fromhex("4500001c000000004011000a0a0000010a000002")


def test_words_by_hand():
    hosts = "eth 02:00:00:00:00:01 > 02:00:00:00:00:02"
    udp = bytes.fromhex("0035d43100080000")
    assert in_words(ETHERNET + b"\x88\xb5") == f"{hosts}, eth_type 0x88b5, 14 bytes"
    packet = "ipv4 10.0.0.1 > 10.0.0.2, ip_proto 17"
    assert in_words(ETHERNET + b"\x08\x00" + IPV4 + udp) == f"{hosts}, eth_type 0x0800, {packet}, udp 53 > 54321, ttl 64, 42 bytes"
    # a header that is not whole, a second fragment, and a packet behind a tag of VLAN 5 and priority 3
    assert in_words(ETHERNET + b"\x08\x00" + IPV4 + udp[:7]) == f"{hosts}, eth_type 0x0800, {packet}, ttl 64, 41 bytes"
    second = IPV4[:6] + b"\x00\x01" + IPV4[8:]
    assert in_words(ETHERNET + b"\x08\x00" + second + udp) == f"{hosts}, eth_type 0x0800, {packet}, ttl 64, 42 bytes"
    tagged = ETHERNET + bytes.fromhex("81006005") + b"\x08\x00" + IPV4
    assert in_words(tagged) == f"{hosts}, eth_type 0x0800, vlan 5 priority 3, {packet}, ttl 64, 38 bytes"
    # of two tags the outer one (OpenFlow 1.3.5, 7.2.3.7), and a packet with four bytes of options
    twice = ETHERNET + bytes.fromhex("88a8000b8100000a") + b"\x08\x00" + IPV4
    assert in_words(twice) == f"{hosts}, eth_type 0x0800, vlan 11 priority 0, {packet}, ttl 64, 42 bytes"
    longer = ETHERNET + b"\x08\x00\x46" + IPV4[1:] + b"\1\1\1\1" + udp
    assert in_words(longer) == f"{hosts}, eth_type 0x0800, {packet}, udp 53 > 54321, ttl 64, 46 bytes"
    assert in_words(b"\x01\x02") == "2 bytes" and in_words(b"") == "0 bytes"


@pytest.mark.parametrize(
    "words",
    [
        "tcp,nw_src=10.0.0.1,nw_dst=10.0.0.2,tp_src=1,tp_dst=80", "udp,tp_dst=53", "icmp,icmp_type=8,icmp_code=1", "ip,nw_proto=89", "arp,arp_op=2,arp_spa=10.0.0.1,arp_tpa=10.0.0.2",
        "tcp6,ipv6_src=2001:db8::1,ipv6_dst=fe80::2,tp_dst=443", "udp6,tp_src=53", "icmp6,icmpv6_type=135", "ipv6", "ip,dl_vlan=7,dl_vlan_pcp=2", "dl_type=0x88b5,dl_src=02:00:00:00:00:0a",
    ],
)
def test_words_are_those_of_the_program(words, tmp_path):
    (tmp_path / "drop.flows").write_text("flow 0 0 0x0000000000000000 0 0 0\n")
    done = subprocess.run([PROGRAM, "trace", tmp_path / "drop.flows", f"in_port=1,{words}"], capture_output=True, text=True, check=True, timeout=60)
    with Switch(log=False) as switch:
        frame = switch.frame_of(words)
    assert f"in_port 1, {in_words(frame)}" == f"{done.stdout.splitlines()[0]}, {len(frame)} bytes"


def test_what_leaves_is_in_words():
    frame = ETHERNET + b"\x88\xb5"
    assert repr(Sent(2, frame)) == "Sent(2, eth 02:00:00:00:00:01 > 02:00:00:00:00:02, eth_type 0x88b5, 14 bytes: 02000000000202000000000188b5)"
    # two frames that differ behind their headers are not printed alike
    assert repr(Sent(2, frame + b"a")) != repr(Sent(2, frame + b"b"))

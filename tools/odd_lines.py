"""Random lines of ovs-ofctl with odd spellings, and what ovs-ofctl makes of a line: the bytes of its FLOW_MOD, for tools/try-tables."""
import socket
import subprocess
import threading

# the values that each field is given, besides masks; decimal numbers are also written in other ways
VALUES = {
    "in_port": "1 2 65279 0 LOCAL controller 0xfffffffd 4294967040 65533 0xfffe FLOOD",
    "metadata": "0 1 255 0x8000000000000000",
    "dl_src": "02:00:00:00:00:01 AA:bb:cc:dd:ee:ff 0:0:0:0:0:0 ff:ff:ff:ff:ff:ff 01:00:5e:00:00:0f",
    "dl_type": "0x0800 0x806 0x86dd 0x88b5 0x8847 0x8100 0x5ff 0 65536",
    "dl_vlan": "0 1 5 4095 4096 65535 0xffff",
    "vlan_vid": "0 5 0x1000 0x1005 0x1fff 0x2000 0x1000/0x1000 0x1001/0x1001 0/0x1000 0x5/0xfff 0/0x1fff 0x1005/0xffff",
    "vlan_pcp": "0 3 7 8",
    "vlan_tci": "0 0x1000/0x1000 0x1005 0xf005 0x1005/0x1fff 0xf000/0xf000 0x5/0xfff 0x1000 0/0xf000 0/0x1000 4101 0x6000/0xe000 0x2005/0xefff 0x1005/0xffff 0x1000/0xf000 0xfffff",
    "nw_tos": "0 4 184 252 3 255 256",
    "ip_dscp": "0 46 63 64",
    "nw_ecn": "0 1 3 4",
    "nw_proto": "0 1 6 17 58 132 255 256",
    "nw_src": "10.0.0.1 192.168.1.1 0.0.0.0 255.255.255.255 172.16.255.0",
    "tp_src": "0 80 65535 65536",
    "icmp_type": "0 8 255 256 135",
    "icmp_code": "0 1",
    "arp_op": "1 2 255",
    "ipv6_src": "2001:db8::1 :: ::1 fe80::1:2 2001:DB8:0:0:1:: 1:2:3:4:5:6:7:8 ff02::1 ::ffff:10.0.0.1 2001:0db8:0000:0000:0000:0000:0000:0001",
    "ipv6_label": "0 1 0xfffff 0x100000",
}
ALIKE = {
    "dl_src": "dl_dst eth_src eth_dst arp_sha arp_tha", "dl_type": "eth_type", "vlan_pcp": "dl_vlan_pcp", "ip_dscp": "", "nw_ecn": "ip_ecn", "nw_proto": "ip_proto",
    "nw_src": "nw_dst ip_src ip_dst arp_spa arp_tpa", "tp_src": "tp_dst tcp_src tcp_dst udp_src udp_dst", "icmp_type": "icmpv6_type", "icmp_code": "icmpv6_code",
    "ipv6_src": "ipv6_dst",
}
FIELDS = {it: values.split() for name, values in VALUES.items() for it in (name, *ALIKE.get(name, "").split())}
MASKS = {
    ".": "/24 /8 /32 /0 /255.255.0.0 /255.0.255.0 /1 /0.0.0.1 /33 /0.0.0.0 /024", "::": "/64 /128 /0 /1 /ffff:: /::1 /129",
    ":": "/ff:ff:ff:ff:ff:ff /01:00:00:00:00:00 /ff:ff:ff:00:00:00 /00:00:00:00:00:00", "": "/0xff /1 /0 /0xfff0 /7",
}
OF_PROTOCOL = {
    "ip": "nw_src nw_dst ip_src nw_tos ip_dscp nw_ecn nw_proto", "ipv6": "ipv6_src ipv6_dst ipv6_label ip_dscp nw_ecn nw_proto", "arp": "arp_op arp_spa arp_tpa arp_sha nw_src nw_proto",
    "tcp": "tp_src tcp_src tp_dst nw_src", "udp": "udp_src tp_dst ip_ecn", "icmp": "icmp_type icmp_code tp_src tp_dst", "icmp6": "icmp_type icmpv6_type icmpv6_code tp_src ipv6_src",
    "tcp6": "tp_dst tcp_src ipv6_dst", "udp6": "udp_dst ipv6_label",
}
OF_ALL = "in_port dl_src dl_dst eth_src metadata dl_vlan vlan_vid dl_vlan_pcp vlan_pcp vlan_tci".split()
HEADS = "priority=0 priority=100 priority=65536 table=0 table=2 table=16 table=255 cookie=5 cookie=0xffffffffffffffff cookie=18446744073709551616 idle_timeout=5 hard_timeout=65535 idle_timeout=65536 send_flow_rem no_packet_counts no_byte_counts check_overlap reset_counts importance=5 allow_hidden_fields".split()
PORTS = "1 2 0x3 65279 65280 0xffffff00 LOCAL NORMAL IN_PORT ALL FLOOD Flood CONTROLLER ANY TABLE 0 4294967040 0xfffffffb 65533 65531 0xfffd p1".split()
ACTIONS = (
    "output:% output:% % output=% output(%) CONTROLLER:64 controller:65536 controller(max_len=64) controller() controller mod_nw_tos:5 mod_nw_tos:184 mod_nw_ecn:3 mod_nw_ecn:4 "
    "mod_dl_src:02:00:00:00:00:07 mod_nw_src:10.0.0.9 mod_nw_dst:010.0.0.9 mod_tp_src:80 mod_tp_dst:65536 mod_vlan_vid:5 mod_vlan_vid:4096 mod_vlan_pcp:7 mod_vlan_pcp:8 mod_nw_ttl:9 mod_nw_ttl:256 "
    "dec_ttl strip_vlan pop_vlan push_vlan:0x8100 push_vlan:0x88a8 push_vlan:33024 push_vlan:0x9100 push_vlan group:1 group:0x1 group:4294967040 DEC_TTL dec_ttl() dec_ttl(1) push_vlan(0x8100) "
    "set_field:5->vlan_vid set_field:0x1005->vlan_vid set_field:10.0.0.3->ip_src set_field:10.0.0.3->nw_dst set_field:46->ip_dscp set_field:5->nw_tos set_field:3->ip_ecn set_field:80->tcp_src "
    "set_field:02:00:00:00:00:03->eth_dst set_field:02:00:00:00:00:03/ff:ff:ff:00:00:00->eth_dst set_field:1->arp_op set_field:fe80::1->ipv6_dst set_field:8->icmp_type set_field:7->metadata drop resubmit(,1) set_queue:1"
).split()
LAST = "clear_actions write_actions(output:2) write_actions() write_actions(set_field:5->vlan_vid,output:1) write_metadata:5 write_metadata:0x105/0xff write_metadata:1/0 write_metadata:0x10000000000000000 goto_table:1 goto_table:0 goto_table:16 goto_table:0x3 goto_table=4 goto_table(5)".split()


def spelled(pick, value):
    """A decimal number in one of its spellings."""
    if not value.isdigit():
        return value
    number = int(value)
    return pick.choice([value, value, hex(number), f"0x{number:X}", f"0X{number:x}", f"0x{number:08x}", f"0{value}"])


def some_word(pick, field):
    value = spelled(pick, pick.choice(FIELDS[field]))
    kind = next(it for it in ("::", ".", ":", "") if it in value)
    mask = pick.choice(MASKS["::" if field.startswith("ipv6_s") or field.startswith("ipv6_d") else kind].split()) if "/" not in value and pick.random() < 0.3 else ""
    return f"{field}={value}{mask}"


def some_match(pick):
    words = [some_word(pick, pick.choice(OF_ALL)) for _ in range(pick.choice([0, 0, 1, 2]))]
    if pick.random() < 0.75:
        protocol = pick.choice(list(OF_PROTOCOL))
        own = OF_PROTOCOL[protocol].split()
        words = [protocol, *(some_word(pick, pick.choice(own)) for _ in range(pick.choice([0, 1, 1, 2]))), *words]
    elif pick.random() < 0.5:
        words.append(some_word(pick, pick.choice(list(FIELDS))))
    if pick.random() < 0.1:
        pick.shuffle(words)
    return words


def some_actions(pick):
    words = [pick.choice(ACTIONS).replace("%", pick.choice(PORTS)) for _ in range(pick.choice([0, 1, 1, 2]))]
    words += [it for it in LAST if pick.random() < 0.04]
    if pick.random() < 0.04:
        pick.shuffle(words)
    return pick.choice([",", ",", ",", ", ", " "]).join(words or ["drop"])


def mistyped(pick, line):
    """The line with one character too few, too many or another, or without its end."""
    at = pick.randrange(len(line))
    other = pick.choice("(),=:/ .0x-1f>")
    return pick.choice([line[:at] + line[at + 1:], line[:at] + other + line[at:], line[:at] + other + line[at + 1:], line[: max(at, 1)], line.removesuffix(")")])


def some_line(pick):
    words = [*(pick.choice(HEADS) for _ in range(pick.choice([0, 1, 1, 2]))), *some_match(pick)]
    told = pick.choice([",", ",", ",", ", ", " ", ",,", "\t"]).join(words)
    line = f"{told}{pick.choice([',', ' ', ', ']) if words else ''}{pick.choice(['actions='] * 8 + ['action=', 'actions= '])}{some_actions(pick)}"
    return mistyped(pick, line) if pick.random() < 0.2 else line


class Recorder:
    """A switch that takes what ovs-ofctl sends."""

    def __init__(self):
        self.listener = socket.create_server(("127.0.0.1", 0))
        self.place = f"tcp:127.0.0.1:{self.listener.getsockname()[1]}"
        self.messages = []
        threading.Thread(target=self.serve, daemon=True).start()

    def serve(self):
        while True:
            connection, _ = self.listener.accept()
            with connection:
                self.answer(connection, connection.makefile("rb"))

    def answer(self, connection, stream):
        connection.sendall(bytes.fromhex("0400000800000001"))
        while len(head := stream.read(8)) == 8:
            message = head + stream.read(int.from_bytes(head[2:4], "big") - 8)
            if head[1] == 14:
                self.messages.append(message)
            # the replies to ECHO_REQUEST and BARRIER_REQUEST have the next type
            elif head[1] in (2, 20):
                connection.sendall(bytes([4, head[1] + 1]) + message[2:])

    def made_of(self, line):
        """The bytes of the FLOW_MOD of a line; None if ovs-ofctl refuses it."""
        self.messages.clear()
        done = subprocess.run(["ovs-ofctl", "-O", "OpenFlow13", "--no-names", "add-flow", self.place, line], capture_output=True, timeout=60)
        return self.messages[0] if done.returncode == 0 and self.messages else None

"""The fields of messages and the names of errors, beside what os-ken reads in the messages of the captures."""

import pathlib

import pytest
from ofswitch import errors, fields, pcap, sessions
from ofswitch.fields import fields_of, summary
from ofswitch.message_types import MULTIPART_NAMES, MessageType

CAPTURES = pathlib.Path(__file__).resolve().parent / "captures"

of = pytest.importorskip("os_ken.ofproto.ofproto_v1_3")
from os_ken.ofproto import ofproto_parser  # noqa: E402
from os_ken.ofproto import ofproto_v1_3_parser as parser  # noqa: E402


class Datapath:
    """What the message classes of os-ken need from a datapath."""

    ofproto, ofproto_parser, id = of, parser, 1


def messages_of(name):
    found = sessions.read(CAPTURES / name, None, None, sessions.Notes())
    # of a controller's messages os-ken reads FLOW_MODs alone
    return [it.data for session in found for it in session.messages if it.is_of_switch or it.data[1] == MessageType.FLOW_MOD]


def read_by_os_ken(data):
    return ofproto_parser.msg(Datapath(), *ofproto_parser.header(data), data)


def same(ours, theirs):
    """How many numbers and texts of a structure both have; they are the same."""
    count = 0
    for name, value in ours.items():
        other = getattr(theirs, name, None)
        if name == "match":
            for field, it in dict(other.items()).items():
                if not isinstance(it, tuple):
                    assert ours["match"][field] == it
                    count += 1
        elif isinstance(value, int) and isinstance(other, int):
            assert value == other, name
            count += 1
        elif name in ("hw_addr", "name") and other is not None:
            assert value == (other.decode() if isinstance(other, bytes) else other), name
            count += 1
        elif isinstance(value, dict) and other is not None:
            count += same(value, other)
    return count


@pytest.mark.parametrize("name, most", [("osken.pcap", 150), ("ofctl.pcap", 1300), ("self.pcap", 300)])
def test_numbers_and_matches_are_those_that_os_ken_reads(name, most):
    count, kinds = 0, set()
    for data in messages_of(name):
        ours, theirs = fields_of(data), read_by_os_ken(data)
        kinds.add(MessageType(data[1]))
        body = ours.pop("body", None)
        ours.pop("type", None)
        count += same(ours, theirs)
        if isinstance(body, list):
            assert len(body) == len(theirs.body)
            count += sum(same(one, other) for one, other in zip(body, theirs.body))
        elif isinstance(body, dict):
            count += same(body, theirs.body)
        assert summary(data)
    # so much was compared
    assert count >= most and len(kinds) >= 5


def test_actions_are_those_that_os_ken_wrote():
    actions = [
        (parser.OFPActionOutput(2, 128), "output 2 128"),
        (parser.OFPActionOutput(of.OFPP_CONTROLLER), "output CONTROLLER 65509"),
        (parser.OFPActionPushVlan(0x88A8), "push_vlan 0x88a8"),
        (parser.OFPActionPopVlan(), "pop_vlan"),
        (parser.OFPActionPushMpls(0x8847), "push_mpls 0x8847"),
        (parser.OFPActionPopMpls(0x0800), "pop_mpls 0x0800"),
        (parser.OFPActionSetMplsTtl(3), "set_mpls_ttl 3"),
        (parser.OFPActionSetNwTtl(64), "set_nw_ttl 64"),
        (parser.OFPActionDecNwTtl(), "dec_nw_ttl"),
        (parser.OFPActionSetQueue(7), "set_queue 7"),
        (parser.OFPActionGroup(9), "to_group 9"),
        (parser.OFPActionCopyTtlOut(), "copy_ttl_out"),
        (parser.OFPActionSetField(ipv4_dst="10.0.0.9"), "set ipv4_dst 10.0.0.9"),
        (parser.OFPActionSetField(eth_dst="02:00:00:00:00:01"), "set eth_dst 02:00:00:00:00:01"),
        (parser.OFPActionSetField(ipv6_src="2001:db8::1"), "set ipv6_src 2001:db8::1"),
        (parser.OFPActionSetField(vlan_vid=0x1005), "set vlan_vid 4101"),
    ]
    match = parser.OFPMatch(in_port=1, eth_type=0x0800, ipv4_src=("10.0.0.0", "255.0.0.0"), metadata=(5, 15), arp_op=1)
    todo = [
        parser.OFPInstructionActions(of.OFPIT_APPLY_ACTIONS, [it for it, _ in actions]),
        parser.OFPInstructionActions(of.OFPIT_CLEAR_ACTIONS, []),
        parser.OFPInstructionActions(of.OFPIT_WRITE_ACTIONS, [actions[0][0]]),
        parser.OFPInstructionWriteMetadata(1, 3),
        parser.OFPInstructionGotoTable(4),
        parser.OFPInstructionMeter(6),
    ]
    message = parser.OFPFlowMod(Datapath(), table_id=3, priority=7, match=match, instructions=todo, command=of.OFPFC_MODIFY_STRICT)
    message.set_xid(1)
    message.serialize()
    told = fields_of(bytes(message.buf))
    assert (told["table_id"], told["priority"], told["command"]) == (3, 7, "MODIFY_STRICT")
    assert told["match"]["ipv4_src"] == "10.0.0.0/255.0.0.0" and told["match"]["metadata"] == "0x0000000000000005/0x000000000000000f"
    assert told["instructions"] == {
        "apply": [it for _, it in actions],
        "clear": True,
        "write": ["output 2 128"],
        "metadata": "0x0000000000000001/0x0000000000000003",
        "goto": 4,
        "meter": 6,
    }


def test_groups_and_requests():
    buckets = [parser.OFPBucket(0, 2, of.OFPG_ANY, [parser.OFPActionOutput(2)]), parser.OFPBucket(0, of.OFPP_ANY, 4, [])]
    message = parser.OFPGroupMod(Datapath(), of.OFPGC_ADD, of.OFPGT_FF, 1, buckets)
    message.set_xid(1)
    message.serialize()
    told = fields_of(bytes(message.buf))
    assert (told["command"], told["type"], told["group_id"]) == ("ADD", "FF", 1)
    assert [(it["watch_port"], it["watch_group"], it["actions"]) for it in told["buckets"]] == [(2, 0xFFFFFFFF, ["output 2 65509"]), ("ANY", 4, [])]


def test_names_of_numbers():
    """The types of messages, the lists of names, and the reserved ports, beside the constants of os-ken."""
    assert all(getattr(of, f"OFPT_{it.name}") == it for it in MessageType) and len(MessageType) == 30
    assert [getattr(of, f"OFPMP_{it}") for it in MULTIPART_NAMES] == [*range(len(MULTIPART_NAMES))]
    reasons = dict(zip(("OFPR_", "OFPRR_", "OFPPR_"), (fields._REASONS[it] for it in (MessageType.PACKET_IN, MessageType.FLOW_REMOVED, MessageType.PORT_STATUS))))
    lists = {**reasons, "OFPCR_ROLE_": fields._ROLES, "OFPGT_": fields._GROUP_TYPES, "OFPFC_": fields._FLOW_COMMANDS, "OFPGC_": fields._GROUP_COMMANDS}
    for prefix, names in lists.items():
        assert [getattr(of, prefix + it) for it in names] == [*range(len(names))]
    assert {getattr(of, f"OFPP_{name}"): name for name in fields.PORT_NAMES.values()} == fields.PORT_NAMES


def test_messages_that_os_ken_writes():
    path, match = Datapath(), parser.OFPMatch(in_port=9)
    for message, wanted in [
        (parser.OFPPortMod(path, 1, "02:00:00:00:00:01", 2, 3, 4), {"port_no": 1, "hw_addr": "02:00:00:00:00:01", "config": 2, "mask": 3, "advertise": 4}),
        (parser.OFPTableMod(path, 1, 2), {"table_id": 1, "config": 2}),
        (parser.OFPSetConfig(path, 1, 2), {"flags": 1, "miss_send_len": 2}),
        (parser.OFPRoleRequest(path, of.OFPCR_ROLE_MASTER, 7), {"role": "MASTER", "generation_id": 7}),
        (parser.OFPSetAsync(path, [1, 2], [3, 4], [5, 6]), dict(zip(ASYNC.split(), range(1, 7)))),
        (parser.OFPFlowStatsRequest(path, 0, 1, 2, 3, 4, 5, match), {"table_id": 1, "out_port": 2, "out_group": 3, "cookie": 4, "cookie_mask": 5, "match": {"in_port": 9}}),
        (parser.OFPQueueStatsRequest(path, 0, 1, 2), {"port_no": 1, "queue_id": 2}),
        (parser.OFPMeterStatsRequest(path, 0, 1), {"meter_id": 1}),
    ]:
        message.set_xid(1)
        message.serialize()
        told = fields_of(bytes(message.buf))
        assert told.get("body", told) == wanted


ASYNC = "packet_in_mask packet_in_mask_slave port_status_mask port_status_mask_slave flow_removed_mask flow_removed_mask_slave"


@pytest.mark.parametrize("kind, size, length_at", [(2, 24, None), (3, 24, None), (4, 112, None), (5, 40, None), (6, 40, 0), (8, 40, None), (9, 40, 4), (11, 16, None), (12, 64, 0)])
def test_replies_whose_bytes_are_all_different(kind, size, length_at):
    """Each field of an entry has another value, which is the one that os-ken reads. No field is left out."""
    entry = bytearray(range(1, size + 1))
    if length_at is not None:
        entry[length_at : length_at + 2] = size.to_bytes(2, "big")
    data = bytes.fromhex(f"0413{16 + size:04x}00000001{kind:04x}000000000000") + entry
    body, theirs = fields_of(data)["body"], read_by_os_ken(data).body
    [one], [other] = ([it] if not isinstance(it, list) else it for it in (body, theirs))
    numbers = [it for it in one.values() if isinstance(it, int)]
    if kind == 8:
        # os-ken has the numbers of the four types of groups in lists
        assert numbers == [other.types, other.capabilities, *other.max_groups, *other.actions]
    else:
        assert same(one, other) >= len(numbers) and len(set(numbers)) == len(numbers) > 2
    assert "length" not in one


def test_names_of_errors():
    names = {name: getattr(of, name) for name in dir(of) if name[:3] == "OFP" and name.partition("_")[0][-2:] == "FC" or name.partition("_")[0] in ("OFPBRC", "OFPBAC", "OFPBIC", "OFPBMC")}
    known = {errors.error_name(kind, code): code for kind in range(14) for code in range(16)}
    known = {name: code for name, code in known.items() if not name.startswith("type")}
    assert known == {name: names[name] for name in known}
    # and no error of os-ken is left out
    kinds = {name.partition("_")[0] for name in known}
    assert {name for name in names if name.partition("_")[0] in kinds} == known.keys()
    assert errors.error_name(20, 3) == "type 20 code 3"


def test_messages_that_are_cut_are_a_value_error():
    for data in messages_of("ofctl.pcap"):
        for size in range(8, len(data), max(1, len(data) // 20)):
            try:
                fields_of(data[:size])
            except ValueError:
                pass
            assert summary(data[:size])

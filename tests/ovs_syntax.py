"""Flows, groups and matches of the second model (tests/second_model.py) in the syntax of ovs-ofctl."""
from tests.second_model import ALL, CONTROLLER, FLOOD, IN_PORT, NONE

NAMES = {IN_PORT: "in_port", FLOOD: "flood", ALL: "all"}


def value_text(field, value):
    if field.startswith("eth_") and field != "eth_type":
        return ":".join(f"{it:02x}" for it in value.to_bytes(6, "big"))
    if field.startswith("ipv4_"):
        return ".".join(map(str, value.to_bytes(4, "big")))
    return f"0x{value:x}" if field not in ("in_port", "vlan_pcp") else str(value)


def field_name(field):
    return field.replace("ipv4_", "ip_")


def match_text(match):
    return "".join(f"{field_name(it)}={value_text(it, value)}{'' if mask is None else '/' + value_text(it, mask)}," for it, (value, mask) in match.items())


def action_text(action):
    word, *values = action
    if word == "output":
        port, max_len = values
        return f"controller(max_len={max_len})" if port == CONTROLLER else NAMES.get(port, f"output:{port}")
    if word == "set":
        return f"set_field:{value_text(*values)}->{field_name(values[0])}"
    texts = {"to_group": "group:{}", "set_nw_ttl": "mod_nw_ttl:{}", "dec_nw_ttl": "dec_ttl", "push_vlan": "push_vlan:0x{:x}", "pop_vlan": "pop_vlan"}
    return texts[word].format(*values)


def actions_text(actions):
    return ",".join(map(action_text, actions))


def instruction_text(instruction):
    word, *values = instruction
    if word in ("apply", "write"):
        return ("{}" if word == "apply" else "write_actions({})").format(actions_text(*values))
    texts = {"metadata": "write_metadata:0x{:x}/0x{:x}", "goto": "goto_table:{}", "clear": "clear_actions"}
    return texts[word].format(*values)


def flow_line(flow):
    told = ",".join(filter(None, map(instruction_text, flow.instructions)))
    return f"table={flow.table},priority={flow.priority},{match_text(flow.match)}actions={told or 'drop'}"


def group_line(number, group):
    words = [f"group_id={number},type={group.kind}"]
    for port, watched, actions in group.buckets:
        watch = "" if group.kind != "ff" else f"watch_port:{port}," if watched == NONE else f"watch_group:{watched},"
        words.append(f"bucket={watch}actions={actions_text(actions) or 'drop'}")
    return ",".join(words)

"""Random matches of flow entries that look at few bits."""
ETHER, ARP, IPV4, TCP, UDP = 0x88B5, 0x0806, 0x0800, 6, 17
ADDRESS = 0x0A000000


def masked(mask, bits):
    """A mask; None where it looks at all bits."""
    return None if mask == (1 << bits) - 1 else mask


def some_match(pick):
    """Fields with values and masks, each with its prerequisites."""
    fields = {}
    if pick.random() < 0.3:
        fields["in_port"] = (pick.choice((1, 2, 3)), None)
    if pick.random() < 0.4:
        mask = pick.choice((1, 2, 3))
        fields["eth_dst"] = (pick.randrange(4) & mask, masked(0xFFFFFFFFFFFC | mask, 48))
    kind = pick.choice(("any", "arp", "ip", "ip", "tcp", "tcp", "udp"))
    if kind == "arp":
        fields["eth_type"] = (ARP, None)
        if pick.random() < 0.6:
            fields["arp_op"] = (pick.choice((1, 2)), None)
    elif kind != "any":
        fields["eth_type"] = (IPV4, None)
        if pick.random() < 0.6:
            mask = pick.choice((0, 1, 2, 3))
            fields["ipv4_dst"] = (ADDRESS | (pick.randrange(4) & mask), masked(0xFFFFFFFC | mask, 32))
        if kind in ("tcp", "udp"):
            fields["ip_proto"] = (TCP if kind == "tcp" else UDP, None)
            if pick.random() < 0.5:
                fields[f"{kind}_dst"] = (pick.choice((80, 81)), None)
    return fields


def some_tagged_match(pick):
    """Tags under masks. A match may have VLAN_PCP only beside a VLAN_VID that is not 0."""
    fields = {}
    if pick.random() < 0.3:
        fields["in_port"] = (pick.choice((1, 2)), None)
    if pick.random() < 0.3:
        fields["eth_type"] = (pick.choice((ETHER, IPV4)), None)
    mask = pick.choice((0x1FFF, 0x0FFF, 0x1000, 0x0001, 0x0002, 0x0003, 0x1001, 0x1003, None))
    if mask is not None:
        value = pick.choice((0x1000, 0)) | pick.randrange(4)
        fields["vlan_vid"] = (value & mask, masked(mask, 13))
        if value & mask and pick.random() < 0.4:
            fields["vlan_pcp"] = (pick.choice((0, 1)), None)
    return fields

"""Random requirements of a switch, and whether a frame decides one by the second model (tests/second_model.py)."""
from typing import NamedTuple

from tests.ovs_syntax import match_text
from tests.random_matches import IPV4, some_match, some_tagged_match
from tests.second_model import fields, matches

PLACES = (1, 2, 3, 4, 5, "controller", "drop")


class Requirement(NamedTuple):
    """`demand` is "leaves by", "leaves only by" or "leaving by", and `places` are its places, of which the last one has `fields`; or
    "passes table", and `places` has the table."""
    quantifier: str
    match: dict
    demand: str
    places: tuple
    except_ttl: bool
    fields: dict = {}

    def __str__(self):
        has = f"has {match_text(self.fields).rstrip(',')}" if self.demand == "leaving by" else ""
        words = [self.quantifier, "frame", match_text(self.match).rstrip(","), self.demand, ",".join(map(str, self.places)), has, "except ttl" if self.except_ttl else ""]
        return " ".join(filter(None, words))


def seen_at(port, frame):
    """The fields of a frame that came in by a port, or of a packet that was made of it."""
    return fields(frame) | {"in_port": port, "metadata": 0}


def gone(requirement, run):
    """The frames that leave by the places of a requirement."""
    return [it[-1] for it in run.items if it[0] in requirement.places]


def is_about(requirement, port, frame, run):
    """Whether a requirement is about a frame, with its run."""
    leaves = requirement.demand != "leaving by" or gone(requirement, run)
    return bool(run.is_received and leaves and matches(requirement.match, seen_at(port, frame))) and not (requirement.except_ttl and run.is_expired)


def does(requirement, port, run):
    """Whether a frame that came in by a port, with this run, does what the requirement demands."""
    places = {it[0] for it in run.items}
    if requirement.demand == "leaving by":
        having = [matches(requirement.fields, seen_at(port, it)) for it in gone(requirement, run)]
        return all(having) if requirement.quantifier == "each" else any(having)
    if requirement.demand == "leaves by":
        return bool(places & {*requirement.places}) or not places and "drop" in requirement.places
    if requirement.demand == "leaves only by":
        return places <= {*requirement.places}
    return requirement.places[0] in run.tables


def decides(requirement, port, frame, run):
    """Whether a frame shows that `no` or `each` fails, or that `some` holds."""
    return is_about(requirement, port, frame, run) and does(requirement, port, run) == (requirement.quantifier != "each")


def named_ports(requirement):
    """The ports that a requirement names."""
    places = () if requirement.demand == "passes table" else requirement.places
    ingress = [requirement.match["in_port"][0]] if "in_port" in requirement.match else []
    return {it for it in (*places, *ingress) if isinstance(it, int)}


# ---- random ones
def some_frames(pick):
    """The match of a requirement: often of few fields, so that it matches many frames."""
    if pick.random() < 0.25:
        return {}
    found = some_match(pick)
    if pick.random() < 0.25:
        found |= {name: it for name, it in some_tagged_match(pick).items() if name.startswith("vlan")}
    if "vlan_pcp" in found and not found["vlan_vid"][0] & 0x1000:
        # as words, a priority says that there is a tag
        del found["vlan_pcp"]
    if found.get("eth_type") == (IPV4, None) and pick.random() < 0.1:
        found["ip_dscp"] = (pick.choice((0, 46)), None)
    if pick.random() < 0.03:
        found["metadata"] = pick.choice(((0, 1), (1, 1)))
    if pick.random() < 0.1:
        found["in_port"] = (pick.choice((1, 4, 5)), None)
    return found


def tight_places(pick, requirement, runs):
    """Places that the frames of a world make nearly right: those to which they go, or do not go, or all of these except one."""
    about = [run for port, frame, run in runs if is_about(requirement, port, frame, run)]
    gone = {it[0] for run in about for it in run.items} | {"drop" for run in about if not run.items}
    if requirement.quantifier == "no":
        gone = {*PLACES} - gone
    if len(gone) > 1 and pick.random() < 0.25:
        gone.discard(pick.choice(sorted(gone, key=str)))
    return tuple(sorted(gone, key=str))


def some_fields(pick, requirement, runs):
    """Fields that some frame has which leaves by the places of a requirement, or some match."""
    leaving = [(port, it) for port, frame, run in runs if is_about(requirement, port, frame, run) for it in gone(requirement, run)]
    seen = seen_at(*pick.choice(leaving)) if leaving else {}
    kept = {name: (seen[name], None) for name in ("eth_src", "eth_dst", "eth_type") if name in seen and pick.random() < 0.5}
    if pick.random() < 0.3 and seen.get("vlan_vid"):
        kept["vlan_vid"] = (seen["vlan_vid"], None)
    return kept if kept and pick.random() < 0.6 else some_match(pick) or {"eth_type": (IPV4, None)}


def some_packet_requirement(pick, runs):
    """A requirement about fields of what leaves."""
    places = tuple(pick.sample(PLACES[:-1], pick.choice((1, 1, 2))))
    found = Requirement(pick.choice(("no", "each", "each", "some")), some_frames(pick), "leaving by", places, pick.random() < 0.3)
    return found._replace(fields=some_fields(pick, found, runs))


def some_requirement(pick, tables, runs):
    """A requirement of a switch with so many tables, of which frames have these runs."""
    if pick.random() < 0.3:
        return some_packet_requirement(pick, runs)
    quantifier = pick.choice(("no", "no", "each", "each", "some"))
    demand = pick.choice(("leaves by", "leaves by", "leaves only by", "passes table"))
    places = (pick.randrange(tables + 1),) if demand == "passes table" else tuple(pick.sample(PLACES, pick.choice((1, 1, 2, 3))))
    found = Requirement(quantifier, some_frames(pick), demand, places, pick.random() < 0.3)
    if demand != "passes table" and pick.random() < 0.7:
        found = found._replace(places=tight_places(pick, found, runs) or places)
    return found

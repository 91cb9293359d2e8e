"""The findings of `check --json` as one line each, for the tests that compare them: `flow T K wins in_port P metadata M HEX`,
`flow T K never: T J ..` (with ` (tie)` if one of these has the same priority), `flow T K undecided`, and a line for each remark."""

REMARKS = {
    "unreachable": "table {table} unreachable",
    "no table-miss entry": "table {table} no table-miss entry",
    "goto to a table without entries": "flow {table} {entry} goto {to}: no entries",
    "output to the ingress port": "flow {table} {entry} output {port}: ingress",
    "last actions unseen": "flow {table} {entry} last actions unseen: {count}",
    "unused": "group {group} unused",
    "no buckets": "group {group} no buckets",
}


def verdict(flow):
    if flow["verdict"] == "wins":
        return f"wins in_port {flow['in_port']} metadata 0x{int(flow['metadata'], 16):016x} {flow['frame']}"
    if flow["verdict"] == "never wins":
        places = " ".join(f"{it['table']} {it['entry']}" for it in flow["shadowed_by"])
        return f"never: {places}{' (tie)' if flow['tie'] else ''}"
    return flow["verdict"]


def lines(document):
    return [f"flow {it['table']} {it['entry']} {verdict(it)}" for it in document["flows"]] + [
        REMARKS[it["remark"]].format(**it) for it in document["remarks"]
    ]

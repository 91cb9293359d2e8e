"""The progress of a build, for tools/build: the time of each crate's proof by the table of docs/TIMES.md, the longest path from each
crate to the program, and the remaining time, which is learned from the crates that were proved."""
import random

# the column of the table that has the seconds of the processors which a crate's proof took
COLUMN = "proof"
# How much longer a crate takes than that: with all processors for itself, and with a proof on each. By the build of 2026-11-28.
ALONE, BESIDE = 0.7, 1.5
# What a measured time counts if one more crate is done, and what the table's own pace counts, in seconds of a crate.
FADING, TABLE_WEIGHT = 0.85, 20


def cells_of(line):
    return [it.strip() for it in line.strip().strip("|").split("|")]


def proof_times(text):
    """The seconds of the processors that each crate's proof took in the gate of this text, docs/TIMES.md: the column `proof` of
    the table in its section `The gate`."""
    lines = [cells_of(it) for it in text.partition("## The gate")[2].partition("\n## ")[0].splitlines() if it.startswith("|")]
    if not lines or COLUMN not in lines[0]:
        return {}
    at = lines[0].index(COLUMN)
    return {it[0]: int(it[at]) for it in lines[1:] if it[0].startswith("of") and it[at].isdigit()}


def way_before(order, uses, seconds):
    """For each crate the seconds on the longest way from it up to the last one that uses it, its own included. `order` has each
    crate after those that it uses, `uses` the libraries of each, `seconds` gives what a crate takes."""
    way = {}
    for name in reversed(order):
        above = [way[it] for it in way if name in uses[it]]
        way[name] = seconds(name) + max(above, default=0)
    return way


class Progress:
    """A build of the crates `left`, of which those at the front have precedence. `times` has their seconds in the table, and `lanes`
    says how many are proved at a time."""

    def __init__(self, left, uses, times, lanes):
        self.left, self.uses, self.times, self.lanes = [*left], uses, times, lanes
        # when each that runs began, and its expected seconds; what each that is done counts, its seconds and the expected ones
        self.running, self.done = {}, []

    def ready(self):
        """The crates that can be proved now."""
        return [it for it in self.left if not any(below in self.left or below in self.running for below in self.uses[it])]

    def expected(self, name, beside):
        """The seconds of a crate by the table, as one of so many side by side."""
        share = (beside - 1) / (self.lanes - 1) if self.lanes > 1 else 1
        return self.times[name] * (ALONE + (BESIDE - ALONE) * share)

    def begin(self, name, beside, now):
        self.left.remove(name)
        self.running[name] = now, self.expected(name, min(beside, self.lanes))

    def end(self, name, now):
        begun, expected = self.running.pop(name)
        self.done = [(FADING * weight, *it) for weight, *it in self.done] + [(1, now - begun, expected)]

    def pace(self, now):
        """How much longer crates take than by the table: by those that were proved, the last ones above all, and by those that run
        and have already taken longer."""
        took = wanted = TABLE_WEIGHT
        for weight, seconds, expected in self.done:
            took, wanted = took + weight * seconds, wanted + weight * expected
        for begun, expected in self.running.values():
            if (now - begun) * wanted > expected * took:
                took, wanted = took + now - begun, wanted + expected
        return took / wanted

    def seconds_left(self, now):
        """The estimated seconds to the end of the build, as it will go on at this pace."""
        pace, rest = self.pace(now), Progress(self.left, self.uses, self.times, self.lanes)
        ends = {it: max(begun + pace * expected, now + pace * expected / 10) for it, (begun, expected) in self.running.items()}
        rest.running, end = ends, now
        while rest.left or ends:
            ready = rest.ready()
            for name in ready[: self.lanes - len(ends)]:
                rest.left.remove(name)
                ends[name] = end + pace * self.expected(name, min(len(ready) + len(ends), self.lanes))
            end = min(ends.values())
            for name in [it for it in ends if ends[it] <= end]:
                del ends[name]
        return end - now

    def words(self, now):
        return f"about {max(1, round(self.seconds_left(now) / 60))} min"


# A table as docs/TIMES.md has it, for tools/check-sources.
SMALL = """# Times

| crate | proof |
|---|---|
| of_elsewhere | 7 |

## The gate

| crate | proved | its tests | proof | tests | wrong bodies |
|---|---|---|---|---|---|
| of_first | 66 | - | 300 | - | - |
| of_second | 2500 | 2600 | 600 | 40 | 117 |
| of_third | 3000 | - | 300 | - | - |
| of_unproved | 3100 | - | - | - | - |
| together | | | 1200 | 40 | 117 |

## Other

| of_first | 1 | 1 | 1 | 1 | 1 |
"""
# How a machine may be: its speed by the table, from the second on at which it changes, and another speed after that. A third is the
# limit of an estimate's error from the fourth crate on, and again a quarter of an hour after the change, which nobody can foresee.
MACHINES = [(1, 0, 1), (1 / 2, 0, 1 / 2), (1 / 4, 0, 1 / 4), (1, 900, 1 / 2), (1 / 2, 900, 1)]
LIMIT, LEARNED = 1 / 3, 900


def estimates(lanes, speed, change, later):
    """Plays a build of 40 crates, the last of which uses all, and whose times differ by a quarter from the expected ones; yields the
    seconds since the begin, and the estimate, at the end of each crate and every two minutes."""
    chance, names = random.Random(1), range(40)
    uses = {it: {chance.randrange(it // 2, it) for _ in range(2)} if it else set() for it in names} | {39: set(range(39))}
    times = {it: chance.randrange(20, 300) for it in names} | {39: 400}
    way = way_before(names, uses, times.get)
    build, work, now = Progress(sorted(names, key=lambda it: -way[it]), uses, times, lanes), {}, 0
    while build.left or work:
        ready = build.ready()
        for name in ready[: lanes - len(work)]:
            build.begin(name, len(ready) + len(work), now)
            work[name] = build.running[name][1] * chance.uniform(3 / 4, 5 / 4)
        now += 10
        work = {it: left - 10 * (speed if now <= change else later) for it, left in work.items()}
        ended = [it for it in work if work[it] <= 0]
        for name in ended:
            del work[name]
            build.end(name, now)
        if ended or now % 120 == 0:
            yield now, build.seconds_left(now), len(build.done)


def faults():
    """What is wrong with the functions above, over the small table and by the machines."""
    times, names = proof_times(SMALL), ["of_first", "of_second", "of_third"]
    if times != {"of_first": 300, "of_second": 600, "of_third": 300}:
        yield f"proof_times reads {times}"
    way = way_before(names, {"of_first": [], "of_second": ["of_first"], "of_third": ["of_first"]}, times.get)
    if way != {"of_first": 900, "of_second": 600, "of_third": 300}:
        yield f"way_before gives {way}"
    for lanes in (2, 4):
        for machine in MACHINES:
            said = [*estimates(lanes, *machine)]
            total, change = said[-1][0], machine[1]
            # of what is left, or of a tenth of the whole
            wrong = [(abs(now + left - total) / max(total - now, total / 10), now) for now, left, done in said if done > 3 and (now > change + LEARNED or not change)]
            if max(wrong)[0] > LIMIT:
                yield f"the estimate of a build on {lanes} processors, machine {machine}, is wrong by {max(wrong)[0]:.0%} after {max(wrong)[1]} of {total} s"

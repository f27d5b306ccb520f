#!/usr/bin/env python3
"""Makes sheets for measuring: python3 bench/sheets.py FOLDER writes third-year files of several families.

The families (bench/README.md says what each is for): chains, regular, learning, small, budget, short.
Every sheet comes from a fixed seed of its own, so it stays the same when others are added or left out.
"""
import os, random, struct, sys

MOST_RULES = 1024
MOST_SWITCHES = 256


# Third-year files

def word(n):
    return struct.pack("<H", n & 0xFFFF)


def clause(ls):
    assert 1 <= len(ls) <= 8 and len({abs(l) for l in ls}) == len(ls)
    return b"CL" + bytes([len(ls)]) + b"".join(word(l) for l in ls)


def parity(side, vs):
    assert 1 <= len(vs) <= 16 and len(set(vs)) == len(vs)
    return b"PA" + bytes([len(vs), side]) + b"".join(word(v) for v in vs)


def sheet(n, records):
    assert 1 <= n <= MOST_SWITCHES and len(records) <= MOST_RULES, (n, len(records))
    return b"F3" + word(n) + b"".join(records) + b"EN" + word(len(records))


# Parity rules in several forms; a system of them is a list of (side, switches)

def written_out(side, vs):
    """One clause for each setting that breaks the parity rule."""
    out = []
    for p in range(2 ** len(vs)):
        bits = [p >> (len(vs) - 1 - i) & 1 for i in range(len(vs))]
        if sum(bits) % 2 != side:
            out.append(clause([-v if b else v for v, b in zip(vs, bits)]))
    return out


def named(rules):
    return [parity(side, vs) for side, vs in rules]


def in_clauses(rules):
    return [c for side, vs in rules for c in written_out(side, vs)]


def cut(side, vs, width, fresh):
    """A parity rule as a chain of rules of at most `width` switches, with fresh switches between them."""
    out = []
    while len(vs) > width:
        link = fresh()
        out.append((0, vs[:width - 1] + [link]))
        vs = [link] + vs[width - 1:]
    return out + [(side, vs)]


def counter(start):
    """A function that gives a fresh switch at each call, and one that tells the last."""
    last = [start]

    def fresh():
        last[0] += 1
        return last[0]
    return fresh, lambda: last[0]


def dependent_rules(rules):
    """The indices of some rules whose switches cancel out, or None where there are none."""
    rows = {}
    for i, (_, vs) in enumerate(rules):
        bits, used = sum(1 << v for v in vs), 1 << i
        while bits:
            top = bits.bit_length()
            if top not in rows:
                rows[top] = (bits, used)
                break
            bits ^= rows[top][0]
            used ^= rows[top][1]
        else:
            return [j for j in range(len(rules)) if used >> j & 1]
    return None


# Chains: two lists of parity rules that join the same switches and differ in what they come to

def equal_chain(n):
    """Each switch as the one before it, and the last unlike the first."""
    return [(0, [v, v + 1]) for v in range(1, n)] + [(1, [1, n])]


def chains_by(rng, n, width):
    """The parity of the switches 1 to n, once even and once odd, in two orders, by rules of some width with switches between."""
    fresh, last = counter(n)
    first, second = list(range(1, n + 1)), list(range(1, n + 1))
    rng.shuffle(second)
    rules = cut(0, first, width, fresh) + cut(1, second, width, fresh)
    return last(), rules


def two_chains(rng, n):
    switches, rules = chains_by(rng, n, 3)
    rng.shuffle(rules)
    return switches, rules


def chains():
    for n in (64, 128, 256):
        yield f"equal-{n}", sheet(n, named(equal_chain(n)))
    for n in (64, 256):
        yield f"equal-{n}-in-clauses", sheet(n, in_clauses(equal_chain(n)))
    for n in (20, 50, 86):
        switches, rules = two_chains(random.Random(f"two chains {n}"), n)
        yield f"two-{n}", sheet(switches, named(rules))
        yield f"two-{n}-in-clauses", sheet(switches, in_clauses(rules))
    # one clause of one rule is left out, so that this rule is not recovered and the search has to go round the gap
    for n in (20, 50, 86):
        switches, rules = two_chains(random.Random(f"gap {n}"), n)
        yield f"gap-{n}", sheet(switches, in_clauses(rules)[1:])
    # wider links, with the same end: rules of five switches are recovered, rules of six are not
    for n, width in ((80, 5), (24, 6), (28, 6)):
        switches, rules = chains_by(random.Random(f"wide links {n} {width}"), n, width)
        yield f"links-of-{width}-{n}-in-clauses", sheet(switches, in_clauses(rules))


# Regular systems: n parity rules of d switches over n switches, each switch in d rules

def regular(rng, n, d):
    """n groups of d different switches; where a group names a switch twice, one of its places is exchanged with any other place."""
    slots = [v for v in range(1, n + 1) for _ in range(d)]
    rng.shuffle(slots)
    while True:
        again = [i for i in range(n * d) if slots[i] in slots[i - i % d:i]]
        if not again:
            return [slots[i:i + d] for i in range(0, n * d, d)]
        for i in again:
            j = rng.randrange(n * d)
            slots[i], slots[j] = slots[j], slots[i]


def regular_system(rng, n, d, contradicts):
    """A system that a hidden setting keeps; where it is to contradict itself, one rule among dependent ones is flipped."""
    while True:
        hidden = [rng.randrange(2) for _ in range(n + 1)]
        rules = [(sum(hidden[v] for v in g) % 2, g) for g in regular(rng, n, d)]
        if not contradicts:
            return rules
        tied = dependent_rules(rules)
        if tied:
            side, vs = rules[tied[-1]]
            rules[tied[-1]] = (1 - side, vs)
            return rules


def regular_sheets():
    for n, d in ((48, 3), (128, 3), (256, 3), (64, 4), (128, 4), (32, 5), (64, 5), (16, 6), (24, 6), (32, 6), (14, 7)):
        for contradicts in (False, True):
            rules = regular_system(random.Random(f"regular {n} {d} {contradicts}"), n, d, contradicts)
            yield f"{n}-by-{d}" + ("-flipped" if contradicts else ""), sheet(n, in_clauses(rules))


# Learning: a hidden parity function of some bits is to be found from samples, some of which are wrong

def at_most(k, vs, fresh):
    """Clauses that let at most k of the switches be on. Behind each switch but the last stand k fresh ones: number j says that more than j are on so far."""
    out, before = [], None
    for i, v in enumerate(vs):
        if i == len(vs) - 1:
            return out + [clause([-v, -before[k - 1]])]
        now = [fresh() for _ in range(k)]
        out.append(clause([-v, now[0]]))
        if before:
            out.extend(clause([-before[j], now[j]]) for j in range(k))
            out.extend(clause([-v, -before[j - 1], now[j]]) for j in range(1, k))
            out.append(clause([-v, -before[k - 1]]))
        before = now
    return out


def learning(rng, bits, samples, wrong, allowed, width):
    """The bits of the function are the lowest switches; then a switch for each sample says that it is wrong, and clauses count these.
    Where a width is given, the parity rules are cut to it and written out as clauses."""
    hidden = [rng.randrange(2) for _ in range(bits)]
    off = set(rng.sample(range(samples), wrong))
    fresh, last = counter(bits + samples)
    rules = []
    for i in range(samples):
        while True:
            taken = [j for j in range(bits) if rng.random() < 0.5]
            if 1 <= len(taken) <= 15:
                break
        side = (sum(hidden[j] for j in taken) + (i in off)) % 2
        rules.append((side, [j + 1 for j in taken] + [bits + 1 + i]))
    if width:
        records = in_clauses([r for side, vs in rules for r in cut(side, vs, width, fresh)])
    else:
        records = named(rules)
    records += at_most(allowed, list(range(bits + 1, bits + samples + 1)), fresh)
    return sheet(last(), records)


def learning_sheets():
    for bits, samples, wrong, width in (
            (8, 16, 2, 0), (12, 24, 3, 0), (16, 32, 4, 0), (18, 36, 4, 0), (22, 44, 4, 0),
            (8, 16, 2, 5), (12, 24, 3, 4), (14, 26, 3, 4), (16, 26, 3, 4)):
        form = "in-clauses" if width else "named"
        rng = lambda: random.Random(f"learning {bits} {samples}")
        yield f"{bits}-bits-{samples}-samples-{form}", learning(rng(), bits, samples, wrong, wrong, width)
        if bits in (12, 16):
            # two wrong samples fewer are allowed than there are
            yield f"{bits}-bits-{samples}-samples-{form}-strict", learning(rng(), bits, samples, wrong, wrong - 2, width)


# Random clauses

def random_clauses(rng, n, m, width):
    out = []
    for _ in range(m):
        vs = rng.sample(range(1, n + 1), width)
        out.append(clause([v if rng.random() < 0.5 else -v for v in vs]))
    return out


def small():
    # clauses of three, 4.26 for each switch; the seeds are such that the first sheet of each size has a setting and the second has none
    for n, seeds in ((20, (10, 1)), (30, (1, 4)), (40, (12, 8)), (50, (7, 9)), (60, (2, 12))):
        m = round(4.26 * n)
        for seed in seeds:
            yield f"{n}-{m}-{seed}", sheet(n, random_clauses(random.Random(f"small {n} {seed}"), n, m, 3))


def random_parities(rng, n, m, width):
    return [parity(rng.randrange(2), sorted(rng.sample(range(1, n + 1), width))) for _ in range(m)]


def mixed_widths(rng, n, counts):
    out = [c for width, m in counts for c in random_clauses(rng, n, m, width)]
    rng.shuffle(out)
    return out


def budget():
    # the search through 100 switches ends after 121,430 tries; all others use the budget up
    for n, m, seed in ((100, 426, 3), (150, 639, 2), (200, 852, 1), (240, 1022, 1), (256, 1024, 1)):
        rng = random.Random(f"budget {n} {m} {seed}")
        yield f"threes-{n}-{m}", sheet(n, random_clauses(rng, n, m, 3))
    rng = random.Random("mixed widths 200a")
    yield "widths-2-to-8-200", sheet(200, mixed_widths(rng, 200, ((2, 60), (3, 660), (4, 90), (5, 50), (6, 30), (7, 20), (8, 20))))
    rng = random.Random("mixed widths 256")
    yield "widths-2-to-8-256", sheet(256, mixed_widths(rng, 256, ((2, 90), (3, 700), (4, 100), (5, 50), (6, 30), (7, 25), (8, 25))))
    for n, rules, width, clauses in ((256, 150, 8, 600), (256, 100, 16, 500), (256, 180, 16, 300), (200, 60, 16, 700), (128, 40, 12, 400)):
        rng = random.Random(f"parities {n} {rules} {width} {clauses}")
        yield f"parity-{rules}-of-{width}-{clauses}-threes", sheet(n, random_parities(rng, n, rules, width) + random_clauses(rng, n, clauses, 3))


def short():
    # reading, recovery and reduction are all there is to do, or nearly all
    yield "one-switch", sheet(1, [])
    yield "odd-three", sheet(3, [parity(1, [1, 2, 3])])
    ends = [clause(ls) for ls in ([1, 2], [1, -2], [-1, 2], [-1, -2])]
    for m in (250, 500, 1020):
        rng = random.Random(f"short {m}")
        yield f"threes-{m}-contradicted", sheet(256, random_clauses(rng, 256, m, 3) + ends)
    # the same with no negation, with switch numbers that have one and the same sum, and with both: what a recovery by such marks would meet
    for name, negated, same in (("unnegated", False, False), ("one-sum", True, True), ("unnegated-one-sum", False, True)):
        rng = random.Random(f"short {name}")
        clauses = []
        while len(clauses) < 1020:
            vs = rng.sample(range(1, 257), 3)
            if not same or sum(vs) == 385:
                clauses.append(clause([-v if negated and rng.random() < 0.5 else v for v in vs]))
        yield f"threes-1020-{name}-contradicted", sheet(256, clauses + ends)
    rng = random.Random("fives")
    yield "fives-1020-contradicted", sheet(256, random_clauses(rng, 256, 1020, 5) + ends)
    rng = random.Random("eights")
    yield "eights-1020-contradicted", sheet(256, random_clauses(rng, 256, 1020, 8) + ends)
    rng = random.Random("ones")
    yield "ones-256", sheet(256, [clause([v if rng.random() < 0.5 else -v]) for v in range(1, 257)])
    rng = random.Random("kept by off")
    kept = []
    while len(kept) < 1024:
        vs = rng.sample(range(1, 257), 3)
        ls = [v if rng.random() < 0.5 else -v for v in vs]
        if min(ls) < 0:
            kept.append(clause(ls))
    yield "threes-1024-kept-by-off", sheet(256, kept)
    for m in (128, 256, 1024):
        rng = random.Random(f"sixteens {m}")
        yield f"parity-{m}-of-16", sheet(256, random_parities(rng, 256, m, 16))
    rng = random.Random("lawful sixteens")
    hidden = [rng.randrange(2) for _ in range(257)]
    groups = [rng.sample(range(1, 257), 16) for _ in range(1024)]
    yield "parity-1024-of-16-kept", sheet(256, [parity(sum(hidden[v] for v in g) % 2, g) for g in groups])


FAMILIES = {"chains": chains, "regular": regular_sheets, "learning": learning_sheets, "small": small, "budget": budget, "short": short}


# Sheets that take seconds; a quick run leaves them out.
SLOW = {("chains", "links-of-6-28-in-clauses"), ("learning", "18-bits-36-samples-named"), ("learning", "22-bits-44-samples-named")}
SLOW |= {("budget", name) for name, _ in budget()} - {("budget", "threes-100-426")}


def all_sheets():
    for family, make in FAMILIES.items():
        for name, data in make():
            yield family, name, data


def main():
    folder = sys.argv[1]
    os.makedirs(folder, exist_ok=True)
    for family, name, data in all_sheets():
        with open(os.path.join(folder, f"{family}-{name}.f3"), "wb") as f:
            f.write(data)


if __name__ == "__main__":
    main()

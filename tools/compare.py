#!/usr/bin/env python3
"""Compares the proved programs with bench/plain.rs, an implementation in plain Rust that shares no code with them.

    python3 tools/compare.py [--cases N] [--seed N] [--workers N]

Makes sheet files and scripts of calls at random, runs sheetreport and sessionscript, which are proved and built where
they are not there yet, and the plain program on each, and compares what they print byte by byte. A case depends on --seed and on its own number alone. Prints
the number of cases and of differences by kind; each case that differs is kept in target/compare/. Ends with status 1
where any differs.
"""
import argparse
import collections
import concurrent.futures
import os
import random
import struct
import subprocess
import sys
import tempfile

from filecases import clause, end, first, head, parity, slots, third, word
from programs import ROOT, proved

KEPT = os.path.join(ROOT, "target", "compare")
MOST_INPUT = 36_873
LONGEST_SECONDS = 60


# Rules: ("C", literals) or ("P", side, switches).

def some_switches(r, n, width):
    return r.sample(range(1, n + 1), min(width, n))


def random_clause(r, n, hidden, widths=(1, 2, 2, 3, 3, 3, 3, 4, 5, 6, 7, 8)):
    ls = [r.choice((v, -v)) for v in some_switches(r, n, r.choice(widths))]
    if hidden and not any((l > 0) == hidden[abs(l)] for l in ls):
        i = r.randrange(len(ls))
        ls[i] = -ls[i]
    return ("C", ls)


def random_parity(r, n, hidden, widths=(1, 2, 2, 3, 3, 4, 5, 6, 8, 16)):
    vs = some_switches(r, n, r.choice(widths))
    side = sum(hidden[v] for v in vs) % 2 if hidden else r.randrange(2)
    return ("P", side, vs)


def written_out(r, rule):
    """The clauses of a parity rule, in some order, the literals of each in some order."""
    _, side, vs = rule
    clauses = []
    for setting in range(1 << len(vs)):
        if bin(setting).count("1") % 2 != side:
            ls = [-v if setting >> i & 1 else v for i, v in enumerate(vs)]
            r.shuffle(ls)
            clauses.append(("C", ls))
    r.shuffle(clauses)
    return clauses


def hidden_setting(r, n, chance=0.6):
    return [False] + [r.random() < 0.5 for _ in range(n)] if r.random() < chance else None


def mixed_rules(r, n, count, share):
    hidden = hidden_setting(r, n)
    return [random_parity(r, n, hidden) if r.random() < share else random_clause(r, n, hidden) for _ in range(count)]


def recoverable_rules(r, n, count):
    """Parity rules written out as clauses, some with a clause missing or twice, among other rules."""
    hidden = hidden_setting(r, n)
    rules = []
    for _ in range(count):
        clauses = written_out(r, random_parity(r, n, hidden, (1, 2, 2, 3, 3, 3, 4, 5)))
        fate = r.random()
        if fate < 0.3:
            clauses.pop()
        elif fate < 0.4:
            clauses.append(r.choice(clauses))
        rules += clauses
    rules += [random_clause(r, n, hidden) for _ in range(r.randrange(4))]
    if r.random() < 0.5:
        r.shuffle(rules)
    return rules


def easy_rules(r, n):
    """Rules over many switches that a search settles in few tries: few of them, or all of one kind."""
    hidden = hidden_setting(r, n, 0.8)
    fate = r.random()
    if fate < 0.3:
        return [random_parity(r, n, hidden) for _ in range(r.randrange(1, n + 40))]
    if fate < 0.6:
        return [random_clause(r, n, hidden, (2, 3, 3, 4, 5, 8)) for _ in range(r.randrange(1, n))]
    if fate < 0.8:
        return recoverable_rules(r, n, r.randrange(1, 30))
    return [random_parity(r, n, hidden) for _ in range(n)] + [random_clause(r, n, hidden) for _ in range(r.randrange(40))]


def small_sheet(r):
    n = r.choice((1, 2, 3, 3, 4, 5, 6, 7, 8, 10, 12, 14))
    if r.random() < 0.4:
        return n, recoverable_rules(r, n, r.randrange(1, 5))
    return n, mixed_rules(r, n, r.randrange(0, 5 * n), r.choice((0, 0.2, 0.5, 1)))


def middle_sheet(r):
    n = r.randrange(15, 41)
    return n, mixed_rules(r, n, r.randrange(0, 3 * n), r.choice((0, 0.1, 0.3, 1)))


def large_sheet(r):
    n = r.choice((r.randrange(41, 257), 63, 64, 65, 127, 128, 129, 255, 256, 256))
    return n, easy_rules(r, n)


def any_sheet(r):
    return r.choice((small_sheet, small_sheet, small_sheet, middle_sheet, large_sheet))(r)


# Files of sheets.

def third_record(rule):
    return clause(*rule[1]) if rule[0] == "C" else parity(rule[1], *rule[2])


def only_clauses(r, rules):
    out = []
    for rule in rules:
        if rule[0] == "C":
            out.append(rule)
        elif len(rule[2]) <= 5:
            out += written_out(r, rule)
    return out


def file_of(r, sheet):
    n, rules = sheet
    if r.random() < 0.5:
        return third(n, *[third_record(rule) for rule in rules[:1024]])
    return first(n, *[slots(*rule[1]) for rule in only_clauses(r, rules)[:1024]])


def good_file(r):
    return file_of(r, any_sheet(r))


def recovered_file(r):
    n = r.choice((2, 3, 4, 5, 6, 8, 12, 40, 200, 256))
    return file_of(r, (n, recoverable_rules(r, n, r.randrange(1, 8))))


def wild_byte(r):
    return r.choice((0, 1, 2, 0xFF, 0x43, 0x4C, 0x50, 0x41, 0x45, 0x4E, 0x31, 0x33, r.randrange(256)))


def mutated(r, b):
    b = bytearray(b)
    for _ in range(r.randrange(1, 5)):
        if b:
            b[r.randrange(len(b))] = wild_byte(r)
    return bytes(b)


def mutated_file(r):
    return mutated(r, file_of(r, small_sheet(r)))


def cut_file(r):
    b = file_of(r, small_sheet(r))
    return b[:r.randrange(len(b) + 1)]


def extended_file(r):
    b = file_of(r, small_sheet(r))
    if r.random() < 0.5:
        return b + bytes(wild_byte(r) for _ in range(r.randrange(1, 6)))
    at = r.randrange(len(b) + 1)
    return b[:at] + bytes(wild_byte(r) for _ in range(r.randrange(1, 4))) + b[at:]


def stray_file(r):
    """A good head, then bytes that are mostly marks."""
    body = b"".join(r.choice((b"CL", b"PA", b"EN", b"\x01\x00", bytes([wild_byte(r)]))) for _ in range(r.randrange(12)))
    return head(r.choice((b"1", b"3")), r.choice((0, 1, 3, 255, 256, 257, 65535))) + body


def stray_bytes(r):
    return bytes(wild_byte(r) for _ in range(r.randrange(40)))


def faulty_entries(r, n, es):
    """Entries of which one is 0, past n, or repeated."""
    es = list(es)
    at = r.randrange(len(es))
    bad = (0, n + 1, -n - 1, 32767, -32768, es[0], -es[0], es[-1])
    es[at] = r.choice(bad)
    return es


def faulty_record(r, n, kind):
    if kind == "width":
        w = r.choice((0, 9, 17, 18, 255))
        return b"CL" + bytes([w]) + word(1) * r.randrange(20) if r.random() < 0.5 else b"PA" + bytes([w, 1]) + word(1) * r.randrange(20)
    if kind == "side":
        return parity(r.choice((2, 3, 128, 255)), *some_switches(r, n, r.choice((1, 2, 3))))
    if kind == "negative":
        vs = some_switches(r, n, 3)
        vs[r.randrange(len(vs))] *= -1
        return parity(r.randrange(2), *vs)
    rule = random_clause(r, n, None) if r.random() < 0.5 else random_parity(r, n, None)
    if kind == "entry":
        es = faulty_entries(r, n, rule[-1])
        return clause(*es) if rule[0] == "C" else parity(rule[1], *es)
    return r.choice((b"XX", b"cl", b"CL", b"PA", b"C", b"EN", b"LC")) + third_record(rule)[2:]


def faulty_file(r):
    n, rules = small_sheet(r)
    kind = r.choice(("width", "side", "negative", "entry", "entry", "mark", "count", "switches"))
    records = [third_record(rule) for rule in rules]
    if kind == "count":
        return third(n, *records, count=r.choice((0, 1, len(records) + 1, len(records) + 256, 65535)))
    if kind == "switches":
        return third(r.choice((0, 257, 256, n - 1, 65535)), *records)
    records.insert(r.randrange(len(records) + 1), faulty_record(r, n, kind))
    return third(n, *records)


def faulty_first_file(r):
    n, rules = small_sheet(r)
    records = [slots(*rule[1]) for rule in only_clauses(r, rules)]
    kind = r.choice(("gap", "gap", "entry", "parity", "count"))
    if kind == "count":
        return first(n, *records, count=r.choice((0, 1, len(records) + 1, 65535)))
    ls = random_clause(r, n, None)[1]
    if kind == "gap":
        es = (ls + [0] * 8)[:8]
        r.shuffle(es)
        bad = b"CL" + b"".join(word(e) for e in es)
    elif kind == "entry":
        bad = slots(*faulty_entries(r, n, ls))
    else:
        bad = parity(1, *some_switches(r, n, 3))
    records.insert(r.randrange(len(records) + 1), bad)
    return first(n, *records)


def full_file(r):
    """About 1,024 rules."""
    n = r.choice((3, 20, 256))
    count = r.choice((1023, 1024, 1025))
    hidden = hidden_setting(r, n, 1)
    rules = [random_parity(r, n, hidden) for _ in range(count)] if r.random() < 0.5 else [("C", [v]) for v in r.choices([v if hidden[v] else -v for v in range(1, n + 1)], k=count)]
    if r.random() < 0.5 and rules[0][0] == "C":
        return first(n, *[slots(*rule[1]) for rule in rules])
    return third(n, *[third_record(rule) for rule in rules])


def damaged_file(r):
    return r.choice((mutated_file, cut_file, extended_file, stray_file, stray_bytes, faulty_file, faulty_first_file))(r)


# Scripts of calls.

def take_call(rule):
    if rule[0] == "C":
        return b"C" + bytes([len(rule[1])]) + b"".join(word(e) for e in rule[1])
    return b"P" + bytes([rule[1], len(rule[2])]) + b"".join(word(e) for e in rule[2])


def settle_call(budget):
    return b"S" + struct.pack("<I", budget)


def copy_call(length):
    return b"B" + word(length)


FREEDOM = b"F"


def unlawful_take(r, n):
    n = max(n, 1)
    rule = random_clause(r, n, None) if r.random() < 0.5 else random_parity(r, n, None)
    kind = r.choice(("entry", "entry", "entry", "wide", "empty", "side", "negative", "any"))
    if kind == "wide":
        es = list(range(1, r.choice((9, 10, 17, 18, 40, 255)) + 1))
        return take_call(("C", es)) if r.random() < 0.5 else take_call(("P", r.choice((0, 1, 2)), es))
    if kind == "empty":
        return take_call(r.choice((("C", []), ("P", 0, []), ("P", 9, []))))
    if kind == "side":
        return take_call(("P", r.choice((2, 3, 17, 255)), some_switches(r, n, 2) if r.random() < 0.5 else [0]))
    if kind == "negative":
        return take_call(("P", 1, [-v for v in some_switches(r, n, 2)]))
    if kind == "any":
        es = [r.randrange(-32768, 32768) for _ in range(r.randrange(12))]
        return take_call(("C", es))
    return take_call(rule[:-1] + (faulty_entries(r, n, rule[-1]),))


def lawful_take(r, n, hidden):
    if n == 0:
        return take_call(("C", [1]))
    return take_call(random_parity(r, n, hidden) if r.random() < 0.3 else random_clause(r, n, hidden))


def some_budget(r, n):
    budgets = [0, 0, 1, 1, 2, 3, 5, 10, 100, 1000]
    if n <= 14:
        budgets += [65535, 1_000_000, 4_294_967_295]
    return r.choice(budgets)


def some_length(r, n):
    return max(0, r.choice((n, n, n, n + 1, n + 7, n - 1, 0, 300)))


def random_calls(r, n, count, rest=()):
    """Calls on a session over n switches; the takes of `rest` come in between, in their order."""
    hidden = hidden_setting(r, n)
    rest = list(rest)
    calls = []
    for _ in range(count):
        fate = r.random()
        if rest and fate < 0.4:
            calls.append(take_call(rest.pop(0)))
        elif fate < 0.15:
            calls.append(lawful_take(r, n, hidden))
        elif fate < 0.3:
            calls.append(unlawful_take(r, n))
        elif fate < 0.6:
            calls.append(settle_call(some_budget(r, n)))
        elif fate < 0.8:
            calls.append(FREEDOM)
        else:
            calls.append(copy_call(some_length(r, n)))
    return calls


def script_of(shape, by, one, two, calls):
    return b"SC" + bytes([shape]) + word(by) + word(len(one)) + word(len(two)) + word(len(calls)) + one + two + b"".join(calls)


def plain_script(r):
    sheet = any_sheet(r)
    return script_of(0, r.randrange(3), file_of(r, sheet), b"", random_calls(r, sheet[0], r.randrange(1, 40)))


def placed_script(r):
    sheet = any_sheet(r)
    n = sheet[0]
    by = r.choice((0, 1, 2, 7, 256 - n, 257 - n, 255, 256, 257, 65535, r.randrange(257)))
    calls = random_calls(r, n + by if n + by <= 256 else 0, r.randrange(1, 30))
    return script_of(1, by, file_of(r, sheet), b"", calls)


def paired_script(r):
    one, two = small_sheet(r), any_sheet(r)
    by = r.choice((0, 0, 1, 5, 256 - one[0], r.randrange(257)))
    two_file = file_of(r, two) if r.random() < 0.8 else damaged_file(r)
    n = max(one[0] + by if one[0] + by <= 256 else 0, two[0])
    return script_of(r.choice((2, 2, 3)), by, file_of(r, one), two_file, random_calls(r, n, r.randrange(1, 30)))


def long_pair_script(r):
    """Pairs of about 2,048 rules and more."""
    n = r.choice((3, 20, 256))
    hidden = hidden_setting(r, n, 1)
    one, two = (third(n, *[third_record(random_parity(r, n, hidden)) for _ in range(count)]) for count in r.choice(((1024, 1), (1024, 0), (1023, 2), (683, 683), (682, 684), (512, 1024))))
    return script_of(3, 0, one, two, random_calls(r, n, r.randrange(1, 12)))


def split_script(r):
    """Clauses of parity rules split between the sheet and the takes."""
    n = r.choice((2, 3, 4, 5, 6, 8, 12, 60, 256))
    rules = [c for _ in range(r.randrange(1, 4)) for c in written_out(r, random_parity(r, n, None, (1, 2, 3, 3, 4, 5)))]
    if r.random() < 0.3:
        rules.pop()
    if r.random() < 0.7:
        r.shuffle(rules)
    at = max(r.randrange(len(rules) + 1), len(rules) - 60)
    calls = []
    for rule in rules[at:]:
        calls.append(take_call(rule))
        if r.random() < 0.6:
            calls.append(FREEDOM)
        if r.random() < 0.3:
            calls.append(settle_call(some_budget(r, n)))
    calls += [FREEDOM, settle_call(1000), copy_call(n)] + random_calls(r, n, r.randrange(6))
    return script_of(0, 0, file_of(r, (n, rules[:at])), b"", calls)


def full_margin_script(r):
    n = r.choice((1, 3, 9, 40, 256))
    hidden = hidden_setting(r, n, 0.9)
    calls = []
    for _ in range(r.randrange(62, 75)):
        calls.append(lawful_take(r, n, hidden))
        if r.random() < 0.15:
            calls.append(r.choice((FREEDOM, settle_call(some_budget(r, n)), unlawful_take(r, n), copy_call(n))))
    calls += [FREEDOM, settle_call(1000), copy_call(n), unlawful_take(r, n), settle_call(5)]
    return script_of(0, 0, file_of(r, (n, mixed_rules(r, n, r.randrange(4), 0.5))), b"", calls)


def stepped_script(r):
    """One search, taken up again with small budgets."""
    sheet = r.choice((small_sheet, middle_sheet))(r)
    n = sheet[0]
    calls = []
    for _ in range(r.randrange(5, 60)):
        calls.append(settle_call(r.choice((0, 1, 1, 1, 2, 3, 7))))
        if r.random() < 0.15:
            calls.append(r.choice((FREEDOM, copy_call(some_length(r, n)), unlawful_take(r, n))))
    return script_of(0, 0, file_of(r, sheet), b"", calls + [settle_call(2000), copy_call(n)])


def damaged_sheet_script(r):
    shape = r.randrange(4)
    two = damaged_file(r) if shape >= 2 else b""
    return script_of(shape, r.choice((0, 1, 256, 300)), damaged_file(r), two, random_calls(r, r.randrange(4), r.randrange(1, 12)))


def damaged_script(r):
    b = r.choice((plain_script, placed_script, paired_script, split_script))(r)
    fate = r.random()
    if fate < 0.3:
        return b[:r.randrange(len(b) + 1)]
    if fate < 0.5:
        return b + bytes(wild_byte(r) for _ in range(r.randrange(1, 4)))
    if fate < 0.6:
        return stray_bytes(r)
    if fate < 0.8:
        front = bytearray(b[:11])
        front[r.randrange(11)] = r.choice((0, 1, 2, 3, 4, 0x53, 0x43, 255))
        return bytes(front) + b[11:]
    one, two = struct.unpack_from("<HH", b, 5)
    at = 11 + one + two
    return b[:at] + mutated_calls(r, b[at:])


def mutated_calls(r, b):
    """Marks and bytes changed, but no budget grown: what a settle costs stays small."""
    b = bytearray(b)
    for _ in range(r.randrange(1, 3)):
        if b:
            b[r.randrange(len(b))] = r.choice((0, 1, 2, 3, 0x43, 0x46))
    return bytes(b)


FILES = (good_file, recovered_file, mutated_file, cut_file, extended_file, stray_file, stray_bytes, faulty_file, faulty_first_file, full_file)
SCRIPTS = (plain_script, placed_script, paired_script, long_pair_script, split_script, full_margin_script, stepped_script, damaged_sheet_script, damaged_script)
WEIGHTS = {good_file: 4, long_pair_script: 0.5, full_file: 0.5, recovered_file: 2, plain_script: 4, paired_script: 2, split_script: 2, stepped_script: 2, faulty_file: 2}


def case(seed, index):
    r = random.Random(f"{seed} {index}")
    makers = FILES + SCRIPTS
    maker = r.choices(makers, [WEIGHTS.get(m, 1) for m in makers])[0]
    return maker.__name__, maker in SCRIPTS, maker(r)


def run(command, data):
    done = subprocess.run(command, input=data, stdout=subprocess.PIPE, stderr=subprocess.PIPE, timeout=LONGEST_SECONDS)
    return done.returncode, done.stdout


class Programs:
    def __init__(self, plain):
        self.plain = plain
        self.report = proved("sheetreport")
        self.script = proved("sessionscript")

    def compare(self, seed, index):
        """The kind of the case, and None or the input with the two outputs."""
        kind, is_script, data = case(seed, index)
        ours = run([self.script] if is_script else [self.report], data)
        plain = run([self.plain, "--script"] if is_script else [self.plain], data)
        same = ours == plain and ours[0] == 0
        return kind, None if same else (data, ours, plain), ours[1]


def keep(seed, index, kind, found):
    os.makedirs(KEPT, exist_ok=True)
    stem = os.path.join(KEPT, f"{seed}-{index}-{kind}")
    data, ours, plain = found
    for suffix, content in (("in", data), ("proved", ours[1]), ("plain", plain[1])):
        with open(f"{stem}.{suffix}", "wb") as f:
            f.write(content)
    print(f"differs: {stem}.in (status {ours[0]} and {plain[0]})")


def build(folder):
    plain = os.path.join(folder, "plain")
    subprocess.run(["rustc", "--edition", "2021", "-O", "-o", plain, os.path.join(ROOT, "bench", "plain.rs")], check=True)
    return plain


def compare_all(programs, options):
    cases, differing, lines = collections.Counter(), collections.Counter(), collections.Counter()
    with concurrent.futures.ThreadPoolExecutor(options.workers) as pool:
        results = pool.map(lambda i: programs.compare(options.seed, i), range(options.cases))
        for index, (kind, found, printed) in enumerate(results):
            cases[kind] += 1
            for line in printed.decode("latin-1").splitlines():
                words = line.split()
                lines[" ".join(words[:3]) if words[0] == "refused" else words[0]] += 1
            if found:
                differing[kind] += 1
                keep(options.seed, index, kind, found)
    return cases, differing, lines


def main():
    parser = argparse.ArgumentParser(description="Compares the proved programs with the plain one.")
    parser.add_argument("--cases", type=int, default=20_000)
    parser.add_argument("--seed", type=int, default=1)
    parser.add_argument("--workers", type=int, default=1)
    options = parser.parse_args()
    with tempfile.TemporaryDirectory() as folder:
        programs = Programs(build(folder))
        cases, differing, lines = compare_all(programs, options)
    print(f"{'kind':24}{'cases':>8}{'differ':>8}")
    for maker in FILES + SCRIPTS:
        kind = maker.__name__
        print(f"{kind:24}{cases[kind]:8}{differing[kind]:8}")
    print(f"{'all':24}{sum(cases.values()):8}{sum(differing.values()):8}")
    print("lines printed: " + ", ".join(f"{line} {count}" for line, count in sorted(lines.items())))
    sys.exit(1 if differing else 0)


if __name__ == "__main__":
    main()

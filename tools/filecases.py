#!/usr/bin/env python3
"""Writes the cases of the program filecases: crates/filecases/stdin and stdout.

The expected lines come from the check below, which shares nothing with the crates: it is written from docs/files.md.
stdin: the number of cases, then each case as its length and its bytes; numbers are two bytes, the low byte first.
"""
import struct

GOOD = object()


def word(n):
    return struct.pack("<H", n & 0xFFFF)


def fault(number, record, place):
    return f"refused {number} file {record} {place}"


def check(b):
    third = len(b) >= 2 and b[1] == 0x33
    if len(b) < 4 or b[0] != 0x46 or b[1] != (0x33 if third else 0x31):
        return fault(1, 0, 0)
    n = b[2] + 256 * b[3]
    if not 1 <= n <= 256:
        return fault(2, 0, 2)
    p, k = 4, 0
    while True:
        mark = b[p:p + 2]
        if mark == b"EN":
            if len(b) < p + 4:
                return fault(3, k, p)
            if b[p + 2] + 256 * b[p + 3] != k:
                return fault(7, k, p + 2)
            if len(b) > p + 4:
                return fault(7, k, p + 4)
            return f"sheet {n} {k}"
        if mark != b"CL" and not (third and mark == b"PA"):
            return fault(3, k, p)
        if k == 1024:
            return fault(7, k, p)
        parity = mark == b"PA"
        if third:
            if len(b) < p + 3:
                return fault(3, k, p)
            w = b[p + 2]
            if not 1 <= w <= (16 if parity else 8):
                return fault(4, k, p + 2)
            first = p + (4 if parity else 3)
            if len(b) < first + 2 * w:
                return fault(3, k, p)
            if parity and b[p + 3] > 1:
                return fault(5, k, p + 3)
            size = first + 2 * w - p
        else:
            if len(b) < p + 18:
                return fault(3, k, p)
            first, size = p + 2, 18
            filled = [b[first + 2 * i:first + 2 * i + 2] != b"\0\0" for i in range(8)]
            if not filled[0]:
                return fault(4, k, first)
            w = filled.index(False) if False in filled else 8
            for i in range(w, 8):
                if filled[i]:
                    return fault(4, k, first + 2 * i)
        seen = set()
        for i in range(w):
            at = first + 2 * i
            e = struct.unpack_from("<h", b, at)[0]
            if e == 0 or abs(e) > n or (parity and e < 0):
                return fault(5, k, at)
            if abs(e) in seen:
                return fault(6, k, at)
            seen.add(abs(e))
        p += size
        k += 1


def head(year, n):
    return b"F" + year + word(n)


def end(count):
    return b"EN" + word(count)


def clause(*ls):
    return b"CL" + bytes([len(ls)]) + b"".join(word(l) for l in ls)


def parity(side, *vs):
    return b"PA" + bytes([len(vs), side]) + b"".join(word(v) for v in vs)


def slots(*es):
    return b"CL" + b"".join(word(e) for e in es) + b"\0\0" * (8 - len(es))


def third(n, *records, count=None):
    return head(b"3", n) + b"".join(records) + end(len(records) if count is None else count)


def first(n, *records, count=None):
    return head(b"1", n) + b"".join(records) + end(len(records) if count is None else count)


def cases():
    # widths, and the longest rules
    for w in range(0, 20):
        yield third(20, clause(*range(1, w + 1)))
        yield third(20, parity(1, *range(1, w + 1)))
    for w in range(1, 9):
        yield first(20, slots(*range(1, w + 1)))
    # numbers of switches
    for n in (0, 1, 255, 256, 257, 65535):
        yield third(n, clause(1))
        yield first(n, slots(-1))
    # entries, under either sign, and repeats
    for e in (0, 1, 5, 6, 7, -1, -5, -6, -32768, 32767):
        yield third(5, clause(2, e))
        yield third(5, parity(0, 2, e))
        yield first(5, slots(2, e))
        yield third(5, clause(3), clause(4, 2, e, 2))
        yield first(5, slots(3), slots(4, 2, e, 2))
    for e in (3, -3):
        yield third(5, clause(1, 3, e))
        yield first(5, slots(1, 3, e))
    # 5 before 6 at each entry, and the first entry at fault
    yield third(5, clause(1, 1, 9))
    yield third(5, clause(9, 1, 1))
    yield first(5, slots(1, 1, 9))
    yield first(5, slots(9, 1, 1))
    # sides
    for side in (0, 1, 2, 255):
        yield third(3, parity(side, 1, 2))
        yield third(3, parity(side, 1, 2))[:-6]
    # a record cut short after each byte, with nothing behind it
    for whole in (third(3, clause(1, -2), parity(1, 1, 2, 3)), first(3, slots(1, -2), slots(3))):
        for cut in range(len(whole) + 1):
            yield whole[:cut]
        yield whole + b"E"
        yield whole + b"CL"
    # marks
    for mark in (b"CL", b"PA", b"EN", b"XX", b"cl", b"C", b"P", b"E", b""):
        yield head(b"3", 3) + mark
        yield head(b"1", 3) + mark
        yield head(b"3", 3) + clause(1) + mark
        yield head(b"1", 3) + slots(1) + mark
    yield first(3, parity(1, 1, 2, 3))
    for year in (b"0", b"2", b"4", b"\xff"):
        yield head(year, 3) + end(0)
    yield b"G3" + word(3) + end(0)
    yield b"G1" + word(3) + end(0)
    # counts at the end
    for count in (0, 1, 2, 3, 258, 65535):
        yield third(3, clause(1), clause(2), count=count)
        yield first(3, slots(1), slots(2), count=count)
    # 1,024 rules and one more
    many = clause(1) * 1024
    yield head(b"3", 3) + many + end(1024)
    for tail in (clause(1) + end(1025), b"CL", b"PA", b"C", b"XX", b"", b"CL\x09"):
        yield head(b"3", 3) + many + tail
    many = slots(1) * 1024
    yield head(b"1", 3) + many + end(1024)
    for tail in (slots(1) + end(1025), b"CL", b"PA", b"C", b""):
        yield head(b"1", 3) + many + tail
    # each pattern of filled and empty slots
    for pattern in range(256):
        yield first(9, b"CL" + b"".join(word(i + 1 if pattern >> i & 1 else 0) for i in range(8)))
    # a gap comes before a bad entry, and half a slot is filled
    yield first(3, slots(9, 0, 1))
    yield first(3, b"CL" + b"\0\1" + b"\0" * 14)
    yield first(3, b"CL" + word(1) + b"\0\1" + b"\0" * 12)


def main():
    everything = list(cases())
    with open("crates/filecases/stdin", "wb") as f:
        f.write(word(len(everything)))
        for case in everything:
            f.write(word(len(case)) + case)
    with open("crates/filecases/stdout", "w") as f:
        for case in everything:
            f.write(check(case) + "\n")
    print(len(everything), "cases")


if __name__ == "__main__":
    main()

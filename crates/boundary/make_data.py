#!/usr/bin/env python3
"""Writes the case files of this crate, data/list and stdout.

Run it with no arguments; it replaces what an earlier run wrote. Every expected
line is stated by hand from the layout of case files:

A file is 25 bytes of contents, then five sections: first table, second table,
wiring, formula, steps. The contents have a letter and a 32-bit length for each.
A table's section T is: states n (16 bits), atoms a, fairness sets b (a byte
each), 1 + a + b sets of w = ceil(n / 8) bytes, n cumulative move counts and the
targets (16 bits each). Numbers are little-endian.

Offsets in a file whose first table is a T: n 25, a 27, b 28, start set 29, set
j 29 + j * w, counts 29 + (1 + a + b) * w, targets 2 * n further. So with n = 3,
a = 0, b = 1: sets at 29 and 30, counts at 31, 33, 35, targets from 37.
"""

from pathlib import Path

CRATE = Path(__file__).resolve().parent


def u16s(numbers):
    """Numbers of 16 bits, one after the other."""
    return b"".join(x.to_bytes(2, "little") for x in numbers)


def table(n=3, a=0, b=1, start=1, atoms=None, fairness=None, counts=None, targets=None):
    """A section T. Sets are numbers whose bit s stands for state s.

    By default state 0 is the start state, every atom is empty, every fairness
    set is full, and each state moves to itself.
    """
    width = (n + 7) // 8
    sets = [start]
    sets += [0] * a if atoms is None else atoms
    sets += [2**n - 1] * b if fairness is None else fairness
    return (
        u16s([n])
        + bytes([a, b])
        + b"".join(x.to_bytes(width, "little") for x in sets)
        + u16s(range(1, n + 1) if counts is None else counts)
        + u16s(range(n) if targets is None else targets)
    )


def dense(n, moves):
    """A section T of n states with so many moves: 16 a state, the last has what is left."""
    last = moves - 16 * (n - 1)
    return table(
        n=n,
        counts=[16 * (s + 1) for s in range(n - 1)] + [moves],
        targets=list(range(16)) * (n - 1) + list(range(last)),
    )


def case(first=table(), second=b"", wiring=b"", formula=b"", steps=b"", letters="TTNFP", lengths=None):
    """A case file of its sections; lengths replaces their true lengths in the contents."""
    sections = [first, second, wiring, formula, steps]
    if lengths is None:
        lengths = [len(x) for x in sections]
    contents = b"".join(x.encode() + y.to_bytes(4, "little") for x, y in zip(letters, lengths))
    return contents + b"".join(sections)


def filled(length, letters="TTNFP"):
    """A case file of that length: the default table, and steps of zeros."""
    return case(steps=bytes(length - 25 - len(table())), letters=letters)


SIZE = len(table())  # 18 bytes: 4, two sets, three counts, three targets

# Name, file, expected line.
CASES = [
    # the number of states
    ("states-1", case(table(n=1)), "states 1"),
    ("states-3", case(), "states 3"),
    ("states-1024", case(table(n=1024)), "states 1024"),
    ("states-0", case(table(n=0, start=0)), "refused 3 25"),
    ("states-1025", case(table(n=1025)), "refused 3 25"),
    ("states-65535", case(u16s([65535]) + table()[2:]), "refused 3 25"),
    ("states-big-endian", case(bytes([0, 3]) + table()[2:]), "refused 3 25"),
    # the number of atoms
    ("atoms-0", case(table(a=0)), "states 3"),
    ("atoms-16", case(table(a=16)), "states 3"),
    ("atoms-17", case(table(a=17)), "refused 3 27"),
    ("atoms-255", case(table(a=255)), "refused 3 27"),
    # the number of fairness sets
    ("fairness-1", case(table(b=1)), "states 3"),
    ("fairness-4", case(table(b=4)), "states 3"),
    ("fairness-0", case(table(b=0)), "refused 3 28"),
    ("fairness-5", case(table(b=5)), "refused 3 28"),
    # bits at n or above; the place is that of the set, not of the byte
    ("stray-start", case(table(start=0b1001)), "refused 4 29"),
    ("stray-start-top-bit", case(table(start=0b10000001)), "refused 4 29"),
    ("stray-atom", case(table(a=2, atoms=[0b111, 0b1000])), "refused 4 31"),
    ("stray-last-fairness", case(table(a=2, b=2, fairness=[0b111, 0b1111])), "refused 4 33"),
    ("stray-two-sets", case(table(a=2, atoms=[0b1000, 0], fairness=[0b1111])), "refused 4 30"),
    ("stray-1-state", case(table(n=1, start=0b11)), "refused 4 29"),
    ("stray-second-byte", case(table(n=9, a=1, atoms=[2**9])), "refused 4 31"),
    ("sets-full-7-states", case(table(n=7, start=2**7 - 1)), "states 7"),
    ("sets-full-byte-7-states", case(table(n=7, start=2**8 - 1)), "refused 4 29"),
    ("sets-full-8-states", case(table(n=8, a=1, start=255, atoms=[255])), "states 8"),
    ("sets-full-9-states", case(table(n=9, start=2**9 - 1)), "states 9"),
    ("sets-full-1024-states", case(table(n=1024, a=1, start=2**1024 - 1, atoms=[2**1024 - 1])), "states 1024"),
    ("start-last-of-9-states", case(table(n=9, start=2**8)), "states 9"),
    # the counts of moves
    ("moves-16384", case(dense(1024, 16384)), "states 1024"),
    ("moves-16385", case(dense(1024, 16385)), "refused 5 2331"),  # 29 + 2 * 128 + 2 * 1023
    ("moves-65535", case(table(n=1, counts=[65535], targets=[0])), "refused 5 31"),
    ("counts-first-0", case(table(counts=[0, 1, 2], targets=[0, 0])), "refused 5 31"),
    ("counts-equal", case(table(counts=[1, 1, 2], targets=[0, 0])), "refused 5 33"),
    ("counts-falling", case(table(counts=[2, 1, 3], targets=[0, 1, 0])), "refused 5 33"),
    ("counts-last-equal", case(table(counts=[1, 2, 2], targets=[0, 0])), "refused 5 35"),
    ("counts-first-of-two-faults", case(table(counts=[1, 16385, 0], targets=[])), "refused 5 33"),
    ("counts-big-endian", case(table(counts=[0x100, 0x200, 0x300])), "refused 6 25"),
    # the targets
    ("targets-all-pairs", case(table(counts=[3, 6, 9], targets=[0, 1, 2] * 3)), "states 3"),
    ("targets-equal-across-states", case(table(targets=[1, 1, 1])), "states 3"),
    ("targets-falling-across-states", case(table(targets=[2, 1, 0])), "states 3"),
    ("targets-equal", case(table(counts=[2, 3, 4], targets=[1, 1, 0, 0])), "refused 6 39"),
    ("targets-equal-0", case(table(counts=[2, 3, 4], targets=[0, 0, 0, 0])), "refused 6 39"),
    ("targets-falling", case(table(counts=[2, 3, 4], targets=[2, 1, 0, 0])), "refused 6 39"),
    ("targets-falling-last-state", case(table(counts=[1, 2, 4], targets=[0, 0, 2, 1])), "refused 6 43"),
    ("target-n", case(table(targets=[0, 3, 0])), "refused 6 39"),
    ("target-n-second-in-state", case(table(counts=[1, 2, 4], targets=[0, 0, 2, 3])), "refused 6 43"),
    ("target-65535", case(table(targets=[0, 0, 65535])), "refused 6 41"),
    ("target-1024-of-1024", case(table(n=1024, targets=[0] * 1023 + [1024])), "refused 6 4379"),  # 29 + 256 + 2048 + 2046
    ("targets-big-endian", case(table(targets=[0x100, 0x100, 0x100])), "refused 6 37"),
    ("targets-2-bytes-more", case(table(targets=[0, 0, 0, 0])), "refused 6 25"),
    ("targets-2-bytes-fewer", case(table(targets=[0, 0])), "refused 6 25"),
    ("targets-1-byte-more", case(table() + bytes(1)), "refused 6 25"),
    ("targets-1-byte-fewer", case(table()[:-1]), "refused 6 25"),
    ("targets-absent", case(table(targets=[])), "refused 6 25"),
    # the start set
    ("start-empty", case(table(start=0)), "refused 7 29"),
    ("start-empty-1024-states", case(table(n=1024, start=0)), "refused 7 29"),
    # the length of the section; what follows it is not read for it
    ("section-0-bytes", case(b"", steps=table()), "refused 3 25"),
    ("section-3-bytes", case(table()[:3], steps=table()[3:]), "refused 3 25"),
    ("section-4-bytes", case(table()[:4], steps=table()[4:]), "refused 3 25"),
    ("section-1-byte-short-for-counts", case(table()[:11], steps=table()[11:]), "refused 3 25"),
    ("section-ends-after-counts", case(table()[:12], steps=table()[12:]), "refused 6 25"),
    ("section-to-the-limit", case(table() + bytes(65536 - 25 - SIZE)), "refused 6 25"),
    # every count at its most
    (
        "all-at-most",
        case(table(n=1024, a=16, b=4, counts=range(16, 16385, 16), targets=list(range(1008, 1024)) * 1024)),
        "states 1024",
    ),
    # the length of the file
    ("file-empty", b"", "refused 2 0"),
    ("file-1-byte", b"T", "refused 2 0"),
    ("file-24-bytes", case(b"")[:24], "refused 2 0"),
    ("file-25-bytes", case(b""), "refused 3 25"),
    ("file-65536-bytes", filled(65536), "states 3"),
    ("file-65537-bytes", filled(65537), "refused 1 0"),
    # the letters
    ("letter-1-wrong", case(letters="NTNFP"), "refused 2 0"),
    ("letter-2-wrong", case(letters="TNNFP"), "refused 2 0"),
    ("letter-3-wrong", case(letters="TTTFP"), "refused 2 0"),
    ("letter-4-wrong", case(letters="TTNNP"), "refused 2 0"),
    ("letter-5-wrong", case(letters="TTNFF"), "refused 2 0"),
    ("letter-1-lower-case", case(letters="tTNFP"), "refused 2 0"),
    ("letter-2-lower-case", case(letters="TrNFP"), "refused 2 0"),
    ("letters-swapped", case(letters="TTFNP"), "refused 2 0"),
    # the lengths in the contents
    ("lengths-1-byte-more", case() + bytes(1), "refused 2 0"),
    ("lengths-1-byte-fewer", case()[:-1], "refused 2 0"),
    ("lengths-wrap-two", case(lengths=[SIZE, 2**31, 2**31, 0, 0]), "refused 2 0"),
    ("lengths-wrap-first", case(lengths=[2**32 - 1, SIZE + 1, 0, 0, 0]), "refused 2 0"),
    ("lengths-wrap-last", case(lengths=[SIZE, 1, 0, 0, 2**32 - 1]), "refused 2 0"),
    ("lengths-16-bits", case(lengths=[SIZE + 2**16, 0, 0, 0, 0]), "refused 2 0"),
    ("lengths-big-endian", case(lengths=[SIZE * 2**24, 0, 0, 0, 0]), "refused 2 0"),
    # the other sections: only their lengths count
    ("others-present", case(second=table(n=1), wiring=b"\xff", formula=b"\xff\xff", steps=b"\xff" * 3), "states 3"),
    ("second-listed", case(second=table(n=1)), "states 3"),
    ("second-register", case(second=b"\xff", letters="TRNFP"), "states 3"),
    ("second-only", case(b"", second=table()), "refused 3 25"),
    ("second-behind-refused", case(table(start=0), second=table()), "refused 7 29"),
    ("first-register", case(b"\xff", letters="RTNFP"), "not shown yet: first table, section R"),
    ("first-register-absent", case(b"", letters="RRNFP"), "not shown yet: first table, section R"),
    # faults together: the first in order is named
    ("order-1-2-letter", filled(65537, letters="NTNFP"), "refused 1 0"),
    ("order-1-2-lengths", filled(65536) + bytes(1), "refused 1 0"),
    ("order-2-3", case(table(b=0)) + bytes(1), "refused 2 0"),
    ("order-2-register-letter", case(b"\xff", letters="RTNFN"), "refused 2 0"),
    ("order-2-register-lengths", case(b"\xff", letters="RTNFP") + bytes(1), "refused 2 0"),
    ("order-3-short-atoms", case(bytes([3, 0, 17])), "refused 3 25"),
    ("order-3-states-0-atoms", case(bytes([0, 0, 17, 5])), "refused 3 25"),
    ("order-3-states-1025-atoms", case(bytes([1, 4, 17, 5])), "refused 3 25"),
    ("order-3-atoms-fairness-0", case(bytes([3, 0, 17, 0])), "refused 3 27"),
    ("order-3-atoms-fairness-5", case(bytes([3, 0, 17, 5])), "refused 3 27"),
    ("order-3-fairness-short", case(bytes([3, 0, 0, 5])), "refused 3 28"),
    ("order-3-4-fairness", case(table(b=5, start=0b1001)), "refused 3 28"),
    ("order-3-4-short", case(table(start=0b1001)[:11]), "refused 3 25"),
    ("order-4-5", case(table(fairness=[0b1111], counts=[0, 1, 2])), "refused 4 30"),
    ("order-5-6-length", case(table(counts=[1, 2, 2])), "refused 5 35"),
    ("order-5-6-target", case(table(counts=[1, 2, 2], targets=[3, 3])), "refused 5 35"),
    ("order-6-length-target", case(table(targets=[3, 3])), "refused 6 25"),
    ("order-6-7-length", case(table(start=0) + bytes(2)), "refused 6 25"),
    ("order-6-7-target", case(table(start=0, targets=[0, 0, 3])), "refused 6 41"),
    ("order-4-7", case(table(start=0, fairness=[0b1000])), "refused 4 30"),
]


def main():
    """Replaces data/ and stdout."""
    assert len({name for name, _, _ in CASES}) == len(CASES), "two cases of one name"
    data = CRATE / "data"
    data.mkdir(exist_ok=True)
    for old in data.glob("*.case"):
        old.unlink()
    for name, file, _ in CASES:
        (data / f"{name}.case").write_bytes(file)
    (data / "list").write_text("".join(f"{name}.case\n" for name, _, _ in CASES))
    (CRATE / "stdout").write_text("".join(f"{name}.case: {line}\n" for name, _, line in CASES))


if __name__ == "__main__":
    main()

#!/usr/bin/env python3
"""Writes the case files of this crate, data/list, data/texts and stdout.

Run it with no arguments; it replaces what an earlier run wrote. Every expected
line is stated by hand from the layout of case files:

A file is 25 bytes of contents, then five sections: first table, second table,
wiring list, formula, steps. The contents have a letter and a 32-bit length for
each. Numbers are little-endian. The expected line is the first of the text of
the whole: `states N`, or `refused FAULT PLACE`.

A table's section T is: states n (16 bits), atoms a, fairness sets b (a byte
each), 1 + a + b sets of w = ceil(n / 8) bytes, n cumulative move counts and the
targets (16 bits each).

Offsets in a file whose first table is a T: n 25, a 27, b 28, start set 29, set
j 29 + j * w, counts 29 + (1 + a + b) * w, targets 2 * n further. So with n = 3,
a = 0, b = 1, the table that most cases change: sets at 29 and 30, counts at 31,
33, 35, targets at 37, 39, 41, the end at 43.

A table's section R is single bytes: registers r, inputs h, gates g, atoms a,
fairness sets b, two operands a gate, then the numbers of the values that stand
for the registers' next states, the start set, the atoms, the fairness sets. The
values are 0 (false), registers 1 to r, inputs r + 1 to r + h, then the gates.

Offsets in a file whose first table is an R: r 25, h 26, g 27, a 28, b 29, gate j
30 + 2 * j, registers 30 + 2 * g, start r further, atoms, fairness sets. So with
r = 1, h = 0, g = 1, a = 0, b = 1, the circuit that most cases change: operands
at 30 and 31, register 32, start 33, fairness set 34, the end at 35; its values
are false 0, the register 1, the gate 2.

The second section's offsets are those of a first, moved on by the first
section's length: by 18 behind the default T, by 10 behind the default R.

The files of texts/ (hexadecimal) are shown whole: each NAME.txt is the text,
worked out by hand in NAME.md. nested.txt is the text of a table that the
program puts together itself.
"""

import sys
from pathlib import Path

CRATE = Path(__file__).resolve().parent
sys.dont_write_bytecode = True
sys.path.insert(0, str(CRATE.parent / "boundary"))
# the script of that name in `boundary`: how a section T and a case file are laid out, and the cases of the first table
from make_data import CASES as OF_FIRST_TABLE, case, table, u16s


def circuit(r=1, h=0, g=1, a=0, b=1, gates=None, registers=None, start=None, atoms=None, fairness=None):
    """A section R.

    By default every gate is true (the NAND of 0 and 0), the registers keep their
    values, the start set is all states (gate 0; without gates, register 0), the
    atoms are empty, and the fairness sets are all states, too.
    """
    true = 1 + r + h if g else 1
    return (
        bytes([r, h, g, a, b])
        + b"".join(bytes(x) for x in ([(0, 0)] * g if gates is None else gates))
        + bytes(range(1, r + 1) if registers is None else registers)
        + bytes([true if start is None else start])
        + bytes([0] * a if atoms is None else atoms)
        + bytes([true] * b if fairness is None else fairness)
    )


def register_case(first=circuit(), second=b"", letters="RTNFP", **others):
    """A case file whose first table is a register circuit."""
    return case(first, second, letters=letters, **others)


MOST = {"r": 10, "h": 4, "g": 200, "a": 16, "b": 4}  # the counts of a circuit at their most


def of_first_table(first, last):
    """The cases of `boundary` from one name to another: the whole file's line is that of its first table."""
    names = [name for name, _, _ in OF_FIRST_TABLE]
    return OF_FIRST_TABLE[names.index(first) : names.index(last) + 1]


# Name, file, expected line.
CASES = [
    *of_first_table("states-1", "lengths-big-endian"),
    # formula and steps: only their lengths count
    ("others-present", case(second=table(n=1), wiring=b"\xff", formula=b"\xff\xff", steps=b"\xff" * 3), "refused 9 53"),
    ("formula-and-steps-not-read", case(second=table(n=1), formula=b"\xff\xff", steps=b"\xff" * 3), "states 3"),
    # a register circuit: the number of registers
    ("registers-1", register_case(circuit(r=1)), "states 2"),
    ("registers-2", register_case(circuit(r=2)), "states 4"),
    ("registers-10", register_case(circuit(r=10)), "states 1024"),
    ("registers-0", register_case(circuit(r=0)), "refused 3 25"),
    ("registers-11", register_case(circuit(r=11)), "refused 3 25"),
    ("registers-255", register_case(b"\xff" + circuit()[1:]), "refused 3 25"),
    # the number of inputs
    ("inputs-0", register_case(circuit(h=0)), "states 2"),
    ("inputs-4", register_case(circuit(h=4)), "states 2"),
    ("inputs-5", register_case(circuit(h=5)), "refused 3 26"),
    ("inputs-255", register_case(b"\1\xff" + circuit()[2:]), "refused 3 26"),
    # the number of gates
    ("gates-0", register_case(circuit(g=0)), "states 2"),
    ("gates-200", register_case(circuit(g=200)), "states 2"),
    ("gates-201", register_case(circuit(g=201)), "refused 3 27"),
    ("gates-255", register_case(b"\1\0\xff" + circuit()[3:]), "refused 3 27"),
    # the numbers of atoms and fairness sets
    ("circuit-atoms-0", register_case(circuit(a=0)), "states 2"),
    ("circuit-atoms-16", register_case(circuit(a=16)), "states 2"),
    ("circuit-atoms-17", register_case(circuit(a=17)), "refused 3 28"),
    ("circuit-atoms-255", register_case(circuit(a=255)), "refused 3 28"),
    ("circuit-fairness-1", register_case(circuit(b=1)), "states 2"),
    ("circuit-fairness-4", register_case(circuit(b=4)), "states 2"),
    ("circuit-fairness-0", register_case(circuit(b=0)), "refused 3 29"),
    ("circuit-fairness-5", register_case(circuit(b=5)), "refused 3 29"),
    ("circuit-fairness-255", register_case(circuit(b=255)), "refused 3 29"),
    # the length of its section; what follows it is not read for it
    ("circuit-0-bytes", register_case(b"", steps=circuit()), "refused 3 25"),
    ("circuit-1-byte", register_case(circuit()[:1], steps=circuit()[1:]), "refused 3 25"),
    ("circuit-2-bytes", register_case(circuit()[:2], steps=circuit()[2:]), "refused 3 25"),
    ("circuit-3-bytes", register_case(circuit()[:3], steps=circuit()[3:]), "refused 3 25"),
    ("circuit-4-bytes", register_case(circuit()[:4], steps=circuit()[4:]), "refused 3 25"),
    ("circuit-5-bytes", register_case(circuit()[:5], steps=circuit()[5:]), "refused 3 25"),
    ("circuit-1-byte-fewer", register_case(circuit()[:-1], steps=circuit()[-1:]), "refused 3 25"),
    ("circuit-1-byte-more", register_case(circuit() + bytes(1)), "refused 3 25"),
    ("circuit-256-bytes-more", register_case(circuit() + bytes(256)), "refused 3 25"),
    ("circuit-read-as-listed", case(circuit()), "refused 3 28"),  # by the layout of T: n 1, a 1, b 0
    ("listed-read-as-circuit", register_case(table()), "refused 3 25"),  # by that of R: r 3, a 1, b 1
    ("first-register", register_case(b"\xff"), "refused 3 25"),
    ("first-register-absent", register_case(b"", letters="RRNFP"), "refused 3 25"),
    # operands: gate 0 is value 2, gate 1 is value 3
    ("gate-names-itself", register_case(circuit(gates=[(2, 0)])), "refused 6 30"),
    ("gate-names-itself-second", register_case(circuit(gates=[(0, 2)])), "refused 6 31"),
    ("gate-names-itself-twice", register_case(circuit(gates=[(2, 2)])), "refused 6 30"),
    ("gate-names-register", register_case(circuit(gates=[(1, 1)])), "states 2"),
    ("gate-names-predecessor", register_case(circuit(g=2, gates=[(0, 0), (2, 2)])), "states 2"),
    ("gate-names-successor", register_case(circuit(g=2, gates=[(3, 0), (0, 0)])), "refused 6 30"),
    ("gate-names-successor-second", register_case(circuit(g=2, gates=[(0, 3), (0, 0)])), "refused 6 31"),
    ("gate-1-names-itself", register_case(circuit(g=2, gates=[(0, 0), (3, 0)])), "refused 6 32"),
    ("gate-1-names-itself-second", register_case(circuit(g=2, gates=[(0, 0), (2, 3)])), "refused 6 33"),
    ("gate-names-255", register_case(circuit(gates=[(255, 0)])), "refused 6 30"),
    ("gates-first-of-two-faults", register_case(circuit(g=2, gates=[(1, 2), (4, 4)])), "refused 6 31"),
    ("gate-names-input", register_case(circuit(h=1, gates=[(2, 2)])), "states 2"),  # the input is value 2, the gate 3
    ("gate-of-1-input-names-itself", register_case(circuit(h=1, gates=[(2, 3)])), "refused 6 31"),
    # gate 199 is value 201, its operands are at 428 and 429
    ("gate-199-names-predecessor", register_case(circuit(g=200, gates=[(0, 0)] * 199 + [(200, 200)])), "states 2"),
    ("gate-199-names-itself", register_case(circuit(g=200, gates=[(0, 0)] * 199 + [(200, 201)])), "refused 6 429"),
    ("gate-names-last-input-of-4", register_case(circuit(r=10, h=4, gates=[(10, 14)])), "states 1024"),
    ("gate-of-4-inputs-names-itself", register_case(circuit(r=10, h=4, gates=[(14, 15)])), "refused 6 31"),
    # the values named for registers, start set, atoms and fairness sets are below 3
    ("register-value-2", register_case(circuit(registers=[2])), "states 2"),
    ("register-value-3", register_case(circuit(registers=[3])), "refused 6 32"),
    ("register-value-255", register_case(circuit(registers=[255])), "refused 6 32"),
    ("start-value-2", register_case(circuit(start=2)), "states 2"),
    ("start-value-3", register_case(circuit(start=3)), "refused 6 33"),
    ("atom-value-2", register_case(circuit(a=1, atoms=[2])), "states 2"),
    ("atom-value-3", register_case(circuit(a=1, atoms=[3])), "refused 6 34"),
    ("atom-1-value-3", register_case(circuit(a=2, atoms=[2, 3])), "refused 6 35"),
    ("fairness-value-2", register_case(circuit(fairness=[2])), "states 2"),
    ("fairness-value-3", register_case(circuit(fairness=[3])), "refused 6 34"),
    ("fairness-value-3-behind-atom", register_case(circuit(a=1, fairness=[3])), "refused 6 35"),
    ("fairness-1-value-3", register_case(circuit(b=2, fairness=[2, 3])), "refused 6 35"),
    # r 2, h 1, g 2: values below 6; registers at 34 and 35, start 36, atom 37, fairness set 38
    ("register-1-value-5", register_case(circuit(r=2, h=1, g=2, registers=[5, 5])), "states 4"),
    ("register-1-value-6", register_case(circuit(r=2, h=1, g=2, registers=[5, 6])), "refused 6 35"),
    ("start-value-5", register_case(circuit(r=2, h=1, g=2, start=5)), "states 4"),
    ("start-value-6", register_case(circuit(r=2, h=1, g=2, start=6)), "refused 6 36"),
    ("atom-value-5", register_case(circuit(r=2, h=1, g=2, a=1, atoms=[5])), "states 4"),
    ("atom-value-6", register_case(circuit(r=2, h=1, g=2, a=1, atoms=[6])), "refused 6 37"),
    ("fairness-value-5", register_case(circuit(r=2, h=1, g=2, a=1, fairness=[5])), "states 4"),
    ("fairness-value-6", register_case(circuit(r=2, h=1, g=2, a=1, fairness=[6])), "refused 6 38"),
    # without gates, r 1, h 1: values below 3, the last one an input
    ("no-gates-register-value-2", register_case(circuit(h=1, g=0, registers=[2])), "states 2"),
    ("no-gates-register-value-3", register_case(circuit(h=1, g=0, registers=[3])), "refused 6 30"),
    ("no-gates-fairness-value-3", register_case(circuit(h=1, g=0, fairness=[3])), "refused 6 32"),
    # inputs may be named everywhere; r 1, h 1, g 1: the input is value 2, the gate 3
    ("register-names-input", register_case(circuit(h=1, registers=[2])), "states 2"),
    ("atom-names-input", register_case(circuit(h=1, a=1, atoms=[2])), "states 2"),
    ("fairness-names-input", register_case(circuit(h=1, fairness=[2])), "states 2"),
    ("registers-name-false", register_case(circuit(registers=[0])), "states 2"),
    # start values that are false in every state, and some that are true in one or more
    ("start-false", register_case(circuit(start=0)), "refused 7 33"),
    ("start-input", register_case(circuit(h=1, start=2)), "refused 7 33"),
    ("start-input-3-of-4", register_case(circuit(r=2, h=4, start=6)), "refused 7 34"),
    ("start-not-input", register_case(circuit(h=1, gates=[(2, 2)], start=3)), "states 2"),
    ("start-gate-false", register_case(circuit(g=2, gates=[(0, 0), (2, 2)], start=3)), "refused 7 35"),
    ("start-gate-needs-input", register_case(circuit(h=1, g=2, gates=[(2, 2), (3, 3)], start=4)), "refused 7 35"),
    # 3 is not register 0, 4 is true, 5 is false
    ("start-contradiction", register_case(circuit(r=2, g=3, gates=[(1, 1), (1, 3), (4, 4)], start=5)), "refused 7 38"),
    ("start-register", register_case(circuit(start=1)), "states 2"),
    ("start-register-9", register_case(circuit(r=10, start=10)), "states 1024"),
    ("start-not-register", register_case(circuit(gates=[(1, 1)], start=2)), "states 2"),
    ("start-both-registers", register_case(circuit(r=2, g=2, gates=[(1, 2), (3, 3)], start=4)), "states 4"),
    ("start-false-all-at-most", register_case(circuit(**MOST, start=0)), "refused 7 440"),
    # every count of a circuit at its most: gate 0 is value 15, every gate uses the two values before it; operands end
    # at 429, registers at 439, start is 440, atoms end at 456, fairness sets at 460
    (
        "circuit-all-at-most",
        register_case(
            circuit(
                **MOST,
                gates=[(13 + j, 14 + j) for j in range(200)],
                registers=range(205, 215),
                start=15,
                atoms=range(199, 215),
                fairness=[14, 1, 213, 214],
            )
        ),
        "states 1024",
    ),
    ("circuit-all-at-most-gate", register_case(circuit(**MOST, gates=[(0, 0)] * 199 + [(213, 214)])), "refused 6 429"),
    ("circuit-all-at-most-register", register_case(circuit(**MOST, registers=[214] * 9 + [215])), "refused 6 439"),
    ("circuit-all-at-most-start", register_case(circuit(**MOST, start=215)), "refused 6 440"),
    ("circuit-all-at-most-atom", register_case(circuit(**MOST, atoms=[214] * 15 + [215])), "refused 6 456"),
    ("circuit-all-at-most-fairness", register_case(circuit(**MOST, fairness=[214] * 3 + [215])), "refused 6 460"),
    # a second table, behind 18 bytes of a first: absent where it has no bytes, whatever its letter
    ("second-listed", case(second=table(n=1)), "states 3"),
    ("second-register", case(second=b"\xff", letters="TRNFP"), "refused 3 43"),
    ("second-register-passes", case(second=circuit(), letters="TRNFP"), "states 6"),
    ("second-absent-register", case(letters="TRNFP"), "states 3"),
    ("second-absent-behind-circuit", register_case(), "states 2"),
    ("second-absent-register-behind-circuit", register_case(letters="RRNFP"), "states 2"),
    ("second-only", case(b"", second=table()), "refused 3 25"),
    ("second-behind-refused", case(table(start=0), second=table()), "refused 7 29"),
    # every fault of a second T
    ("second-1-byte", case(second=table()[:1], steps=table()[1:]), "refused 3 43"),
    ("second-3-bytes", case(second=table()[:3], steps=table()[3:]), "refused 3 43"),
    ("second-4-bytes", case(second=table()[:4], steps=table()[4:]), "refused 3 43"),
    ("second-states-0", case(second=table(n=0, start=0)), "refused 3 43"),
    ("second-states-1025", case(second=u16s([1025]) + table()[2:]), "refused 3 43"),
    ("second-atoms-17", case(second=table(a=17)), "refused 3 45"),
    ("second-fairness-0", case(second=table(b=0)), "refused 3 46"),
    ("second-fairness-5", case(second=table(b=5)), "refused 3 46"),
    ("second-1-byte-short-for-counts", case(second=table()[:11], steps=table()[11:]), "refused 3 43"),
    ("second-stray-start", case(second=table(start=0b1001)), "refused 4 47"),
    ("second-stray-atom", case(second=table(a=1, atoms=[0b1000])), "refused 4 48"),
    ("second-stray-fairness", case(second=table(fairness=[0b1111])), "refused 4 48"),
    ("second-counts-first-0", case(second=table(counts=[0, 1, 2], targets=[0, 0])), "refused 5 49"),
    ("second-counts-last-equal", case(second=table(counts=[1, 2, 2], targets=[0, 0])), "refused 5 53"),
    ("second-moves-16385", case(second=table(counts=[1, 2, 16385])), "refused 5 53"),
    ("second-targets-fewer", case(second=table(targets=[0, 0]), steps=u16s([0])), "refused 6 43"),
    ("second-targets-more", case(second=table() + bytes(2)), "refused 6 43"),
    ("second-target-n", case(second=table(targets=[0, 3, 0])), "refused 6 57"),
    ("second-targets-equal", case(second=table(counts=[2, 3, 4], targets=[1, 1, 0, 0])), "refused 6 57"),
    ("second-start-empty", case(second=table(start=0)), "refused 7 47"),
    ("second-target-of-first", case(table(n=4), second=table(targets=[0, 0, 3])), "refused 6 63"),  # behind 22 bytes
    # every fault of a second R: r 43, h 44, g 45, a 46, b 47, operands 48, 49, register 50, start 51, fairness set 52
    ("second-circuit-1-byte", case(second=circuit()[:1], steps=circuit()[1:], letters="TRNFP"), "refused 3 43"),
    ("second-circuit-4-bytes", case(second=circuit()[:4], steps=circuit()[4:], letters="TRNFP"), "refused 3 43"),
    ("second-circuit-5-bytes", case(second=circuit()[:5], steps=circuit()[5:], letters="TRNFP"), "refused 3 43"),
    ("second-circuit-registers-0", case(second=circuit(r=0), letters="TRNFP"), "refused 3 43"),
    ("second-circuit-registers-11", case(second=circuit(r=11), letters="TRNFP"), "refused 3 43"),
    ("second-circuit-inputs-5", case(second=circuit(h=5), letters="TRNFP"), "refused 3 44"),
    ("second-circuit-gates-201", case(second=circuit(g=201), letters="TRNFP"), "refused 3 45"),
    ("second-circuit-atoms-17", case(second=circuit(a=17), letters="TRNFP"), "refused 3 46"),
    ("second-circuit-fairness-0", case(second=circuit(b=0), letters="TRNFP"), "refused 3 47"),
    ("second-circuit-fairness-5", case(second=circuit(b=5), letters="TRNFP"), "refused 3 47"),
    ("second-circuit-1-byte-fewer", case(second=circuit()[:-1], steps=circuit()[-1:], letters="TRNFP"), "refused 3 43"),
    ("second-circuit-1-byte-more", case(second=circuit() + bytes(1), letters="TRNFP"), "refused 3 43"),
    ("second-circuit-gate", case(second=circuit(gates=[(2, 0)]), letters="TRNFP"), "refused 6 48"),
    ("second-circuit-gate-second", case(second=circuit(gates=[(0, 2)]), letters="TRNFP"), "refused 6 49"),
    ("second-circuit-register", case(second=circuit(registers=[3]), letters="TRNFP"), "refused 6 50"),
    ("second-circuit-start", case(second=circuit(start=3), letters="TRNFP"), "refused 6 51"),
    ("second-circuit-atom", case(second=circuit(a=1, atoms=[3]), letters="TRNFP"), "refused 6 52"),
    ("second-circuit-fairness", case(second=circuit(fairness=[3]), letters="TRNFP"), "refused 6 52"),
    ("second-circuit-start-false", case(second=circuit(start=0), letters="TRNFP"), "refused 7 51"),
    ("second-listed-as-circuit", case(second=table(), letters="TRNFP"), "refused 3 43"),
    # a second table behind 10 bytes of a circuit
    ("circuit-second-start-empty", register_case(second=table(start=0)), "refused 7 39"),
    ("circuit-second-circuit-start-false", register_case(second=circuit(start=0), letters="RRNFP"), "refused 7 43"),
    ("circuit-second-fairness-5", register_case(second=table(b=5)), "refused 3 38"),
    ("circuit-second-circuit-gate", register_case(second=circuit(gates=[(0, 2)]), letters="RRNFP"), "refused 6 41"),
    # pairs: every combination of kinds
    ("pair-listed-listed", case(table(), second=table()), "states 9"),
    ("pair-listed-circuit", case(table(), second=circuit(r=2, h=1), letters="TRNFP"), "states 12"),
    ("pair-circuit-listed", register_case(circuit(r=2, h=1), second=table()), "states 12"),
    ("pair-circuit-circuit", register_case(circuit(r=2, h=1), second=circuit(r=3), letters="RRNFP"), "states 32"),
    ("pair-of-one-state-each", case(table(n=1), second=table(n=1)), "states 1"),
    # at most 1,024 states
    ("pair-32-32", case(table(n=32), second=table(n=32)), "states 1024"),
    ("pair-33-32", case(table(n=33), second=table(n=32)), "refused 8 0"),
    ("pair-32-33", case(table(n=32), second=table(n=33)), "refused 8 0"),
    ("pair-341-3", case(table(n=341), second=table()), "states 1023"),
    ("pair-205-5", case(table(n=205), second=table(n=5)), "refused 8 0"),  # 1,025
    ("pair-1024-1", case(table(n=1024), second=table(n=1)), "states 1024"),
    ("pair-1-1024", case(table(n=1), second=table(n=1024)), "states 1024"),
    ("pair-1024-2", case(table(n=1024), second=table(n=2)), "refused 8 0"),
    ("pair-2-1024", case(table(n=2), second=table(n=1024)), "refused 8 0"),
    ("pair-256-256", case(table(n=256), second=table(n=256)), "refused 8 0"),  # 65,536: 0 in 16 bits
    ("pair-1024-1024", case(table(n=1024), second=table(n=1024)), "refused 8 0"),
    ("pair-circuits-5-5", register_case(circuit(r=5), second=circuit(r=5), letters="RRNFP"), "states 1024"),
    ("pair-circuits-5-6", register_case(circuit(r=5), second=circuit(r=6), letters="RRNFP"), "refused 8 0"),
    ("pair-circuits-10-10", register_case(circuit(r=10), second=circuit(r=10), letters="RRNFP"), "refused 8 0"),
    ("pair-circuit-10-listed-1", register_case(circuit(r=10), second=table(n=1)), "states 1024"),
    ("pair-circuit-10-listed-2", register_case(circuit(r=10), second=table(n=2)), "refused 8 0"),
    ("pair-listed-512-circuit-1", case(table(n=512), second=circuit(), letters="TRNFP"), "states 1024"),
    ("pair-listed-513-circuit-1", case(table(n=513), second=circuit(), letters="TRNFP"), "refused 8 0"),
    # at most 16 atoms
    ("pair-atoms-8-8", case(table(a=8), second=table(n=1, a=8)), "states 3"),
    ("pair-atoms-16-0", case(table(a=16), second=table(n=1, a=0)), "states 3"),
    ("pair-atoms-0-16", case(table(a=0), second=table(n=1, a=16)), "states 3"),
    ("pair-atoms-9-8", case(table(a=9), second=table(n=1, a=8)), "refused 8 0"),
    ("pair-atoms-8-9", case(table(a=8), second=table(n=1, a=9)), "refused 8 0"),
    ("pair-atoms-16-1", case(table(a=16), second=table(n=1, a=1)), "refused 8 0"),
    ("pair-atoms-16-16", case(table(a=16), second=table(n=1, a=16)), "refused 8 0"),
    ("pair-circuit-atoms-8-8", register_case(circuit(a=8), second=circuit(a=8), letters="RRNFP"), "states 4"),
    ("pair-circuit-atoms-8-9", register_case(circuit(a=8), second=circuit(a=9), letters="RRNFP"), "refused 8 0"),
    # at most 4 fairness sets
    ("pair-fairness-2-2", case(table(b=2), second=table(n=1, b=2)), "states 3"),
    ("pair-fairness-3-1", case(table(b=3), second=table(n=1, b=1)), "states 3"),
    ("pair-fairness-1-3", case(table(b=1), second=table(n=1, b=3)), "states 3"),
    ("pair-fairness-3-2", case(table(b=3), second=table(n=1, b=2)), "refused 8 0"),
    ("pair-fairness-1-4", case(table(b=1), second=table(n=1, b=4)), "refused 8 0"),
    ("pair-fairness-4-1", case(table(b=4), second=table(n=1, b=1)), "refused 8 0"),
    ("pair-fairness-4-4", case(table(b=4), second=table(n=1, b=4)), "refused 8 0"),
    ("pair-circuit-fairness-2-2", register_case(circuit(b=2), second=circuit(b=2), letters="RRNFP"), "states 4"),
    ("pair-circuit-fairness-2-3", register_case(circuit(b=2), second=circuit(b=3), letters="RRNFP"), "refused 8 0"),
    # all three at their most
    (
        "pair-all-at-most",
        case(table(n=32, a=8, b=2), second=table(n=32, a=8, b=2), wiring=bytes(range(16))),
        "states 1024",
    ),
    # the limits of a pair are not those of a table alone
    ("no-pair-fairness-4", case(table(a=16, b=4), letters="TRNFP"), "states 3"),
    # the wiring list; behind a T of 3 states and a atoms it lies at 43 + a
    ("wiring-0-entries", case(table(a=2), wiring=b""), "states 3"),
    ("wiring-1-entry", case(table(a=2), wiring=bytes([0])), "states 3"),
    ("wiring-16-entries", case(table(a=16), wiring=bytes(range(15, -1, -1))), "states 3"),
    ("wiring-16-repeats", case(table(a=1), wiring=bytes(16)), "states 3"),
    ("wiring-17-entries", case(table(a=16), wiring=bytes(17)), "refused 9 59"),
    ("wiring-17-entries-1-atom", case(table(a=1), wiring=bytes(17)), "refused 9 44"),
    ("wiring-256-entries", case(table(a=1), wiring=bytes(256)), "refused 9 44"),
    ("wiring-entry-1-of-2-atoms", case(table(a=2), wiring=bytes([1])), "states 3"),
    ("wiring-entry-2-of-2-atoms", case(table(a=2), wiring=bytes([2])), "refused 9 45"),
    ("wiring-entry-255", case(table(a=2), wiring=bytes([255])), "refused 9 45"),
    ("wiring-entry-16-of-16-atoms", case(table(a=16), wiring=bytes([15, 16])), "refused 9 60"),
    ("wiring-second-entry", case(table(a=2), wiring=bytes([1, 2, 0])), "refused 9 46"),
    ("wiring-last-of-16-entries", case(table(a=1), wiring=bytes(15) + bytes([1])), "refused 9 59"),
    ("wiring-first-of-two-faults", case(table(a=2), wiring=bytes([0, 3, 2])), "refused 9 46"),
    ("wiring-too-long-and-absent", case(table(a=2), wiring=bytes([0] + [2] * 16)), "refused 9 45"),
    ("wiring-too-long-end-absent", case(table(a=2), wiring=bytes([0] * 16 + [2])), "refused 9 45"),
    ("wiring-no-atoms-no-entry", case(table(a=0), wiring=b""), "states 3"),
    ("wiring-no-atoms-1-entry", case(table(a=0), wiring=bytes(1)), "refused 9 43"),
    # behind a circuit of r 1, g 1 and a atoms it lies at 35 + a
    ("wiring-circuit", register_case(circuit(a=2), wiring=bytes([1, 0, 1])), "states 2"),
    ("wiring-circuit-entry-2", register_case(circuit(a=2), wiring=bytes([1, 2])), "refused 9 38"),
    ("wiring-circuit-no-atoms", register_case(wiring=bytes(1)), "refused 9 35"),
    ("wiring-circuit-17-entries", register_case(circuit(a=2), wiring=bytes(17)), "refused 9 37"),
    ("wiring-circuit-absent-register", register_case(circuit(a=2), letters="RRNFP", wiring=bytes([2])), "refused 9 37"),
    # over a pair it is measured against both tables' atoms; a second T of 1 state has 10 + a bytes
    ("wiring-pair-last-of-second", case(table(a=1), second=table(n=1, a=1), wiring=bytes([1, 0])), "states 3"),
    ("wiring-pair-only-second", case(table(a=0), second=table(n=1, a=1), wiring=bytes([0])), "states 3"),
    ("wiring-pair-absent", case(table(a=1), second=table(n=1, a=1), wiring=bytes([1, 2])), "refused 9 56"),
    ("wiring-pair-second-has-none", case(table(a=1), second=table(n=1, a=0), wiring=bytes([0, 1])), "refused 9 55"),
    ("wiring-pair-no-atoms", case(table(a=0), second=table(n=1, a=0), wiring=bytes([0])), "refused 9 53"),
    ("wiring-pair-15-of-16", case(table(a=8), second=table(n=1, a=8), wiring=bytes([15])), "states 3"),
    ("wiring-pair-16-of-16", case(table(a=8), second=table(n=1, a=8), wiring=bytes([16])), "refused 9 69"),
    ("wiring-pair-17-entries", case(table(a=8), second=table(n=1, a=8), wiring=bytes(17)), "refused 9 69"),
    ("wiring-circuits", register_case(circuit(a=1), circuit(a=1), "RRNFP", wiring=b"\1\0"), "states 4"),
    ("wiring-circuits-absent", register_case(circuit(a=1), circuit(a=1), "RRNFP", wiring=b"\1\2"), "refused 9 48"),
    # faults together: the first in order is named
    *of_first_table("order-1-2-letter", "order-4-7"),
    # the same in a circuit
    ("order-3-circuit-short-registers", register_case(bytes([0, 5, 201, 17])), "refused 3 25"),
    ("order-3-registers-inputs", register_case(bytes([0, 5, 201, 17, 5])), "refused 3 25"),
    ("order-3-inputs-gates", register_case(bytes([1, 5, 201, 17, 5])), "refused 3 26"),
    ("order-3-gates-atoms", register_case(bytes([1, 4, 201, 17, 5])), "refused 3 27"),
    ("order-3-circuit-atoms-fairness-5", register_case(bytes([1, 4, 200, 17, 5])), "refused 3 28"),
    ("order-3-circuit-atoms-fairness-0", register_case(bytes([1, 4, 200, 17, 0])), "refused 3 28"),
    ("order-3-circuit-fairness-length", register_case(bytes([1, 4, 200, 16, 5])), "refused 3 29"),
    ("order-3-circuit-length", register_case(bytes([1, 4, 200, 16, 4])), "refused 3 25"),
    ("order-3-6-fairness", register_case(circuit(b=5, gates=[(2, 0)])), "refused 3 29"),
    ("order-3-6-length", register_case(circuit(gates=[(2, 0)]) + bytes(1)), "refused 3 25"),
    ("order-3-7-circuit", register_case(circuit(start=0)[:-1]), "refused 3 25"),
    ("order-6-gate-register", register_case(circuit(gates=[(0, 2)], registers=[3])), "refused 6 31"),
    ("order-6-register-start", register_case(circuit(registers=[3], start=3)), "refused 6 32"),
    ("order-6-start-atom", register_case(circuit(a=1, start=3, atoms=[3])), "refused 6 33"),
    ("order-6-atom-fairness", register_case(circuit(a=1, atoms=[3], fairness=[3])), "refused 6 34"),
    ("order-6-7-gate", register_case(circuit(gates=[(2, 0)], start=0)), "refused 6 30"),
    ("order-6-7-fairness", register_case(circuit(start=0, fairness=[3])), "refused 6 34"),
    # the first table before the second, both before the pair, the pair before the wiring list
    ("order-3-first-second", case(table(b=5), second=table(b=5)), "refused 3 28"),
    ("order-6-first-3-second", case(table(targets=[0, 0, 3]), second=b"\xff"), "refused 6 41"),
    ("order-7-first-3-second", case(table(start=0), second=b"\xff"), "refused 7 29"),
    ("order-7-first-3-second-register", case(table(start=0), second=b"\xff", letters="TRNFP"), "refused 7 29"),
    ("order-7-circuit-3-second", register_case(circuit(start=0), second=b"\xff"), "refused 7 33"),
    ("order-7-circuit-3-second-register", register_case(circuit(start=0), b"\xff", "RRNFP"), "refused 7 33"),
    ("order-3-second-6-second", case(second=table(b=5, targets=[3, 3, 3])), "refused 3 46"),
    ("order-7-second-8", case(table(n=33), second=table(n=32, start=0)), "refused 7 175"),  # behind 146 bytes
    # the first section has 2,186 bytes
    ("order-7-second-8-register", case(table(n=513), second=circuit(start=0), letters="TRNFP"), "refused 7 2219"),
    ("order-8-9-too-long", case(table(n=33), second=table(n=32), wiring=bytes(17)), "refused 8 0"),
    ("order-8-9-absent", case(table(b=3), second=table(b=3), wiring=bytes(1)), "refused 8 0"),
    ("order-7-9", case(table(start=0), wiring=bytes(1)), "refused 7 29"),
    ("order-7-circuit-9", register_case(circuit(start=0), wiring=bytes(17)), "refused 7 33"),
    ("order-7-second-9", case(second=table(start=0), wiring=bytes(17)), "refused 7 47"),
    ("order-2-9", case(wiring=bytes(17)) + bytes(1), "refused 2 0"),
]


def main():
    """Replaces data/ and stdout."""
    assert len({name for name, _, _ in CASES}) == len(CASES), "two cases of one name"
    data = CRATE / "data"
    data.mkdir(exist_ok=True)
    for old in data.glob("*.case"):
        old.unlink()
    for name, file, _ in CASES:
        (data / f"{name}.case").write_bytes(file)
    texts = sorted((CRATE / "texts").glob("*.hex"))
    for text in texts:
        (data / f"{text.stem}.case").write_bytes(bytes.fromhex(text.read_text()))
    (data / "list").write_text("".join(f"{name}.case\n" for name, _, _ in CASES))
    (data / "texts").write_text("".join(f"{text.stem}.case\n" for text in texts))
    lines = [f"{name}.case: {line}\n" for name, _, line in CASES]
    lines += [f"{text.stem}.case:\n{text.with_suffix('.txt').read_text()}" for text in texts]
    lines.append("nested:\n" + (CRATE / "texts" / "nested.txt").read_text())
    (CRATE / "stdout").write_text("".join(lines))


if __name__ == "__main__":
    main()

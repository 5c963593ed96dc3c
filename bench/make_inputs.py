"""Makes case files for measuring `show` and `showfile`: random tables, the wiring list naming every atom.

usage: make_inputs.py FOLDER

Writes into FOLDER
  states-N.case       a listed table of N = 64, 128, 256, 512, 1024 states, 16 moves a state
  register.case       a register circuit with all counts at their most: 1,024 states, 16 moves a state
  pair.case           a pair of listed tables of 32 states, 8 moves a state: 1,024 states, 64 moves a state
  register-pair.case  a pair of register circuits of 5 registers and 2 inputs: 1,024 states, 16 moves a state
"""
import random
import struct
import sys
from pathlib import Path

LIMIT = 65_536


def state_set(rng, states):
    """A set that has each state with an even chance, and state 0 always (so that no start set is empty)."""
    bits = rng.getrandbits(states) | 1
    return bits.to_bytes((states + 7) // 8, "little")


def section_t(rng, states, moves=16, atoms=16, fairness=4):
    sets = b"".join(state_set(rng, states) for _ in range(1 + atoms + fairness))
    ends = [moves * (s + 1) for s in range(states)]
    targets = [t for _ in range(states) for t in sorted(rng.sample(range(states), moves))]
    numbers = ends + targets
    return struct.pack("<HBB", states, atoms, fairness) + sets + struct.pack(f"<{len(numbers)}H", *numbers)


def section_r(rng, registers=10, inputs=4, gates=200, atoms=16, fairness=4):
    """A random circuit; the start set is register 0, so that it is not empty."""
    first_gate = 1 + registers + inputs
    end = first_gate + gates
    operands = [rng.randrange(value) for value in range(first_gate, end) for _ in range(2)]
    targets = rng.sample(range(end - gates // 4, end), registers)
    sets = rng.sample(range(first_gate, end), atoms + fairness)
    return bytes([registers, inputs, gates, atoms, fairness, *operands, *targets, 1, *sets])


def case_file(letters, first, second=b""):
    """The tables and a wiring list that names their 16 atoms; empty formula and steps."""
    bodies = [first, second, bytes(range(16)), b"", b""]
    contents = (struct.pack("<BI", letter, len(body)) for letter, body in zip(letters + b"NFP", bodies))
    file = b"".join([*contents, *bodies])
    assert len(file) <= LIMIT
    return file


def main():
    folder = Path(sys.argv[1])
    folder.mkdir(parents=True, exist_ok=True)
    files = {f"states-{n}": case_file(b"TT", section_t(random.Random(n), n)) for n in (64, 128, 256, 512, 1024)}
    rng = random.Random(0)
    files["register"] = case_file(b"RT", section_r(rng))
    halves = [section_t(rng, 32, moves=8, atoms=8, fairness=2) for _ in range(2)]
    files["pair"] = case_file(b"TT", *halves)
    halves = [section_r(rng, registers=5, inputs=2, atoms=8, fairness=2) for _ in range(2)]
    files["register-pair"] = case_file(b"RR", *halves)
    for name, file in files.items():
        (folder / f"{name}.case").write_bytes(file)
        print(f"{name}.case: {len(file)} bytes")


main()

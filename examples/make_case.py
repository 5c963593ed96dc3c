#!/usr/bin/env python3
"""Turn a table in text form, or two of them, into a case file.

Usage: make_case.py SOURCE [SECOND] > FILE

A source has one directive a line; '#' starts a comment. It tells a listed table
or a circuit: the first line that only one of the two has says which.

A listed table:

  atoms    NAME ...           atoms, numbered from 0 in this order
  fairness NAME ...           fairness sets, numbered from 0 in this order
  start    STATE ...          start states
  state    NAME : LABEL ... -> TARGET ...
                              a state, the atoms and fairness sets it belongs to,
                              and its moves; states are numbered from 0 in order

A circuit of registers and NAND gates:

  input    NAME ...           inputs, numbered from 0 in this order
  register NAME = VALUE       a register and the value that it takes next;
                              registers are numbered from 0 in order
  gate     NAME = nand VALUE VALUE
                              a gate: false where both values are true, else true
  start    VALUE              the start states: where the value is true
  atom     NAME = VALUE       an atom: where the value is true
  fairness NAME = VALUE       a fairness set: where the value is true

A VALUE is a register, an input or a gate, by name, or false. A state is what the
registers hold: register q is bit q of its number. A move gives every input a bit;
the start states, atoms and fairness sets are read with every input false. An atom
or a fairness set may have the name of a value.

The rule, in either kind of source:

  node     NUMBER KIND ...    formula record, numbered from 1; the last is the root

The kinds of node are t (true), a ATOM, ! C (not), & C D (and), X C (some fair
walk with C next), U C D (some fair walk with C until D), G C (some fair walk
with C always). C and D are lower node numbers; 0 means that some fair walk
starts in the state.

Names may be used before the line that declares them, but a gate takes only gates
from lines above its own.

With a second source the file has two tables, side by side. The rule is the first
source's and may name atoms of both tables, which must all have different names;
node lines of the second source are passed over.

An error in a source is reported as SOURCE:LINE: MESSAGE, with exit status 1.
"""

import collections
import re
import struct
import sys

MAX_STATES, MAX_ATOMS, MAX_FAIRNESS, MAX_MOVES, MAX_NODES = 1024, 16, 4, 16384, 31
MAX_REGISTERS, MAX_INPUTS, MAX_GATES = 10, 4, 200
ARITY = {"t": 0, "a": 1, "!": 1, "&": 2, "X": 1, "U": 2, "G": 1}
LISTED_ONLY, CIRCUIT_ONLY = {"atoms", "state"}, {"input", "register", "gate", "atom"}

# The lines of a circuit that define a name: of what, how many at most, in what form.
DEFINITIONS = {
    "register": ("register", MAX_REGISTERS, "NAME = VALUE"),
    "gate": ("gate", MAX_GATES, "NAME = nand VALUE VALUE"),
    "atom": ("atom", MAX_ATOMS, "NAME = VALUE"),
    "fairness": ("fairness set", MAX_FAIRNESS, "NAME = VALUE"),
}

# The letter and bytes of a table's section, its count of states, its atoms and
# fairness sets (a dictionary each, from name to place), and its source's last line.
Table = collections.namedtuple("Table", "letter section states atoms fairness end")
ABSENT = Table("T", b"", 1, {}, {}, None)


class SourceError(Exception):
    """An error in a source: its place, as SOURCE:LINE, and a message."""


def read_source(path):
    """Return each line of a source as its place, its directive and the other words."""
    with open(path, encoding="utf-8-sig") as source:
        lines = [text.partition("#")[0].split() or [None] for text in source] or [[None]]
    return [(f"{path}:{n}", first, rest) for n, (first, *rest) in enumerate(lines, 1)]


def declare(names, what, limit, name, place, taken=()):
    """Add a new name, with its place, to names; its number is the count before it."""
    if not re.fullmatch(r"[A-Za-z_][A-Za-z0-9_]*", name):
        raise SourceError(place, f"bad {what} name '{name}'")
    if name in names or name in taken:
        raise SourceError(place, f"duplicate name '{name}'")
    if len(names) == limit:
        raise SourceError(place, f"too many {what}s, at most {limit} allowed")
    names[name] = place


def numbered(*groups):
    """Return the number of each name, counted through the groups from 0."""
    names = [name for group in groups for name in group]
    return {name: number for number, name in enumerate(names)}


def resolve(numbers, what, words, place):
    """Return the sorted numbers of the names in words."""
    found = set()
    for word in words:
        if word not in numbers:
            raise SourceError(place, f"unknown {what} '{word}'")
        if numbers[word] in found:
            raise SourceError(place, f"repeated {what} '{word}'")
        found.add(numbers[word])
    return sorted(found)


def node_record(words, number, atoms, place):
    """Return the three bytes of a formula record."""
    if number > MAX_NODES:
        raise SourceError(place, f"too many nodes, at most {MAX_NODES} allowed")
    if words[:1] != [str(number)]:
        raise SourceError(place, f"expected node number {number}")
    kind, operands = "".join(words[1:2]), words[2:]
    if kind not in ARITY:
        raise SourceError(place, f"unknown node kind '{kind}'")
    if len(operands) != ARITY[kind]:
        raise SourceError(place, f"node kind '{kind}' takes {ARITY[kind]} operand(s)")
    if kind == "a":
        values = resolve(atoms, "atom", operands, place)
    else:
        for word in operands:
            if not re.fullmatch(r"[0-9]{1,3}", word) or int(word) >= number:
                raise SourceError(place, f"operand '{word}' is not a lower node number")
        values = [int(word) for word in operands]
    return bytes([ord(kind), *values, 0, 0])[:3]


def require(found, what, end):
    """Refuse a source that has none of what it must have."""
    if not found:
        raise SourceError(end, f"no {what} up to the end of the source")


def state_set(members, count):
    """Return a set of states as a bit string, least significant bit first."""
    bits = bytearray((count + 7) // 8)
    for state in members:
        bits[state // 8] |= 1 << state % 8
    return bytes(bits)


def listed_table(source):
    """Return the listed table that a source tells."""
    atoms, fairness, states, starts, rows = {}, {}, {}, {}, []
    for place, directive, words in source:
        if directive == "atoms":
            for word in words:
                declare(atoms, "atom", MAX_ATOMS, word, place, fairness)
        elif directive == "fairness":
            for word in words:
                declare(fairness, "fairness set", MAX_FAIRNESS, word, place, atoms)
        elif directive == "start":
            for word in words:
                declare(starts, "start state", MAX_STATES, word, place)
        elif directive == "state":
            head, _, targets = " ".join(words).partition("->")
            name, _, labels = head.partition(":")
            declare(states, "state", MAX_STATES, name.strip(), place)
            if not targets.split():
                raise SourceError(place, f"state '{name.strip()}' has no moves")
            rows.append((place, labels.split(), targets.split()))
        elif directive not in ("node", None):
            raise SourceError(place, f"a listed table has no directive '{directive}'")
    require(fairness, "fairness set", place)
    require(states, "state", place)
    require(starts, "start state", place)

    numbers, labels = numbered(states), numbered(atoms, fairness)
    start = [resolve(numbers, "state", [name], at)[0] for name, at in starts.items()]
    members, ends, moves = [[] for _ in labels], [], []
    for state, (at, names, targets) in enumerate(rows):
        for label in resolve(labels, "atom or fairness set", names, at):
            members[label].append(state)
        moves += resolve(numbers, "target", targets, at)
        ends.append(len(moves))
        if len(moves) > MAX_MOVES:
            raise SourceError(at, f"too many moves, at most {MAX_MOVES} allowed")

    section = struct.pack("<HBB", len(states), len(atoms), len(fairness))
    section += b"".join(state_set(s, len(states)) for s in [start, *members])
    section += struct.pack(f"<{len(ends) + len(moves)}H", *ends, *moves)
    return Table("T", section, len(states), atoms, fairness, place)


def fields(directive, form, words, place):
    """Return the words that stand for NAME and VALUE in a line of the given form."""
    match = re.fullmatch(re.sub("NAME|VALUE", r"(\\S+)", form), " ".join(words))
    if not match:
        raise SourceError(place, f"expected '{directive} {form}'")
    return match.groups()


def circuit_table(source):
    """Return the table of the circuit that a source tells."""
    registers, inputs, gates, atoms, fairness = {}, {}, {}, {}, {}
    names = {"register": registers, "gate": gates, "atom": atoms, "fairness": fairness}
    lines = {directive: [] for directive in (*DEFINITIONS, "start")}
    for place, directive, words in source:
        values, sets = ["false", *registers, *inputs, *gates], [*atoms, *fairness]
        if directive == "input":
            for word in words:
                declare(inputs, "input", MAX_INPUTS, word, place, values)
        elif directive == "start":
            if lines["start"]:
                raise SourceError(place, "a circuit has only one start line")
            lines["start"].append((place, fields(directive, "VALUE", words, place)))
        elif directive in DEFINITIONS:
            what, limit, form = DEFINITIONS[directive]
            name, *operands = fields(directive, form, words, place)
            taken = values if directive in ("register", "gate") else sets
            declare(names[directive], what, limit, name, place, taken)
            lines[directive].append((place, operands))
        elif directive not in ("node", None):
            raise SourceError(place, f"a circuit has no directive '{directive}'")
    require(registers, "register", place)
    require(lines["start"], "start line", place)
    require(fairness, "fairness set", place)

    numbers = numbered(["false"], registers, inputs, gates)
    states = set(range(2 ** len(registers)))
    # For each value, the states in which it is true while every input is false.
    true_in = [set(), *({s for s in states if s >> q & 1} for q in range(len(registers)))]
    true_in += [set() for _ in inputs]
    section = [len(group) for group in (registers, inputs, gates, atoms, fairness)]
    for at, operands in lines["gate"]:
        for word in operands:
            section += resolve(numbers, "value", [word], at)
            if section[-1] >= len(true_in):
                raise SourceError(at, f"gate '{word}' is not from a line above")
        true_in.append(states - (true_in[section[-2]] & true_in[section[-1]]))
    for directive in ("register", "start", "atom", "fairness"):
        for at, [word] in lines[directive]:
            section += resolve(numbers, "value", [word], at)
            if directive == "start" and not true_in[section[-1]]:
                raise SourceError(at, f"no start state, '{word}' is true in no state")
    return Table("R", bytes(section), len(states), atoms, fairness, place)


def read_table(source):
    """Return the table that a source tells, of the kind of its first telling line."""
    for _, directive, _ in source:
        if directive in CIRCUIT_ONLY:
            return circuit_table(source)
        if directive in LISTED_ONLY:
            break
    return listed_table(source)


def check_pair(first, second):
    """Refuse two tables that cannot stand side by side."""
    for name, place in second.atoms.items():
        if name in first.atoms:
            raise SourceError(place, f"atom '{name}' is in the first table too")
    for what, count, limit in (
            ("states", first.states * second.states, MAX_STATES),
            ("atoms", len(first.atoms) + len(second.atoms), MAX_ATOMS),
            ("fairness sets", len(first.fairness) + len(second.fairness), MAX_FAIRNESS)):
        if count > limit:
            raise SourceError(second.end, f"{count} {what} in the two tables together, "
                                          f"at most {limit} allowed")


def make_case(source, second_source=None):
    """Return the bytes of the case file for a source, or for two."""
    first = read_table(source)
    nodes = [(place, words) for place, directive, words in source if directive == "node"]
    require(nodes, "formula node", first.end)
    second = read_table(second_source) if second_source else ABSENT
    check_pair(first, second)

    atoms = numbered(first.atoms, second.atoms)
    formula = b"".join(node_record(w, i, atoms, at) for i, (at, w) in enumerate(nodes, 1))
    bodies = [first.section, second.section, bytes(range(len(atoms))), formula, b""]
    letters = f"{first.letter}{second.letter}NFP".encode()
    contents = (struct.pack("<BI", k, len(b)) for k, b in zip(letters, bodies))
    return b"".join([*contents, *bodies])


def main(paths):
    """Write the case file of the sources at the paths to standard output."""
    if len(paths) not in (1, 2):
        sys.exit("usage: make_case.py SOURCE [SECOND] > FILE")
    sources = []
    for path in paths:
        try:
            sources.append(read_source(path))
        except (OSError, UnicodeDecodeError) as error:
            sys.exit(f"{path}: {error}")
    try:
        case = make_case(*sources)
    except SourceError as error:
        sys.exit("{}: {}".format(*error.args))
    sys.stdout.buffer.write(case)


if __name__ == "__main__":
    main(sys.argv[1:])

//! Prints the table of a case file, read from standard input, as text, or its refusal.
//!
//! The table is the wiring list's renaming of the first table, or of the pair where there is a second.

use std::io::{self, BufWriter, Read, Write};

const LIMIT: usize = 65_536;
const CONTENTS: usize = 25;

/// Why nothing is printed: a refused file, by the fault's number and its place, or trouble with the output.
enum Stop {
    Refused(u8, usize),
    Output(io::Error),
}

impl From<io::Error> for Stop {
    fn from(error: io::Error) -> Self {
        Stop::Output(error)
    }
}

fn ensure(holds: bool, fault: u8, place: usize) -> Result<(), Stop> {
    if holds {
        Ok(())
    } else {
        Err(Stop::Refused(fault, place))
    }
}

/// A part of the file: its letter, its offset and its bytes.
#[derive(Clone, Copy)]
struct Section<'a> {
    letter: u8,
    at: usize,
    bytes: &'a [u8],
}

/// The five sections of a file.
fn read_contents(file: &[u8]) -> Result<[Section<'_>; 5], Stop> {
    ensure(file.len() <= LIMIT, 1, 0)?;
    ensure(file.len() >= CONTENTS, 2, 0)?;
    let mut sections = [Section { letter: 0, at: 0, bytes: &[] }; 5];
    let mut at = CONTENTS;
    for (i, letters) in [b"TR".as_slice(), b"TR", b"N", b"F", b"P"].iter().enumerate() {
        let entry = &file[5 * i..][..5];
        ensure(letters.contains(&entry[0]), 2, 0)?;
        let length = u32::from_le_bytes([entry[1], entry[2], entry[3], entry[4]]) as usize;
        let bytes = file.get(at..at + length).ok_or(Stop::Refused(2, 0))?;
        sections[i] = Section { letter: entry[0], at, bytes };
        at += length;
    }
    ensure(at == file.len(), 2, 0)?;
    Ok(sections)
}

/// What every kind of table answers. Sets, states and moves are numbered from 0.
trait Table {
    fn states(&self) -> usize;
    fn atoms(&self) -> usize;
    fn fairness_sets(&self) -> usize;
    fn starts(&self, state: usize) -> bool;
    fn in_atom(&self, atom: usize, state: usize) -> bool;
    fn in_fairness_set(&self, set: usize, state: usize) -> bool;
    fn moves(&self, state: usize) -> usize;
    fn target(&self, state: usize, k: usize) -> usize;
}

/// A table whose moves are listed one by one.
struct Listed<'a> {
    /// Sets of states; state s is bit s mod 8 of byte s / 8.
    start: &'a [u8],
    atoms: Vec<&'a [u8]>,
    fairness: Vec<&'a [u8]>,
    /// The targets of each state in turn, 16 bits each.
    rows: Vec<&'a [[u8; 2]]>,
}

fn has(set: &[u8], state: usize) -> bool {
    (set[state / 8] >> (state % 8)) & 1 == 1
}

fn number(bytes: [u8; 2]) -> usize {
    u16::from_le_bytes(bytes).into()
}

impl<'a> Listed<'a> {
    /// Reads section T.
    fn read(Section { at, bytes, .. }: Section<'a>) -> Result<Self, Stop> {
        let (&[low, high, atoms, fairness], body) =
            bytes.split_first_chunk().ok_or(Stop::Refused(3, at))?;
        let states = number([low, high]);
        ensure((1..=1024).contains(&states), 3, at)?;
        ensure(atoms <= 16, 3, at + 2)?;
        ensure((1..=4).contains(&fairness), 3, at + 3)?;
        let width = states.div_ceil(8);
        let sets_len = usize::from(1 + atoms + fairness) * width;
        ensure(body.len() >= sets_len + 2 * states, 3, at)?;
        let (sets, lists) = body.split_at(sets_len);
        let (ends, targets) = lists.split_at(2 * states);
        let ends = ends.as_chunks::<2>().0;
        let sets_at = at + 4;
        let ends_at = sets_at + sets_len;
        let targets_at = ends_at + 2 * states;

        let mut sets_in_turn = Vec::with_capacity(usize::from(1 + atoms + fairness));
        for (i, set) in sets.chunks_exact(width).enumerate() {
            let within = states.is_multiple_of(8) || set[width - 1] >> (states % 8) == 0;
            ensure(within, 4, sets_at + i * width)?;
            sets_in_turn.push(set);
        }
        let mut moves = 0;
        for (s, &end) in ends.iter().enumerate() {
            let end = number(end);
            ensure(moves < end && end <= 16_384, 5, ends_at + 2 * s)?;
            moves = end;
        }
        ensure(targets.len() == 2 * moves, 6, at)?;
        let targets = targets.as_chunks::<2>().0;
        let mut rows = Vec::with_capacity(states);
        let mut begin = 0;
        for &end in ends {
            let row = &targets[begin..number(end)];
            let mut least = 0;
            for (i, &target) in row.iter().enumerate() {
                let target = number(target);
                let rises = least <= target && target < states;
                ensure(rises, 6, targets_at + 2 * (begin + i))?;
                least = target + 1;
            }
            rows.push(row);
            begin = number(end);
        }
        let start = sets_in_turn[0];
        ensure(start.iter().any(|&byte| byte != 0), 7, sets_at)?;
        let fairness = sets_in_turn.split_off(1 + usize::from(atoms));
        let atoms = sets_in_turn.split_off(1);
        Ok(Listed { start, atoms, fairness, rows })
    }
}

impl Table for Listed<'_> {
    fn states(&self) -> usize {
        self.rows.len()
    }

    fn atoms(&self) -> usize {
        self.atoms.len()
    }

    fn fairness_sets(&self) -> usize {
        self.fairness.len()
    }

    fn starts(&self, state: usize) -> bool {
        has(self.start, state)
    }

    fn in_atom(&self, atom: usize, state: usize) -> bool {
        has(self.atoms[atom], state)
    }

    fn in_fairness_set(&self, set: usize, state: usize) -> bool {
        has(self.fairness[set], state)
    }

    fn moves(&self, state: usize) -> usize {
        self.rows[state].len()
    }

    fn target(&self, state: usize, k: usize) -> usize {
        number(self.rows[state][k])
    }
}

/// A register circuit. Values are numbered: false, the registers, the inputs, the gates.
struct Circuit<'a> {
    inputs: usize,
    /// The operands of each gate.
    gates: &'a [[u8; 2]],
    /// The values that the registers take on.
    registers: &'a [u8],
    start: u8,
    atoms: &'a [u8],
    fairness: &'a [u8],
}

impl<'a> Circuit<'a> {
    /// Reads section R.
    fn read(Section { at, bytes, .. }: Section<'a>) -> Result<Self, Stop> {
        let (&counts, body) = bytes.split_first_chunk::<5>().ok_or(Stop::Refused(3, at))?;
        for (i, range) in [1..=10, 0..=4, 0..=200, 0..=16, 1..=4].iter().enumerate() {
            ensure(range.contains(&counts[i]), 3, at + i)?;
        }
        let [registers, inputs, gates, atoms, fairness] = counts.map(usize::from);
        let length = 2 * gates + registers + 1 + atoms + fairness;
        ensure(body.len() == length, 3, at)?;
        let (operands, names) = body.split_at(2 * gates);
        let operands_at = at + 5;
        let names_at = operands_at + 2 * gates;

        let first_gate = 1 + registers + inputs;
        for (i, &operand) in operands.iter().enumerate() {
            ensure(usize::from(operand) < first_gate + i / 2, 6, operands_at + i)?;
        }
        for (i, &name) in names.iter().enumerate() {
            ensure(usize::from(name) < first_gate + gates, 6, names_at + i)?;
        }
        let (registers, rest) = names.split_at(registers);
        let (start, sets) = rest.split_at(1);
        let (atoms, fairness) = sets.split_at(atoms);
        let gates = operands.as_chunks::<2>().0;
        let circuit = Circuit { inputs, gates, registers, start: start[0], atoms, fairness };
        let begins = (0..circuit.states()).any(|state| circuit.starts(state));
        ensure(begins, 7, names_at + registers.len())?;
        Ok(circuit)
    }

    /// Every value in a state, the bits of `k` being given to the inputs.
    fn values(&self, state: usize, k: usize) -> [bool; 256] {
        let (registers, inputs) = (self.registers.len(), self.inputs);
        let mut values = [false; 256];
        for q in 0..registers {
            values[1 + q] = (state >> q) & 1 == 1;
        }
        for p in 0..inputs {
            values[1 + registers + p] = (k >> p) & 1 == 1;
        }
        for (j, &[a, b]) in self.gates.iter().enumerate() {
            let both = values[usize::from(a)] & values[usize::from(b)];
            values[1 + registers + inputs + j] = !both;
        }
        values
    }

    fn value(&self, name: u8, state: usize) -> bool {
        self.values(state, 0)[usize::from(name)]
    }
}

impl Table for Circuit<'_> {
    fn states(&self) -> usize {
        1 << self.registers.len()
    }

    fn atoms(&self) -> usize {
        self.atoms.len()
    }

    fn fairness_sets(&self) -> usize {
        self.fairness.len()
    }

    fn starts(&self, state: usize) -> bool {
        self.value(self.start, state)
    }

    fn in_atom(&self, atom: usize, state: usize) -> bool {
        self.value(self.atoms[atom], state)
    }

    fn in_fairness_set(&self, set: usize, state: usize) -> bool {
        self.value(self.fairness[set], state)
    }

    fn moves(&self, _state: usize) -> usize {
        1 << self.inputs
    }

    fn target(&self, state: usize, k: usize) -> usize {
        let values = self.values(state, k);
        let bits = self.registers.iter().map(|&name| usize::from(values[usize::from(name)]));
        bits.enumerate().map(|(q, bit)| bit << q).sum()
    }
}

/// Two tables that move at the same time; state s is s / n of the first and s mod n of the second with its n states.
struct Pair<A, B> {
    first: A,
    second: B,
}

impl<A: Table, B: Table> Pair<A, B> {
    fn of(first: A, second: B) -> Result<Self, Stop> {
        let pair = Pair { first, second };
        ensure(pair.states() <= 1024 && pair.atoms() <= 16 && pair.fairness_sets() <= 4, 8, 0)?;
        Ok(pair)
    }

    fn split(&self, state: usize) -> (usize, usize) {
        let states = self.second.states();
        (state / states, state % states)
    }
}

impl<A: Table, B: Table> Table for Pair<A, B> {
    fn states(&self) -> usize {
        self.first.states() * self.second.states()
    }

    fn atoms(&self) -> usize {
        self.first.atoms() + self.second.atoms()
    }

    fn fairness_sets(&self) -> usize {
        self.first.fairness_sets() + self.second.fairness_sets()
    }

    fn starts(&self, state: usize) -> bool {
        let (a, b) = self.split(state);
        self.first.starts(a) && self.second.starts(b)
    }

    fn in_atom(&self, atom: usize, state: usize) -> bool {
        let (a, b) = self.split(state);
        match atom.checked_sub(self.first.atoms()) {
            None => self.first.in_atom(atom, a),
            Some(atom) => self.second.in_atom(atom, b),
        }
    }

    fn in_fairness_set(&self, set: usize, state: usize) -> bool {
        let (a, b) = self.split(state);
        match set.checked_sub(self.first.fairness_sets()) {
            None => self.first.in_fairness_set(set, a),
            Some(set) => self.second.in_fairness_set(set, b),
        }
    }

    fn moves(&self, state: usize) -> usize {
        let (a, b) = self.split(state);
        self.first.moves(a) * self.second.moves(b)
    }

    fn target(&self, state: usize, k: usize) -> usize {
        let (a, b) = self.split(state);
        let moves = self.second.moves(b);
        let target = self.first.target(a, k / moves);
        target * self.second.states() + self.second.target(b, k % moves)
    }
}

/// A table with other atoms: atom j is the one below that the list has as its entry j.
struct Renaming<'a, T> {
    below: T,
    list: &'a [u8],
}

impl<'a, T: Table> Renaming<'a, T> {
    fn of(below: T, Section { at, bytes: list, .. }: Section<'a>) -> Result<Self, Stop> {
        ensure(list.len() <= 16, 9, at)?;
        for (j, &entry) in list.iter().enumerate() {
            ensure(usize::from(entry) < below.atoms(), 9, at + j)?;
        }
        Ok(Renaming { below, list })
    }
}

impl<T: Table> Table for Renaming<'_, T> {
    fn states(&self) -> usize {
        self.below.states()
    }

    fn atoms(&self) -> usize {
        self.list.len()
    }

    fn fairness_sets(&self) -> usize {
        self.below.fairness_sets()
    }

    fn starts(&self, state: usize) -> bool {
        self.below.starts(state)
    }

    fn in_atom(&self, atom: usize, state: usize) -> bool {
        self.below.in_atom(self.list[atom].into(), state)
    }

    fn in_fairness_set(&self, set: usize, state: usize) -> bool {
        self.below.in_fairness_set(set, state)
    }

    fn moves(&self, state: usize) -> usize {
        self.below.moves(state)
    }

    fn target(&self, state: usize, k: usize) -> usize {
        self.below.target(state, k)
    }
}

/// A table as a section of the file has it.
enum Kind<'a> {
    Listed(Listed<'a>),
    Circuit(Circuit<'a>),
}

fn read_kind(section: Section<'_>) -> Result<Kind<'_>, Stop> {
    match section.letter {
        b'T' => Listed::read(section).map(Kind::Listed),
        _ => Circuit::read(section).map(Kind::Circuit),
    }
}

fn write_states(out: &mut impl Write, states: impl Iterator<Item = usize>) -> io::Result<()> {
    for state in states {
        write!(out, " {state}")?;
    }
    writeln!(out)
}

fn write_table(out: &mut impl Write, table: &impl Table) -> io::Result<()> {
    let states = table.states();
    writeln!(out, "states {states}")?;
    writeln!(out, "atoms {}", table.atoms())?;
    writeln!(out, "fairness sets {}", table.fairness_sets())?;
    write!(out, "start")?;
    write_states(out, (0..states).filter(|&s| table.starts(s)))?;
    for atom in 0..table.atoms() {
        write!(out, "atom {atom}:")?;
        write_states(out, (0..states).filter(|&s| table.in_atom(atom, s)))?;
    }
    for set in 0..table.fairness_sets() {
        write!(out, "fairness {set}:")?;
        write_states(out, (0..states).filter(|&s| table.in_fairness_set(set, s)))?;
    }
    for state in 0..states {
        write!(out, "{state} ->")?;
        write_states(out, (0..table.moves(state)).map(|k| table.target(state, k)))?;
    }
    Ok(())
}

fn show_renamed(out: &mut impl Write, below: impl Table, wiring: Section<'_>) -> Result<(), Stop> {
    let table = Renaming::of(below, wiring)?;
    Ok(write_table(out, &table)?)
}

fn show_with(
    out: &mut impl Write,
    first: impl Table,
    second: Option<Kind<'_>>,
    wiring: Section<'_>,
) -> Result<(), Stop> {
    match second {
        None => show_renamed(out, first, wiring),
        Some(Kind::Listed(second)) => show_renamed(out, Pair::of(first, second)?, wiring),
        Some(Kind::Circuit(second)) => show_renamed(out, Pair::of(first, second)?, wiring),
    }
}

/// Prints the file's table; nothing is printed of a file that is refused.
fn show(out: &mut impl Write, file: &[u8]) -> Result<(), Stop> {
    let [first, second, wiring, _, _] = read_contents(file)?;
    let first = read_kind(first)?;
    let second = if second.bytes.is_empty() { None } else { Some(read_kind(second)?) };
    match first {
        Kind::Listed(first) => show_with(out, first, second, wiring),
        Kind::Circuit(first) => show_with(out, first, second, wiring),
    }
}

fn main() -> io::Result<()> {
    let mut file = Vec::new();
    io::stdin().lock().take(LIMIT as u64 + 1).read_to_end(&mut file)?;
    let mut out = BufWriter::new(io::stdout().lock());
    match show(&mut out, &file) {
        Ok(()) => {}
        Err(Stop::Refused(fault, place)) => writeln!(out, "refused {fault} {place}")?,
        Err(Stop::Output(error)) => return Err(error),
    }
    out.flush()
}

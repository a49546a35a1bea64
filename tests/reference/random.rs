//! Random sheets, damaged ones, and random tables, all from one seed. Sheets at the limits of the format are in limits.rs.

use crate::due::{numbers_of, NUMBERS};
use crate::sheet::{lies_in, set_of, Effect, Literal, Move, Set, Sheet};
use crate::tables::ENTRIES;

/// A xorshift generator: the same numbers for the same seed on every machine.
pub struct Random(u64);

impl Random {
    pub fn new(seed: u64) -> Random {
        let mut random = Random(seed.wrapping_mul(0x9e37_79b9_7f4a_7c15) | 1);
        for _ in 0..16 {
            random.next();
        }
        random
    }

    pub fn next(&mut self) -> u64 {
        self.0 ^= self.0 << 13;
        self.0 ^= self.0 >> 7;
        self.0 ^= self.0 << 17;
        self.0.wrapping_mul(0x2545_f491_4f6c_dd1d)
    }

    /// 0 to `bound` - 1.
    pub fn below(&mut self, bound: usize) -> usize {
        ((self.next() >> 32) * bound as u64 >> 32) as usize
    }

    /// `low` to `high`.
    pub fn range(&mut self, low: usize, high: usize) -> usize {
        low + self.below(high - low + 1)
    }

    pub fn one_in(&mut self, of: usize) -> bool {
        self.below(of) == 0
    }

    pub fn pick<T: Copy>(&mut self, items: &[T]) -> T {
        items[self.below(items.len())]
    }
}

pub fn literal(proposition: usize, truth: bool) -> Literal {
    Literal { proposition: proposition as u8, truth }
}

/// `low` to `high` literals of different propositions below n; fewer if n does not allow it.
pub fn literals(r: &mut Random, n: usize, low: usize, high: usize) -> Set {
    let mut free: Vec<usize> = (0..n).collect();
    let count = r.range(low.min(n), high.min(n));
    set_of((0..count).map(|_| literal(free.swap_remove(r.below(free.len())), r.one_in(2))).collect())
}

/// The largest counts that a random sheet may have, and what keeps its start and its steps from growing too long.
struct Size {
    n: (usize, usize),
    /// At most so many known literals; with `sure` all propositions but a few, so that conditions seldom split.
    known: usize,
    sure: bool,
    clauses: usize,
    alternatives: usize,
    literals: usize,
    moves: usize,
    precondition: usize,
    effects: usize,
    condition: usize,
    goal: usize,
    plan: usize,
    /// At most so many choices for one oneof-clause, and pieces for one entry.
    choices: usize,
    pieces: usize,
    /// One move in so many has a precondition.
    guarded: usize,
}

/// Clauses of sections 3 and 4; the first alternative often agrees with what is known, so that there are starting worlds.
fn clauses(r: &mut Random, n: usize, size: &Size, count: usize, most: usize, known: &Set) -> Vec<Vec<Set>> {
    let mut list = Vec::new();
    for _ in 0..count {
        let mut clause: Vec<Set> = Vec::new();
        let mut choices = 1;
        for _ in 0..r.range(1, size.alternatives) {
            let alternative = literals(r, n, 1, size.literals);
            choices *= alternative.len();
            if choices * clause.len() > most {
                break;
            }
            clause.push(alternative);
        }
        if !r.one_in(4) {
            for x in &mut clause[0] {
                *x = known.iter().find(|y| x.proposition == y.proposition).copied().unwrap_or(*x);
            }
        }
        list.push(clause);
    }
    list
}

/// A move; its results are all true in the world `lasting`, if one is given, so that they never contradict.
fn a_move(r: &mut Random, n: usize, size: &Size, known: &Set, lasting: Option<u64>) -> Move {
    let mut precondition = Vec::new();
    if r.one_in(size.guarded) {
        precondition = literals(r, n, 0, size.precondition);
        if !r.one_in(3) {
            precondition.retain(|x| known.contains(x));
        }
    }
    let mut effects = Vec::new();
    let mut pieces = 1;
    for _ in 0..r.range(0, size.effects) {
        let condition = literals(r, n, 0, size.condition);
        pieces *= 1 + condition.iter().filter(|x| known.iter().all(|y| x.proposition != y.proposition)).count();
        if pieces > size.pieces {
            break;
        }
        let most = r.pick(&[1, 4]);
        let mut result = literals(r, n, 1, most);
        if let Some(world) = lasting {
            result.iter_mut().for_each(|x| x.truth = world >> x.proposition & 1 == 1);
        }
        effects.push(Effect { condition, result });
    }
    Move { precondition, effects }
}

fn random_sheet(r: &mut Random, size: &Size) -> Sheet {
    let n = r.range(size.n.0, size.n.1);
    let known = literals(r, n, if size.sure { n.saturating_sub(6) } else { 0 }, size.known);
    let count = r.range(0, size.clauses);
    let ors = clauses(r, n, size, count, usize::MAX, &known);
    let count = r.range(0, size.clauses - count);
    let oneofs = clauses(r, n, size, count, size.choices, &known);
    let lasting = if r.one_in(3) { Some(r.next()) } else { None };
    let moves: Vec<Move> = (0..r.range(1, size.moves)).map(|_| a_move(r, n, size, &known, lasting)).collect();
    let results: Set = moves.iter().flat_map(|m| &m.effects).flat_map(|e| e.result.clone()).collect();
    let goal = (0..r.range(0, size.goal))
        .map(|_| {
            let mut clause = literals(r, n, 1, 8.min(1 + size.goal));
            // A goal that moves can bring about is reached more often.
            if !results.is_empty() && !r.one_in(3) {
                let result = r.pick(&results);
                clause.retain(|x| x.proposition != result.proposition);
                clause.truncate(7);
                clause.push(result);
            }
            set_of(clause)
        })
        .collect();
    let plan = (0..r.range(0, size.plan)).map(|_| r.below(moves.len()) as u8).collect();
    Sheet { n, known, ors, oneofs, moves, goal, plan }
}

/// A sheet of at most six propositions.
pub fn small(r: &mut Random) -> Sheet {
    let literals = r.pick(&[1, 2, 2, 4]);
    let size = Size {
        n: (1, 6), known: r.pick(&[0, 1, 2, 6]), sure: false, clauses: r.pick(&[0, 1, 2, 4]), alternatives: r.pick(&[2, 3, 5]), literals,
        moves: r.pick(&[1, 2, 3, 4, 8]), precondition: 3, effects: r.pick(&[1, 2, 4, 8]), condition: r.pick(&[1, 2, 4]),
        goal: r.pick(&[1, 2, 3]), plan: r.pick(&[2, 4, 8]), choices: 200, pieces: 60, guarded: r.pick(&[2, 4, 8]),
    };
    random_sheet(r, &size)
}

/// A sheet of 7 to 10 propositions, for the count over worlds, or of up to 32, with every count up to its limit.
pub fn large(r: &mut Random) -> Sheet {
    let n = r.pick(&[(7, 10), (11, 24), (25, 32), (32, 32)]);
    let sure = r.one_in(3);
    let size = Size {
        n, known: if sure { 32 } else { r.pick(&[0, 4, 16]) }, sure, clauses: if sure { 8 } else { r.pick(&[1, 2, 3, 4]) },
        alternatives: r.pick(&[2, 4, 8]), literals: r.pick(&[1, 2, 4]), moves: r.pick(&[4, 12, 32]), precondition: 8, effects: 8,
        condition: r.pick(&[1, 2, 4]), goal: r.pick(&[1, 3, 8]), plan: if sure { 64 } else { r.pick(&[4, 16, 64]) },
        choices: if sure { 300 } else { 60 }, pieces: r.pick(&[2, 8, 30]), guarded: r.pick(&[3, 8, 30]),
    };
    random_sheet(r, &size)
}

/// A sheet whose tables have many entries: single propositions unknown, and moves that split by them, so that runs and searches get full.
pub fn wide(r: &mut Random) -> Sheet {
    let n = r.range(8, 14);
    let size = Size {
        n: (n, n), known: 0, sure: false, clauses: 0, alternatives: 1, literals: 1, moves: 5, precondition: 1, effects: 3, condition: r.pick(&[1, 2]),
        goal: r.pick(&[1, 3]), plan: 8, choices: 1, pieces: 8, guarded: 20,
    };
    let mut sheet = random_sheet(r, &size);
    let open = r.pick(&[3, 5, 6, 7, 7]);
    sheet.oneofs = (0..open).map(|p| vec![vec![literal(p, true)], vec![literal(p, false)]]).collect();
    sheet.known = literals(r, n, 0, n / 2);
    sheet.known.retain(|x| x.proposition as usize >= open);
    if sheet.goal.is_empty() || r.one_in(2) {
        sheet.goal = vec![literals(r, n, 1, 1)];
    }
    if r.one_in(4) {
        sheet.ors = vec![(0..r.range(1, 4)).map(|_| literals(r, n, 1, 2)).collect()];
    }
    sheet
}

/// The bytes of a sheet, whatever its counts are: out of their ranges too.
pub fn encode(sheet: &Sheet) -> Vec<u8> {
    fn set(bytes: &mut Vec<u8>, set: &Set) {
        bytes.push(set.len() as u8);
        bytes.extend(set.iter().map(|x| x.byte()));
    }
    let mut bytes = vec![sheet.n as u8];
    set(&mut bytes, &sheet.known);
    for section in [&sheet.ors, &sheet.oneofs] {
        bytes.push(section.len() as u8);
        for clause in section {
            bytes.push(clause.len() as u8);
            clause.iter().for_each(|alternative| set(&mut bytes, alternative));
        }
    }
    bytes.push(sheet.moves.len() as u8);
    for m in &sheet.moves {
        set(&mut bytes, &m.precondition);
        bytes.push(m.effects.len() as u8);
        for effect in &m.effects {
            set(&mut bytes, &effect.condition);
            set(&mut bytes, &effect.result);
        }
    }
    bytes.push(sheet.goal.len() as u8);
    sheet.goal.iter().for_each(|clause| set(&mut bytes, clause));
    bytes.push(sheet.plan.len() as u8);
    bytes.extend(&sheet.plan);
    bytes
}

/// The bytes with one to three faults: a byte changed, put in, taken out or exchanged with the next, bytes cut off or added.
pub fn damaged(r: &mut Random, bytes: &[u8]) -> Vec<u8> {
    let mut bytes = bytes.to_vec();
    for _ in 0..r.pick(&[1, 1, 1, 2, 3]) {
        let at = r.below(bytes.len().max(1));
        match r.below(9) {
            0 => bytes.truncate(at),
            1 => (0..r.pick(&[1, 1, 2, 5000])).for_each(|_| bytes.push(r.next() as u8)),
            2 => bytes.insert(at, r.below(70) as u8),
            _ if bytes.is_empty() => {}
            3 => drop(bytes.remove(at)),
            4 => bytes[at] = bytes[at].wrapping_add(1),
            5 => bytes[at] = bytes[at].wrapping_sub(1),
            6 => bytes[at] ^= 1,
            7 => bytes[at] = r.next() as u8,
            _ => {
                let next = (at + 1) % bytes.len();
                bytes.swap(at, next);
            }
        }
    }
    bytes
}

/// Any bytes, mostly small numbers.
pub fn noise(r: &mut Random) -> Vec<u8> {
    let high = r.pick(&[2, 4, 10, 70, 256]);
    (0..r.pick(&[0, 1, 5, 40])).map(|_| r.below(high) as u8).collect()
}

/// Entries none of which lies in another, at most `count` of them.
fn entries(r: &mut Random, n: usize, count: usize, low: usize, high: usize) -> Vec<Set> {
    let mut table: Vec<Set> = Vec::new();
    for _ in 0..count {
        let entry = literals(r, n, low, high);
        if !table.iter().any(|other| lies_in(other, &entry) || lies_in(&entry, other)) {
            table.push(entry);
        }
    }
    table
}

pub fn rubbish(r: &mut Random) -> [u32; NUMBERS] {
    std::array::from_fn(|_| r.next() as u32)
}

/// A table as 01 describes it, with rubbish in its unused slots.
pub fn good_table(r: &mut Random, n: usize) -> [u32; NUMBERS] {
    let count = r.pick(&[1, 2, 3, 5, 8, 20, 60, 128]);
    let (low, high) = (r.range(0, n), r.range(0, n));
    let mut table = entries(r, n, count, low.min(high), low.max(high));
    if table.is_empty() {
        table.push(literals(r, n, 0, n));
    }
    with_rubbish(r, &table)
}

pub fn with_rubbish(r: &mut Random, table: &[Set]) -> [u32; NUMBERS] {
    let mut numbers = numbers_of(table);
    if !r.one_in(4) {
        let other = rubbish(r);
        for i in (1 + table.len()..=ENTRIES).chain(1 + ENTRIES + table.len()..NUMBERS) {
            numbers[i] = other[i];
        }
    }
    numbers
}

/// A table with one or two faults: counts, bits at n and above, bits in both masks, entries that lie in others. Some keep to 01 all the
/// same.
pub fn bad_table(r: &mut Random, n: usize) -> [u32; NUMBERS] {
    if r.one_in(10) {
        return rubbish(r);
    }
    let mut numbers = good_table(r, n);
    let count = numbers[0] as usize;
    for _ in 0..r.pick(&[1, 1, 2]) {
        let (i, j) = (r.below(count), r.below(ENTRIES));
        match r.below(8) {
            0 => numbers[0] = r.pick(&[0, 129, 130, 256, 1 << 16, 1 << 31, u32::MAX]),
            1 => numbers[r.pick(&[1 + i, 1 + ENTRIES + i])] |= 1u32.checked_shl(r.range(n, 32) as u32).unwrap_or(0),
            2 => numbers[1 + i] |= numbers[1 + ENTRIES + i],
            3 => numbers[1 + ENTRIES + i] |= numbers[1 + i] & r.next() as u32,
            4 => (numbers[1 + j], numbers[1 + ENTRIES + j]) = (numbers[1 + i], numbers[1 + ENTRIES + i]),
            5 => {
                let keep = r.next() as u32;
                (numbers[1 + j], numbers[1 + ENTRIES + j]) = (numbers[1 + i] & keep, numbers[1 + ENTRIES + i] & keep);
            }
            6 => numbers[0] = (count as u32 + 1).min(ENTRIES as u32),
            _ => numbers[r.range(1, NUMBERS - 1)] = r.next() as u32,
        }
    }
    numbers
}

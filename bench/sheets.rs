//! The sheets of the benchmark, built as bytes. A literal is a byte: 2p says that p is true, 2p + 1 that p is false.

type Set = Vec<u8>;

pub struct Effect(pub Set, pub Set);

pub struct Sheet {
    n: u8,
    known: Set,
    ors: Vec<Vec<Set>>,
    oneofs: Vec<Vec<Set>>,
    moves: Vec<(Set, Vec<Effect>)>,
    goal: Vec<Set>,
    plan: Vec<u8>,
}

fn set(bytes: &mut Vec<u8>, set: &Set) {
    bytes.push(set.len() as u8);
    bytes.extend(set);
}

impl Sheet {
    /// n propositions, moves without preconditions, and nothing else.
    fn plain(n: u8, moves: Vec<Vec<Effect>>) -> Sheet {
        let moves = moves.into_iter().map(|effects| (vec![], effects)).collect();
        Sheet { n, known: vec![], ors: vec![], oneofs: vec![], moves, goal: vec![], plan: vec![] }
    }

    fn bytes(&self) -> Vec<u8> {
        let mut bytes = vec![self.n];
        set(&mut bytes, &self.known);
        for section in [&self.ors, &self.oneofs] {
            bytes.push(section.len() as u8);
            for clause in section {
                bytes.push(clause.len() as u8);
                clause.iter().for_each(|a| set(&mut bytes, a));
            }
        }
        bytes.push(self.moves.len() as u8);
        for (precondition, effects) in &self.moves {
            set(&mut bytes, precondition);
            bytes.push(effects.len() as u8);
            for Effect(condition, result) in effects {
                set(&mut bytes, condition);
                set(&mut bytes, result);
            }
        }
        bytes.push(self.goal.len() as u8);
        self.goal.iter().for_each(|c| set(&mut bytes, c));
        bytes.push(self.plan.len() as u8);
        bytes.extend(&self.plan);
        bytes
    }
}

fn effect(condition: &[u8], result: &[u8]) -> Effect {
    let sorted = |l: &[u8]| {
        let mut l = l.to_vec();
        l.sort();
        l
    };
    Effect(sorted(condition), sorted(result))
}

/// n propositions and one move that does nothing: for pictures.
pub fn bare(n: u8) -> Vec<u8> {
    Sheet::plain(n, vec![vec![]]).bytes()
}

/// The longest sheet: every count at its limit, 3,711 bytes.
pub fn longest() -> Vec<u8> {
    let four = |i: u8| -> Set { (0..4).map(|j| 2 * (8 * j + (i + 3 * j) % 8) + (i + j) % 2).collect() };
    let eight = |i: u8| -> Set { (0..8).map(|j| 2 * (4 * j + (i + j) % 4) + (i / 2 + j) % 2).collect() };
    let clauses = |k: u8| -> Vec<Vec<Set>> { (0..8).map(|i| (0..8).map(|j| four(k + i + 3 * j)).collect()).collect() };
    let effects = |i: u8| (0..8).map(|j| Effect(four(i + j), four(i + 2 * j + 1))).collect();
    let sheet = Sheet {
        n: 32,
        known: (0..32).map(|p| 2 * p + p % 3 % 2).collect(),
        ors: clauses(0),
        oneofs: clauses(5),
        moves: (0..32).map(|i| (eight(i), effects(i))).collect(),
        goal: (0..8).map(eight).collect(),
        plan: (0..64).map(|i| i % 32).collect(),
    };
    sheet.bytes()
}

/// 16 entries by two or-clauses of 4 alternatives.
fn sixteen() -> Vec<Vec<Set>> {
    let pairs = |p: u8| (0..4).map(|i| vec![2 * p + i / 2, 2 * p + 2 + i % 2]).collect();
    vec![pairs(6), pairs(8)]
}

/// 16 entries, then a oneof-clause of 8 alternatives of 4 literals.
pub fn oneof() -> Vec<u8> {
    let alternatives: [[u8; 4]; 8] = [
        [0, 5, 7, 13],
        [2, 4, 7, 10],
        [2, 5, 9, 13],
        [1, 2, 5, 7],
        [3, 6, 8, 11],
        [5, 7, 9, 11],
        [2, 5, 6, 9],
        [1, 7, 9, 10],
    ];
    let mut sheet = Sheet::plain(10, vec![vec![]]);
    sheet.ors = sixteen();
    sheet.oneofs = vec![alternatives.map(|a| a.to_vec()).to_vec()];
    sheet.bytes()
}

/// Or-clauses alone: 8, 4 and 4 alternatives of two literals, 128 entries.
pub fn ors() -> Vec<u8> {
    let mut sheet = Sheet::plain(32, vec![vec![]]);
    let clause = |first: u8, size: u8| (0..size).map(|i| vec![2 * (first + 2 * i), 2 * (first + 2 * i) + 3]).collect();
    sheet.ors = vec![clause(0, 8), clause(16, 4), clause(24, 4)];
    sheet.bytes()
}

/// 128 entries by or-clauses, each with one way to make all alternatives but the first false; then `clauses` times the same oneof-clause of
/// 8 alternatives of 4 literals. It makes 128 * 4^7 candidates each time, none inconsistent, and all but 128 of them dropped.
pub fn candidates(clauses: usize) -> Vec<u8> {
    let mut sheet = Sheet::plain(32, vec![vec![]]);
    sheet.known = vec![0, 2, 4, 6];
    sheet.ors = (1..8).map(|i| vec![vec![8 * i + 1], vec![8 * i + 3]]).collect();
    let alternatives: Vec<Set> = (0..8).map(|i| vec![8 * i, 8 * i + 2, 8 * i + 4, 8 * i + 6]).collect();
    sheet.oneofs = vec![alternatives; clauses];
    sheet.bytes()
}

/// Four conditional effects over 8 propositions.
pub fn effects() -> Vec<u8> {
    let effects = vec![
        effect(&[0, 7], &[10]),
        effect(&[2, 8], &[5]),
        effect(&[5, 12], &[14]),
        effect(&[10, 15], &[1]),
    ];
    Sheet::plain(8, vec![effects]).bytes()
}

/// k conditions of three unknown literals beside "0 is false", and 0 made true always: 4^k pieces of an entry where 0 is false, all dropped
/// if the entry where 0 is true comes first.
pub fn four_to_the(k: u8) -> Vec<u8> {
    let mut effects: Vec<Effect> = (0..k).map(|i| effect(&[1, 6 * i + 2, 6 * i + 4, 6 * i + 6], &[0])).collect();
    effects.push(effect(&[], &[0]));
    Sheet::plain(25, vec![effects]).bytes()
}

/// Eight conditions of four literals: 5^8 pieces of the empty entry, more than a table holds.
pub fn five_to_the_eighth() -> Vec<u8> {
    let effects = (0..8).map(|i| effect(&[8 * i, 8 * i + 2, 8 * i + 4, 8 * i + 6], &[8 * i + 1])).collect();
    Sheet::plain(32, vec![effects]).bytes()
}

/// Seven conditions of four literals, and 0 to 3 made true always. Three conditions split the entry of 0 to 3 into 5^3 pieces; the other
/// four are false there. Entries over 28 to 31 alone have 5^7 pieces, all dropped behind those.
pub fn five_to_the_seventh() -> Vec<u8> {
    let mut effects: Vec<Effect> = (1..4).map(|i| effect(&[8 * i, 8 * i + 2, 8 * i + 4, 8 * i + 6], &[0])).collect();
    effects.extend((0..4).map(|i| effect(&[2 * i + 1, 6 * i + 32, 6 * i + 34, 6 * i + 36], &[0])));
    effects.push(effect(&[], &[0, 2, 4, 6]));
    Sheet::plain(32, vec![effects]).bytes()
}

/// Two conditions over 7, 8, 10 and 11, which are made true always: nine pieces of an entry that does not name them, and one left of them.
pub fn ninefold() -> Vec<u8> {
    let effects = vec![effect(&[14, 16], &[18]), effect(&[20, 22], &[18]), effect(&[], &[14, 16, 20, 22])];
    Sheet::plain(12, vec![effects]).bytes()
}

/// A ring of rooms, 2 to 8: at one of them, windows unknown. Move 0 goes on, move 1 goes back, move 2 closes the window of the room.
fn ring(rooms: u8) -> Sheet {
    let on = (0..rooms).map(|i| effect(&[2 * i], &[2 * i + 1, 2 * ((i + 1) % rooms)])).collect();
    let back = (0..rooms).map(|i| effect(&[2 * i], &[2 * i + 1, 2 * ((i + rooms - 1) % rooms)])).collect();
    let close = (0..rooms).map(|i| effect(&[2 * i], &[2 * (rooms + i)])).collect();
    let mut sheet = Sheet::plain(2 * rooms, vec![on, back, close]);
    sheet.oneofs = vec![(0..rooms).map(|i| vec![2 * i]).collect()];
    sheet.goal = (0..rooms).map(|i| vec![2 * (rooms + i)]).collect();
    sheet
}

/// The ring with a plan of `length` moves: close and go on in turn.
pub fn ring_run(rooms: u8, length: u8) -> Vec<u8> {
    let mut sheet = ring(rooms);
    sheet.plan = (0..length).map(|i| if i % 2 == 0 { 2 } else { 0 }).collect();
    sheet.bytes()
}

/// The ring with no plan: a search finds one of 2 * rooms - 1 moves.
pub fn ring_search(rooms: u8) -> Vec<u8> {
    ring(rooms).bytes()
}

/// Four entries of 4, 4, 4 and 3 literals: 192 clauses. The plan makes one more proposition true and false in turn, 64 times: 193.
pub fn big_pictures() -> Vec<u8> {
    let mut sheet = Sheet::plain(16, vec![vec![effect(&[], &[0])], vec![effect(&[], &[1])]]);
    sheet.ors = vec![vec![vec![2, 4, 6, 8], vec![10, 12, 14, 16], vec![18, 20, 22, 24], vec![26, 28, 30]]];
    sheet.plan = (0..64).map(|i| i % 2).collect();
    sheet.bytes()
}

/// 32 moves; the goal is out of reach for three of them.
pub fn search32() -> Vec<u8> {
    let moves = (0..32).map(|i| vec![effect(&[2 * i], &[2 * i + 1]), effect(&[2 * i + 1], &[(2 * i + 10) % 62])]).collect();
    let mut sheet = Sheet::plain(32, moves);
    sheet.known = (0..16).map(|i| 4 * i + 1).collect();
    sheet.oneofs = vec![vec![vec![2], vec![6], vec![10]], vec![vec![14], vec![18]]];
    sheet.goal = vec![vec![62]];
    sheet.bytes()
}

/// 8 moves; no move makes the goal true.
pub fn search8() -> Vec<u8> {
    let flips = |i: u8| {
        let both = [2 * i, (2 * i + 2) % 16];
        vec![effect(&[2 * i], &[2 * i + 1]), effect(&[2 * i + 1], &[2 * i]), effect(&both, &[17 - i % 2])]
    };
    let mut sheet = Sheet::plain(10, (0..8).map(flips).collect());
    sheet.known = vec![1, 3, 5, 7, 9, 11, 17];
    sheet.oneofs = vec![vec![vec![12], vec![14]]];
    sheet.goal = vec![vec![18]];
    sheet.bytes()
}

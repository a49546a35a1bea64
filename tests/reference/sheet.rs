//! Documents 01 and 02 once more, in plain Rust, from their text alone: here sets of literals and the sheet; tables.rs and plans.rs
//! go on. The comments quote the sentences that the code follows.
//! A set of literals is a sorted list, never a mask.

/// "A literal is one byte: 2p says p is true, 2p + 1 says p is false."
#[derive(Clone, Copy, PartialEq, Eq, Hash, Debug)]
pub struct Literal {
    pub proposition: u8,
    pub truth: bool,
}

impl Literal {
    fn of_byte(byte: u8) -> Literal {
        Literal { proposition: byte / 2, truth: byte % 2 == 0 }
    }

    pub fn byte(self) -> u8 {
        2 * self.proposition + if self.truth { 0 } else { 1 }
    }

    pub fn complement(self) -> Literal {
        Literal { proposition: self.proposition, truth: !self.truth }
    }
}

/// Literals in ascending order of their bytes, none twice. Entries, clauses of a picture, conditions and results are such sets.
pub type Set = Vec<Literal>;

/// All literals of `a` lie in `b`.
pub fn lies_in(a: &[Literal], b: &[Literal]) -> bool {
    let mut rest = b.iter();
    a.len() <= b.len() && a.iter().all(|x| rest.any(|y| x == y))
}

/// Some literal of `a` has its complement in `b`.
pub fn contradicts(a: &[Literal], b: &[Literal]) -> bool {
    a.iter().any(|x| b.contains(&x.complement()))
}

/// A literal and its complement are neighbours in ascending order.
pub fn has_pair(a: &[Literal]) -> bool {
    a.windows(2).any(|two| two[0].proposition == two[1].proposition)
}

pub fn set_of(mut literals: Vec<Literal>) -> Set {
    literals.sort_by_key(|x| x.byte());
    literals.dedup();
    literals
}

/// All literals of both, by merging them.
pub fn joined(a: &[Literal], b: &[Literal]) -> Set {
    let mut both = Vec::with_capacity(a.len() + b.len());
    let (mut i, mut j) = (0, 0);
    while i < a.len() && j < b.len() {
        both.push(if a[i].byte() <= b[j].byte() { a[i] } else { b[j] });
        let (taken_a, taken_b) = (a[i].byte() <= b[j].byte(), b[j].byte() <= a[i].byte());
        i += taken_a as usize;
        j += taken_b as usize;
    }
    both.extend(&a[i..]);
    both.extend(&b[j..]);
    both
}

/// "the mask of true and of false propositions", "bit p for proposition p"
pub fn masks(set: &[Literal]) -> (u32, u32) {
    let sum = |truth| set.iter().filter(|x| x.truth == truth).map(|x| 1u32 << x.proposition).sum();
    (sum(true), sum(false))
}

/// "From the input, each with the position, from 0, of the byte at fault"; "From the state, position 0".
#[derive(Clone, Copy, PartialEq, Eq, Debug)]
pub struct Fault {
    pub number: u8,
    pub position: usize,
}

pub fn state(number: u8) -> Fault {
    Fault { number, position: 0 }
}

#[derive(Clone, Debug)]
pub struct Effect {
    pub condition: Set,
    pub result: Set,
}

#[derive(Clone, Debug)]
pub struct Move {
    pub precondition: Set,
    pub effects: Vec<Effect>,
}

#[derive(Clone, Debug)]
pub struct Sheet {
    pub n: usize,
    pub known: Set,
    pub ors: Vec<Vec<Set>>,
    pub oneofs: Vec<Vec<Set>>,
    pub moves: Vec<Move>,
    pub goal: Vec<Set>,
    pub plan: Vec<u8>,
}

struct Reader<'a> {
    bytes: &'a [u8],
    at: usize,
    n: usize,
}

impl Reader<'_> {
    /// "1 the bytes end too early (position: the length)"
    fn byte(&mut self) -> Result<u8, Fault> {
        let byte = self.bytes.get(self.at).copied().ok_or(Fault { number: 1, position: self.bytes.len() })?;
        self.at += 1;
        Ok(byte)
    }

    /// A fault at the byte that was read last.
    fn fault<T>(&self, number: u8) -> Result<T, Fault> {
        Err(Fault { number, position: self.at - 1 })
    }

    /// "2 count out of its range, judged before its items"
    fn count(&mut self, low: usize, high: usize) -> Result<usize, Fault> {
        let count = self.byte()? as usize;
        if count < low || count > high { self.fault(2) } else { Ok(count) }
    }

    fn items<T>(&mut self, low: usize, high: usize, item: impl Fn(&mut Self) -> Result<T, Fault>) -> Result<Vec<T>, Fault> {
        let count = self.count(low, high)?;
        (0..count).map(|_| item(self)).collect()
    }

    /// "Each list of literals is strictly ascending and has no literal with its complement"; "3 before 4 before 5".
    fn literals(&mut self, low: usize, high: usize) -> Result<Set, Fault> {
        let count = self.count(low, high)?;
        let mut list: Set = Vec::new();
        for _ in 0..count {
            let byte = self.byte()?;
            if byte as usize >= 2 * self.n {
                return self.fault(3);
            }
            let literal = Literal::of_byte(byte);
            if let Some(before) = list.last() {
                if byte <= before.byte() {
                    return self.fault(4);
                }
                if literal == before.complement() {
                    return self.fault(5);
                }
            }
            list.push(literal);
        }
        Ok(list)
    }

    /// "Each: 1 to 8 alternatives; each alternative 1 to 4 literals, all to hold together." Oneof-clauses are "built alike".
    fn clauses(&mut self) -> Result<Vec<Vec<Set>>, Fault> {
        self.items(0, 8, |r| r.items(1, 8, |r| r.literals(1, 4)))
    }

    /// "precondition, 0 to 8 literals; then 0 to 8 effects, each a condition of 0 to 4 literals and a result of 1 to 4 literals"
    fn a_move(&mut self) -> Result<Move, Fault> {
        let precondition = self.literals(0, 8)?;
        let effects = self.items(0, 8, |r| Ok(Effect { condition: r.literals(0, 4)?, result: r.literals(1, 4)? }))?;
        Ok(Move { precondition, effects })
    }
}

/// "Bytes, in seven sections in fixed order, each after its count byte."
pub fn read(bytes: &[u8]) -> Result<Sheet, Fault> {
    let mut r = Reader { bytes, at: 0, n: 0 };
    r.n = r.count(1, 32)?;
    let known = r.literals(0, 32)?;
    let ors = r.clauses()?;
    let oneofs = r.clauses()?;
    let moves = r.items(1, 32, |r| r.a_move())?;
    let goal = r.items(0, 8, |r| r.literals(1, 8))?;
    let plan = r.items(0, 64, |r| {
        let number = r.byte()?;
        if number as usize >= moves.len() { r.fault(7) } else { Ok(number) }
    })?;
    if r.at < bytes.len() {
        return Err(Fault { number: 6, position: r.at });
    }
    Ok(Sheet { n: r.n, known, ors, oneofs, moves, goal, plan })
}

//! A sheet read from its bytes, or its first fault. What is read goes straight to its place in the sheet.

use super::masks::{join, literal, Literals, NONE};

/// The number and the position of a refusal.
#[derive(Clone, Copy)]
pub struct Fault(pub u8, pub usize);

#[derive(Clone, Copy)]
pub struct Effect {
    pub condition: Literals,
    pub result: Literals,
}

#[derive(Clone, Copy)]
pub struct Move {
    pub precondition: Literals,
    count: usize,
    effects: [Effect; 8],
}

impl Move {
    pub fn effects(&self) -> &[Effect] {
        &self.effects[..self.count]
    }
}

/// The alternatives of a clause, or the clauses of the goal.
#[derive(Clone, Copy)]
pub struct Sets {
    count: usize,
    items: [Literals; 8],
}

impl Sets {
    pub fn items(&self) -> &[Literals] {
        &self.items[..self.count]
    }
}

/// The or-clauses, or the oneof-clauses.
pub struct Clauses {
    count: usize,
    items: [Sets; 8],
}

impl Clauses {
    pub fn items(&self) -> &[Sets] {
        &self.items[..self.count]
    }
}

pub struct Sheet {
    pub n: usize,
    pub known: Literals,
    pub ors: Clauses,
    pub oneofs: Clauses,
    move_count: usize,
    move_items: [Move; 32],
    pub goal: Sets,
    plan_count: usize,
    plan_numbers: [u8; 64],
}

const NO_EFFECT: Effect = Effect { condition: NONE, result: NONE };
const NO_MOVE: Move = Move { precondition: NONE, count: 0, effects: [NO_EFFECT; 8] };
const NO_SETS: Sets = Sets { count: 0, items: [NONE; 8] };
const NO_CLAUSES: Clauses = Clauses { count: 0, items: [NO_SETS; 8] };

impl Sheet {
    pub const EMPTY: Sheet = Sheet {
        n: 0,
        known: NONE,
        ors: NO_CLAUSES,
        oneofs: NO_CLAUSES,
        move_count: 0,
        move_items: [NO_MOVE; 32],
        goal: NO_SETS,
        plan_count: 0,
        plan_numbers: [0; 64],
    };

    pub fn moves(&self) -> &[Move] {
        &self.move_items[..self.move_count]
    }

    pub fn plan(&self) -> &[u8] {
        &self.plan_numbers[..self.plan_count]
    }

    /// Reads the bytes into an empty sheet.
    pub fn read(&mut self, bytes: &[u8]) -> Result<(), Fault> {
        let mut r = Reader { bytes, at: 0 };
        let n = r.count(1, 32)?;
        self.n = n;
        self.known = r.literals(n, 0, 32)?;
        r.clauses(n, &mut self.ors)?;
        r.clauses(n, &mut self.oneofs)?;
        self.move_count = r.count(1, 32)?;
        for m in &mut self.move_items[..self.move_count] {
            r.action(n, m)?;
        }
        r.sets(n, 0, 8, &mut self.goal)?;
        self.plan_count = r.count(0, 64)?;
        for number in &mut self.plan_numbers[..self.plan_count] {
            *number = r.number(self.move_count)?;
        }
        if r.at < bytes.len() {
            return Err(Fault(6, r.at));
        }
        Ok(())
    }
}

/// The bytes and the next position.
struct Reader<'a> {
    bytes: &'a [u8],
    at: usize,
}

impl Reader<'_> {
    fn byte(&mut self) -> Result<usize, Fault> {
        let Some(&b) = self.bytes.get(self.at) else {
            return Err(Fault(1, self.bytes.len()));
        };
        self.at += 1;
        Ok(b as usize)
    }

    /// A count byte from low to high.
    fn count(&mut self, low: usize, high: usize) -> Result<usize, Fault> {
        let k = self.byte()?;
        if k < low || high < k {
            return Err(Fault(2, self.at - 1));
        }
        Ok(k)
    }

    /// A literal byte. floor is one more than the literal before, 0 for the first.
    fn literal(&mut self, n: usize, floor: usize) -> Result<usize, Fault> {
        let b = self.byte()?;
        if 2 * n <= b {
            return Err(Fault(3, self.at - 1));
        }
        if b < floor {
            return Err(Fault(4, self.at - 1));
        }
        if floor != 0 && b / 2 == (floor - 1) / 2 {
            return Err(Fault(5, self.at - 1));
        }
        Ok(b)
    }

    /// A list of low to high literals, after its count.
    fn literals(&mut self, n: usize, low: usize, high: usize) -> Result<Literals, Fault> {
        let k = self.count(low, high)?;
        let mut l = NONE;
        let mut floor = 0;
        for _ in 0..k {
            let b = self.literal(n, floor)?;
            l = join(l, literal(b));
            floor = b + 1;
        }
        Ok(l)
    }

    fn action(&mut self, n: usize, to: &mut Move) -> Result<(), Fault> {
        to.precondition = self.literals(n, 0, 8)?;
        to.count = self.count(0, 8)?;
        for e in &mut to.effects[..to.count] {
            e.condition = self.literals(n, 0, 4)?;
            e.result = self.literals(n, 1, 4)?;
        }
        Ok(())
    }

    /// least to 8 lists of 1 to widest literals.
    fn sets(&mut self, n: usize, least: usize, widest: usize, to: &mut Sets) -> Result<(), Fault> {
        to.count = self.count(least, 8)?;
        for l in &mut to.items[..to.count] {
            *l = self.literals(n, 1, widest)?;
        }
        Ok(())
    }

    fn clauses(&mut self, n: usize, to: &mut Clauses) -> Result<(), Fault> {
        to.count = self.count(0, 8)?;
        for c in &mut to.items[..to.count] {
            self.sets(n, 1, 4, c)?;
        }
        Ok(())
    }

    /// The number of one of the m moves.
    fn number(&mut self, m: usize) -> Result<u8, Fault> {
        let b = self.byte()?;
        if m <= b {
            return Err(Fault(7, self.at - 1));
        }
        Ok(b as u8)
    }
}

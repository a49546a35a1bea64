//! Sets of literals as two masks.

/// Bit p of trues for "p is true", of falses for "p is false".
#[derive(Clone, Copy)]
pub struct Literals {
    pub trues: u32,
    pub falses: u32,
}

pub const NONE: Literals = Literals { trues: 0, falses: 0 };

/// All literals of a lie in b.
pub fn within(a: Literals, b: Literals) -> bool {
    (a.trues & !b.trues) | (a.falses & !b.falses) == 0
}

/// Some literal of a has its complement in b.
pub fn clash(a: Literals, b: Literals) -> bool {
    (a.trues & b.falses) | (a.falses & b.trues) != 0
}

/// No literal with its complement.
pub fn consistent(a: Literals) -> bool {
    a.trues & a.falses == 0
}

pub fn join(a: Literals, b: Literals) -> Literals {
    Literals { trues: a.trues | b.trues, falses: a.falses | b.falses }
}

/// The literals of a that are not in b.
#[cfg(blocks)]
pub fn lacking(a: Literals, b: Literals) -> Literals {
    Literals { trues: a.trues & !b.trues, falses: a.falses & !b.falses }
}

pub fn flip(a: Literals) -> Literals {
    Literals { trues: a.falses, falses: a.trues }
}

/// The results r replace their complements in a.
pub fn replace(a: Literals, r: Literals) -> Literals {
    Literals { trues: (a.trues & !r.falses) | r.trues, falses: (a.falses & !r.trues) | r.falses }
}

/// The set of one literal: 2p says that p is true, 2p + 1 that p is false.
pub fn literal(l: usize) -> Literals {
    let m = 1u32 << (l / 2);
    if l % 2 == 0 {
        Literals { trues: m, falses: 0 }
    } else {
        Literals { trues: 0, falses: m }
    }
}

pub fn contains(a: Literals, l: usize) -> bool {
    if l >= 64 {
        return false;
    }
    let mask = if l % 2 == 0 { a.trues } else { a.falses };
    (mask >> (l / 2)) & 1 == 1
}

/// The smallest literal of a at the propositions from p on; 64 where there is none.
fn lowest(a: Literals, p: usize) -> usize {
    if p >= 32 {
        return 64;
    }
    let named = (a.trues | a.falses) >> p;
    if named == 0 {
        return 64;
    }
    let l = 2 * (p + named.trailing_zeros() as usize);
    if contains(a, l) {
        l
    } else {
        l + 1
    }
}

/// The smallest literal of a from `from` on; 64 or more where there is none.
pub fn next(a: Literals, from: usize) -> usize {
    if from >= 64 {
        return from;
    }
    if from % 2 == 0 {
        return lowest(a, from / 2);
    }
    if contains(a, from) {
        return from;
    }
    lowest(a, from / 2 + 1)
}

/// Every proposition named in a is below n.
pub fn below(n: usize, a: Literals) -> bool {
    n >= 32 || (a.trues | a.falses) >> n == 0
}

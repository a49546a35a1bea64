//! The step of a table by a move.

use super::lists::{Full, Table, View};
use super::masks::{clash, consistent, contains, flip, join, literal, next, replace, within, Literals, NONE};
use super::sheet::{Effect, Fault, Move};
#[cfg(counted)]
use std::sync::atomic::{AtomicU64, Ordering::Relaxed};

/// Two effects pass the test.
fn some_pair(effects: &[Effect], test: impl Fn(&Effect, &Effect) -> bool) -> bool {
    effects.iter().enumerate().any(|(i, e)| effects[i + 1..].iter().any(|f| test(e, f)))
}

/// Both together are consistent.
fn admits(d: Literals, c: Literals) -> bool {
    consistent(join(d, c))
}

/// In some entry, two effects are opposed (25): their results clash, and the entry admits both conditions.
#[cfg(not(blocks))]
fn unclear(effects: &[Effect], from: View) -> bool {
    from.iter().any(|d| some_pair(effects, |e, f| clash(e.result, f.result) && admits(d, join(e.condition, f.condition))))
}

/// The same, pair by pair: whether results clash is asked once. The scan of the entries has no way out before the last of them, so that the
/// compiler tests several at once.
#[cfg(blocks)]
fn unclear(effects: &[Effect], from: View) -> bool {
    let admitted = |c: Literals| from.iter().fold(false, |some, d| some | admits(d, c));
    some_pair(effects, |e, f| clash(e.result, f.result) && admitted(join(e.condition, f.condition)))
}

/// The pieces of `piece` by the conditions from `at` on, depth first, the image of each put in its turn; `results` are those of the effects
/// before `at`.
fn branch(effects: &[Effect], at: usize, piece: Literals, results: Literals, to: &mut Table) -> Result<(), Full> {
    let mut sum = results;
    for (i, e) in effects.iter().enumerate().skip(at) {
        if within(e.condition, piece) {
            sum = join(e.result, sum);
        } else if !clash(e.condition, piece) {
            return split(effects, i, piece, sum, to);
        }
    }
    to.put_piece(replace(piece, sum))
}

/// The same where the condition at `at` splits the piece.
fn split(effects: &[Effect], at: usize, piece: Literals, results: Literals, to: &mut Table) -> Result<(), Full> {
    let Effect { condition, result } = effects[at];
    branch(effects, at + 1, join(piece, condition), join(result, results), to)?;
    let mut l = next(condition, 0);
    while l < 64 {
        if !contains(piece, l) {
            branch(effects, at + 1, join(piece, flip(literal(l))), results, to)?;
        }
        l = next(condition, l + 1);
    }
    Ok(())
}

/// How many steps were taken.
#[cfg(counted)]
static TAKEN: AtomicU64 = AtomicU64::new(0);

/// How many steps were taken since this was asked last.
#[cfg(counted)]
pub fn steps_taken() -> u64 {
    TAKEN.swap(0, Relaxed)
}

/// The step, into an empty table: 24, 25, then 21.
pub fn step(m: &Move, from: View, to: &mut Table) -> Result<(), Fault> {
    #[cfg(counted)]
    TAKEN.fetch_add(1, Relaxed);
    if !from.iter().all(|e| within(m.precondition, e)) {
        return Err(Fault(24, 0));
    }
    let effects = m.effects();
    if unclear(effects, from) {
        return Err(Fault(25, 0));
    }
    for e in from.iter() {
        branch(effects, 0, e, NONE, to).map_err(|_| Fault(21, 0))?;
    }
    Ok(())
}

//! Moves that touch, by document 02's W2, and exchanges: two moves that do not touch come to the same in either order; after a list of
//! exchanges a run ends as before. With any part of the test of touching left out, moves are found that do not commute.

use crate::cases::hexadecimal;
use crate::plans::{run, Verdict};
use crate::random::{encode, literal, literals, Random};
use crate::sheet::{Effect, Literal, Move, Set, Sheet};
use crate::tables::{picture, picture_bytes};
use crate::worlds::{moved, Checked, World};

/// The results of all effects, whatever their conditions.
fn results(m: &Move) -> Vec<Literal> {
    m.effects.iter().flat_map(|e| e.result.clone()).collect()
}

/// Document 02, W2: "two moves touch if a result of one has its complement among the other's results, or if a proposition in a result of one
/// is named in the other's precondition or conditions."
fn touch(a: &Move, b: &Move) -> bool {
    let reads = |m: &Move, p: u8| m.precondition.iter().chain(m.effects.iter().flat_map(|e| &e.condition)).any(|x| x.proposition == p);
    let (of_a, of_b) = (results(a), results(b));
    of_a.iter().any(|x| of_b.contains(&x.complement()) || reads(b, x.proposition)) || of_b.iter().any(|x| reads(a, x.proposition))
}

/// The parts of that test: complements among the results; preconditions; conditions; the one move read by the other and the other by the
/// one; a proposition is named by a literal of either sign.
#[derive(Clone, Copy, PartialEq, Eq, Debug)]
enum Part {
    Complements,
    Preconditions,
    Conditions,
    BothWays,
    EitherSign,
}

const PARTS: [Part; 5] = [Part::Complements, Part::Preconditions, Part::Conditions, Part::BothWays, Part::EitherSign];

/// The test with one of its parts left out.
fn touch_without(part: Part, a: &Move, b: &Move) -> bool {
    let named = |m: &Move| {
        let precondition = m.precondition.iter().filter(|_| part != Part::Preconditions);
        let conditions = m.effects.iter().flat_map(|e| &e.condition).filter(|_| part != Part::Conditions);
        precondition.chain(conditions).copied().collect::<Vec<Literal>>()
    };
    let read = |of: &Move, by: &Move| {
        let named = named(by);
        results(of).iter().any(|x| named.contains(x) || (part != Part::EitherSign && named.contains(&x.complement())))
    };
    let clash = results(a).iter().any(|x| results(b).contains(&x.complement()));
    (part != Part::Complements && clash) || read(a, b) || (part != Part::BothWays && read(b, a))
}

/// A world that the two moves take to different worlds in the two orders, or to none in one of them alone, and where they take it.
fn clashing(n: usize, a: &Move, b: &Move) -> Option<(World, Option<World>, Option<World>)> {
    let both = |first: &Move, second: &Move, w: World| moved(first, w).and_then(|v| moved(second, v)).ok();
    (0..1 << n).map(|w| (w, both(a, b, w), both(b, a, w))).find(|(_, there, back)| there != back)
}

/// What makes an exchange safe: two moves that do not touch take every world to the same world in either order, or to none in both.
pub fn check_moves(sheet: &Sheet) -> Checked {
    let mut pairs = 0;
    for (i, a) in sheet.moves.iter().enumerate() {
        for (j, b) in sheet.moves[..i].iter().enumerate().filter(|(_, b)| !touch(a, b)) {
            if let Some((w, there, back)) = clashing(sheet.n, a, b) {
                return Err(format!("moves {i} and {j} do not touch, but take world {w} to {there:?}, the other way round to {back:?}"));
            }
            pairs += 1;
        }
    }
    Ok(pairs)
}

/// "An exchange is a number k from 1. It swaps moves k and k + 1 of the plan it gets; if they touch, or there is no move k + 1, the plan
/// stays."
fn exchange(sheet: &Sheet, plan: &mut [u8], k: usize) {
    let of = |number: u8| &sheet.moves[number as usize];
    if k < plan.len() && !touch(of(plan[k - 1]), of(plan[k])) {
        plan.swap(k - 1, k);
    }
}

/// A sheet with few conditions, so that moves often do not touch; most results also put the last proposition, the lamp, out.
fn lamp_sheet(r: &mut Random) -> Sheet {
    let n = r.range(3, 5);
    let seldom = |r: &mut Random, share: usize| if r.below(10) < share { literals(r, n, 0, 1) } else { Vec::new() };
    let effect = |r: &mut Random| {
        let mut result = literals(r, n - 1, 1, 2);
        if !r.one_in(5) {
            result.push(literal(n - 1, false));
        }
        Effect { condition: seldom(r, 3), result }
    };
    let clauses = |r: &mut Random| -> Vec<Vec<Set>> {
        (0..r.range(0, 1)).map(|_| (0..r.range(2, 3)).map(|_| literals(r, n, 1, 2)).collect()).collect()
    };
    let (known, ors, oneofs) = (seldom(r, 5), clauses(r), clauses(r));
    let moves: Vec<Move> = (0..r.range(2, 4))
        .map(|_| Move { precondition: seldom(r, 2), effects: (0..r.range(0, 2)).map(|_| effect(r)).collect() })
        .collect();
    let goal = (0..r.range(0, 2)).map(|_| literals(r, n, 1, 2)).collect();
    let plan = (0..r.range(2, 6)).map(|_| r.below(moves.len()) as u8).collect();
    Sheet { n, known, ors, oneofs, moves, goal, plan }
}

/// Reached, short or stopped, and the bytes of the final picture, None if that is full; None for a run that is full or refused.
fn ending(sheet: &Sheet) -> Option<(&'static str, Option<Vec<u8>>)> {
    let run = run(sheet).ok()?;
    let word = match run.verdict {
        Verdict::Reached => "reached",
        Verdict::Short => "short",
        Verdict::Stopped(..) => "stopped",
        Verdict::Full(_) => return None,
    };
    Some((word, picture(&run.table).ok().map(|clauses| picture_bytes(&clauses))))
}

/// What was tried on the sheets with a lamp.
#[derive(Default)]
pub struct Tried {
    /// Pairs of moves that do not touch, and those of them that share a result.
    apart: u64,
    shared: u64,
    /// Pairs of runs, and those of different plans.
    runs: u64,
    changed: u64,
    /// The parts without which moves that do not commute would not touch.
    needed: Vec<Part>,
}

impl Tried {
    /// Every two moves of a sheet.
    fn moves(&mut self, sheet: &Sheet) -> Result<(), String> {
        self.apart += check_moves(sheet)?;
        for (i, a) in sheet.moves.iter().enumerate() {
            for b in &sheet.moves[..i] {
                self.shared += (!touch(a, b) && results(a).iter().any(|x| results(b).contains(x))) as u64;
                if clashing(sheet.n, a, b).is_some() {
                    let spare = self.spare();
                    self.needed.extend(spare.into_iter().filter(|part| !touch_without(*part, a, b)));
                }
            }
        }
        Ok(())
    }

    /// The run of the sheet's plan and that of the plan after some exchanges: reached, short or stopped alike, and unless stopped, the same
    /// final picture.
    fn runs(&mut self, r: &mut Random, sheet: &Sheet) -> Result<(), String> {
        let mut after = sheet.clone();
        for _ in 0..r.range(1, 6) {
            let k = r.range(1, after.plan.len());
            exchange(sheet, &mut after.plan, k);
        }
        let (Some((first, drawn)), Some((last, redrawn))) = (ending(sheet), ending(&after)) else { return Ok(()) };
        let other = drawn.is_some() && redrawn.is_some() && drawn != redrawn;
        if first != last || (first != "stopped" && other) {
            return Err(format!("exchanges from {:?} to {:?}: {first} with {drawn:?}, then {last} with {redrawn:?}", sheet.plan, after.plan));
        }
        self.runs += 1;
        self.changed += (after.plan != sheet.plan) as u64;
        Ok(())
    }

    /// The parts that no moves were found to need.
    fn spare(&self) -> Vec<Part> {
        PARTS.into_iter().filter(|part| !self.needed.contains(part)).collect()
    }

    /// The comparisons that were made.
    pub fn passed(&self) -> u64 {
        self.apart + self.runs + self.needed.len() as u64
    }

    pub fn words(&self) -> String {
        let Tried { apart, shared, runs, changed, needed } = self;
        format!(
            "{apart} pairs of moves that do not touch commute, {shared} of them share a result; {runs} pairs of runs end alike, {changed} of \
             different plans; {} of {} parts of the test of touching are needed",
            needed.len(), PARTS.len()
        )
    }
}

/// So many sheets with a lamp. Otherwise what differs, with the sheet; or the parts of the test that no moves were found to need.
pub fn check_lamps(r: &mut Random, count: usize) -> Result<Tried, String> {
    let mut tried = Tried::default();
    for _ in 0..count {
        let sheet = lamp_sheet(r);
        tried.moves(&sheet).and_then(|()| tried.runs(r, &sheet)).map_err(|wrong| {
            format!("{wrong}\nsheet: {}", hexadecimal(&encode(&sheet)))
        })?;
    }
    let spare = tried.spare();
    if spare.is_empty() { Ok(tried) } else { Err(format!("no moves were found that need these parts of the test of touching: {spare:?}")) }
}

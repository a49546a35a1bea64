//! Document 01 once more: the run, the search and the text of `check`, over tables.rs.

use crate::sheet::{read, state, Fault, Set, Sheet};
use crate::tables::{picture, start, step};
use std::collections::HashSet;
use std::hash::Hash;

#[derive(Clone, Copy, PartialEq, Eq, Debug)]
pub enum Verdict {
    Reached,
    Short,
    Stopped(usize, u8),
    Full(usize),
}

pub struct Run {
    /// Entries and clauses of the places arrived at, from place 0; "257 if that picture is full".
    pub rows: Vec<(usize, usize)>,
    pub verdict: Verdict,
    /// "It returns the last table it had."
    pub table: Vec<Set>,
}

/// "Goal [..]; a world is in the goal if each [clause] has a literal true there": every world of an entry has it if the entry has it, since
/// no clause holds a complementary pair.
pub fn in_goal(sheet: &Sheet, table: &[Set]) -> bool {
    table.iter().all(|entry| sheet.goal.iter().all(|clause| clause.iter().any(|x| entry.contains(x))))
}

/// "A run starts, then steps the plan. Place 0 is the start, place k the k-th move."
pub fn run(sheet: &Sheet) -> Result<Run, Fault> {
    let mut table = start(sheet)?;
    let row = |table: &[Set]| (table.len(), picture(table).map_or(257, |clauses| clauses.len()));
    let mut rows = vec![row(&table)];
    for (place, number) in (1..).zip(&sheet.plan) {
        match step(sheet, &table, *number as usize) {
            Ok(next) => table = next,
            Err(Fault { number: 21, .. }) => return Ok(Run { rows, verdict: Verdict::Full(place), table }),
            Err(fault) => return Ok(Run { rows, verdict: Verdict::Stopped(place, fault.number), table }),
        }
        rows.push(row(&table));
    }
    let verdict = if in_goal(sheet, &table) { Verdict::Reached } else { Verdict::Short };
    Ok(Run { rows, verdict, table })
}

#[derive(Clone, PartialEq, Eq, Debug)]
pub enum Found {
    Reached(Vec<u8>),
    Full(Vec<u8>, usize),
    Nothing,
}

/// "Plans are tried shorter first, then in ascending order of moves; the sheet's plan is ignored. The answer is the first plan that is
/// reached, or the first that is full, with its place, if it comes earlier, or none." All plans of one length that are not stopped stand in
/// order with their tables; None if that takes more than `budget` steps.
pub fn search(sheet: &Sheet, limit: u64, mut budget: usize) -> Option<Result<Found, Fault>> {
    if limit > 8 {
        return Some(Err(state(8)));
    }
    let mut plans = match start(sheet) {
        Ok(table) => vec![(Vec::new(), table)],
        Err(fault) => return Some(Err(fault)),
    };
    for length in 0..=limit {
        if let Some((plan, _)) = plans.iter().find(|(_, table)| in_goal(sheet, table)) {
            return Some(Ok(Found::Reached(plan.clone())));
        }
        if length == limit {
            break;
        }
        let mut longer = Vec::new();
        for (plan, table) in &plans {
            for number in 0..sheet.moves.len() {
                budget = budget.checked_sub(1)?;
                let next = [plan.as_slice(), &[number as u8]].concat();
                match step(sheet, table, number) {
                    Ok(table) => longer.push((next, table)),
                    // A plan of this length that is reached and comes earlier is the answer; one that is full ends the trying.
                    Err(Fault { number: 21, .. }) => {
                        let earlier = longer.into_iter().find(|(_, table)| in_goal(sheet, table));
                        let place = next.len();
                        return Some(Ok(earlier.map_or(Found::Full(next, place), |(plan, _)| Found::Reached(plan))));
                    }
                    Err(_) => {}
                }
            }
        }
        plans = longer;
    }
    Some(Ok(Found::Nothing))
}

/// The first plan, "shorter first, then in ascending order of moves", for whose last state `done` has an answer. `step` gives the state
/// after a move, None where a plan stops. A state that an earlier plan came to is not followed: what comes after it, the earlier plan brings
/// about earlier.
pub fn first_plan<S: Clone + Eq + Hash, A>(
    moves: usize, limit: u64, first: S, step: impl Fn(&S, usize) -> Option<S>, done: impl Fn(&S) -> Option<A>,
) -> Option<(Vec<u8>, A)> {
    if let Some(answer) = done(&first) {
        return Some((Vec::new(), answer));
    }
    let mut seen = HashSet::from([first.clone()]);
    let mut plans = vec![(Vec::new(), first)];
    for _ in 0..limit {
        let mut longer = Vec::new();
        for (plan, state) in &plans {
            for number in 0..moves {
                let Some(next) = step(state, number).filter(|next| seen.insert(next.clone())) else { continue };
                let plan = [plan.as_slice(), &[number as u8]].concat();
                if let Some(answer) = done(&next) {
                    return Some((plan, answer));
                }
                longer.push((plan, next));
            }
        }
        plans = longer;
    }
    None
}

/// The search once more, in which no table is followed twice; for limits that `search` takes too long to come to. A full table is None.
pub fn search_once(sheet: &Sheet, limit: u64) -> Result<Found, Fault> {
    if limit > 8 {
        return Err(state(8));
    }
    let first = Some(start(sheet)?);
    let next = |table: &Option<Vec<Set>>, number| match step(sheet, table.as_ref()?, number) {
        Ok(table) => Some(Some(table)),
        Err(Fault { number: 21, .. }) => Some(None),
        Err(_) => None,
    };
    let done = |table: &Option<Vec<Set>>| match table {
        Some(table) => in_goal(sheet, table).then_some(true),
        None => Some(false),
    };
    Ok(match first_plan(sheet.moves.len(), limit, first, next, done) {
        Some((plan, true)) => Found::Reached(plan),
        Some((plan, false)) => Found::Full(plan.clone(), plan.len()),
        None => Found::Nothing,
    })
}

/// "Whole output (place, entries, clauses; then the verdict)", "A full picture prints `-` as clauses"; "the first 4,096 decide".
pub fn text(bytes: &[u8]) -> String {
    match read(&bytes[..bytes.len().min(4096)]).and_then(|sheet| run(&sheet)) {
        Err(fault) => refusal_text(fault.number, fault.position as u64),
        Ok(run) => {
            let rows = run.rows.iter().enumerate().map(|(place, row)| (place as u64, row.0 as u64, row.1 as u64)).collect();
            run_text(rows, run.verdict)
        }
    }
}

pub fn refusal_text(number: u8, position: u64) -> String {
    format!("refused {number} at {position}\n")
}

pub fn run_text(rows: Vec<(u64, u64, u64)>, verdict: Verdict) -> String {
    let mut text = String::from("place entries clauses\n");
    for (place, entries, clauses) in rows {
        let clauses = if clauses == 257 { String::from("-") } else { clauses.to_string() };
        text += &format!("{place} {entries} {clauses}\n");
    }
    text + &verdict_text(verdict)
}

pub fn verdict_text(verdict: Verdict) -> String {
    match verdict {
        Verdict::Reached => String::from("reached\n"),
        Verdict::Short => String::from("short\n"),
        Verdict::Stopped(place, number) => format!("stopped {number} at {place}\n"),
        Verdict::Full(place) => format!("full at {place}\n"),
    }
}

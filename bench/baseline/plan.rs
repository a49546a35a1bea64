//! The run of a plan, and the search for one.

use super::lists::{Table, View};
use super::masks::{clash, flip, Literals};
use super::memory::Memory;
use super::picture::clause_count;
use super::sheet::{Fault, Move, Sheet};
use super::start::first_table;
use super::step::step;

/// Each clause of the goal shares a literal with each entry.
fn in_goal(goal: &[Literals], table: View) -> bool {
    table.iter().all(|e| goal.iter().all(|&c| clash(flip(c), e)))
}

pub enum Verdict {
    Reached,
    Short,
    Stopped(usize, u8),
    Full(usize),
}

fn write_row(rows: &mut [u64], place: usize, table: View) {
    rows[3 * place..3 * place + 3].copy_from_slice(&[place as u64, table.len() as u64, clause_count(table) as u64]);
}

/// The run of a sheet's plan: the rows of the places arrived at, the verdict, and the last table in `last`.
pub fn run(sheet: &Sheet, rows: &mut [u64], last: &mut Table) -> Result<Verdict, Fault> {
    let (mut one, mut other) = (first_table(sheet)?, Table::EMPTY);
    let (mut table, mut fresh) = (&mut one, &mut other);
    let mut stopped = None;
    for (i, &number) in sheet.plan().iter().enumerate() {
        write_row(rows, i, table.view());
        fresh.clear();
        if let Err(Fault(number, _)) = step(&sheet.moves()[number as usize], table.view(), fresh) {
            stopped = Some(if number == 21 { Verdict::Full(i + 1) } else { Verdict::Stopped(i + 1, number) });
            break;
        }
        std::mem::swap(&mut table, &mut fresh);
    }
    last.clone_from(table);
    if let Some(verdict) = stopped {
        return Ok(verdict);
    }
    write_row(rows, sheet.plan().len(), table.view());
    Ok(if in_goal(sheet.goal.items(), table.view()) { Verdict::Reached } else { Verdict::Short })
}

pub enum Kind {
    Reached,
    Full(usize),
}

/// A plan that ends the search: its moves in the first bytes, zeros after its length.
pub struct Found {
    pub kind: Kind,
    pub plan: [u8; 8],
    pub length: usize,
}

/// The plans with the moves taken so far, move m next and `left` moves more. A move that leaves the table as it was is not followed.
fn begin(moves: &[Move], goal: &[Literals], table: View, place: usize, left: usize, m: usize, memory: &mut Memory) -> Option<Found> {
    let mut after = Table::EMPTY;
    match step(&moves[m], table, &mut after) {
        Ok(()) => {
            if after.view().same(table) {
                return None;
            }
            let mut found = walk(moves, goal, after.view(), place + 1, left, memory)?;
            found.plan[place] = m as u8;
            Some(found)
        }
        Err(Fault(21, _)) => {
            let mut plan = [0; 8];
            plan[place] = m as u8;
            Some(Found { kind: Kind::Full(place + 1), plan, length: place + 1 + left })
        }
        Err(_) => None,
    }
}

/// The plans with the moves taken so far and `left` moves more, in ascending order. The table is remembered at the start, since shorter plans
/// were all tried before, and again if none of these plans ends the search.
fn walk(moves: &[Move], goal: &[Literals], table: View, place: usize, left: usize, memory: &mut Memory) -> Option<Found> {
    if left == 0 {
        return in_goal(goal, table).then_some(Found { kind: Kind::Reached, plan: [0; 8], length: place });
    }
    if memory.remembers(table, left) {
        return None;
    }
    memory.remember(table, left);
    let found = (0..moves.len()).find_map(|m| begin(moves, goal, table, place, left - 1, m, memory));
    if found.is_none() {
        memory.remember(table, left + 1);
    }
    found
}

/// The first plan of at most `limit` moves, shorter first, that is reached or full.
pub fn search(sheet: &Sheet, limit: usize, numbers: &mut [u32]) -> Result<Option<Found>, Fault> {
    let table = first_table(sheet)?;
    let mut memory = Memory::new(numbers);
    Ok((0..=limit).find_map(|length| walk(sheet.moves(), sheet.goal.items(), table.view(), 0, length, &mut memory)))
}

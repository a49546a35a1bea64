//! Document 01 once more: tables and pictures, over sheet.rs. Every working order is 01's own, with no short cut.

use crate::sheet::{contradicts, has_pair, joined, lies_in, masks, set_of, state, Effect, Fault, Move, Set, Sheet};

/// "If the capacity is still taken after the removal, the table is full."
struct Full;

/// "Putting a candidate: if some entry's literals all lie in it, it is dropped. Otherwise entries that contain it are removed, the others
/// keep their order, and it goes last."
fn put(table: &mut Vec<Set>, candidate: Set, capacity: usize) -> Result<(), Full> {
    if table.iter().any(|entry| lies_in(entry, &candidate)) {
        return Ok(());
    }
    table.retain(|entry| !lies_in(&candidate, entry));
    if table.len() >= capacity {
        return Err(Full);
    }
    table.push(candidate);
    Ok(())
}

pub const ENTRIES: usize = 128;
pub const CLAUSES: usize = 256;

/// "choose one of its literals and add the complement, choices in lexicographic order, the first other alternative varying slowest"
fn choices(others: &[&Set]) -> Vec<Set> {
    match others.split_first() {
        None => vec![Vec::new()],
        Some((first, rest)) => {
            let later = choices(rest);
            first.iter().flat_map(|x| later.iter().map(|c| joined(&[x.complement()], c)).collect::<Vec<_>>()).collect()
        }
    }
}

/// What an or-clause adds to an entry: one alternative, in order.
fn additions_of_or(clause: &[Set]) -> Vec<Set> {
    clause.to_vec()
}

/// What a oneof-clause adds: "each other alternative must also be made false".
fn additions_of_oneof(clause: &[Set]) -> Vec<Set> {
    let mut additions = Vec::new();
    for (i, alternative) in clause.iter().enumerate() {
        let others: Vec<&Set> = clause.iter().enumerate().filter(|(j, _)| *j != i).map(|(_, other)| other).collect();
        additions.extend(choices(&others).iter().map(|choice| joined(alternative, choice)));
    }
    additions
}

/// "Start: one entry, the known literals. Each or-clause, then each oneof-clause, builds a fresh table: for each entry and alternative in
/// order, the entry with the alternative added is put, if consistent. [..] A fresh table left empty is 20."
pub fn start(sheet: &Sheet) -> Result<Vec<Set>, Fault> {
    let mut table = vec![sheet.known.clone()];
    let ors = sheet.ors.iter().map(|clause| additions_of_or(clause));
    for additions in ors.chain(sheet.oneofs.iter().map(|clause| additions_of_oneof(clause))) {
        let mut fresh = Vec::new();
        for entry in &table {
            for addition in &additions {
                let candidate = joined(entry, addition);
                if !has_pair(&candidate) {
                    put(&mut fresh, candidate, ENTRIES).map_err(|Full| state(21))?;
                }
            }
        }
        if fresh.is_empty() {
            return Err(state(20));
        }
        table = fresh;
    }
    Ok(table)
}

/// "Each entry is split by each condition in order. If the condition lies in the piece or contradicts it, the piece stays. Otherwise come
/// the piece with the whole condition, then, for each literal not yet in it, ascending, the piece with that complement. Pieces of a piece
/// come before the next piece."
fn split(piece: Set, effects: &[Effect], pieces: &mut Vec<Set>) {
    let Some((first, rest)) = effects.split_first() else {
        pieces.push(piece);
        return;
    };
    let condition = &first.condition;
    if lies_in(condition, &piece) || contradicts(condition, &piece) {
        return split(piece, rest, pieces);
    }
    split(joined(&piece, condition), rest, pieces);
    for literal in condition {
        if !piece.contains(literal) {
            split(joined(&piece, &[literal.complement()]), rest, pieces);
        }
    }
}

/// "Step: the precondition must lie in every entry. [..] Results of satisfied conditions replace their complements, and the piece is put in
/// the new table. A contradiction anywhere is reported before a full table."
pub fn step(sheet: &Sheet, table: &[Set], number: usize) -> Result<Vec<Set>, Fault> {
    let Move { precondition, effects } = &sheet.moves[number];
    if table.iter().any(|entry| !lies_in(precondition, entry)) {
        return Err(state(24));
    }
    let mut fresh = Vec::new();
    let mut full = false;
    for entry in table {
        let mut pieces = Vec::new();
        split(entry.clone(), effects, &mut pieces);
        for piece in pieces {
            let satisfied = effects.iter().filter(|effect| lies_in(&effect.condition, &piece));
            let results = set_of(satisfied.flat_map(|effect| effect.result.clone()).collect());
            if has_pair(&results) {
                return Err(state(25));
            }
            if !full {
                let kept: Set = piece.into_iter().filter(|x| !results.contains(&x.complement())).collect();
                full = put(&mut fresh, joined(&kept, &results), ENTRIES).is_err();
            }
        }
    }
    if full { Err(state(21)) } else { Ok(fresh) }
}

/// "the first entry's literals as one-literal clauses, ascending; for each next entry a fresh table of at most 256 clauses, into which
/// every clause with each of the entry's literals added, ascending, is put unless it then holds a complementary pair"
pub fn picture(table: &[Set]) -> Result<Vec<Set>, Fault> {
    let mut clauses: Vec<Set> = table[0].iter().map(|x| vec![*x]).collect();
    for entry in &table[1..] {
        let mut fresh = Vec::new();
        for clause in &clauses {
            for literal in entry {
                let candidate = joined(clause, &[*literal]);
                if !has_pair(&candidate) {
                    put(&mut fresh, candidate, CLAUSES).map_err(|Full| state(21))?;
                }
            }
        }
        clauses = fresh;
    }
    Ok(clauses)
}

/// "Bytes: count in two bytes, then per clause the mask of true and of false propositions, four bytes each, high byte first, sorted by
/// first then second mask"
pub fn picture_bytes(clauses: &[Set]) -> Vec<u8> {
    let mut pairs: Vec<(u32, u32)> = clauses.iter().map(|clause| masks(clause)).collect();
    pairs.sort();
    let mut bytes = (clauses.len() as u16).to_be_bytes().to_vec();
    for (trues, falses) in pairs {
        bytes.extend(trues.to_be_bytes());
        bytes.extend(falses.to_be_bytes());
    }
    bytes
}

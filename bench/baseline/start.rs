//! The first table: the known literals, then a fresh table for each or-clause and for each oneof-clause.

use super::lists::{Full, Table};
#[cfg(blocks)]
use super::masks::lacking;
use super::masks::{consistent, flip, join, literal, next, Literals, NONE};
use super::sheet::{Fault, Sheet};

/// The entry with each alternative of an or-clause, in order.
fn widen_or(alts: &[Literals], entry: Literals, to: &mut Table) -> Result<(), Full> {
    for &a in alts {
        to.admit(join(entry, a))?;
    }
    Ok(())
}

/// Each of the alternatives is made false in every way; a branch that is inconsistent is cut.
#[cfg(not(blocks))]
fn choose(others: &[Literals], piece: Literals, to: &mut Table) -> Result<(), Full> {
    let Some((&a, rest)) = others.split_first() else {
        return to.put(piece);
    };
    let mut l = next(a, 0);
    while l < 64 {
        let chosen = join(piece, flip(literal(l)));
        if consistent(chosen) {
            choose(rest, chosen, to)?;
        }
        l = next(a, l + 1);
    }
    Ok(())
}

/// Each of the alternatives is made false in every way: by each of its literals that the piece lacks, the first taken away in each turn.
#[cfg(blocks)]
fn choose(others: &[Literals], piece: Literals, to: &mut Table) -> Result<(), Full> {
    let Some((&a, rest)) = others.split_first() else {
        return to.put_piece(piece);
    };
    let mut missing = lacking(a, piece);
    let mut l = next(missing, 0);
    while l < 64 {
        let one = literal(l);
        choose(rest, join(piece, flip(one)), to)?;
        missing = lacking(missing, one);
        l = next(missing, 0);
    }
    Ok(())
}

/// The entry with each alternative of a oneof-clause, in order, and the others made false.
fn widen_oneof(alts: &[Literals], entry: Literals, to: &mut Table) -> Result<(), Full> {
    for (i, &a) in alts.iter().enumerate() {
        let first = join(entry, a);
        if consistent(first) {
            let (mut others, mut size) = ([NONE; 8], 0);
            for (j, &b) in alts.iter().enumerate() {
                if j != i {
                    others[size] = b;
                    size += 1;
                }
            }
            choose(&others[..size], first, to)?;
        }
    }
    Ok(())
}

type Widen = fn(&[Literals], Literals, &mut Table) -> Result<(), Full>;

/// The first table of a sheet; 20 if a table is left empty, 21 if one is full.
pub fn first_table(sheet: &Sheet) -> Result<Table, Fault> {
    let (mut one, mut other) = (Table::EMPTY, Table::EMPTY);
    let (mut table, mut fresh) = (&mut one, &mut other);
    table.push(sheet.known).map_err(|_| Fault(21, 0))?;
    for (clauses, widen) in [(&sheet.ors, widen_or as Widen), (&sheet.oneofs, widen_oneof)] {
        for clause in clauses.items() {
            fresh.clear();
            for entry in table.view().iter() {
                widen(clause.items(), entry, fresh).map_err(|_| Fault(21, 0))?;
            }
            if fresh.len() == 0 {
                return Err(Fault(20, 0));
            }
            std::mem::swap(&mut table, &mut fresh);
        }
    }
    Ok(table.clone())
}

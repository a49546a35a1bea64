//! The baseline, our algorithms in plain Rust: the seven calls of crate `unit` over the same slices, plainly, on the same data layout,
//! nothing proved. What the proved code hands on by value goes by reference here, and bounds checks are as the compiler leaves them. A crate
//! of its own.
//! `--cfg blocks`: what the library does to be quick is done here too: a candidate is compared with four entries at a time, a piece with the
//! newest before the others, the choices of a oneof go over the literals that the piece lacks, and 25 is asked once for a pair of effects.
//! `--cfg counted`: the steps of tables are counted.

#[path = "baseline/calls.rs"]
mod calls;
#[path = "baseline/lists.rs"]
mod lists;
#[path = "baseline/masks.rs"]
mod masks;
#[path = "baseline/memory.rs"]
mod memory;
#[path = "baseline/picture.rs"]
mod picture;
#[path = "baseline/plan.rs"]
mod plan;
#[path = "baseline/sheet.rs"]
mod sheet;
#[path = "baseline/start.rs"]
mod start;
#[path = "baseline/step.rs"]
mod step;

#[cfg(counted)]
pub(crate) use step::steps_taken;

use lists::{Table, View};
use plan::{Kind, Verdict};
use sheet::{Fault, Sheet};

const SHORT: u8 = 255;

/// The answer, and the four numbers of info.
fn tell(info: &mut [u64], given: Result<[u64; 3], Fault>) -> u8 {
    let (answer, numbers) = match given {
        Ok([a, b, c]) => (0, [0, a, b, c]),
        Err(Fault(number, position)) => (number, [position as u64, 0, 0, 0]),
    };
    info[..4].copy_from_slice(&numbers);
    answer
}

/// The entries of a table in 257 numbers, if their count is 1 to 128.
fn view(table: &[u32]) -> Option<View<'_>> {
    let count = table[0] as usize;
    (1 <= count && count <= 128).then(|| View::new(&table[1..129], &table[129..257], count))
}

/// A table as 257 numbers.
fn write_table(numbers: &mut [u32], table: &Table) {
    numbers[0] = table.len() as u32;
    numbers[1..129].copy_from_slice(&table.trues);
    numbers[129..257].copy_from_slice(&table.falses);
}

fn judge(bytes: &[u8], info: &mut [u64]) -> u8 {
    if info.len() < 4 {
        return SHORT;
    }
    let mut sheet = Sheet::EMPTY;
    let given = sheet.read(bytes);
    tell(info, given.map(|()| [0; 3]))
}

fn started(bytes: &[u8]) -> Result<Table, Fault> {
    let mut sheet = Sheet::EMPTY;
    sheet.read(bytes)?;
    start::first_table(&sheet)
}

fn start(bytes: &[u8], table: &mut [u32], info: &mut [u64]) -> u8 {
    if table.len() < 257 || info.len() < 4 {
        return SHORT;
    }
    let given = started(bytes);
    match &given {
        Ok(first) => write_table(table, first),
        Err(_) => table[..257].fill(0),
    }
    tell(info, given.map(|_| [0; 3]))
}

fn stepped(bytes: &[u8], table: &mut [u32], number: u64) -> Result<(), Fault> {
    let mut sheet = Sheet::EMPTY;
    sheet.read(bytes)?;
    let m = sheet.moves().get(number as usize).ok_or(Fault(7, 0))?;
    let from = view(table).filter(|v| v.described(sheet.n)).ok_or(Fault(22, 0))?;
    let mut to = Table::EMPTY;
    step::step(m, from, &mut to)?;
    write_table(table, &to);
    Ok(())
}

fn step(bytes: &[u8], table: &mut [u32], number: u64, info: &mut [u64]) -> u8 {
    if table.len() < 257 || info.len() < 4 {
        return SHORT;
    }
    let given = stepped(bytes, table, number);
    tell(info, given.map(|()| [0; 3]))
}

fn pictured(bytes: &[u8], table: &[u32], buffer: &mut [u8]) -> Result<usize, Fault> {
    let mut sheet = Sheet::EMPTY;
    sheet.read(bytes)?;
    let from = view(table).filter(|v| v.described(sheet.n)).ok_or(Fault(22, 0))?;
    picture::picture(from, buffer)
}

fn picture(bytes: &[u8], table: &[u32], buffer: &mut [u8], info: &mut [u64]) -> u8 {
    if table.len() < 257 || info.len() < 4 {
        return SHORT;
    }
    let given = pictured(bytes, table, buffer);
    tell(info, given.map(|clauses| [clauses as u64, 0, 0]))
}

fn ran(bytes: &[u8], rows: &mut [u64], last: &mut Table) -> Result<Verdict, Fault> {
    let mut sheet = Sheet::EMPTY;
    sheet.read(bytes)?;
    if rows.len() / 3 < 65 {
        return Err(Fault(23, 0));
    }
    plan::run(&sheet, rows, last)
}

fn run(bytes: &[u8], rows: &mut [u64], table: &mut [u32], info: &mut [u64]) -> u8 {
    if table.len() < 257 || info.len() < 4 {
        return SHORT;
    }
    let mut last = Table::EMPTY;
    let given = ran(bytes, rows, &mut last);
    write_table(table, &last);
    let numbers = |verdict| match verdict {
        Verdict::Reached => [0, 0, 0],
        Verdict::Short => [1, 0, 0],
        Verdict::Stopped(place, number) => [2, place as u64, number as u64],
        Verdict::Full(place) => [3, place as u64, 0],
    };
    tell(info, given.map(numbers))
}

fn searched(bytes: &[u8], limit: u64, memory: &mut [u32], plan: &mut [u8]) -> Result<[u64; 3], Fault> {
    let mut sheet = Sheet::EMPTY;
    sheet.read(bytes)?;
    if 8 < limit {
        return Err(Fault(8, 0));
    }
    let Some(found) = plan::search(&sheet, limit as usize, memory)? else {
        return Ok([2, 0, 0]);
    };
    plan.copy_from_slice(&found.plan);
    let length = found.length as u64;
    Ok(match found.kind {
        Kind::Reached => [0, 0, length],
        Kind::Full(place) => [1, place as u64, length],
    })
}

/// The search with eight slots of its own.
fn search(bytes: &[u8], limit: u64, plan: &mut [u8], info: &mut [u64]) -> u8 {
    search_with(bytes, limit, &mut [0; 8 * 258], plan, info)
}

pub(crate) fn search_with(bytes: &[u8], limit: u64, memory: &mut [u32], plan: &mut [u8], info: &mut [u64]) -> u8 {
    if plan.len() < 8 || info.len() < 4 {
        return SHORT;
    }
    plan[..8].fill(0);
    let given = searched(bytes, limit, memory, &mut plan[..8]);
    tell(info, given)
}

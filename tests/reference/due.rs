//! What each call of the C interface has to answer and to write, from sheet.rs, tables.rs and plans.rs: the table as 257 numbers, the checks
//! of a lent table and of lent lengths, and the order of the numbers.

use crate::calls::{Call, Lent};
use crate::plans::{run, search, Found, Verdict};
use crate::sheet::{lies_in, masks, read, state, Fault, Literal, Set, Sheet};
use crate::tables::{picture, picture_bytes, start, step, ENTRIES};

pub const NUMBERS: usize = 1 + 2 * ENTRIES;

/// A table with "unused slots [..] zero": its count, the masks of true propositions, the masks of false ones.
pub fn numbers_of(table: &[Set]) -> [u32; NUMBERS] {
    let mut numbers = [0; NUMBERS];
    numbers[0] = table.len() as u32;
    for (i, entry) in table.iter().enumerate() {
        (numbers[1 + i], numbers[1 + ENTRIES + i]) = masks(entry);
    }
    numbers
}

/// "It has 1 to 128 entries; unused slots are not read on entry [..]. no bit is in both its masks, none at n or above. No entry's literals
/// all lie in another's". Otherwise 22.
pub fn table_of(n: usize, numbers: &[u32]) -> Result<Vec<Set>, Fault> {
    let count = numbers[0] as usize;
    if count < 1 || count > ENTRIES {
        return Err(state(22));
    }
    let mut table: Vec<Set> = Vec::new();
    for i in 0..count {
        let (trues, falses) = (numbers[1 + i], numbers[1 + ENTRIES + i]);
        let mut entry = Vec::new();
        for p in 0..32 {
            let (is_true, is_false) = (trues >> p & 1 == 1, falses >> p & 1 == 1);
            if (is_true && is_false) || ((is_true || is_false) && p >= n) {
                return Err(state(22));
            }
            if is_true || is_false {
                entry.push(Literal { proposition: p as u8, truth: is_true });
            }
        }
        table.push(entry);
    }
    for i in 0..count {
        for j in 0..count {
            if i != j && lies_in(&table[i], &table[j]) {
                return Err(state(22));
            }
        }
    }
    Ok(table)
}

/// Numbers 1 to 3 of `info`.
type More = [u64; 3];

fn judge_due(bytes: &[u8]) -> Result<More, Fault> {
    read(bytes).map(|_| [0; 3])
}

/// "a refused start or run returns a table with count 0 and all slots zero"
fn start_due(bytes: &[u8], lent: &mut Lent) -> Result<More, Fault> {
    lent.table[..NUMBERS].fill(0);
    let table = read(bytes).and_then(|sheet| start(&sheet))?;
    lent.table[..NUMBERS].copy_from_slice(&numbers_of(&table));
    Ok([0; 3])
}

/// "7 or 8; 22; [..] 24; 25; 21"; "7 move number not on the sheet (in a single step: position 0)"; "A refused step returns the given
/// table".
fn step_due(bytes: &[u8], number: u64, lent: &mut Lent) -> Result<More, Fault> {
    let sheet = read(bytes)?;
    if number >= sheet.moves.len() as u64 {
        return Err(state(7));
    }
    let table = table_of(sheet.n, &lent.table)?;
    let next = step(&sheet, &table, number as usize)?;
    lent.table[..NUMBERS].copy_from_slice(&numbers_of(&next));
    Ok([0; 3])
}

/// "picture (a table, a buffer; it gives the clause count, 0 if refused)"; 22, then 21, then "23 for the picture's own length"; "later
/// bytes of the buffer are kept".
fn picture_due(bytes: &[u8], lent: &mut Lent) -> Result<More, Fault> {
    let sheet = read(bytes)?;
    let clauses = picture(&table_of(sheet.n, &lent.table)?)?;
    let written = picture_bytes(&clauses);
    if lent.bytes.len() < written.len() {
        return Err(state(23));
    }
    lent.bytes[..written.len()].copy_from_slice(&written);
    Ok([clauses.len() as u64, 0, 0])
}

/// "The caller lends 65 rows or more, each of three numbers: place, entries, picture clauses (257 if that picture is full); rows of places
/// arrived at are written, the rest kept."
fn run_due(bytes: &[u8], lent: &mut Lent) -> Result<More, Fault> {
    lent.table[..NUMBERS].fill(0);
    let sheet = read(bytes)?;
    if lent.rows.len() / 3 < 65 {
        return Err(state(23));
    }
    let run = run(&sheet)?;
    for (place, (entries, clauses)) in run.rows.iter().enumerate() {
        lent.rows[3 * place..3 * place + 3].copy_from_slice(&[place as u64, *entries as u64, *clauses as u64]);
    }
    lent.table[..NUMBERS].copy_from_slice(&numbers_of(&run.table));
    Ok(match run.verdict {
        Verdict::Reached => [0, 0, 0],
        Verdict::Short => [1, 0, 0],
        Verdict::Stopped(place, number) => [2, place as u64, number as u64],
        Verdict::Full(place) => [3, place as u64, 0],
    })
}

/// "A plan comes as eight bytes with its length; bytes past the length are zero, and for none or a refusal the length is 0."
fn search_due(bytes: &[u8], limit: u64, budget: usize, lent: &mut Lent) -> Option<Result<More, Fault>> {
    lent.bytes[..8].fill(0);
    let found = match read(bytes) {
        Ok(sheet) => search(&sheet, limit, budget)?,
        Err(fault) => Err(fault),
    };
    let mut write = |plan: &[u8]| {
        lent.bytes[..plan.len()].copy_from_slice(plan);
        plan.len() as u64
    };
    Some(found.map(|found| match found {
        Found::Reached(plan) => [0, 0, write(&plan)],
        Found::Full(plan, place) => [1, place as u64, write(&plan)],
        Found::Nothing => [2, 0, 0],
    }))
}

/// "255 if a lent slice is too short (info: 4 numbers; table: 257; plan: 8): then nothing at all is written."
fn too_short(call: Call, lent: &Lent) -> bool {
    let table = matches!(call, Call::Start | Call::Step(_) | Call::Picture | Call::Run) && lent.table.len() < NUMBERS;
    let plan = matches!(call, Call::Search(_) | Call::SearchWith(_)) && lent.bytes.len() < 8;
    lent.info.len() < 4 || table || plan
}

/// The answer that is due; what is due in the lent slices is in `lent` afterwards, but for the memory of a search, of which nothing is due
/// unless the answer is 255. None if a search takes more than `budget` steps.
pub fn due(bytes: &[u8], call: Call, budget: usize, lent: &mut Lent) -> Option<u8> {
    if too_short(call, lent) {
        return Some(255);
    }
    let answer = match call {
        Call::Judge => judge_due(bytes),
        Call::Start => start_due(bytes, lent),
        Call::Step(number) => step_due(bytes, number, lent),
        Call::Picture => picture_due(bytes, lent),
        Call::Run => run_due(bytes, lent),
        Call::Search(limit) | Call::SearchWith(limit) => search_due(bytes, limit, budget, lent)?,
    };
    let (number, info) = match answer {
        Ok([first, second, third]) => (0, [0, first, second, third]),
        Err(fault) => (fault.number, [fault.position as u64, 0, 0, 0]),
    };
    lent.info[..4].copy_from_slice(&info);
    Some(number)
}

/// The verdict of a run, from numbers 1 to 3 of `info`.
pub fn verdict_of(info: &[u64]) -> Verdict {
    match info[1] {
        0 => Verdict::Reached,
        1 => Verdict::Short,
        2 => Verdict::Stopped(info[2] as usize, info[3] as u8),
        _ => Verdict::Full(info[2] as usize),
    }
}

/// The sheet of bytes that are accepted.
pub fn accepted(bytes: &[u8]) -> Option<Sheet> {
    read(bytes).ok()
}

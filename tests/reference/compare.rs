//! Makes the same call of the library and of the reference, over slices with the same contents, and compares the answer and every number,
//! slot, byte and row afterwards. Beside it, what the reference says is held to the count over worlds.

use crate::calls::{call, Call, Lent};
use crate::cases::hexadecimal;
use crate::due::{accepted, due, numbers_of, table_of, verdict_of, NUMBERS};
use crate::exchanges;
use crate::plans::{refusal_text, run, run_text, text};
use crate::random::{bad_table, good_table, rubbish, Random};
use crate::roles;
use crate::sheet::{read, Set, Sheet};
use crate::tables::{picture, start};
use crate::worlds::{self, Checked};
use std::collections::BTreeMap;

/// The numbers of a slot in the memory of a search.
const SLOT: usize = 258;

pub struct Comparer {
    pub passed: u64,
    pub failed: u64,
    /// Calls of the library among them.
    calls: u64,
    pub random: Random,
    /// How often each answer was due: the call, its number, and the verdict of a run or the end of a search.
    answers: BTreeMap<(&'static str, u8, &'static str), u64>,
    /// What the last search left in its memory.
    left: Vec<u32>,
}

fn name_of(what: Call) -> &'static str {
    match what {
        Call::Judge => "judge",
        Call::Start => "start",
        Call::Step(_) => "step",
        Call::Picture => "picture",
        Call::Run => "run",
        Call::Search(_) => "search",
        Call::SearchWith(_) => "search_with",
    }
}

/// The end of a call that was accepted.
fn end_of(what: Call, info: &[u64]) -> &'static str {
    match what {
        Call::Run => [" reached", " short", " stopped", " full"][info[1] as usize],
        Call::Search(_) | Call::SearchWith(_) => [" reached", " full", " none"][info[1] as usize],
        _ => "",
    }
}

/// A table that a call is given: its count and its entries as pairs of masks.
fn table_words(what: Call, numbers: &[u32]) -> String {
    if !matches!(what, Call::Step(_) | Call::Picture) || numbers.len() < NUMBERS {
        return format!("{} numbers", numbers.len());
    }
    let count = numbers[0] as usize;
    let pairs: Vec<String> = (0..count.min(128)).map(|i| format!("{:x},{:x}", numbers[1 + i], numbers[129 + i])).collect();
    format!("{} numbers, count {count}, entries (true and false, hexadecimal) {}", numbers.len(), pairs.join(" "))
}

/// The places of one slice where library and reference differ, the first ten of them.
fn places<T: PartialEq + std::fmt::Display>(name: &str, before: &[T], library: &[T], reference: &[T]) -> String {
    let differ: Vec<usize> = (0..before.len()).filter(|i| library[*i] != reference[*i]).collect();
    let line = |i: &usize| format!("\n{name}[{i}]: lent {}, library {}, reference {}", before[*i], library[*i], reference[*i]);
    let more = if differ.len() > 10 { format!("\n{name}: {} places differ", differ.len()) } else { String::new() };
    differ.iter().take(10).map(line).collect::<String>() + &more
}

/// A difference: the call, the sheet, what was lent, both answers and every place that differs.
fn difference(sheet: &[u8], what: Call, lent: &Lent, library: (u8, &Lent), reference: (u8, &Lent)) -> String {
    let (got, due) = (library.1, reference.1);
    format!(
        "{what:?}\nsheet: {}\nlent: info {}, table {}, bytes {}, rows {}, memory {}\nlibrary: {} info {:?}\nreference: {} info {:?}{}{}{}{}",
        hexadecimal(sheet), lent.info.len(), table_words(what, &lent.table), lent.bytes.len(), lent.rows.len(), lent.memory.len(),
        library.0, got.info, reference.0, due.info, places("table", &lent.table, &got.table, &due.table),
        places("bytes", &lent.bytes, &got.bytes, &due.bytes), places("rows", &lent.rows, &got.rows, &due.rows),
        places("memory", &lent.memory, &got.memory, &due.memory),
    )
}

impl Comparer {
    pub fn new(seed: u64) -> Comparer {
        Comparer { passed: 0, failed: 0, calls: 0, random: Random::new(seed), answers: BTreeMap::new(), left: Vec::new() }
    }

    /// Counts one comparison; only the first that fails is described.
    fn count(&mut self, same: bool, describe: impl FnOnce() -> String) {
        if same {
            self.passed += 1;
            return;
        }
        if self.failed == 0 {
            println!("DIFFERENCE: {}", describe());
        }
        self.failed += 1;
    }

    fn checked(&mut self, sheet: &[u8], checked: Checked) {
        match checked {
            Ok(number) => self.passed += number,
            Err(difference) => self.count(false, || format!("{difference}\nsheet: {}", hexadecimal(sheet))),
        }
    }

    /// Slices to lend, all with rubbish but the table, which may be given.
    fn lent(&mut self, table: Option<&[u32; NUMBERS]>, bytes: usize, rows: usize) -> Lent {
        let r = &mut self.random;
        let mut table = table.copied().unwrap_or_else(|| rubbish(r)).to_vec();
        (0..r.pick(&[0, 0, 0, 3])).for_each(|_| table.push(r.next() as u32));
        Lent {
            info: (0..r.pick(&[4, 4, 5, 8])).map(|_| r.next()).collect(),
            table,
            bytes: (0..bytes).map(|_| r.next() as u8).collect(),
            rows: (0..rows).map(|_| r.next()).collect(),
            memory: Vec::new(),
        }
    }

    /// A memory of 0, 1, 3 or 64 slots, or of a part of one more: rubbish, which is small so that it is like marks and counts; or what the last
    /// search left, of another sheet or to another limit; or the sheet's own first table in every slot, with the highest mark there is.
    fn memory(&mut self, sheet: &[u8]) -> Vec<u32> {
        let length = self.random.pick(&[0, SLOT, 3 * SLOT, 64 * SLOT, 100, 2 * SLOT - 1, 3 * SLOT + 1]);
        let first = accepted(sheet).and_then(|sheet| start(&sheet).ok());
        match (self.random.below(3), first) {
            (0, Some(entries)) => [9].into_iter().chain(numbers_of(&entries)).cycle().take(length).collect(),
            (1, _) if !self.left.is_empty() => self.left.iter().copied().cycle().take(length).collect(),
            _ => (0..length).map(|_| self.random.below(11) as u32).collect(),
        }
    }

    /// One call; a search that takes more than `budget` steps is left out.
    fn one(&mut self, sheet: &[u8], what: Call, budget: usize, lent: Lent) {
        let mut wanted = lent.clone();
        let Some(number) = due(sheet, what, budget, &mut wanted) else { return };
        let end = if number == 0 { end_of(what, &wanted.info) } else { "" };
        *self.answers.entry((name_of(what), number, end)).or_default() += 1;
        let mut found = lent.clone();
        let Some(answer) = call(sheet, what, &mut found) else { return };
        self.calls += 1;
        if matches!(what, Call::SearchWith(_)) && number != 255 {
            wanted.memory.clone_from(&found.memory);
            self.left.clone_from(&found.memory);
        }
        self.count(answer == number && found == wanted, || difference(sheet, what, &lent, (answer, &found), (number, &wanted)));
    }

    /// A call with one or more of the slices too short.
    fn too_short(&mut self, sheet: &[u8], what: Call) {
        let mut lent = self.lent(None, 9, 200);
        lent.memory = self.memory(sheet);
        let r = &mut self.random;
        match r.below(4) {
            0 => lent.info.truncate(r.below(4)),
            1 => lent.table.truncate(r.pick(&[0, 1, 128, 129, 256])),
            2 => lent.bytes.truncate(r.below(8)),
            _ => {
                lent.info.truncate(r.below(4));
                lent.table.truncate(r.below(257));
                lent.rows.truncate(r.below(200));
            }
        }
        self.one(sheet, what, 0, lent);
    }

    fn runs(&mut self, sheet: &[u8]) {
        let lengths = [0, 3, 191, 192, 193, 194, 196, 197, 198, 199, 300];
        for rows in [195, self.random.pick(&lengths)] {
            let lent = self.lent(None, 0, rows);
            self.one(sheet, Call::Run, 0, lent);
        }
    }

    fn searches(&mut self, sheet: &[u8], budget: usize) {
        let limits = [0, 1, 2, 3, 4, 5, 6, 7, 8, 9, 10, 255, 256, 1 << 32, u64::MAX];
        for limit in [8, 4, 2, self.random.pick(&limits)] {
            let bytes = self.random.pick(&[8, 8, 9, 12]);
            let mut lent = self.lent(None, bytes, 0);
            if self.random.one_in(4) {
                self.one(sheet, Call::Search(limit), budget, lent);
            } else {
                lent.memory = self.memory(sheet);
                self.one(sheet, Call::SearchWith(limit), budget, lent);
            }
        }
    }

    /// The picture of a table, with buffers around its length.
    fn pictures(&mut self, bytes: &[u8], sheet: &Sheet, table: &[u32; NUMBERS]) {
        let clauses = table_of(sheet.n, table).and_then(|entries| picture(&entries)).map_or(1, |clauses| clauses.len());
        let need = 2 + 8 * clauses;
        let lengths = [need - 1, need + 1, need + 9, need - 2, need / 2, 0, 1, 2];
        for length in [need, self.random.pick(&lengths)] {
            let lent = self.lent(Some(table), length, 0);
            self.one(bytes, Call::Picture, 0, lent);
        }
    }

    fn step(&mut self, bytes: &[u8], number: u64, table: &[u32; NUMBERS]) {
        let lent = self.lent(Some(table), 0, 0);
        self.one(bytes, Call::Step(number), 0, lent);
    }

    /// One table: its picture, the step of a move on the sheet and now and then of one that is not.
    fn table(&mut self, bytes: &[u8], sheet: &Sheet, table: &[u32; NUMBERS]) {
        self.pictures(bytes, sheet, table);
        let count = sheet.moves.len() as u64;
        let number = self.random.below(sheet.moves.len()) as u64;
        self.step(bytes, number, table);
        if self.random.one_in(8) {
            let number = self.random.pick(&[count, count + 1, 255, 256, count << 8, 1 << 32, 1 << 63, u64::MAX]);
            self.step(bytes, number, table);
        }
        if let (Ok(entries), true) = (table_of(sheet.n, table), sheet.n <= 10) {
            self.checked(bytes, worlds::check_step(sheet, &entries, number as usize));
            if sheet.n <= 6 {
                self.checked(bytes, worlds::check_picture(sheet, &entries));
            }
        }
    }

    /// The sheet judged: section by section and byte by byte alike, and by the library.
    fn judged(&mut self, bytes: &[u8]) {
        let (by_section, by_byte) = (read(bytes).map(drop), roles::judge(bytes));
        self.count(by_section == by_byte, || format!("judged {by_section:?}, byte by byte {by_byte:?}\nsheet: {}", hexadecimal(bytes)));
        let lent = self.lent(None, 0, 0);
        self.one(bytes, Call::Judge, 0, lent);
    }

    /// All calls on one sheet, over its own tables, those given, and `more` random ones.
    pub fn sheet(&mut self, bytes: &[u8], tables: &[[u32; NUMBERS]], more: usize, budget: usize) {
        self.judged(bytes);
        let lent = self.lent(None, 0, 0);
        self.one(bytes, Call::Start, 0, lent);
        self.runs(bytes);
        self.searches(bytes, budget);
        let limit = self.random.pick(&[0, 8, 9]);
        let calls = [Call::Judge, Call::Start, Call::Step(0), Call::Picture, Call::Run, Call::Search(limit), Call::SearchWith(limit)];
        let any = self.random.pick(&calls);
        self.too_short(bytes, any);
        let Some(sheet) = accepted(bytes) else {
            // A refused sheet: the calls over tables give its fault.
            let table = good_table(&mut self.random, 8);
            self.step(bytes, 0, &table);
            let lent = self.lent(Some(&table), 40, 0);
            self.one(bytes, Call::Picture, 0, lent);
            return;
        };
        let ended: Vec<Vec<Set>> = [start(&sheet), run(&sheet).map(|run| run.table)].into_iter().flatten().collect();
        for entries in ended {
            self.table(bytes, &sheet, &numbers_of(&entries));
        }
        for table in tables {
            self.table(bytes, &sheet, table);
        }
        for i in 0..more {
            let table = if i % 2 == 0 { good_table(&mut self.random, sheet.n) } else { bad_table(&mut self.random, sheet.n) };
            self.table(bytes, &sheet, &table);
        }
        if sheet.n <= 10 {
            self.checked(bytes, worlds::check_start(&sheet));
            self.checked(bytes, worlds::check_run(&sheet));
            self.checked(bytes, exchanges::check_moves(&sheet));
            for limit in [2, 4, 8] {
                self.checked(bytes, worlds::check_search(&sheet, limit, budget.min(400)));
            }
        }
    }

    /// The start, the run and one step of a sheet that takes the reference long.
    pub fn slow_sheet(&mut self, bytes: &[u8]) {
        for what in [Call::Judge, Call::Start, Call::Run] {
            let lent = self.lent(None, 0, 195);
            self.one(bytes, what, 0, lent);
        }
        let mut first = self.lent(None, 0, 0);
        let accepted = due(bytes, Call::Start, 0, &mut first) == Some(0);
        if accepted {
            self.one(bytes, Call::Step(0), 0, first);
        }
    }

    /// Exchanges on so many sheets whose moves share a lamp.
    pub fn lamps(&mut self, count: usize) {
        match exchanges::check_lamps(&mut self.random, count) {
            Ok(tried) => {
                println!("exchanges: {}", tried.words());
                self.passed += tried.passed();
            }
            Err(wrong) => self.count(false, || wrong),
        }
    }

    /// What was compared, and how often each answer was due, a line for each call.
    pub fn answers(&self) -> String {
        let mut text = String::new();
        let mut last = "";
        for ((name, number, end), count) in &self.answers {
            let head = if *name == last { String::new() } else { format!("\n{name}:") };
            text += &format!("{head} {number}{end} ({count})");
            last = name;
        }
        let others = self.passed + self.failed - self.calls;
        let compared = format!("compared: {} calls of the library, {others} counts over worlds and texts", self.calls);
        format!("{compared}\nanswers, and how often each was due:{text}")
    }

    /// What `check` has to print for the bytes, from the reference and from the library's run.
    pub fn text(&mut self, name: &str, bytes: &[u8], expected: &str) {
        let reference = text(bytes);
        self.count(reference == expected, || format!("{name}, reference:\n{reference}expected:\n{expected}"));
        if let Some(library) = self.library_text(&bytes[..bytes.len().min(4096)]) {
            self.count(library == expected, || format!("{name}, library:\n{library}expected:\n{expected}"));
        }
    }

    fn library_text(&mut self, bytes: &[u8]) -> Option<String> {
        let mut lent = self.lent(None, 0, 195);
        let kept = lent.rows.clone();
        let number = call(bytes, Call::Run, &mut lent)?;
        let info = &lent.info;
        if number != 0 {
            return Some(refusal_text(number, info[0]));
        }
        let places = match info[1] {
            0 | 1 => accepted(bytes).map_or(65, |sheet| sheet.plan.len() + 1),
            _ => info[2] as usize,
        };
        if lent.rows[3 * places..] != kept[3 * places..] {
            return Some(String::from("a row past the last place was written\n"));
        }
        let rows = lent.rows.chunks_exact(3).take(places).map(|row| (row[0], row[1], row[2])).collect();
        Some(run_text(rows, verdict_of(info)))
    }
}

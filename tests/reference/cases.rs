//! The cases of the programs crates/*_cases: what is due for each line, from the reference alone; tests/README.md says what the lines mean.
//! What is due of few propositions is held to the worlds, one by one. A line that is no case is refused, with what is wrong with it.

use crate::calls::{Call, Lent};
use crate::due::{accepted, due, table_of, verdict_of, NUMBERS};
use crate::plans::{refusal_text, search, search_once, text, verdict_text, Found};
use crate::random::{self, Random};
use crate::roles;
use crate::sheet::{read, Sheet};
use crate::tables::ENTRIES;
use crate::worlds;

/// The programs read so many bytes of input, so many bytes of a line, and lend at most so many to a picture.
const INPUT: usize = 262_144;
const LINE: usize = 8192;
const BUFFER: u64 = 4096;
/// What a row that was not written holds.
const UNWRITTEN: u64 = u64::MAX;

#[derive(Clone, Copy, PartialEq, Eq)]
pub enum Layer {
    Sheet,
    Table,
    Plan,
}

impl Layer {
    pub fn named(name: &str) -> Option<Layer> {
        match name {
            "sheet" => Some(Layer::Sheet),
            "table" => Some(Layer::Table),
            "plan" => Some(Layer::Plan),
            _ => None,
        }
    }
}

/// What is due for a line, or what is wrong with it.
type Told = Result<String, String>;

pub fn hexadecimal(bytes: &[u8]) -> String {
    bytes.iter().map(|byte| format!("{byte:02x}")).collect::<Vec<_>>().join(" ")
}

/// The bytes of a line: two digits for each, one space between bytes.
fn bytes_of(line: &str) -> Result<Vec<u8>, String> {
    let bytes: Vec<u8> = line.split(' ').filter_map(|two| u8::from_str_radix(two, 16).ok()).collect();
    if hexadecimal(&bytes) != line || bytes.len() > LINE {
        return Err(format!("not at most {LINE} bytes in hexadecimal"));
    }
    Ok(bytes)
}

/// The number in some bytes, high byte first.
fn number_of(bytes: &[u8]) -> u64 {
    bytes.iter().fold(0, |number, byte| number << 8 | *byte as u64)
}

fn digest(numbers: impl IntoIterator<Item = u64>) -> u64 {
    numbers.into_iter().fold(0, |value, number| (value * 31 + number) % (1 << 32))
}

/// A digest of all slots: true and false masks in turn.
fn slots(numbers: &[u32]) -> u64 {
    digest((1..=ENTRIES).flat_map(|i| [numbers[i] as u64, numbers[ENTRIES + i] as u64]))
}

/// `accepted` or `refused N at P`, as a line.
fn answer_text(answer: u8, lent: &Lent) -> String {
    if answer == 0 { String::from("accepted\n") } else { refusal_text(answer, lent.info[0]) }
}

/// The current sheet and table. A count may be larger than the numbers of a table can say.
struct Current {
    sheet: Vec<u8>,
    count: u64,
    table: [u32; NUMBERS],
}

impl Current {
    /// A call on the current sheet and table: the answer that is due, and what is due in the slices.
    fn call(&self, what: Call, bytes: usize, rows: Vec<u64>) -> (u8, Lent) {
        let mut lent = Lent { info: vec![0; 4], table: self.table.to_vec(), bytes: vec![170; bytes], rows, memory: Vec::new() };
        let answer = due(&self.sheet, what, 0, &mut lent).unwrap_or(255);
        (answer, lent)
    }

    /// The current sheet, if it is accepted and its worlds can be counted.
    fn countable(&self) -> Option<Sheet> {
        accepted(&self.sheet).filter(|sheet| sheet.n <= 10)
    }

    fn sheet_line(&mut self, bytes: Vec<u8>) -> Told {
        let (by_section, by_byte) = (read(&bytes).map(drop), roles::judge(&bytes));
        if by_section != by_byte {
            return Err(format!("judged {by_section:?}, byte by byte {by_byte:?}"));
        }
        self.sheet = bytes;
        let (answer, lent) = self.call(Call::Judge, 0, Vec::new());
        Ok(answer_text(answer, &lent))
    }

    fn table_line(&mut self, bytes: Vec<u8>) -> Told {
        let (what, rest) = bytes.split_first().ok_or("an empty line")?;
        match (what, rest.len()) {
            (0, _) => self.sheet = rest.to_vec(),
            (1, 0) => return self.start(),
            (2, 8) => return self.step(number_of(rest)),
            (3, length) if length >= 8 && length % 8 == 0 && length <= 8 + 8 * ENTRIES => self.give(rest),
            (4, 2) if number_of(rest) <= BUFFER => return self.picture(number_of(rest) as usize),
            _ => return Err(String::from("no case of a table")),
        }
        Ok(String::new())
    }

    fn plan_line(&mut self, bytes: Vec<u8>) -> Told {
        let (what, rest) = bytes.split_first().ok_or("an empty line")?;
        match (what, rest.len()) {
            (0, _) => self.sheet = rest.to_vec(),
            (1, 0) => return self.report(),
            (2, 8) => return self.run_lent(number_of(rest)),
            (3, 0) => return self.run(),
            (4, 8) => return self.search(number_of(rest)),
            _ => return Err(String::from("no case of a plan")),
        }
        Ok(String::new())
    }

    /// The table of a line: its count, then pairs of masks.
    fn give(&mut self, bytes: &[u8]) {
        let (count, masks) = bytes.split_at(8);
        self.count = number_of(count);
        self.table = [0; NUMBERS];
        self.table[0] = self.count.min(u32::MAX as u64) as u32;
        for (i, pair) in masks.chunks_exact(8).enumerate() {
            self.table[1 + i] = number_of(&pair[..4]) as u32;
            self.table[1 + ENTRIES + i] = number_of(&pair[4..]) as u32;
        }
    }

    fn start(&mut self) -> Told {
        let (answer, lent) = self.call(Call::Start, 0, Vec::new());
        self.count = lent.table[0] as u64;
        self.table.copy_from_slice(&lent.table);
        if let Some(sheet) = self.countable() {
            worlds::check_start(&sheet)?;
        }
        self.told(answer, &lent)
    }

    fn step(&mut self, number: u64) -> Told {
        let (answer, lent) = self.call(Call::Step(number), 0, Vec::new());
        if let Some(sheet) = self.countable().filter(|sheet| number < sheet.moves.len() as u64) {
            if let Ok(entries) = table_of(sheet.n, &self.table) {
                worlds::check_step(&sheet, &entries, number as usize)?;
            }
        }
        if answer == 0 {
            self.count = lent.table[0] as u64;
            self.table.copy_from_slice(&lent.table);
        }
        self.told(answer, &lent)
    }

    /// The answer, the table that came back, and how many worlds it stands for.
    fn told(&self, answer: u8, lent: &Lent) -> Told {
        let mut told = format!("{}count {} slots {}\n", answer_text(answer, lent), self.count, slots(&self.table));
        if let Some(sheet) = self.countable().filter(|_| answer == 0) {
            let entries = table_of(sheet.n, &self.table).map_err(|_| "a table that is not as described")?;
            told += &format!("worlds {}\n", worlds::of_table(sheet.n, &entries).len());
        }
        Ok(told)
    }

    fn picture(&self, length: usize) -> Told {
        let (answer, lent) = self.call(Call::Picture, length, Vec::new());
        if let Some(sheet) = self.countable().filter(|sheet| sheet.n <= 6) {
            if let Ok(entries) = table_of(sheet.n, &self.table) {
                worlds::check_picture(&sheet, &entries)?;
            }
        }
        let buffer = digest(lent.bytes.iter().map(|byte| *byte as u64));
        Ok(format!("{}clauses {} buffer {buffer}\n", answer_text(answer, &lent), lent.info[1]))
    }

    fn report(&self) -> Told {
        if let Some(sheet) = self.countable() {
            worlds::check_run(&sheet)?;
        }
        Ok(text(&self.sheet))
    }

    /// A run with these rows: its verdict and its table as lines, and the rows after it.
    fn ran(&self, rows: Vec<u64>) -> Result<(String, Vec<u64>), String> {
        let (answer, lent) = self.call(Call::Run, 0, rows);
        if let Some(sheet) = self.countable() {
            worlds::check_run(&sheet)?;
        }
        let verdict = if answer == 0 { verdict_text(verdict_of(&lent.info)) } else { answer_text(answer, &lent) };
        Ok((format!("{verdict}count {} slots {}\n", lent.table[0], slots(&lent.table)), lent.rows))
    }

    /// The run with so many rows, more than 65 as 65: how many are written, and their entries and clauses.
    fn run_lent(&self, lent: u64) -> Told {
        let (told, rows) = self.ran(vec![UNWRITTEN; 3 * lent.min(65) as usize])?;
        let mut written: Vec<[u64; 2]> = rows.chunks_exact(3).filter(|row| row[0] != UNWRITTEN).map(|row| [row[1], row[2]]).collect();
        let count = written.len();
        written.resize(65, [0, 0]);
        Ok(format!("{told}rows {count} numbers {}\n", digest(written.into_iter().flatten())))
    }

    fn run(&self) -> Told {
        let (told, rows) = self.ran(vec![0; 195])?;
        Ok(format!("{told}rows 65 numbers {}\n", digest(rows)))
    }

    /// The search in which no table is followed twice; where the other one comes to an end soon, that one too.
    fn search(&self, limit: u64) -> Told {
        let found = read(&self.sheet).and_then(|sheet| search_once(&sheet, limit));
        let other = accepted(&self.sheet).and_then(|sheet| search(&sheet, limit, 5000));
        if other.is_some_and(|other| other != found) {
            return Err(String::from("two ways to search differ"));
        }
        if let (Some(sheet), Ok(found)) = (self.countable(), &found) {
            worlds::check_found(&sheet, limit, found)?;
        }
        let (told, plan) = match found {
            Ok(Found::Reached(plan)) => (String::from("reached\n"), plan),
            Ok(Found::Full(plan, place)) => (format!("full at {place}\n"), plan),
            Ok(Found::Nothing) => (String::from("none\n"), Vec::new()),
            Err(fault) => (refusal_text(fault.number, fault.position as u64), Vec::new()),
        };
        let zeros = [0; 8];
        let eight = plan.iter().chain(&zeros).take(8).map(|byte| *byte as u64);
        Ok(format!("{told}length {} plan {}\n", plan.len(), digest(eight)))
    }
}

/// What is due for the cases in a text; or the first line that is none, or whose worlds say something else.
pub fn answers(layer: Layer, text: &str) -> Told {
    if text.len() > INPUT || !text.ends_with('\n') {
        return Err(format!("not at most {INPUT} bytes, the last of them a line feed"));
    }
    let mut current = Current { sheet: Vec::new(), count: 0, table: [0; NUMBERS] };
    let mut answers = String::new();
    for (number, line) in (1..).zip(text.split_terminator('\n')) {
        if line.starts_with('#') {
            answers += &format!("{line}\n");
            continue;
        }
        let answer = bytes_of(line).and_then(|bytes| match layer {
            Layer::Sheet => current.sheet_line(bytes),
            Layer::Table => current.table_line(bytes),
            Layer::Plan => current.plan_line(bytes),
        });
        answers += &answer.map_err(|wrong| format!("line {number}: {wrong}"))?;
    }
    Ok(answers)
}

/// Random small sheets as lines, one in five damaged, each with some calls on it.
pub fn lines(layer: Layer, r: &mut Random, count: u64) -> String {
    let eight = |what: u8, number: usize| [&[what][..], &(number as u64).to_be_bytes()].concat();
    let mut text = String::new();
    for _ in 0..count {
        let sheet = random::small(r);
        let encoded = random::encode(&sheet);
        let bytes = if r.one_in(5) { random::damaged(r, &encoded) } else { encoded };
        let given = [&[0], &bytes[..]].concat();
        let mut some_move = || eight(2, r.below(sheet.moves.len()));
        let lines = match layer {
            Layer::Sheet => vec![bytes],
            Layer::Table => vec![given, vec![1], some_move(), vec![4, 8, 2], some_move(), vec![4, 0, 50]],
            Layer::Plan => vec![given, vec![1], eight(2, r.range(64, 66)), vec![3], eight(4, r.range(0, 4))],
        };
        text += &lines.iter().map(|line| hexadecimal(line) + "\n").collect::<String>();
    }
    text
}

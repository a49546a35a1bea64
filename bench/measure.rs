//! One call on all sides: first compared, then timed.

use crate::sides::{sides, Side, COUNT, KINDS};
use std::hint::black_box;

/// A call with the number it takes; a search with a memory also has its slots.
#[derive(Clone, Copy)]
pub enum Call {
    Judge,
    Start,
    Step(u64),
    Picture,
    Run,
    Search(u64),
    SearchWith(u64, usize),
}

/// What a call is made on. `answer` is the answer that is meant and `info` the numbers, where they are known, so that a case cannot turn into
/// another one unseen.
pub struct Case {
    pub name: &'static str,
    pub size: String,
    pub sheet: Vec<u8>,
    pub table: Vec<u32>,
    pub call: Call,
    pub answer: u8,
    pub info: Option<[u64; 4]>,
}

/// Everything that a call may be lent.
pub struct Lent {
    pub info: [u64; 4],
    pub table: Vec<u32>,
    pub bytes: Vec<u8>,
    pub rows: Vec<u64>,
    pub memory: Vec<u32>,
}

impl Lent {
    /// The memory holds numbers that mean nothing.
    fn new(case: &Case) -> Lent {
        let (size, slots) = match case.call {
            Call::Search(_) => (8, 0),
            Call::SearchWith(_, slots) => (8, slots),
            _ => (2050, 0),
        };
        Lent { info: [7; 4], table: case.table.clone(), bytes: vec![170; size], rows: vec![9; 195], memory: vec![5; slots * 258] }
    }

    /// All that is promised. What a memory holds is not.
    fn same(&self, other: &Lent) -> bool {
        self.info == other.info && self.table == other.table && self.bytes == other.bytes && self.rows == other.rows
    }

    /// The clauses of the largest picture that the call met.
    fn clauses(&self, case: &Case) -> u64 {
        match case.call {
            Call::Picture => self.info[1],
            Call::Run => self.rows.chunks_exact(3).map(|row| row[2]).max().unwrap_or(0),
            _ => 0,
        }
    }
}

/// The seconds of so many calls.
fn batch(side: &Side, case: &Case, lent: &mut Lent, times: u64) -> f64 {
    let began = seconds();
    for _ in 0..times {
        black_box(side.call(case, lent));
        black_box(&mut *lent);
    }
    seconds() - began
}

#[repr(C)]
struct Timespec {
    seconds: i64,
    nanoseconds: i64,
}

extern "C" {
    fn clock_gettime(clock: i32, time: *mut Timespec) -> i32;
}

/// CLOCK_THREAD_CPUTIME_ID of Linux.
const THREAD_CPU: i32 = 3;

/// The processor time of this thread.
fn seconds() -> f64 {
    let mut time = Timespec { seconds: 0, nanoseconds: 0 };
    let failed = unsafe { clock_gettime(THREAD_CPU, &mut time) };
    assert!(failed == 0, "no clock of the thread's processor time");
    time.seconds as f64 + time.nanoseconds as f64 * 1e-9
}

/// What a call takes on one kind of side: the seconds at the quickest placement, and the factor from there to the slowest.
#[derive(Clone, Copy)]
pub struct Time {
    pub least: f64,
    pub spread: f64,
}

/// One time for each of `KINDS`.
pub type Times = [Time; KINDS.len()];

/// What a case gave: its times, and the clauses of the largest picture that was met.
pub struct Measured {
    pub times: Times,
    pub clauses: u64,
}

/// What a side gave on fresh buffers is what is meant. Otherwise what is wrong.
fn meant(case: &Case, answer: u8, lent: &Lent) -> Result<(), String> {
    if answer != case.answer {
        return Err(format!("the answer is {}, not {}", answer, case.answer));
    }
    match case.info {
        Some(info) if info != lent.info => Err(format!("info is {:?}, not {:?}", lent.info, info)),
        _ => Ok(()),
    }
}

/// The seconds of a call on each side.
type Seconds = [f64; COUNT];

/// All sides once on fresh buffers: what is meant, and everything alike. Otherwise what is wrong. Gives the clauses of the largest picture too.
fn compare(case: &Case) -> Result<(Seconds, u64), String> {
    let mut first: Option<Lent> = None;
    let mut taken = [0.0; COUNT];
    for (i, side) in sides().iter().enumerate() {
        let mut lent = Lent::new(case);
        let began = seconds();
        let answer = side.call(case, &mut lent);
        taken[i] = seconds() - began;
        let name = KINDS[i % KINDS.len()];
        meant(case, answer, &lent).map_err(|wrong| format!("{name}: {wrong}"))?;
        match &first {
            Some(other) if !other.same(&lent) => return Err(format!("{} and {name} differ", KINDS[0])),
            Some(_) => {}
            None => first = Some(lent),
        }
    }
    Ok((taken, first.map_or(0, |lent| lent.clauses(case))))
}

/// A batch of calls takes about this, in seconds, unless a single call takes longer.
const BATCH: f64 = 0.015;
/// A call that takes longer than this has fewer rounds, and its comparison is the first of them.
const LONG: f64 = 0.15;
/// A call that takes longer than this has no other round.
const LONGEST: f64 = 2.0;

/// How many rounds of batches, and how many calls to a batch. The rounds divide the number of sides: each kind of side is first as often.
fn pace(case: &Case, lent: &mut Lent, longest: f64) -> (usize, u64) {
    if longest > LONGEST {
        return (1, 1);
    }
    if longest > LONG {
        return (3, 1);
    }
    let tries = 1 + (0.002 / longest.max(1e-9)) as u64;
    let one = batch(sides()[0], case, lent, tries) / tries as f64;
    (if one > 2.0 * BATCH { 6 } else { 12 }, (BATCH / one.max(1e-9)).ceil() as u64)
}

/// Compares, then times: batches of all sides in turn, another side first in each round; the least of each side counts.
pub fn measure(case: &Case) -> Result<Measured, String> {
    let (compared, clauses) = compare(case)?;
    let longest = compared.iter().copied().fold(0.0, f64::max);
    let mut lent = Lent::new(case);
    let (rounds, calls) = pace(case, &mut lent, longest);
    let (done, mut least) = if longest > LONG { (1, compared) } else { (0, [f64::INFINITY; COUNT]) };
    for round in done..rounds {
        for turn in 0..COUNT {
            let i = (turn + round * COUNT / rounds) % COUNT;
            least[i] = least[i].min(batch(sides()[i], case, &mut lent, calls) / calls as f64);
        }
    }
    Ok(Measured { times: std::array::from_fn(|kind| time(&least, kind)), clauses })
}

/// The time of one kind, from the least seconds of all sides.
fn time(least: &Seconds, kind: usize) -> Time {
    let own = || least.iter().copied().skip(kind).step_by(KINDS.len());
    let quickest = own().fold(f64::INFINITY, f64::min);
    Time { least: quickest, spread: own().fold(0.0, f64::max) / quickest }
}

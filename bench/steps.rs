//! Counts the steps of tables that each search of bench/searches.txt takes with memories of several sizes, in the plain baseline.

mod baseline;
mod searches;
mod text;

use baseline::{search_with, steps_taken};
use searches::{searches, Long};
use std::process::exit;
use text::listed;

/// The slots of the memories. The last stand for an unbounded memory.
const SLOTS: [usize; 6] = [0, 8, 64, 256, 1024, 65536];

/// The steps of a search with each memory.
type Steps = [u64; SLOTS.len()];

/// A memory, by its place in `SLOTS`, that is to have at least so many percent of the gain of an unbounded one; the sheets that were tried,
/// and those that miss it. Sorting networks are counted apart, in the second place.
struct Goal {
    memory: usize,
    percent: f64,
    tried: [usize; 2],
    missed: [Vec<String>; 2],
}

impl Goal {
    fn new(memory: usize, percent: f64) -> Goal {
        Goal { memory, percent, tried: [0; 2], missed: [Vec::new(), Vec::new()] }
    }

    /// What the memory gains of what an unbounded one does, in percent.
    fn share(&self, steps: &Steps) -> f64 {
        100.0 * steps[SLOTS.len() - 1] as f64 / steps[self.memory] as f64
    }

    fn add(&mut self, name: &str, steps: &Steps) {
        let (kind, share) = (usize::from(name.starts_with("sortnet")), self.share(steps));
        self.tried[kind] += 1;
        if share < self.percent {
            self.missed[kind].push(format!("{name} {share:.0} %"));
        }
    }

    fn show(&self) {
        let missed = |kind: usize, what: &str| {
            let names = &self.missed[kind];
            format!("{} of {} {what}{}", names.len(), self.tried[kind], listed(names))
        };
        print!("{} slots, goal: at least {} % of unbounded memory: ", SLOTS[self.memory], self.percent);
        println!("missed by {}; by {}", missed(0, "sheets"), missed(1, "sorting networks"));
    }
}

/// The steps of a search with so many slots.
fn count(long: &Long, slots: usize) -> u64 {
    let (mut memory, mut plan, mut info) = (vec![5; slots * 258], [0; 8], [0; 4]);
    let answer = search_with(&long.sheet, long.limit, &mut memory, &mut plan, &mut info);
    if answer != 0 || info != long.info() {
        println!("bench: {} with {slots} slots: the answer is {answer} with {info:?}, not 0 with {:?}", long.name, long.info());
        exit(1);
    }
    steps_taken()
}

fn show(name: &str, steps: &Steps, goals: &[Goal; 2]) {
    print!("{name:<14} {:>10}", steps[0]);
    for fewer in &steps[1..] {
        print!(" {:>7.1}", steps[0] as f64 / *fewer as f64);
    }
    for goal in goals {
        print!(" {:>7.0}", goal.share(steps));
    }
    println!();
}

/// A row for each sheet, then the goals.
fn main() {
    let mut goals = [Goal::new(4, 80.0), Goal::new(3, 45.0)];
    println!("Steps of tables without a memory, the factor by which each memory lessens them, and the share of two in the last factor.");
    print!("{:<14} {:>10}", "sheet", "0 slots");
    SLOTS[1..].iter().for_each(|slots| print!(" {slots:>7}"));
    goals.iter().for_each(|goal| print!(" {:>7}", format!("{} %", SLOTS[goal.memory])));
    println!();
    for long in searches() {
        let steps = SLOTS.map(|slots| count(&long, slots));
        show(long.name, &steps, &goals);
        goals.iter_mut().for_each(|goal| goal.add(long.name, &steps));
    }
    goals.iter().for_each(Goal::show);
}

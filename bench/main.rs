//! Times the proved library beside the baseline, our algorithms in plain Rust, group by group. An argument names one group, one case or
//! one row.

mod cases;
mod measure;
mod searches;
mod sheets;
mod sides;
mod tables;
mod text;

use cases::{groups, Group};
use measure::{measure, Case, Measured, Times};
use sides::PADDINGS;
use std::process::exit;
use text::listed;

/// A ratio of the library to the plain baseline above this is named at the end.
const BAR: f64 = 1.15;
/// So is one above this where a picture of so many clauses is met.
const GOAL: f64 = 0.80;
const MANY: u64 = 64;

/// What is counted over all groups.
#[derive(Default)]
struct Sum {
    cases: usize,
    above: Vec<String>,
    greatest: f64,
    large: usize,
    missed: Vec<String>,
}

impl Sum {
    fn add(&mut self, case: &Case, ratio: f64, clauses: u64) {
        let named = || format!("{} ({:.2})", label(case), ratio);
        self.cases += 1;
        self.greatest = self.greatest.max(ratio);
        if ratio > BAR {
            self.above.push(named());
        }
        if clauses >= MANY {
            self.large += 1;
            if ratio > GOAL {
                self.missed.push(named());
            }
        }
    }

    fn show(&self) {
        let (above, missed) = (listed(&self.above), listed(&self.missed));
        println!("{} cases; {} ratios above {:.2}{}; the greatest is {:.2}", self.cases, self.above.len(), BAR, above, self.greatest);
        if self.large > 0 {
            let (missing, large) = (self.missed.len(), self.large);
            println!("{MANY} or more clauses (goal: at most {GOAL:.2}): {missing} of {large} ratios above {GOAL:.2}{missed}");
        }
    }
}

fn label(case: &Case) -> String {
    format!("{} {}", case.name, case.size).trim_end().to_string()
}

/// The factors to the row before, if it is of the same series.
fn factors(before: Option<(&str, Times)>, case: &Case, times: Times) -> String {
    match before {
        Some((name, last)) if name == case.name => {
            let factor = |kind: usize| times[kind].least / last[kind].least;
            format!(" {:>9.2} {:>9.2}", factor(0), factor(1))
        }
        _ => format!(" {:>9} {:>9}", "-", "-"),
    }
}

/// A row of a table, the columns side by side.
fn row(columns: [&str; 9], more: &str) {
    let [case, size, proved, spread, plain, plain_spread, ratio, blocks, to_blocks] = columns;
    println!("{case:<16} {size:>14} {proved:>12} {spread:>6} {plain:>12} {plain_spread:>6} {ratio:>6} {blocks:>12} {to_blocks:>15}{more}");
}

fn show(group: &Group, cases: &[&Case], sum: &mut Sum) {
    println!("{}: {}", group.name, group.title);
    let more = if group.grows { "  x proved   x plain" } else { "" };
    row(["case", "size", "proved us", "spread", "plain us", "spread", "ratio", "blocks us", "ratio to blocks"], more);
    let mut before = None;
    for case in cases {
        let Measured { times, clauses } = measure(case).unwrap_or_else(|wrong| {
            println!("bench: {}: {}", label(case), wrong);
            exit(1)
        });
        let [proved, plain, blocks] = times;
        let ratio = proved.least / plain.least;
        let us = [proved, plain, blocks].map(|time| format!("{:.3}", time.least * 1e6));
        let two = [proved.spread, plain.spread, ratio, proved.least / blocks.least].map(|x| format!("{x:.2}"));
        let more = if group.grows { factors(before, case, times) } else { String::new() };
        row([case.name, &case.size, &us[0], &two[0], &us[1], &two[1], &two[2], &us[2], &two[3]], &more);
        before = Some((case.name, times));
        sum.add(case, ratio, clauses);
    }
    println!();
}

/// The processor's name, as Linux tells it.
fn processor() -> String {
    let text = std::fs::read_to_string("/proc/cpuinfo").unwrap_or_default();
    let name = text.lines().find(|line| line.starts_with("model name")).and_then(|line| line.split_once(':'));
    name.map_or("unknown processor", |(_, name)| name.trim()).to_string()
}

/// What the figures are of. If the placements are not what they are named for, nothing is timed.
fn head() {
    println!("{}", processor());
    println!("Least times over four placements, {PADDINGS:?} bytes of padding before the code of each side; spread: slowest to quickest.");
    match sides::placements() {
        Ok(text) => println!("Where the call judge begins within 64 bytes: {text}.\n"),
        Err(wrong) => {
            eprintln!("bench: {wrong}");
            exit(2);
        }
    }
}

/// The cases of a group that were asked for: by its name, by theirs, or all.
fn chosen<'a>(group: &'a Group, wanted: Option<&str>) -> Vec<&'a Case> {
    let asked = |case: &&Case| wanted.map_or(true, |name| name == group.name || name == case.name || name == label(case));
    group.cases.iter().filter(asked).collect()
}

fn main() {
    let wanted = std::env::args().nth(1);
    let groups = groups();
    let tables: Vec<_> = groups.iter().map(|group| (group, chosen(group, wanted.as_deref()))).collect();
    if tables.iter().all(|(_, cases)| cases.is_empty()) {
        eprintln!("bench: no group and no case is named {}", wanted.unwrap_or_default());
        exit(2);
    }
    head();
    let mut sum = Sum::default();
    for (group, cases) in tables.iter().filter(|(_, cases)| !cases.is_empty()) {
        show(group, cases, &mut sum);
    }
    sum.show();
}

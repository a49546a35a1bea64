//! reference SEED SMALL LARGE [FOLDER]: compares the proved library with an independent implementation of the documents, on SMALL small and
//! LARGE large random sheets, on sheets at the format's limits, and on every NAME.sheet with its NAME.expected in FOLDER.
//! reference due LAYER: what is due for the cases of the program crates/LAYER_cases, from the standard input; LAYER: sheet, table or plan.
//! reference text: what `check` prints for the sheet on the standard input.
//! reference lines LAYER SEED COUNT: lines of cases on COUNT random sheets.
//! Nothing but the first of these calls the library. Status 1 if something differs, 2 if the input is not as it should be.

mod calls;
mod cases;
mod compare;
mod due;
mod exchanges;
mod limits;
mod plans;
mod random;
mod roles;
mod sheet;
mod tables;
mod worlds;

use cases::Layer;
use compare::Comparer;
use random::Random;
use std::io::Read;
use std::path::Path;
use std::process::ExitCode;

const USAGE: &str = "usage: reference SEED SMALL LARGE [FOLDER] | due LAYER | text | lines LAYER SEED COUNT";
/// So many sheets whose moves share a lamp.
const LAMPS: usize = 3000;

/// One small sheet in five is damaged, one in forty is noise.
fn small(c: &mut Comparer) {
    let sheet = random::small(&mut c.random);
    let mut bytes = random::encode(&sheet);
    if c.random.one_in(5) {
        bytes = random::damaged(&mut c.random, &bytes);
    } else if c.random.one_in(40) {
        bytes = random::noise(&mut c.random);
    }
    let budget = if c.random.one_in(200) { 5000 } else { 600 };
    c.sheet(&bytes, &[], 4, budget);
}

/// A large sheet, one with many entries, and ten damaged ones.
fn large(c: &mut Comparer) {
    let sheet = random::wide(&mut c.random);
    c.sheet(&random::encode(&sheet), &[], 2, 20);
    let sheet = random::large(&mut c.random);
    let bytes = random::encode(&sheet);
    c.sheet(&bytes, &[], 4, 40);
    for _ in 0..10 {
        let damaged = random::damaged(&mut c.random, &bytes);
        if sheet::read(&damaged).is_err() {
            c.sheet(&damaged, &[], 0, 0);
        }
    }
}

/// Every NAME.sheet of the folder with its NAME.expected.
fn folder(c: &mut Comparer, folder: &Path) -> Result<usize, String> {
    let list = std::fs::read_dir(folder).map_err(|e| format!("{}: {e}", folder.display()))?;
    let mut paths: Vec<_> = list.flatten().map(|entry| entry.path()).collect();
    paths.retain(|path| path.extension().is_some_and(|extension| extension == "sheet"));
    paths.sort();
    for path in &paths {
        let expected = path.with_extension("expected");
        let bytes = std::fs::read(path).map_err(|e| format!("{}: {e}", path.display()))?;
        let text = std::fs::read_to_string(&expected).map_err(|e| format!("{}: {e}", expected.display()))?;
        c.text(&path.display().to_string(), &bytes, &text);
        c.sheet(&bytes, &[], 2, 100);
    }
    Ok(paths.len())
}

/// The comparisons one after the other, with a line on each; false if something differs, or what cannot be read.
fn compare(seed: u64, small_count: u64, large_count: u64, path: Option<&str>) -> Result<bool, String> {
    let mut c = Comparer::new(seed);
    if let Some(path) = path {
        let count = folder(&mut c, Path::new(path))?;
        println!("folder: {count} sheets, {} passed, {} failed", c.passed, c.failed);
    }
    // The sheets at the limits, once for each ten thousand small sheets; the slowest of them once, if there are large sheets at all.
    for _ in 0..small_count.div_ceil(10_000) {
        for case in limits::limits(&mut c.random) {
            c.sheet(&case.bytes, &case.tables, 0, 20);
        }
    }
    if large_count > 0 {
        for bytes in limits::worst(&mut c.random) {
            c.slow_sheet(&bytes);
        }
    }
    println!("limits: {} passed, {} failed", c.passed, c.failed);
    for (name, count, one) in [("small", small_count, small as fn(&mut Comparer)), ("large", large_count, large)] {
        for i in 0..count {
            one(&mut c);
            if (i + 1) * 10 / count > i * 10 / count {
                println!("{name}: {} of {count}, {} passed, {} failed", i + 1, c.passed, c.failed);
            }
        }
    }
    c.lamps(LAMPS);
    println!("{}", c.answers());
    println!("{} passed, {} failed", c.passed, c.failed);
    Ok(c.failed == 0)
}

/// The whole standard input.
fn input() -> Result<Vec<u8>, String> {
    let mut bytes = Vec::new();
    std::io::stdin().read_to_end(&mut bytes).map_err(|e| e.to_string())?;
    Ok(bytes)
}

fn layer(name: &str) -> Result<Layer, String> {
    Layer::named(name).ok_or_else(|| String::from(USAGE))
}

fn number(word: &str) -> Result<u64, String> {
    word.parse().map_err(|_| String::from(USAGE))
}

/// What the arguments ask for; false if something differs.
fn done(words: &[&str]) -> Result<bool, String> {
    match words {
        ["due", name] => {
            let text = String::from_utf8(input()?).map_err(|e| e.to_string())?;
            print!("{}", cases::answers(layer(name)?, &text)?);
        }
        ["text"] => print!("{}", plans::text(&input()?)),
        ["lines", name, seed, count] => print!("{}", cases::lines(layer(name)?, &mut Random::new(number(seed)?), number(count)?)),
        [seed, small, large, path @ ..] if path.len() < 2 => {
            return compare(number(seed)?, number(small)?, number(large)?, path.first().copied());
        }
        _ => return Err(String::from(USAGE)),
    }
    Ok(true)
}

fn main() -> ExitCode {
    let words: Vec<String> = std::env::args().skip(1).collect();
    match done(&words.iter().map(String::as_str).collect::<Vec<_>>()) {
        Ok(true) => ExitCode::SUCCESS,
        Ok(false) => ExitCode::from(1),
        Err(message) => {
            eprintln!("reference: {message}");
            ExitCode::from(2)
        }
    }
}

//! The cases, group by group.

use crate::measure::{Call, Case};
use crate::searches::{searches as long_searches, Long};
use crate::{sheets, tables};

pub struct Group {
    pub name: &'static str,
    pub title: &'static str,
    /// Rows of the same name are a series; the factors to the row before are shown.
    pub grows: bool,
    pub cases: Vec<Case>,
}

/// An accepted call without a table.
fn case(name: &'static str, size: &str, sheet: Vec<u8>, call: Call) -> Case {
    Case { name, size: size.to_string(), sheet, table: tables::none(), call, answer: 0, info: None }
}

fn on(table: Vec<u32>, case: Case) -> Case {
    Case { table, ..case }
}

fn kernels() -> Group {
    use Call::*;
    let cases = vec![
        case("judge", "3711 bytes", sheets::longest(), Judge),
        case("oneof", "16 entries", sheets::oneof(), Start),
        case("ors", "128 entries", sheets::ors(), Start),
        on(tables::eight(), case("effects", "8 entries", sheets::effects(), Step(0))),
        on(tables::hundred(), case("picture", "100 entries", sheets::bare(32), Picture)),
        on(tables::halves(), case("halves", "2 entries", sheets::bare(32), Picture)),
        case("ring", "64 moves", sheets::ring_run(8, 64), Run),
        case("ring4", "64 moves", sheets::ring_run(4, 64), Run),
        case("pictures", "64 moves", sheets::big_pictures(), Run),
        case("search32", "limit 3", sheets::search32(), Search(3)),
        case("search8", "limit 6", sheets::search8(), Search(6)),
        case("found", "7 moves", sheets::ring_search(4), Search(8)),
    ];
    Group { name: "kernels", title: "each call on a sheet of its own", grows: false, cases }
}

fn worst() -> Group {
    use Call::*;
    let overflow = on(tables::table(&[(0, 0)]), case("overflow", "5^8 pieces", sheets::five_to_the_eighth(), Step(0)));
    let cases = vec![
        Case { answer: 21, ..overflow },
        on(tables::two(), case("dropped4", "4^7 pieces", sheets::four_to_the(7), Step(0))),
        on(tables::markers(1), case("dropped5", "5^7 pieces", sheets::five_to_the_seventh(), Step(0))),
        on(tables::markers(32), case("dropped32", "32*5^7 pieces", sheets::five_to_the_seventh(), Step(0))),
        case("candidates", "8*128*4^7", sheets::candidates(8), Start),
        on(tables::alike(128), case("alike", "128 entries", sheets::bare(32), Picture)),
    ];
    Group { name: "worst", title: "the heaviest inputs", grows: false, cases }
}

fn entries() -> Group {
    let counts = [1, 2, 4, 8, 16, 32, 64, 128];
    let step = counts.map(|k| on(tables::counted(k), case("step", &k.to_string(), sheets::ninefold(), Call::Step(0))));
    let picture = counts.map(|k| on(tables::alike(k), case("draw", &k.to_string(), sheets::bare(32), Call::Picture)));
    let cases = step.into_iter().chain(picture).collect();
    Group { name: "entries", title: "step and picture as the entries grow", grows: true, cases }
}

fn pieces() -> Group {
    let size = |k: u8| if k == 0 { "1".to_string() } else { format!("4^{k}") };
    let cases = (0..8).map(|k| on(tables::two(), case("split", &size(k), sheets::four_to_the(k), Call::Step(0)))).collect();
    Group { name: "pieces", title: "step of an entry as its pieces grow", grows: true, cases }
}

fn plan() -> Group {
    let run = (0..=8).map(|k| case("run", &(8 * k).to_string(), sheets::ring_run(8, 8 * k), Call::Run));
    let small = (0..=8).map(|k| case("run4", &(8 * k).to_string(), sheets::ring_run(4, 8 * k), Call::Run));
    let search = (0..=7).map(|k| case("search", &k.to_string(), sheets::search8(), Call::Search(k)));
    Group { name: "plan", title: "run as the plan grows, search as the limit grows", grows: true, cases: run.chain(small).chain(search).collect() }
}

/// The search of a sheet with a memory of so many slots.
fn with_memory(long: &Long, slots: usize) -> Case {
    let search = case(long.name, &format!("{slots} slots"), long.sheet.clone(), Call::SearchWith(long.limit, slots));
    Case { info: Some(long.info()), ..search }
}

/// Without a memory, one search of the sorting network for six takes more than ten seconds: it is left out.
fn searches() -> Group {
    let timed = |case: &Case| case.name != "sortnet_6" || case.size != "0 slots";
    let cases = long_searches().iter().flat_map(|long| [0, 64, 256, 1024].map(|slots| with_memory(long, slots))).filter(timed).collect();
    Group { name: "searches", title: "long searches as their memory grows", grows: false, cases }
}

pub fn groups() -> Vec<Group> {
    vec![kernels(), worst(), entries(), pieces(), plan(), searches()]
}

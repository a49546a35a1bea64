//! The C interface of crate `unit`, and one safe way to make any of its calls. `--cfg unlinked` builds without the library.

/// A call with the number it takes.
#[derive(Clone, Copy, PartialEq, Eq, Debug)]
pub enum Call {
    Judge,
    Start,
    Step(u64),
    Picture,
    Run,
    Search(u64),
    SearchWith(u64),
}

/// Everything that a call may be lent, before and after it. `bytes` is the buffer of a picture or the plan of a search, `memory` that of a
/// search.
#[derive(Clone, PartialEq, Eq, Debug)]
pub struct Lent {
    pub info: Vec<u64>,
    pub table: Vec<u32>,
    pub bytes: Vec<u8>,
    pub rows: Vec<u64>,
    pub memory: Vec<u32>,
}

#[cfg(not(unlinked))]
#[path = "../../include/krepuskilo.rs"]
mod library;

#[cfg(not(unlinked))]
fn answer(sheet: &[u8], call: Call, lent: &mut Lent) -> u8 {
    let Lent { info, table, bytes, rows, memory } = lent;
    match call {
        Call::Judge => library::judge(sheet, info),
        Call::Start => library::start(sheet, table, info),
        Call::Step(number) => library::step(sheet, table, number, info),
        Call::Picture => library::picture(sheet, table, bytes, info),
        Call::Run => library::run(sheet, rows, table, info),
        Call::Search(limit) => library::search(sheet, limit, bytes, info),
        Call::SearchWith(limit) => library::search_with(sheet, limit, memory, bytes, info),
    }
}

/// The library's answer, or None in a build without it; what it writes is in `lent` afterwards.
pub fn call(_sheet: &[u8], _call: Call, _lent: &mut Lent) -> Option<u8> {
    #[cfg(not(unlinked))]
    return Some(answer(_sheet, _call, _lent));
    #[cfg(unlinked)]
    return None;
}

//! The sides: the library, the plain baseline and the baseline with blocks of four, each linked at four placements (bench/placement.S), all
//! called through the interface of include/krepuskilo.h.

use crate::measure::{Call, Case, Lent};
use std::hint::black_box;

/// The library, then the baselines.
pub const KINDS: [&str; 3] = ["proved", "plain", "blocks"];
/// The bytes of padding before the code of a side, at its four placements.
pub const PADDINGS: [usize; 4] = [0, 16, 32, 48];
/// How many sides there are at all placements.
pub const COUNT: usize = KINDS.len() * PADDINGS.len();

type Judge = unsafe extern "C" fn(*const u8, usize, *mut u64, usize) -> u8;
type Start = unsafe extern "C" fn(*const u8, usize, *mut u32, usize, *mut u64, usize) -> u8;
type Step = unsafe extern "C" fn(*const u8, usize, *mut u32, usize, u64, *mut u64, usize) -> u8;
type Picture = unsafe extern "C" fn(*const u8, usize, *const u32, usize, *mut u8, usize, *mut u64, usize) -> u8;
type Run = unsafe extern "C" fn(*const u8, usize, *mut u64, usize, *mut u32, usize, *mut u64, usize) -> u8;
type Search = unsafe extern "C" fn(*const u8, usize, u64, *mut u8, usize, *mut u64, usize) -> u8;
type SearchWith = unsafe extern "C" fn(*const u8, usize, u64, *mut u32, usize, *mut u8, usize, *mut u64, usize) -> u8;

/// The calls of a side at one placement.
#[repr(C)]
pub struct Side {
    judge: Judge,
    start: Start,
    step: Step,
    picture: Picture,
    run: Run,
    search: Search,
    search_with: SearchWith,
}

/// All sides, in the order in which they take turns.
macro_rules! sides {
    ($($name:ident)*) => {
        extern "C" {
            $(static $name: Side;)*
        }

        pub fn sides() -> [&'static Side; COUNT] {
            unsafe { [$(&$name),*] }
        }
    };
}

sides! {
    proved_0 plain_0 blocks_0
    proved_16 plain_16 blocks_16
    proved_32 plain_32 blocks_32
    proved_48 plain_48 blocks_48
}

impl Side {
    /// The call of a case. A step gets its table anew, since it writes over it.
    pub fn call(&self, case: &Case, lent: &mut Lent) -> u8 {
        if let Call::Step(_) = case.call {
            lent.table.copy_from_slice(&case.table);
        }
        let Lent { info, table, bytes, rows, memory } = lent;
        let (s, sheet) = (black_box(case.sheet.as_ptr()), case.sheet.len());
        let (i, info) = (info.as_mut_ptr(), info.len());
        let (t, table) = (table.as_mut_ptr(), table.len());
        let (b, bytes) = (bytes.as_mut_ptr(), bytes.len());
        let (r, rows) = (rows.as_mut_ptr(), rows.len());
        let (m, memory) = (memory.as_mut_ptr(), memory.len());
        // Each address goes with the length of the slice that it is of, and no two slices overlap.
        unsafe {
            match case.call {
                Call::Judge => (self.judge)(s, sheet, i, info),
                Call::Start => (self.start)(s, sheet, t, table, i, info),
                Call::Step(number) => (self.step)(s, sheet, t, table, number, i, info),
                Call::Picture => (self.picture)(s, sheet, t, table, b, bytes, i, info),
                Call::Run => (self.run)(s, sheet, r, rows, t, table, i, info),
                Call::Search(limit) => (self.search)(s, sheet, limit, b, bytes, i, info),
                Call::SearchWith(limit, _) => (self.search_with)(s, sheet, limit, m, memory, b, bytes, i, info),
            }
        }
    }
}

/// Where the call `judge` begins within 64 bytes, for each kind at its placements. If some side did not move by its padding, which one.
pub fn placements() -> Result<String, String> {
    let begins = sides().map(|side| side.judge as usize % 64);
    let mut text = Vec::new();
    for (kind, name) in KINDS.iter().enumerate() {
        let own: Vec<usize> = begins.iter().copied().skip(kind).step_by(KINDS.len()).collect();
        for (padding, begin) in PADDINGS.iter().zip(&own) {
            if *begin != (own[0] + padding) % 64 {
                return Err(format!("{name}_{padding} begins at {begin} of 64 bytes, {name}_0 at {}", own[0]));
            }
        }
        text.push(format!("{name} {own:?}"));
    }
    Ok(text.join(", "))
}

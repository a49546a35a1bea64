//! Krepuskilo for Rust: the seven calls of libunit.a over slices. krepuskilo.h says what each takes, answers and writes, and where the
//! archive comes from. A program takes this file as a module and is compiled with `-L` and the folder of the archive.

#[link(name = "unit", kind = "static")]
extern "C" {
    fn krepuskilo_judge(sheet: *const u8, sheet_len: usize, info: *mut u64, info_len: usize) -> u8;
    fn krepuskilo_start(
        sheet: *const u8, sheet_len: usize, table: *mut u32, table_len: usize, info: *mut u64, info_len: usize,
    ) -> u8;
    fn krepuskilo_step(
        sheet: *const u8, sheet_len: usize, table: *mut u32, table_len: usize, index: u64, info: *mut u64, info_len: usize,
    ) -> u8;
    fn krepuskilo_picture(
        sheet: *const u8, sheet_len: usize, table: *const u32, table_len: usize, buffer: *mut u8, buffer_len: usize,
        info: *mut u64, info_len: usize,
    ) -> u8;
    fn krepuskilo_run(
        sheet: *const u8, sheet_len: usize, rows: *mut u64, rows_len: usize, table: *mut u32, table_len: usize,
        info: *mut u64, info_len: usize,
    ) -> u8;
    fn krepuskilo_search(
        sheet: *const u8, sheet_len: usize, limit: u64, plan: *mut u8, plan_len: usize, info: *mut u64, info_len: usize,
    ) -> u8;
    fn krepuskilo_search_with(
        sheet: *const u8, sheet_len: usize, limit: u64, memory: *mut u32, memory_len: usize, plan: *mut u8, plan_len: usize,
        info: *mut u64, info_len: usize,
    ) -> u8;
}

// In each call a pointer goes with the length of the slice that it is from, and no two slices overlap.

pub fn judge(sheet: &[u8], info: &mut [u64]) -> u8 {
    unsafe { krepuskilo_judge(sheet.as_ptr(), sheet.len(), info.as_mut_ptr(), info.len()) }
}

pub fn start(sheet: &[u8], table: &mut [u32], info: &mut [u64]) -> u8 {
    let (s, t, i) = (sheet.as_ptr(), table.as_mut_ptr(), info.as_mut_ptr());
    unsafe { krepuskilo_start(s, sheet.len(), t, table.len(), i, info.len()) }
}

pub fn step(sheet: &[u8], table: &mut [u32], index: u64, info: &mut [u64]) -> u8 {
    let (s, t, i) = (sheet.as_ptr(), table.as_mut_ptr(), info.as_mut_ptr());
    unsafe { krepuskilo_step(s, sheet.len(), t, table.len(), index, i, info.len()) }
}

pub fn picture(sheet: &[u8], table: &[u32], buffer: &mut [u8], info: &mut [u64]) -> u8 {
    let (s, t, b, i) = (sheet.as_ptr(), table.as_ptr(), buffer.as_mut_ptr(), info.as_mut_ptr());
    unsafe { krepuskilo_picture(s, sheet.len(), t, table.len(), b, buffer.len(), i, info.len()) }
}

pub fn run(sheet: &[u8], rows: &mut [u64], table: &mut [u32], info: &mut [u64]) -> u8 {
    let (s, r, t, i) = (sheet.as_ptr(), rows.as_mut_ptr(), table.as_mut_ptr(), info.as_mut_ptr());
    unsafe { krepuskilo_run(s, sheet.len(), r, rows.len(), t, table.len(), i, info.len()) }
}

pub fn search(sheet: &[u8], limit: u64, plan: &mut [u8], info: &mut [u64]) -> u8 {
    let (s, p, i) = (sheet.as_ptr(), plan.as_mut_ptr(), info.as_mut_ptr());
    unsafe { krepuskilo_search(s, sheet.len(), limit, p, plan.len(), i, info.len()) }
}

/// The same with a memory, 258 numbers to a slot. It is scratch: what it holds does not matter, and afterwards it holds anything.
#[allow(dead_code)]
pub fn search_with(sheet: &[u8], limit: u64, memory: &mut [u32], plan: &mut [u8], info: &mut [u64]) -> u8 {
    let (s, m, p, i) = (sheet.as_ptr(), memory.as_mut_ptr(), plan.as_mut_ptr(), info.as_mut_ptr());
    unsafe { krepuskilo_search_with(s, sheet.len(), limit, m, memory.len(), p, plan.len(), i, info.len()) }
}

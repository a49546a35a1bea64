//! The calls under the names and with the arguments of include/krepuskilo.h: each slice as its address and its length. The caller sees to what
//! the header says of both.

use std::slice::{from_raw_parts as read, from_raw_parts_mut as written};

#[no_mangle]
unsafe extern "C" fn krepuskilo_judge(sheet: *const u8, sheet_len: usize, info: *mut u64, info_len: usize) -> u8 {
    super::judge(read(sheet, sheet_len), written(info, info_len))
}

#[no_mangle]
unsafe extern "C" fn krepuskilo_start(
    sheet: *const u8, sheet_len: usize, table: *mut u32, table_len: usize, info: *mut u64, info_len: usize,
) -> u8 {
    super::start(read(sheet, sheet_len), written(table, table_len), written(info, info_len))
}

#[no_mangle]
unsafe extern "C" fn krepuskilo_step(
    sheet: *const u8, sheet_len: usize, table: *mut u32, table_len: usize, number: u64, info: *mut u64, info_len: usize,
) -> u8 {
    super::step(read(sheet, sheet_len), written(table, table_len), number, written(info, info_len))
}

#[no_mangle]
unsafe extern "C" fn krepuskilo_picture(
    sheet: *const u8, sheet_len: usize, table: *const u32, table_len: usize, buffer: *mut u8, buffer_len: usize,
    info: *mut u64, info_len: usize,
) -> u8 {
    super::picture(read(sheet, sheet_len), read(table, table_len), written(buffer, buffer_len), written(info, info_len))
}

#[no_mangle]
unsafe extern "C" fn krepuskilo_run(
    sheet: *const u8, sheet_len: usize, rows: *mut u64, rows_len: usize, table: *mut u32, table_len: usize,
    info: *mut u64, info_len: usize,
) -> u8 {
    super::run(read(sheet, sheet_len), written(rows, rows_len), written(table, table_len), written(info, info_len))
}

#[no_mangle]
unsafe extern "C" fn krepuskilo_search(
    sheet: *const u8, sheet_len: usize, limit: u64, plan: *mut u8, plan_len: usize, info: *mut u64, info_len: usize,
) -> u8 {
    super::search(read(sheet, sheet_len), limit, written(plan, plan_len), written(info, info_len))
}

#[no_mangle]
unsafe extern "C" fn krepuskilo_search_with(
    sheet: *const u8, sheet_len: usize, limit: u64, memory: *mut u32, memory_len: usize, plan: *mut u8, plan_len: usize,
    info: *mut u64, info_len: usize,
) -> u8 {
    let memory = written(memory, memory_len);
    super::search_with(read(sheet, sheet_len), limit, memory, written(plan, plan_len), written(info, info_len))
}

//! The C interface of include/lemondarts.h, answered by the reference.
//! Every pointer must be valid for its length, as for the library itself.
#![allow(clippy::missing_safety_doc)]

use crate::calls;
use std::slice::{from_raw_parts, from_raw_parts_mut};

/// The version of include/lemondarts.h, as one number: 4.7.0.
#[no_mangle]
pub extern "C" fn lemondarts_version() -> u64 {
    40_700
}

#[no_mangle]
pub unsafe extern "C" fn lemondarts_load(table: *const u8, table_length: usize) -> u64 {
    calls::load(from_raw_parts(table, table_length))
}

#[no_mangle]
pub unsafe extern "C" fn lemondarts_compile(
    sheet: *const u8,
    sheet_length: usize,
    out: *mut u8,
    out_length: usize,
    work: *mut u8,
    work_length: usize,
    values: *mut u64,
    values_length: usize,
) -> u64 {
    calls::compile(
        from_raw_parts(sheet, sheet_length),
        from_raw_parts_mut(out, out_length),
        from_raw_parts_mut(work, work_length),
        from_raw_parts_mut(values, values_length),
    )
}

#[no_mangle]
pub unsafe extern "C" fn lemondarts_join(
    count: usize,
    tables: *const u8,
    tables_length: usize,
    out: *mut u8,
    out_length: usize,
    work: *mut u8,
    work_length: usize,
    values: *mut u64,
    values_length: usize,
) -> u64 {
    calls::join(
        count,
        from_raw_parts(tables, tables_length),
        from_raw_parts_mut(out, out_length),
        from_raw_parts_mut(work, work_length),
        from_raw_parts_mut(values, values_length),
    )
}

#[no_mangle]
pub unsafe extern "C" fn lemondarts_explain(
    sheet: *const u8,
    sheet_length: usize,
    actions: *const u8,
    actions_length: usize,
    place: *mut u64,
    place_length: usize,
    work: *mut u8,
    work_length: usize,
    values: *mut u64,
    values_length: usize,
) -> u64 {
    calls::explain(
        from_raw_parts(sheet, sheet_length),
        from_raw_parts(actions, actions_length),
        from_raw_parts_mut(place, place_length),
        from_raw_parts_mut(work, work_length),
        from_raw_parts_mut(values, values_length),
    )
}

#[no_mangle]
pub unsafe extern "C" fn lemondarts_read_text(
    text: *const u8,
    text_length: usize,
    actions: *const u16,
    action_count: usize,
    sheet: *mut u8,
    sheet_length: usize,
) -> u64 {
    calls::read_text(
        from_raw_parts(text, text_length),
        from_raw_parts(actions, action_count),
        from_raw_parts_mut(sheet, sheet_length),
    )
}

#[no_mangle]
pub unsafe extern "C" fn lemondarts_new_board(
    record: *mut u8,
    record_length: usize,
    area: *mut u8,
    area_length: usize,
) -> u64 {
    calls::new_board(from_raw_parts_mut(record, record_length), from_raw_parts_mut(area, area_length))
}

#[no_mangle]
pub unsafe extern "C" fn lemondarts_put_on(
    record: *mut u8,
    record_length: usize,
    area: *mut u8,
    area_length: usize,
    place: usize,
    table: *const u8,
    table_length: usize,
) -> u64 {
    let (record, area) = (from_raw_parts_mut(record, record_length), from_raw_parts_mut(area, area_length));
    calls::put_on(record, area, place, from_raw_parts(table, table_length))
}

#[no_mangle]
pub unsafe extern "C" fn lemondarts_take_off(
    record: *mut u8,
    record_length: usize,
    area: *mut u8,
    area_length: usize,
    place: usize,
) -> u64 {
    calls::take_off(from_raw_parts_mut(record, record_length), from_raw_parts_mut(area, area_length), place)
}

#[no_mangle]
pub unsafe extern "C" fn lemondarts_action(
    record: *mut u8,
    record_length: usize,
    area: *const u8,
    area_length: usize,
    action: usize,
) -> u64 {
    calls::action(from_raw_parts_mut(record, record_length), from_raw_parts(area, area_length), action)
}

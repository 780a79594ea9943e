//! The calls of include/lemondarts.h, declared for Rust, each with slices for pointers and lengths. A slice is never null, two
//! of one call do not overlap, and each is valid for its length: this is all that the header asks for. tests/fuzz and bench
//! include this file too.

extern "C" {
    fn lemondarts_version() -> u64;
    fn lemondarts_load(table: *const u8, table_length: usize) -> u64;
    fn lemondarts_compile(
        sheet: *const u8,
        sheet_length: usize,
        out: *mut u8,
        out_length: usize,
        work: *mut u8,
        work_length: usize,
        values: *mut u64,
        values_length: usize,
    ) -> u64;
    fn lemondarts_join(
        count: usize,
        tables: *const u8,
        tables_length: usize,
        out: *mut u8,
        out_length: usize,
        work: *mut u8,
        work_length: usize,
        values: *mut u64,
        values_length: usize,
    ) -> u64;
    fn lemondarts_explain(
        sheet: *const u8,
        sheet_length: usize,
        actions: *const u8,
        actions_length: usize,
        place: *mut u64,
        place_length: usize,
        work: *mut u8,
        work_length: usize,
        values: *mut u64,
        values_length: usize,
    ) -> u64;
    fn lemondarts_read_text(
        text: *const u8,
        text_length: usize,
        actions: *const u16,
        action_count: usize,
        sheet: *mut u8,
        sheet_length: usize,
    ) -> u64;
    fn lemondarts_new_board(record: *mut u8, record_length: usize, area: *mut u8, area_length: usize) -> u64;
    fn lemondarts_put_on(
        record: *mut u8,
        record_length: usize,
        area: *mut u8,
        area_length: usize,
        place: usize,
        table: *const u8,
        table_length: usize,
    ) -> u64;
    fn lemondarts_take_off(
        record: *mut u8,
        record_length: usize,
        area: *mut u8,
        area_length: usize,
        place: usize,
    ) -> u64;
    fn lemondarts_action(
        record: *mut u8,
        record_length: usize,
        area: *const u8,
        area_length: usize,
        action: usize,
    ) -> u64;
}

pub fn version() -> u64 {
    unsafe { lemondarts_version() }
}

pub fn load(table: &[u8]) -> u64 {
    unsafe { lemondarts_load(table.as_ptr(), table.len()) }
}

pub fn compile(sheet: &[u8], out: &mut [u8], work: &mut [u8], values: &mut [u64]) -> u64 {
    unsafe {
        lemondarts_compile(
            sheet.as_ptr(),
            sheet.len(),
            out.as_mut_ptr(),
            out.len(),
            work.as_mut_ptr(),
            work.len(),
            values.as_mut_ptr(),
            values.len(),
        )
    }
}

pub fn join(count: usize, tables: &[u8], out: &mut [u8], work: &mut [u8], values: &mut [u64]) -> u64 {
    unsafe {
        lemondarts_join(
            count,
            tables.as_ptr(),
            tables.len(),
            out.as_mut_ptr(),
            out.len(),
            work.as_mut_ptr(),
            work.len(),
            values.as_mut_ptr(),
            values.len(),
        )
    }
}

pub fn explain(sheet: &[u8], actions: &[u8], place: &mut [u64], work: &mut [u8], values: &mut [u64]) -> u64 {
    unsafe {
        lemondarts_explain(
            sheet.as_ptr(),
            sheet.len(),
            actions.as_ptr(),
            actions.len(),
            place.as_mut_ptr(),
            place.len(),
            work.as_mut_ptr(),
            work.len(),
            values.as_mut_ptr(),
            values.len(),
        )
    }
}

pub fn read_text(text: &[u8], actions: &[u16], sheet: &mut [u8]) -> u64 {
    unsafe {
        lemondarts_read_text(
            text.as_ptr(),
            text.len(),
            actions.as_ptr(),
            actions.len(),
            sheet.as_mut_ptr(),
            sheet.len(),
        )
    }
}

pub fn new_board(record: &mut [u8], area: &mut [u8]) -> u64 {
    unsafe { lemondarts_new_board(record.as_mut_ptr(), record.len(), area.as_mut_ptr(), area.len()) }
}

pub fn put_on(record: &mut [u8], area: &mut [u8], place: usize, table: &[u8]) -> u64 {
    unsafe {
        lemondarts_put_on(
            record.as_mut_ptr(),
            record.len(),
            area.as_mut_ptr(),
            area.len(),
            place,
            table.as_ptr(),
            table.len(),
        )
    }
}

pub fn take_off(record: &mut [u8], area: &mut [u8], place: usize) -> u64 {
    unsafe { lemondarts_take_off(record.as_mut_ptr(), record.len(), area.as_mut_ptr(), area.len(), place) }
}

pub fn action(record: &mut [u8], area: &[u8], action: usize) -> u64 {
    unsafe { lemondarts_action(record.as_mut_ptr(), record.len(), area.as_ptr(), area.len(), action) }
}

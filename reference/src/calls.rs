//! The library's nine calls on lent areas, answered by the reference. An answer is one number of
//! 64 bits: number, value, actions, rows (of a text: nodes), 16 bits each from the lowest.

use crate::board::{Board, Verdict};
use crate::table::{self, Table, LARGEST};
use crate::text::OUTPUT;
use crate::{at, Refusal};

/// Lengths of the work areas of compiling, joining and explaining.
pub const WORK: usize = 65_536;
pub const VALUES: usize = 1024;
/// The number of a denied action.
pub const DENIED: u8 = 255;

/// The number of an answer's four fields.
fn pack(fields: [u16; 4]) -> u64 {
    fields.iter().rev().fold(0, |packed, &field| packed << 16 | field as u64)
}

/// The four fields of an answer: number, value, actions, rows.
pub fn fields(answer: u64) -> [u16; 4] {
    [0, 16, 32, 48].map(|lowest| (answer >> lowest) as u16)
}

/// The same as four bytes, as the corpus has them of all calls but a text's. Every field is below 256.
pub fn bytes(answer: u64) -> [u8; 4] {
    fields(answer).map(|field| u8::try_from(field).expect("a field below 256"))
}

fn answer(number: u8, value: u16) -> u64 {
    pack([number.into(), value, 0, 0])
}

fn accepted(table: Table) -> u64 {
    pack([0, table.kind.into(), table.actions.into(), table.rows.into()])
}

fn done(result: Result<(), u8>) -> u64 {
    answer(result.err().unwrap_or(0), 0)
}

pub fn load(bytes: &[u8]) -> u64 {
    table::load(bytes).map_or_else(|number| answer(number, 0), accepted)
}

pub fn compile(sheet: &[u8], out: &mut [u8], work: &mut [u8], values: &mut [u64]) -> u64 {
    make(out, work, values, || crate::compile(sheet))
}

pub fn join(count: usize, tables: &[u8], out: &mut [u8], work: &mut [u8], values: &mut [u64]) -> u64 {
    make(out, work, values, || crate::join(count, tables).map_err(|number| at(number, 0)))
}

/// Writes the table that is made, or answers the refusal; 14 before anything is made.
fn make(out: &mut [u8], work: &mut [u8], values: &mut [u64], made: impl FnOnce() -> Result<Vec<u8>, Refusal>) -> u64 {
    if out.len() < LARGEST || !clear(work, values) {
        return answer(14, 0);
    }
    match made() {
        Err(refusal) => answer(refusal.number, refusal.spot),
        Ok(bytes) => {
            out[..bytes.len()].copy_from_slice(&bytes);
            accepted(table::shape(&bytes).expect("a table that is made passes 10"))
        }
    }
}

/// Zeroes both work areas over their lengths; not where one is too short.
fn clear(work: &mut [u8], values: &mut [u64]) -> bool {
    let long_enough = work.len() >= WORK && values.len() >= VALUES;
    if long_enough {
        work[..WORK].fill(0);
        values[..VALUES].fill(0);
    }
    long_enough
}

pub fn explain(sheet: &[u8], list: &[u8], place: &mut [u64], work: &mut [u8], values: &mut [u64]) -> u64 {
    if place.is_empty() || !clear(work, values) {
        return answer(14, 0);
    }
    match crate::explain(sheet, list) {
        Err(refusal) => answer(refusal.number, refusal.spot),
        Ok(None) => answer(0, 0),
        Ok(Some(denial)) => {
            place[0] = denial.place as u64;
            answer(DENIED, denial.node as u16)
        }
    }
}

pub fn read_text(text: &[u8], actions: &[u16], out: &mut [u8]) -> u64 {
    if out.len() < OUTPUT {
        return answer(14, 0);
    }
    match crate::read_text(text, actions) {
        Err(refusal) => answer(refusal.number, refusal.spot),
        Ok(sheet) => {
            let bytes = sheet.bytes();
            out[..bytes.len()].copy_from_slice(&bytes);
            pack([0, bytes.len() as u16, sheet.actions.len() as u16, sheet.nodes.len() as u16])
        }
    }
}

pub fn new_board(record: &mut [u8], area: &mut [u8]) -> u64 {
    done(Board::new(record, area).map(|_| ()))
}

pub fn put_on(record: &mut [u8], area: &mut [u8], place: usize, bytes: &[u8]) -> u64 {
    done(Board::lent(record, area).and_then(|mut board| board.put_on(place, bytes)))
}

pub fn take_off(record: &mut [u8], area: &mut [u8], place: usize) -> u64 {
    done(Board::lent(record, area).and_then(|mut board| board.take_off(place)))
}

pub fn action(record: &mut [u8], area: &[u8], action: usize) -> u64 {
    match crate::board::act(record, area, action) {
        Ok(Verdict::Permitted(places)) => answer(0, places.into()),
        Ok(Verdict::Denied(place)) => answer(DENIED, place.into()),
        Err(number) => answer(number, 0),
    }
}

//! Tables: writing, and the loader's refusals 10 and 11.

use crate::machine::{Machine, Rows, MOST_ROWS, TRIP};
use crate::word;

pub const HEADER: usize = 8;
/// The largest table, and the room of a place on the board.
pub const LARGEST: usize = 1032;
pub const ENFORCED: u8 = 1;
pub const WATCHED: u8 = 2;

/// What a header says.
#[derive(Clone, Copy, Debug, PartialEq, Eq)]
pub struct Table {
    pub kind: u8,
    pub actions: u8,
    pub rows: u8,
}

impl Table {
    /// The length that the header gives.
    pub fn length(&self) -> usize {
        HEADER + self.rows as usize * self.actions as usize
    }
}

pub fn write(watched: bool, rows: &Rows) -> Vec<u8> {
    let kind = if watched { WATCHED } else { ENFORCED };
    let mut bytes = vec![kind, 0, rows.actions as u8, 0, rows.count() as u8, 0, HEADER as u8, 0];
    bytes.extend(&rows.entries);
    bytes
}

/// Check 10 over the length that the header gives; what stands behind it is not read.
pub fn shape(bytes: &[u8]) -> Option<Table> {
    if bytes.len() < HEADER {
        return None;
    }
    let (kind, actions, rows) = (word(bytes, 0), word(bytes, 2), word(bytes, 4));
    let header = (1..=2).contains(&kind)
        && (1..=16).contains(&actions)
        && (1..=MOST_ROWS).contains(&rows)
        && word(bytes, 6) == HEADER;
    if !header {
        return None;
    }
    let table = Table { kind: kind as u8, actions: actions as u8, rows: rows as u8 };
    let entries = bytes.get(HEADER..table.length())?;
    entries.iter().all(|&entry| entry < table.rows || entry == TRIP).then_some(table)
}

/// Loads a table: 10, then 11. Rows are as stated exactly when building them anew, from the
/// sequences that they read, gives the same rows.
pub fn load(bytes: &[u8]) -> Result<Table, u8> {
    let table = shape(bytes).filter(|table| table.length() == bytes.len()).ok_or(10)?;
    let given = Rows { actions: table.actions as usize, entries: bytes[HEADER..].to_vec() };
    let met = Machine::explore(0, given.actions, MOST_ROWS, |&row, action| given.next(row, action));
    let anew = met.and_then(|machine| machine.canonical());
    if anew == Some(given) {
        Ok(table)
    } else {
        Err(11)
    }
}

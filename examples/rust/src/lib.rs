//! Safe wrappers of the calls of include/lemondarts.h: read a text, compile, join, explain, load, and a board that owns
//! its bytes.

mod answer;
mod calls;
mod sheet;

pub use answer::{Answer, Refusal};
pub use sheet::Sheet;

use std::ops::RangeInclusive;

/// Places of a board are numbered 0 to 7.
pub const PLACES: usize = 8;
const RECORD: usize = 16;
const AREA: usize = 8256;
const LONGEST_TABLE: usize = 1032;
const LONGEST_SHEET: usize = 362;
const TABLE_HEADER: usize = 8;
const WORK: usize = 65_536;
const VALUES: usize = 1024;
const LIST_PLACE: usize = 1;
const TRIP: u8 = 255;
/// Refusals of a sheet that name a node.
const AT_A_NODE: RangeInclusive<u16> = 4..=9;
/// The refusal of a text that names a word.
const AT_A_WORD: u16 = 32;

/// The version of the archive that is linked, as one number: 40700 for 4.7.0.
pub use calls::version;

/// What a table's rule does when it trips.
#[derive(Clone, Copy, Debug, PartialEq, Eq)]
pub enum Type {
    /// Denies the action that would violate its policy.
    Enforced,
    /// Is reported fulfilled by the action that satisfies its policy.
    Watched,
}

/// A table that the loader accepts, or that compiling or joining wrote.
#[derive(Clone, Debug, PartialEq, Eq)]
pub struct Table {
    bytes: Vec<u8>,
    pub of: Type,
    pub actions: usize,
    pub rows: usize,
}

impl Table {
    /// The table at the front of some bytes, as a done load, compile or join speaks of it.
    fn told(answer: Answer, mut bytes: Vec<u8>) -> Result<Table, Refusal> {
        let (of, actions, rows) = match answer.done()? {
            (1, actions, rows) => (Type::Enforced, actions as usize, rows as usize),
            (_, actions, rows) => (Type::Watched, actions as usize, rows as usize),
        };
        bytes.truncate(TABLE_HEADER + rows * actions);
        Ok(Table { bytes, of, actions, rows })
    }

    pub fn bytes(&self) -> &[u8] {
        &self.bytes
    }

    /// The next row after an action, none for a trip.
    pub fn next(&self, row: usize, action: usize) -> Option<u8> {
        assert!(row < self.rows && action < self.actions);
        Some(self.bytes[TABLE_HEADER + row * self.actions + action]).filter(|&entry| entry != TRIP)
    }
}

/// Reads a rule typed as text, over these actions: for each the set of propositions that it satisfies. Gives its sheet.
pub fn read_text(text: &[u8], actions: &[u16]) -> Result<Vec<u8>, Refusal> {
    let mut sheet = vec![0; LONGEST_SHEET];
    let (length, ..) = Answer::from(calls::read_text(text, actions, &mut sheet)).done()?;
    sheet.truncate(length as usize);
    Ok(sheet)
}

/// Compiles a rule sheet. The call's buffers are taken from the heap and given back.
pub fn compile(sheet: &[u8]) -> Result<Table, Refusal> {
    let (mut out, mut work, mut values) = (vec![0; LONGEST_TABLE], vec![0; WORK], vec![0; VALUES]);
    let answer = calls::compile(sheet, &mut out, &mut work, &mut values);
    Table::told(answer.into(), out)
}

/// Joins two to eight enforced tables with one number of actions: the table that denies exactly where at least one of them
/// does. Its bytes are the same in whichever order, or by whichever groups, they are joined.
pub fn join(tables: &[&Table]) -> Result<Table, Refusal> {
    let (mut out, mut work, mut values) = (vec![0; LONGEST_TABLE], vec![0; WORK], vec![0; VALUES]);
    let bytes: Vec<u8> = tables.iter().flat_map(|table| table.bytes()).copied().collect();
    let answer = calls::join(tables.len(), &bytes, &mut out, &mut work, &mut values);
    // Refusals 8 and 9 are of the whole: they name no node here.
    Table::told(answer.into(), out).map_err(|refusal| Refusal { node: None, ..refusal })
}

/// The first denied action of a list.
#[derive(Clone, Copy, Debug, PartialEq, Eq)]
pub struct Denial {
    /// Its place in the list, from 0.
    pub place: u64,
    /// The part of the rule that denies it: of the policy's own node and those reached from it through And alone, the
    /// lowest-numbered one that is violated.
    pub node: u16,
}

/// Explains a list of actions by an enforced sheet: the first that is denied, or none where all are permitted. To have a
/// denial of a board explained, list the actions that were permitted since the rule was put on, and the denied one.
pub fn explain(sheet: &[u8], actions: &[u8]) -> Result<Option<Denial>, Refusal> {
    let (mut place, mut work, mut values) = ([0; LIST_PLACE], vec![0; WORK], vec![0; VALUES]);
    match calls::explain(sheet, actions, &mut place, &mut work, &mut values).into() {
        Answer::Done { .. } => Ok(None),
        Answer::Denied { place: node } => Ok(Some(Denial { place: place[0], node })),
        Answer::Refused(refusal) => Err(refusal),
    }
}

/// Checks the bytes of a table.
pub fn load(bytes: &[u8]) -> Result<Table, Refusal> {
    Table::told(calls::load(bytes).into(), bytes.to_vec())
}

/// Whether an action may be carried out.
#[derive(Clone, Copy, Debug, PartialEq, Eq)]
pub enum Verdict {
    /// It may, and fulfils the watched rules on these places.
    Permitted(Places),
    /// It may not: the lowest place whose rule denies it. No rule has moved.
    Denied(usize),
}

/// A set of places.
#[derive(Clone, Copy, Debug, PartialEq, Eq)]
pub struct Places(u16);

impl Places {
    pub fn iter(self) -> impl Iterator<Item = usize> {
        (0..PLACES).filter(move |place| self.0 >> place & 1 == 1)
    }
}

/// A board, with the record and the area of its calls. Nothing else writes to these.
#[derive(Clone)]
pub struct Board {
    record: [u8; RECORD],
    area: Box<[u8]>,
}

impl Default for Board {
    fn default() -> Board {
        Board::new()
    }
}

impl Board {
    /// Eight empty places.
    pub fn new() -> Board {
        let mut board = Board { record: [0; RECORD], area: vec![0; AREA].into() };
        let made = Answer::from(calls::new_board(&mut board.record, &mut board.area));
        made.done().expect("areas of the lengths asked for");
        board
    }

    /// Puts a table on an empty place, at its row 0.
    pub fn put_on(&mut self, place: usize, table: &Table) -> Result<(), Refusal> {
        Answer::from(calls::put_on(&mut self.record, &mut self.area, place, &table.bytes)).done().map(|_| ())
    }

    /// Empties a place.
    pub fn take_off(&mut self, place: usize) -> Result<(), Refusal> {
        Answer::from(calls::take_off(&mut self.record, &mut self.area, place)).done().map(|_| ())
    }

    /// Asks for an action; a permitted one moves every rule. A refusal is no permission.
    pub fn action(&mut self, action: usize) -> Result<Verdict, Refusal> {
        match calls::action(&mut self.record, &self.area, action).into() {
            Answer::Done { value, .. } => Ok(Verdict::Permitted(Places(value))),
            Answer::Denied { place } => Ok(Verdict::Denied(place as usize)),
            Answer::Refused(refusal) => Err(refusal),
        }
    }
}

//! The board: eight places over a lent record and a lent area, any bytes.

use crate::machine::TRIP;
use crate::table::{self, Table, ENFORCED, HEADER, LARGEST, WATCHED};

pub const PLACES: usize = 8;
/// Bytes of the record: a case and a row for each place.
pub const RECORD: usize = 2 * PLACES;
/// Bytes of the area: room for the largest table in each place.
pub const AREA: usize = PLACES * LARGEST;

/// A place. A case byte above 3 reads as an enforced rule at row 256, which no table has.
#[derive(Clone, Copy, Debug, PartialEq, Eq)]
enum Place {
    Empty,
    Enforced(usize),
    Watched(usize),
    Fulfilled,
}

/// The answer to an action: the set of places that it fulfils, or the lowest place that denies it.
#[derive(Clone, Copy, Debug, PartialEq, Eq)]
pub enum Verdict {
    Permitted(u8),
    Denied(u8),
}

pub struct Board<'a> {
    record: &'a mut [u8],
    area: &'a mut [u8],
}

impl<'a> Board<'a> {
    /// Takes record and area as they are; 14 if one is too short.
    pub fn lent(record: &'a mut [u8], area: &'a mut [u8]) -> Result<Board<'a>, u8> {
        long_enough(record, area)?;
        Ok(Board { record, area })
    }

    /// A new board: eight empty places and a zeroed area.
    pub fn new(record: &'a mut [u8], area: &'a mut [u8]) -> Result<Board<'a>, u8> {
        let board = Board::lent(record, area)?;
        board.record[..RECORD].fill(0);
        board.area[..AREA].fill(0);
        Ok(board)
    }

    pub fn put_on(&mut self, place: usize, bytes: &[u8]) -> Result<(), u8> {
        if place >= PLACES {
            return Err(13);
        }
        let (mut places, actions) = places(self.record, self.area)?;
        if places[place] != Place::Empty {
            return Err(22);
        }
        let table = table::load(bytes)?;
        if actions.is_some_and(|actions| actions != table.actions) {
            return Err(23);
        }
        let room = self.room(place);
        room.fill(0);
        room[..bytes.len()].copy_from_slice(bytes);
        places[place] = if table.kind == ENFORCED { Place::Enforced(0) } else { Place::Watched(0) };
        write(self.record, &places);
        Ok(())
    }

    pub fn take_off(&mut self, place: usize) -> Result<(), u8> {
        if place >= PLACES {
            return Err(13);
        }
        let (mut places, _) = places(self.record, self.area)?;
        if places[place] == Place::Empty {
            return Err(21);
        }
        self.room(place).fill(0);
        places[place] = Place::Empty;
        write(self.record, &places);
        Ok(())
    }

    pub fn action(&mut self, action: usize) -> Result<Verdict, u8> {
        act(self.record, self.area, action)
    }

    fn room(&mut self, place: usize) -> &mut [u8] {
        &mut self.area[LARGEST * place..][..LARGEST]
    }
}

/// An action on a lent board. The area is only read.
pub fn act(record: &mut [u8], area: &[u8], action: usize) -> Result<Verdict, u8> {
    long_enough(record, area)?;
    let (mut places, actions) = places(record, area)?;
    let actions = actions.ok_or(24)? as usize;
    if action >= actions {
        return Err(12);
    }
    let mut fulfilled = 0;
    for (number, place) in places.iter_mut().enumerate() {
        let entry = |row| area[LARGEST * number + HEADER + row * actions + action];
        *place = match *place {
            Place::Enforced(row) if entry(row) == TRIP => return Ok(Verdict::Denied(number as u8)),
            Place::Enforced(row) => Place::Enforced(entry(row) as usize),
            Place::Watched(row) if entry(row) == TRIP => {
                fulfilled |= 1 << number;
                Place::Fulfilled
            }
            Place::Watched(row) => Place::Watched(entry(row) as usize),
            other => other,
        };
    }
    write(record, &places);
    Ok(Verdict::Permitted(fulfilled))
}

fn long_enough(record: &[u8], area: &[u8]) -> Result<(), u8> {
    if record.len() < RECORD || area.len() < AREA {
        return Err(14);
    }
    Ok(())
}

/// The places and the number of actions of the rules that are on; 25 if the board cannot be.
fn places(record: &[u8], area: &[u8]) -> Result<([Place; PLACES], Option<u8>), u8> {
    let mut places = [Place::Empty; PLACES];
    let mut actions = None;
    for (number, place) in places.iter_mut().enumerate() {
        let row = record[2 * number + 1] as usize;
        *place = match record[2 * number] {
            0 => continue,
            1 => Place::Enforced(row),
            2 => Place::Watched(row),
            3 => Place::Fulfilled,
            _ => Place::Enforced(256),
        };
        let table = table::shape(&area[LARGEST * number..][..LARGEST]).ok_or(25)?;
        if !fits(*place, &table) || actions.is_some_and(|actions| actions != table.actions) {
            return Err(25);
        }
        actions = Some(table.actions);
    }
    Ok((places, actions))
}

/// Writes the whole record; the row of an empty or fulfilled place is 0.
fn write(record: &mut [u8], places: &[Place; PLACES]) {
    for (number, place) in places.iter().enumerate() {
        let (case, row) = match *place {
            Place::Empty => (0, 0),
            Place::Enforced(row) => (1, row),
            Place::Watched(row) => (2, row),
            Place::Fulfilled => (3, 0),
        };
        record[2 * number] = case;
        record[2 * number + 1] = row as u8;
    }
}

/// Whether a table is of the place's type and has its row.
fn fits(place: Place, table: &Table) -> bool {
    match place {
        Place::Empty => true,
        Place::Enforced(row) => table.kind == ENFORCED && row < table.rows as usize,
        Place::Watched(row) => table.kind == WATCHED && row < table.rows as usize,
        Place::Fulfilled => table.kind == WATCHED,
    }
}

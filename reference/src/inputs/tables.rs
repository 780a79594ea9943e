//! Tables of every sort.

use super::{cut_or_grow, damage};
use crate::generate::Random;
use crate::machine::{Machine, Rows, TRIP};
use crate::table;

/// Tables of compiled sheets, by their number of actions; old ones give way.
#[derive(Default)]
pub struct Pool {
    tables: [Vec<Vec<u8>>; 17],
}

const KEPT: usize = 200;

impl Pool {
    pub fn keep(&mut self, random: &mut Random, table: &[u8]) {
        let same = &mut self.tables[table[2] as usize];
        if same.len() < KEPT {
            same.push(table.to_vec());
        } else {
            same[random.below(KEPT)] = table.to_vec();
        }
    }

    /// An accepted table with so many actions.
    pub fn accepted(&self, random: &mut Random, actions: usize) -> Vec<u8> {
        let same = &self.tables[actions];
        if same.is_empty() || random.chance(20) {
            return random_table(random, actions, true);
        }
        same[random.below(same.len())].clone()
    }

    /// A table of any sort, with the name of the sort.
    pub fn any_table(&self, random: &mut Random, actions: usize) -> (&'static str, Vec<u8>) {
        match random.below(100) {
            0..=24 => ("table, accepted", self.accepted(random, actions)),
            25..=44 => ("table, random rows", random_table(random, actions, false)),
            45..=69 => {
                let mut bytes = self.accepted(random, actions);
                damage(random, &mut bytes);
                ("table, damaged", bytes)
            }
            70..=89 => {
                let bytes = self.accepted(random, actions);
                ("table, rows exchanged or twice", rearranged(random, &bytes))
            }
            90..=95 => {
                let mut bytes = self.accepted(random, actions);
                cut_or_grow(random, &mut bytes);
                ("table, cut or grown", bytes)
            }
            _ => {
                let mut bytes = vec![0; random.below(60)];
                random.fill(&mut bytes);
                ("table, random bytes", bytes)
            }
        }
    }
}

/// A table of random rows: as they come, numbered as first met, or minimal too.
pub fn random_table(random: &mut Random, actions: usize, accepted: bool) -> Vec<u8> {
    let rows = if random.chance(80) { 1 + random.below(6) } else { 1 + random.below(64) };
    let trips = random.pick(&[1, 10, 30, 60]);
    let chain = random.chance(40);
    let mut entries: Vec<u8> = Vec::new();
    for row in 0..rows {
        for _ in 0..actions {
            let next = if chain && random.chance(60) { (row + 1) % rows } else { random.below(rows) };
            entries.push(if random.chance(trips) { TRIP } else { next as u8 });
        }
    }
    let given = Rows { actions, entries };
    let numbered = || Machine::explore(0, actions, 64, |&row, action| given.next(row, action)).expect("at most 64");
    let rows = if accepted {
        numbered().canonical().expect("at most 64")
    } else if random.chance(70) {
        let entries = numbered().next.iter().map(|next| next.map_or(TRIP, |row| row as u8)).collect();
        Rows { actions, entries }
    } else {
        given
    };
    table::write(random.chance(50), &rows)
}

/// The same verdicts by other rows: two rows exchanged, or one row twice and numbered as first met.
fn rearranged(random: &mut Random, bytes: &[u8]) -> Vec<u8> {
    let rows = Rows { actions: bytes[2] as usize, entries: bytes[table::HEADER..].to_vec() };
    let count = rows.count();
    let (one, two) = (random.below(count) as u8, random.below(count) as u8);
    let watched = bytes[0] == table::WATCHED;
    if random.chance(40) || count == 64 {
        let exchange = |row: u8| match row {
            row if row == one => two,
            row if row == two => one,
            row => row,
        };
        let mut entries = vec![0; rows.entries.len()];
        for (row, line) in rows.entries.chunks(rows.actions).enumerate() {
            let place = exchange(row as u8) as usize * rows.actions;
            line.iter().enumerate().for_each(|(action, &entry)| entries[place + action] = exchange(entry));
        }
        return table::write(watched, &Rows { actions: rows.actions, entries });
    }
    let mut entries = rows.entries.clone();
    entries.extend_from_within(one as usize * rows.actions..(one as usize + 1) * rows.actions);
    for entry in entries.iter_mut().filter(|entry| **entry == one) {
        *entry = if random.chance(50) { count as u8 } else { one };
    }
    let double = Rows { actions: rows.actions, entries };
    let met = Machine::explore(0, rows.actions, 64, |&row, action| double.next(row, action)).expect("at most 64");
    let entries = met.next.iter().map(|next| next.map_or(TRIP, |row| row as u8)).collect();
    table::write(watched, &Rows { actions: rows.actions, entries })
}

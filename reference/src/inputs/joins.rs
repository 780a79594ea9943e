//! Joins of every sort: counts, and tables one behind the other.

use super::tables::{random_table, Pool};
use super::{cut_or_grow, damage};
use crate::cases::joins::{absorbed, independent};
use crate::generate::Random;
use crate::join::{FEWEST, MOST};
use crate::machine::TRIP;
use crate::table::{ENFORCED, HEADER, WATCHED};

/// A count and so many tables, one behind the other, or what was made of them.
pub struct Join {
    pub sort: &'static str,
    pub count: usize,
    pub tables: Vec<u8>,
}

/// The pool and the number of actions that most tables have.
struct Draw<'a> {
    pool: &'a Pool,
    actions: usize,
}

impl Draw<'_> {
    /// An accepted table that is enforced: of a compiled sheet, or of random rows. Those of one row, or that trip at
    /// once by most actions, are mostly done without: few rows are left of a join with them.
    fn enforced(&self, random: &mut Random) -> Vec<u8> {
        loop {
            let mut bytes = if random.chance(70) {
                self.pool.accepted(random, self.actions)
            } else {
                random_table(random, self.actions, true)
            };
            bytes[0] = ENFORCED;
            let trips = bytes[HEADER..][..self.actions].iter().filter(|&&entry| entry == TRIP).count();
            let dull = bytes[4] == 1 || 2 * trips > self.actions;
            if !dull || random.chance(15) {
                return bytes;
            }
        }
    }

    /// Few tables mostly; with many, the rows of all are soon over a limit.
    fn tables(&self, random: &mut Random) -> Vec<Vec<u8>> {
        let most = if random.chance(60) { FEWEST + 2 } else { MOST };
        let count = FEWEST + random.below(most - FEWEST + 1);
        (0..count).map(|_| self.enforced(random)).collect()
    }

    /// The same, with one of them changed.
    fn with_one(&self, random: &mut Random, change: impl FnOnce(&Self, &mut Random, &mut Vec<u8>)) -> Vec<Vec<u8>> {
        let mut tables = self.tables(random);
        let place = random.below(tables.len());
        change(self, random, &mut tables[place]);
        tables
    }
}

fn joined(sort: &'static str, tables: Vec<Vec<u8>>) -> Join {
    Join { sort, count: tables.len(), tables: tables.concat() }
}

/// A join of any sort.
pub fn any_join(random: &mut Random, pool: &Pool) -> Join {
    let actions = if random.chance(75) { 1 + random.below(4) } else { 1 + random.below(16) };
    let draw = Draw { pool, actions };
    match random.below(100) {
        0..=39 => joined("join, accepted tables", draw.tables(random)),
        40..=49 => near_the_limits(random),
        50..=55 => joined("join, with a watched table", draw.with_one(random, |_, _, table| table[0] = WATCHED)),
        56..=61 => joined("join, with another number of actions", {
            draw.with_one(random, |draw, random, table| {
                let actions = 1 + random.below(16);
                *table = Draw { actions, ..*draw }.enforced(random);
            })
        }),
        62..=73 => joined("join, with a table of any sort", {
            draw.with_one(random, |draw, random, table| *table = draw.pool.any_table(random, draw.actions).1)
        }),
        74..=81 => {
            let mut join = joined("join, damaged", draw.tables(random));
            damage(random, &mut join.tables);
            join
        }
        82..=87 => {
            let mut join = joined("join, cut or grown", draw.tables(random));
            cut_or_grow(random, &mut join.tables);
            join
        }
        88..=92 => {
            // Two of these, so that the one that is found first decides.
            let mut tables = draw.tables(random);
            tables.truncate(MOST - 2);
            let mut join = joined("join, with two tables of any sort", tables);
            join.tables.extend(pool.any_table(random, actions).1);
            join.tables.extend(pool.any_table(random, actions).1);
            join.count += 2;
            join
        }
        93..=97 => {
            let mut join = joined("join, another count", draw.tables(random));
            join.count = other_count(random, join.count);
            join
        }
        _ => {
            let mut tables = vec![0; random.below(80)];
            random.fill(&mut tables);
            Join { sort: "join, random bytes", count: FEWEST + random.below(3), tables }
        }
    }
}

/// Another count near the ends of the range, or one that is the same in its low bits.
fn other_count(random: &mut Random, count: usize) -> usize {
    match random.below(4) {
        0 => count + (1 << random.pick(&[8, 16, 32, 63])),
        1 => random.pick(&[16, 255, 256, 1 << 16, 1 << 32, usize::MAX]),
        _ => random.below(MOST + 2),
    }
}

/// Tables whose tuples are about 64 or about 1,024, and whose rows are as many, or one.
fn near_the_limits(random: &mut Random) -> Join {
    let count = FEWEST + random.below(4);
    let aim = random.pick(&[64, 64, 1024, 1024, 900]);
    let mut rows: Vec<u8> = Vec::new();
    let mut left: usize = aim;
    for more in (1..count as u32).rev() {
        // About the root that is left for each, from half of it to twice.
        let root = (1..).take_while(|root: &usize| root.pow(more + 1) <= left).last().unwrap_or(1);
        let share = (1 + root / 2 + random.below(root + root / 2)).min(64);
        rows.push(share as u8);
        left = (left / share).max(1);
    }
    rows.push((left + random.below(3)).saturating_sub(1).clamp(1, 64) as u8);
    let tables = if random.chance(50) { absorbed(&rows) } else { independent(&rows, count + random.below(3)) };
    Join { sort: "join, near the limits", count, tables }
}

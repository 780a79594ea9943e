//! The corpus of joins: those with a stated answer first, then drawn ones.

use super::{number, tally, write, Corpus};
use crate::calls::{self, VALUES, WORK};
use crate::cases::joins::{self, JoinCase};
use crate::cases::Lent;
use crate::generate::Random;
use crate::inputs::joins::any_join;
use crate::inputs::tables::Pool;
use crate::table::LARGEST;

/// A count and tables, with the reference's answer, as the library gives it, and table.
pub struct Record {
    pub name: String,
    pub lent: Lent,
    pub count: usize,
    pub tables: Vec<u8>,
    pub answer: [u8; 4],
    pub table: Vec<u8>,
}

fn record(name: String, lent: Lent, count: usize, tables: Vec<u8>) -> Record {
    let short = |area, length: usize| if lent == area { length - 1 } else { length };
    let mut out = vec![0; short(Lent::ShortOutput, LARGEST)];
    let mut work = vec![0; short(Lent::ShortWork, WORK)];
    let mut values = vec![0; short(Lent::ShortValues, VALUES)];
    let answer = calls::bytes(calls::join(count, &tables, &mut out, &mut work, &mut values));
    out.truncate(if answer[0] == 0 { 8 + answer[2] as usize * answer[3] as usize } else { 0 });
    Record { name, lent, count, tables, answer, table: out }
}

/// All joins; the longest drawn tables that are kept, and the rows of a joined one: one row says little.
const JOINS: usize = 260;
const LONGEST: usize = 700;
const JOINED_ROWS: std::ops::RangeInclusive<u8> = 2..=50;

pub fn all(pool: &Pool) -> Vec<Record> {
    let stated = joins::all().into_iter();
    let mut all: Vec<Record> =
        stated.map(|JoinCase { name, lent, count, tables, .. }| record(name, lent, count, tables)).collect();
    let mut random = Random(11);
    while all.len() < JOINS {
        let join = any_join(&mut random, pool);
        if join.tables.len() <= LONGEST && join.count < 65_536 {
            let record = record(join.sort.into(), Lent::Whole, join.count, join.tables);
            all.extend(Some(record).filter(|record| record.answer[0] != 0 || JOINED_ROWS.contains(&record.answer[3])));
        }
    }
    all
}

pub fn corpus(records: &[Record]) -> Corpus {
    let block = |record: &Record| {
        let call = [&[record.lent as u8][..], &number(record.count)].concat();
        let answer = [&record.answer[..], &record.table].concat();
        [record.name.clone().into_bytes(), call, record.tables.clone(), answer]
    };
    let blocks: Vec<[Vec<u8>; 4]> = records.iter().map(block).collect();
    let stdout = format!(
        "joins {}\nanswers{}\ndisagreements 0\n",
        records.len(),
        tally(records.iter().map(|record| record.answer[0])),
    );
    Corpus { program: "join_cases", stdin: write(&blocks), stdout }
}

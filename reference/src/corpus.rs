//! The corpus: the inputs of the programs compiler_cases, load_cases, board_cases, text_cases, join_cases and
//! explain_cases, each with the answer expected, and what the programs print. README.md describes its bytes.

pub mod calls;
pub mod denials;
pub mod joins;
pub mod sheets;
pub mod tables;
pub mod texts;

use crate::inputs::tables::Pool;
use std::collections::BTreeMap;
use std::fmt::Write;

/// A corpus of one program: its standard input and the output expected.
pub struct Corpus {
    pub program: &'static str,
    pub stdin: Vec<u8>,
    pub stdout: String,
}

/// All of them.
pub fn all() -> [Corpus; 6] {
    let sheets = sheets::all();
    let pool = sheets::tables_of(&sheets);
    [
        sheets::corpus(&sheets),
        tables::corpus(&pool),
        calls::corpus(&pool),
        texts::corpus(&texts::all()),
        joins::corpus(&joins::all(&pool)),
        denials::corpus(&denials::all()),
    ]
}

/// The longest name of a record.
const LONGEST_NAME: usize = 64;

/// A list of records, each of some blocks: the number of records, then for each block its length and its bytes.
fn write<const N: usize>(records: &[[Vec<u8>; N]]) -> Vec<u8> {
    assert!(records.iter().all(|record| record[0].len() <= LONGEST_NAME));
    let mut bytes = number(records.len()).to_vec();
    for block in records.iter().flatten() {
        bytes.extend(number(block.len()));
        bytes.extend(block);
    }
    bytes
}

/// A number of 16 bits, low byte first.
fn number(number: usize) -> [u8; 2] {
    u16::try_from(number).expect("a number of 16 bits").to_le_bytes()
}

/// How often each number occurs, as the programs print it.
fn tally(numbers: impl Iterator<Item = u8>) -> String {
    let mut counts = BTreeMap::new();
    numbers.for_each(|number| *counts.entry(number).or_insert(0) += 1);
    counts.iter().fold(String::new(), |mut text, (number, count)| {
        write!(text, " {number}:{count}").expect("text");
        text
    })
}

/// A drawn table that is accepted and not long.
fn short_table(random: &mut crate::generate::Random, pool: &Pool, actions: usize, longest: usize) -> Vec<u8> {
    std::iter::repeat_with(|| pool.accepted(random, actions)).find(|bytes| bytes.len() <= longest).expect("a short one")
}

//! The corpus of tables: those with a stated answer first, then drawn ones.

use super::{tally, write, Corpus};
use crate::calls;
use crate::cases::tables;
use crate::generate::Random;
use crate::inputs::tables::Pool;

/// All tables, and the longest drawn one that is kept.
const TABLES: usize = 400;
const LONGEST: usize = 300;

/// Names and bytes.
fn all(pool: &Pool) -> Vec<(String, Vec<u8>)> {
    let mut all: Vec<(String, Vec<u8>)> = tables::all().into_iter().map(|case| (case.name, case.bytes)).collect();
    let mut random = Random(2);
    while all.len() < TABLES {
        let actions = random.pick(&[1, 2, 2, 3, 3, 4, 4, 5, 8, 16]);
        let (sort, bytes) = pool.any_table(&mut random, actions);
        if bytes.len() <= LONGEST {
            all.push((sort.into(), bytes));
        }
    }
    all
}

pub fn corpus(pool: &Pool) -> Corpus {
    let records = all(pool);
    let answers: Vec<[u8; 4]> = records.iter().map(|(_, bytes)| calls::bytes(calls::load(bytes))).collect();
    let stdout = format!(
        "tables {}\nanswers{}\ndisagreements 0\n",
        records.len(),
        tally(answers.iter().map(|answer| answer[0])),
    );
    let blocks = records.into_iter().zip(answers);
    let blocks: Vec<[Vec<u8>; 3]> =
        blocks.map(|((name, bytes), answer)| [name.into_bytes(), bytes, answer.to_vec()]).collect();
    Corpus { program: "load_cases", stdin: write(&blocks), stdout }
}

//! The corpus of calls on a board: histories with stated answers first, then drawn ones.

use super::{number, short_table, tally, write, Corpus};
use crate::board::{AREA, RECORD};
use crate::calls;
use crate::cases::histories::{self, Call};
use crate::generate::Random;
use crate::inputs::tables::Pool;

/// Drawn histories, the calls of each behind the first, and the longest table that is put on.
const HISTORIES: usize = 40;
const CALLS: usize = 24;
const LONGEST: usize = 75;

/// Of a history: a name, a call, whether the area is lent a byte too short; the answer and the board's record behind it.
struct Record {
    name: String,
    call: Call,
    short: bool,
    answer: [u8; 4],
    board: Vec<u8>,
}

/// A board on which calls are made.
pub struct Desk {
    record: Vec<u8>,
    area: Vec<u8>,
}

impl Default for Desk {
    /// Bytes that a new board has to zero.
    fn default() -> Desk {
        Desk { record: vec![7; RECORD], area: vec![7; AREA] }
    }
}

impl Desk {
    /// Makes a call and gives its answer. A byte that is written answers 0.
    pub fn call(&mut self, call: &Call, short: bool) -> [u8; 4] {
        let (record, area) = (&mut self.record, &mut self.area[..AREA - short as usize]);
        let answer = match call {
            Call::New => calls::new_board(record, area),
            Call::PutOn(place, table) => calls::put_on(record, area, *place, table),
            Call::TakeOff(place) => calls::take_off(record, area, *place),
            Call::Action(action) => calls::action(record, area, *action),
            Call::Damage(offset, byte) => {
                area[*offset] = *byte;
                0
            }
            Call::Forge(offset, byte) => {
                record[*offset] = *byte;
                0
            }
        };
        calls::bytes(answer)
    }
}

fn all(pool: &Pool) -> Vec<Record> {
    let (mut all, mut desk) = (Vec::new(), Desk::default());
    let mut run = |name: &str, steps: Vec<(Call, bool)>| {
        for (call, short) in steps {
            let answer = desk.call(&call, short);
            all.push(Record { name: name.into(), call, short, answer, board: desk.record.clone() });
        }
    };
    for history in histories::all() {
        run(&history.name, history.steps.into_iter().map(|step| (step.call, step.short)).collect());
    }
    let mut random = Random(4);
    for _ in 0..HISTORIES {
        let actions = random.pick(&[1, 2, 3, 4, 4, 5]);
        let mut steps = vec![(Call::New, false)];
        steps.extend((0..CALLS).map(|_| (any_call(&mut random, pool, actions), false)));
        run("drawn calls", steps);
    }
    all
}

fn any_call(random: &mut Random, pool: &Pool, actions: usize) -> Call {
    let place = if random.chance(95) { random.below(8) } else { 8 + random.below(300) };
    match random.below(100) {
        0..=24 => {
            let others = if random.chance(95) { actions } else { 1 + random.below(5) };
            Call::PutOn(place, short_table(random, pool, others, LONGEST))
        }
        25..=29 => Call::PutOn(place, pool.any_table(random, actions).1.into_iter().take(LONGEST).collect()),
        30..=39 => Call::TakeOff(place),
        40 => Call::Damage(random.below(8) * 1032 + random.below(12), random.below(4) as u8),
        41 => Call::Forge(random.below(RECORD), random.below(5) as u8),
        _ => Call::Action(if random.chance(97) { random.below(actions) } else { actions + random.below(300) }),
    }
}

fn call_bytes(record: &Record) -> Vec<u8> {
    let (kind, operand, rest) = match &record.call {
        Call::New => (0, 0, vec![]),
        Call::PutOn(place, table) => (1, *place, table.clone()),
        Call::TakeOff(place) => (2, *place, vec![]),
        Call::Action(action) => (3, *action, vec![]),
        Call::Damage(offset, byte) => (4, *offset, vec![*byte]),
        Call::Forge(offset, byte) => (5, *offset, vec![*byte]),
    };
    [&[kind, record.short as u8], &number(operand)[..], &rest].concat()
}

pub fn corpus(pool: &Pool) -> Corpus {
    let records = all(pool);
    let block = |record: &Record| {
        let answer = [&record.answer[..], &record.board].concat();
        [record.name.clone().into_bytes(), call_bytes(record), answer]
    };
    let blocks: Vec<[Vec<u8>; 3]> = records.iter().map(block).collect();
    let stdout = format!(
        "calls {}\nanswers{}\ndisagreements 0\n",
        records.len(),
        tally(records.iter().map(|record| record.answer[0])),
    );
    Corpus { program: "board_cases", stdin: write(&blocks), stdout }
}

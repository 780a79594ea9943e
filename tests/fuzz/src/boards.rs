//! Boards of every sort, and numbers near a limit.

use reference::board::{AREA, PLACES, RECORD};
use reference::generate::Random;
use reference::inputs::damage;
use reference::inputs::tables::{random_table, Pool};
use reference::table::{self, LARGEST};

/// A record and an area of a board.
pub struct Lying {
    pub sort: &'static str,
    pub record: Vec<u8>,
    pub area: Vec<u8>,
    /// The number of actions of most of its tables.
    pub actions: usize,
}

/// Lengths a little over, seldom under, what is asked for.
pub fn about(random: &mut Random, length: usize) -> usize {
    match random.below(100) {
        0 => length - 1,
        1 => random.below(length),
        2..=69 => length,
        _ => length + random.below(40),
    }
}

pub fn any_board(random: &mut Random, pool: &Pool) -> Lying {
    let actions = if random.chance(75) { 1 + random.below(4) } else { 1 + random.below(16) };
    let mut record = vec![0; RECORD + 40];
    let mut area = vec![0; AREA + 40];
    random.fill(&mut record);
    random.fill(&mut area);
    let often = random.pick(&[0, 20, 60, 100]);
    let junk = random.chance(4);
    let sort = if junk { "board, random bytes" } else { "board, possible" };
    for place in 0..PLACES {
        if junk {
            record[2 * place] = random.below(6) as u8;
        } else if !random.chance(often) {
            record[2 * place] = 0;
        } else {
            let table =
                if random.chance(90) { pool.accepted(random, actions) } else { random_table(random, actions, false) };
            area[place * LARGEST..][..table.len()].copy_from_slice(&table);
            record[2 * place] = if table[0] == table::ENFORCED { 1 } else { 2 + random.below(2) as u8 };
            if record[2 * place] != 3 {
                record[2 * place + 1] = random.below(table[4] as usize) as u8;
            }
        }
    }
    let mut board = Lying { sort, record, area, actions };
    if random.chance(45) {
        board.sort = "board, damaged";
        let place = random.below(PLACES);
        match random.below(4) {
            0 => damage(random, &mut board.record[..RECORD]),
            1 => board.record[2 * place] = random.pick(&[0, 1, 2, 3, 4, 255]),
            2 => damage(random, &mut board.area[place * LARGEST..][..100]),
            _ => {
                let actions = 1 + random.below(16);
                let table = pool.accepted(random, actions);
                board.area[place * LARGEST..][..table.len()].copy_from_slice(&table);
            }
        }
    }
    board.record.truncate(about(random, RECORD));
    board.area.truncate(about(random, AREA));
    if board.record.len() < RECORD || board.area.len() < AREA {
        board.sort = "board, too short";
    }
    board
}

/// A number mostly below a limit, else near it or far beyond.
pub fn number(random: &mut Random, limit: usize) -> usize {
    match random.below(20) {
        0 => limit,
        1 => random.pick(&[limit + 1, 8, 16, 255, 256, 257, 1 << 16, 1 << 32, (1 << 32) + 1, usize::MAX]),
        _ => random.below(limit),
    }
}

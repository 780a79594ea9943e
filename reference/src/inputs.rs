//! Inputs of every sort, drawn: sheets, tables, joins, texts and lists of actions, and ways to damage bytes.

pub mod formulas;
pub mod joins;
pub mod lists;
pub mod sheets;
pub mod spare;
pub mod tables;
pub mod texts;
pub mod waits;

use crate::generate::Random;

/// A sort of inputs: its name, its share among the sorts, and how one is drawn.
pub struct Sort {
    pub name: &'static str,
    pub share: usize,
    pub draw: fn(&mut Random) -> Vec<u8>,
}

const fn sort(name: &'static str, share: usize, draw: fn(&mut Random) -> Vec<u8>) -> Sort {
    Sort { name, share, draw }
}

/// An input of some sort, and the name of the sort.
fn any_of(sorts: &[Sort], random: &mut Random) -> (&'static str, Vec<u8>) {
    let mut place = random.below(sorts.iter().map(|sort| sort.share).sum());
    for sort in sorts {
        if place < sort.share {
            return (sort.name, (sort.draw)(random));
        }
        place -= sort.share;
    }
    unreachable!("the shares cover every place")
}

/// Changes a few bytes, each to a near or a random one.
pub fn damage(random: &mut Random, bytes: &mut [u8]) {
    if bytes.is_empty() {
        return;
    }
    for _ in 0..1 + random.below(3) {
        // The front has the headers: hit it as often as all the rest.
        let reach = if random.chance(50) { bytes.len().min(12) } else { bytes.len() };
        let byte = &mut bytes[random.below(reach)];
        *byte = match random.below(5) {
            0 => byte.wrapping_add(1),
            1 => byte.wrapping_sub(1),
            2 => *byte ^ 1 << random.below(8),
            3 => random.pick(&[0, 1, 8, 16, 17, 60, 61, 64, 65, 254, 255]),
            _ => random.byte(),
        };
    }
}

/// Cuts some bytes off or adds some.
pub fn cut_or_grow(random: &mut Random, bytes: &mut Vec<u8>) {
    if random.chance(50) {
        bytes.truncate(random.below(bytes.len() + 1));
    } else {
        for _ in 0..1 + random.below(8) {
            bytes.push(random.byte());
        }
    }
}

//! Spare nodes: nodes that the policy does not use, put between those of a sheet, and taken out again.

use super::sheets::{near_the_largest_bound, near_the_limits};
use super::waits::small_fulfilling;
use crate::generate::{lay_out, sheet, Random, Style};
use crate::sheet::{check_fields, Node, Sheet};
use crate::trees::*;

/// The most nodes of a sheet.
const MOST_NODES: usize = 64;

/// A sheet, the same with spare nodes, and the number there of each of its nodes. Both pass 1 to 5.
pub struct Spared {
    pub plain: Sheet,
    pub spared: Sheet,
    pub numbers: Vec<u8>,
}

/// The node with its parts numbered otherwise.
pub fn renumbered(node: &Node, number: impl Fn(u8) -> u8) -> Node {
    let mut other = *node;
    let own = node.own_parts();
    other.parts[..own.len()].iter_mut().zip(own).for_each(|(field, &part)| *field = number(part));
    other
}

/// The used nodes alone, of a sheet that passes 5.
pub fn taken_out(sheet: &Sheet) -> Sheet {
    let used = sheet.used();
    let number = |part: u8| used[..part as usize].iter().filter(|&&used| used).count() as u8;
    let kept = sheet.nodes.iter().zip(&used).filter(|(_, &used)| used);
    Sheet { actions: sheet.actions.clone(), nodes: kept.map(|(node, _)| renumbered(node, number)).collect() }
}

/// Puts groups of spare nodes before nodes of the sheet, as many as there is room for: in front, at one place, or anywhere.
pub fn put_between(random: &mut Random, plain: Sheet) -> Spared {
    let own = plain.nodes.len();
    let many = if random.chance(70) { 6 } else { MOST_NODES };
    let count = (1 + random.below(many)).min(MOST_NODES - own);
    let (one, places) = (random.below(own), random.below(4));
    let mut counts = vec![0; own];
    for _ in 0..count {
        counts[match places {
            0 => 0,
            1 => one,
            _ => random.below(own),
        }] += 1;
    }
    let (mut nodes, mut numbers) = (Vec::new(), Vec::new());
    for (node, count) in plain.nodes.iter().zip(counts) {
        let end = nodes.len() + count;
        while nodes.len() < end {
            let group = group(random, nodes.len());
            let room = end - nodes.len();
            nodes.extend(group.into_iter().take(room));
        }
        numbers.push(end as u8);
        nodes.push(renumbered(node, |part| numbers[part as usize]));
    }
    let spared = Sheet { actions: plain.actions.clone(), nodes };
    Spared { plain, spared, numbers }
}

/// Spare nodes that pass 4 and 5, the first of this number: mostly ill typed, over a limit, or an old rule.
fn group(random: &mut Random, first: usize) -> Vec<Node> {
    let tree = match random.below(10) {
        0..=5 => {
            let count = 1 + random.below(4);
            return (first..first + count).map(|here| formed(random, here)).collect();
        }
        6 => {
            // Count 60, doubled: 120 rows from the second on, and a bound over 65,534 from the twelfth on.
            let doubled = (first..first + 1 + random.below(12)).map(|n| Node {
                kind: 20,
                argument: 0,
                parts: [n as u8, n as u8, 0],
            });
            return std::iter::once(Node { kind: 12, argument: 60, parts: [0; 3] }).chain(doubled).collect();
        }
        7 => two_counts(33, 32 + random.below(20) as u8),
        8 => always(holds(but(prop(random.below(4) as u8)))),
        _ => after_watched(count(60), count(4 + random.below(4) as u8)),
    };
    tree.sheet(&[]).nodes.iter().map(|node| renumbered(node, |part| part + first as u8)).collect()
}

/// A node of any known kind whose argument is in range and whose parts are any earlier nodes.
fn formed(random: &mut Random, here: usize) -> Node {
    let part = |random: &mut Random| random.below(here.max(1)) as u8;
    let mut drawn = std::iter::repeat_with(|| {
        let mut node = Node { kind: 1 + random.below(23) as u8, argument: 0, parts: [0; 3] };
        let parts = node.own_parts().len();
        node.parts[..parts].iter_mut().for_each(|field| *field = part(random));
        node.argument = match node.kind {
            3 => random.below(16) as u8,
            12 | 22 => 1 + random.below(60) as u8,
            _ => 0,
        };
        node
    });
    drawn.find(|node| check_fields(node, here).is_ok()).expect("a leaf at least")
}

/// A sheet that passes 1 to 5 without spare nodes, mostly one that compiles, and the same with spare nodes.
pub fn any_spared(random: &mut Random) -> Spared {
    let plain = match random.below(20) {
        0..=10 => drawn(random, true),
        11..=12 => drawn(random, false),
        13..=14 => read(&near_the_limits(random)),
        15 => read(&near_the_largest_bound(random)),
        16 => read(&small_fulfilling(random)),
        _ => ill_typed(random),
    };
    put_between(random, taken_out(&plain))
}

fn drawn(random: &mut Random, inside_limits: bool) -> Sheet {
    let actions = if random.chance(75) { 1 + random.below(4) } else { 1 + random.below(16) };
    let nodes = if random.chance(80) { 1 + random.below(16) } else { 1 + random.below(60) };
    sheet(random, Style { actions, nodes, inside_limits, slips: 0 })
}

/// Mostly ill typed: one of the used nodes has another part.
fn ill_typed(random: &mut Random) -> Sheet {
    let mut plain = taken_out(&drawn(random, true));
    let wholes: Vec<usize> = (0..plain.nodes.len()).filter(|&n| !plain.nodes[n].own_parts().is_empty()).collect();
    if !wholes.is_empty() {
        let whole = random.pick(&wholes);
        let (part, parts) = (random.below(whole) as u8, plain.nodes[whole].own_parts().len());
        let changed = random.below(parts);
        plain.nodes[whole].parts[changed] = part;
    }
    plain
}

fn read(bytes: &[u8]) -> Sheet {
    Sheet::read(bytes).expect("a sheet that passes 3")
}

pub fn spare_nodes(random: &mut Random) -> Vec<u8> {
    let drawn = any_spared(random);
    lay_out(random, &drawn.spared)
}

/// A spare node has a fault: an unknown kind or a wrong field. Gives the refusal's number and spot too.
pub fn faulty(random: &mut Random) -> (Sheet, u8, usize) {
    loop {
        let Spared { mut spared, numbers, .. } = any_spared(random);
        let spare: Vec<usize> = (0..spared.nodes.len()).filter(|&node| !numbers.contains(&(node as u8))).collect();
        if spare.is_empty() {
            continue;
        }
        let place = random.pick(&spare);
        let node = &mut spared.nodes[place];
        if random.chance(50) {
            node.kind = random.pick(&[0, 7, 8, 9, 24, 25, 32, 128, 255]);
            return (spared, 4, place);
        }
        match random.below(3) {
            0 => node.argument = random.pick(&[61, 64, 255]),
            1 if !node.own_parts().is_empty() => node.parts[0] = (place + random.below(3)) as u8,
            _ if node.own_parts().len() < 3 => node.parts[2] = 1 + random.below(place + 2) as u8,
            _ => node.parts[2] = place as u8,
        }
        return (spared, 5, place);
    }
}

pub fn faulty_bytes(random: &mut Random) -> Vec<u8> {
    let (drawn, ..) = faulty(random);
    lay_out(random, &drawn)
}

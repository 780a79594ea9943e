//! Sheets of every sort.

use super::spare::{faulty_bytes, spare_nodes};
use super::waits::{fulfilling_in_fulfilling, small_fulfilling, waits_near_the_limits, waits_over_drawn_nodes};
use super::{any_of, cut_or_grow, damage, sort, Sort};
use crate::generate::{lay_out, sheet, Random, Style};
use crate::sheet::{Node, Sheet, HEADER};
use crate::trees::*;

/// All sorts.
pub const SORTS: [Sort; 16] = [
    sort("sheet, well typed", 20, |random| drawn(random, false, 0)),
    sort("sheet, inside the limits", 25, |random| drawn(random, true, 0)),
    sort("sheet, with slips", 10, |random| drawn(random, false, 10)),
    sort("sheet, any nodes", 5, |random| drawn(random, false, 100)),
    sort("sheet, near the limits", 4, near_the_limits),
    sort("sheet, bounds near 65,534", 2, near_the_largest_bound),
    sort("sheet, Fulfilling", 6, small_fulfilling),
    sort("sheet, Fulfilling over drawn nodes", 6, waits_over_drawn_nodes),
    sort("sheet, Fulfilling in Fulfilling", 3, fulfilling_in_fulfilling),
    sort("sheet, Fulfilling near the limits", 3, waits_near_the_limits),
    sort("sheet, damaged", 23, damaged),
    sort("sheet, cut or grown", 4, cut_or_grown),
    sort("sheet, long", 3, long_sheet),
    sort("sheet, random bytes", 3, random_bytes),
    sort("sheet, spare nodes", 8, spare_nodes),
    sort("sheet, a spare node with a fault", 3, faulty_bytes),
];

/// A sheet and the name of its sort.
pub fn any_sheet(random: &mut Random) -> (&'static str, Vec<u8>) {
    any_of(&SORTS, random)
}

/// Mostly few actions and nodes, and sometimes up to the most.
fn style(random: &mut Random, inside_limits: bool, slips: usize) -> Style {
    let actions = if random.chance(75) { 1 + random.below(4) } else { 1 + random.below(16) };
    let nodes = if random.chance(75) { 1 + random.below(12) } else { 1 + random.below(64) };
    Style { actions, nodes, inside_limits, slips }
}

fn drawn(random: &mut Random, inside_limits: bool, slips: usize) -> Vec<u8> {
    let style = style(random, inside_limits, slips);
    let sheet = sheet(random, style);
    lay_out(random, &sheet)
}

fn damaged(random: &mut Random) -> Vec<u8> {
    let mut bytes = drawn(random, false, 0);
    damage(random, &mut bytes);
    bytes
}

fn cut_or_grown(random: &mut Random) -> Vec<u8> {
    let mut bytes = drawn(random, false, 0);
    cut_or_grow(random, &mut bytes);
    if random.chance(70) {
        fix_total(&mut bytes);
    }
    bytes
}

/// Random bytes, mostly behind a header that may pass.
fn random_bytes(random: &mut Random) -> Vec<u8> {
    let mut bytes = vec![0; random.below(120)];
    random.fill(&mut bytes);
    if bytes.len() >= HEADER && random.chance(80) {
        let header = [1 + random.below(4), 1 + random.below(4), 8 + random.below(30), 8 + random.below(30)];
        header.iter().enumerate().for_each(|(n, &field)| put(&mut bytes, 2 * n, field));
        fix_total(&mut bytes);
    }
    bytes
}

fn put(bytes: &mut [u8], offset: usize, number: usize) {
    bytes[offset..offset + 2].copy_from_slice(&(number as u16).to_le_bytes());
}

fn fix_total(bytes: &mut [u8]) {
    if bytes.len() >= HEADER {
        put(bytes, 8, bytes.len());
    }
}

/// A sheet of up to 65,535 bytes and sometimes more, its areas anywhere.
fn long_sheet(random: &mut Random) -> Vec<u8> {
    let style = style(random, false, 0);
    let plain = sheet(random, style).bytes();
    let lists = plain.len() - HEADER;
    let total = if random.chance(80) { 65_535 - random.below(200) } else { 65_536 + random.below(200) };
    let mut bytes = vec![0; total];
    random.fill(&mut bytes);
    bytes[..HEADER].copy_from_slice(&plain[..HEADER]);
    let place = if random.chance(50) { total - lists } else { HEADER + random.below(total - lists - HEADER) };
    let place = if place + 400 < 65_535 || random.chance(50) { place } else { place - 400 };
    bytes[place..][..lists].copy_from_slice(&plain[HEADER..]);
    put(&mut bytes, 4, place);
    put(&mut bytes, 6, place + 2 * style.actions);
    fix_total(&mut bytes);
    bytes
}

/// Policies whose values or rows come near 1,024 or 64.
pub fn near_the_limits(random: &mut Random) -> Vec<u8> {
    let about = |random: &mut Random, k: u8| k - 2 + random.below(5) as u8;
    let actions: Vec<u16> = (0..2 + random.below(4)).map(|_| random.below(4) as u16).collect();
    let policy = match random.below(8) {
        7 => long_wait(about(random, 35)),
        6 => copies_of(about(random, 9), about(random, 7)),
        0 => two_counts(about(random, 32), about(random, 32)),
        1 => two_counts(about(random, 16), about(random, 58).min(60)),
        2 => after_watched(count(about(random, 58)), count(1 + random.below(6) as u8)),
        3 => eventually(after_watched(now(prop(0)), count(about(random, 9)))),
        4 => always(not(after_watched(now(prop(0)), ignoring(prop(1), count(about(random, 7)))))),
        _ => {
            let a = ignoring(prop(0), count(about(random, 30)));
            let b = ignoring(prop(1), count(about(random, 33)));
            tree(random.pick(&[14, 18, 20]), 0, [a, b])
        }
    };
    let actions = if random.chance(60) { TWO.to_vec() } else { actions };
    let sheet: Sheet = policy.sheet(&actions);
    lay_out(random, &sheet)
}

/// A policy whose bound is about 65,534: nodes 0 to 15 have the powers of two, the next ones add up
/// to the bound less one, the last adds one. They are all too large to build (9 at node 7).
pub fn near_the_largest_bound(random: &mut Random) -> Vec<u8> {
    let node = |kind, argument, parts| Node { kind, argument, parts };
    let mut nodes = vec![node(12, 1, [0; 3])];
    nodes.extend((0..15).map(|n| node(20, 0, [n, n, 0])));
    let bound = 65_530 + random.below(6);
    let mut sum = None;
    for power in (0..16).filter(|power| bound >> power & 1 == 1) {
        sum = Some(match sum {
            None => power,
            Some(sum) => {
                nodes.push(node(20, 0, [sum, power, 0]));
                nodes.len() as u8 - 1
            }
        });
    }
    let (sum, large, small) = (sum.unwrap_or(0), nodes.len() as u8, nodes.len() as u8 + 1);
    nodes.extend([node(13, 0, [sum, 0, 0]), node(13, 0, [0; 3])]);
    nodes.extend([node(1, 0, [0; 3]), node(23, 0, [small + 1, sum, 0])]);
    // What a has, 1, 8 or none, is no part of the bound of Fulfilling.
    let (a, k) = (random.pick(&[0, 3, small + 2]), 1 + random.below(3) as u8);
    nodes.push(match random.below(6) {
        4 => node(20, 0, [small + 2, sum, 0]), // no bound at all
        5 => node(22, 60, [a, small, small]),
        0 => node(20, 0, [sum, 0, 0]),
        1 => node(21, 0, [0, large, 0]),
        2 => node(22, k, [a, large, small]),
        _ => node(22, k, [a, small, large]),
    });
    let sheet = Sheet { actions: vec![random.draw() as u16], nodes };
    lay_out(random, &sheet)
}

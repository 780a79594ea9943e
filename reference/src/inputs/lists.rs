//! Sheets of every sort with lists of actions, for explaining.

use super::formulas::well_typed;
use super::sheets::any_sheet;
use super::spare::{put_between, taken_out, Spared};
use super::texts;
use super::waits::with_waits;
use crate::compile;
use crate::generate::{all_types, lay_out, sheet, Random, Style};
use crate::machine::Rows;
use crate::sheet::{Node, Sheet, Type};
use crate::table::HEADER;
use crate::trees::*;

/// A sheet and a list of actions.
pub struct List {
    pub sort: &'static str,
    pub sheet: Vec<u8>,
    pub list: Vec<u8>,
}

/// A list of any sort.
pub fn any_list(random: &mut Random) -> List {
    let (sort, sheet) = match random.below(100) {
        0..=24 => ("list, Ands over drawn nodes", ands(random)),
        25..=34 => ("list, Ands over Fulfilling", ands_of_waits(random)),
        35..=59 => ("list, Ands as of a text", ands_of_a_text(random)),
        60..=69 => ("list, a policy as of a text", policy_of_a_text(random)),
        70..=79 => ("list, Ands with spare nodes", spare_ands(random)),
        _ => ("list, a sheet of any sort", any_sheet(random).1),
    };
    let list = list_for(random, &sheet);
    List { sort, sheet, list }
}

/// A sheet inside the limits whose policy is made of Ands over its enforced nodes.
fn ands(random: &mut Random) -> Vec<u8> {
    let actions = if random.chance(75) { 1 + random.below(4) } else { 1 + random.below(16) };
    let nodes = if random.chance(80) { 3 + random.below(14) } else { 3 + random.below(50) };
    let drawn = sheet(random, Style { actions, nodes, inside_limits: true, slips: 0 });
    let whole = conjunction(random, drawn);
    lay_out(random, &whole)
}

/// Ands over waits.
fn ands_of_waits(random: &mut Random) -> Vec<u8> {
    let whole = waits_under_and(random);
    lay_out(random, &whole)
}

pub fn waits_under_and(random: &mut Random) -> Sheet {
    let (actions, nodes) = (1 + random.below(4), 3 + random.below(14));
    let drawn = sheet(random, Style { actions, nodes, inside_limits: true, slips: 0 });
    let waits = with_waits(random, drawn);
    conjunction(random, waits)
}

/// Ands over policies of many formulas, with room for seven nodes more.
pub fn formulas_under_and(random: &mut Random) -> Sheet {
    let drawn = well_typed(random, 64 - 7);
    conjunction(random, drawn)
}

/// The sheet with some Ands behind its nodes, the last one the policy, at most seven nodes. A sheet that has no enforced
/// node gets one.
pub fn conjunction(random: &mut Random, mut sheet: Sheet) -> Sheet {
    let types = all_types(&sheet);
    let mut enforced: Vec<u8> =
        (0..types.len()).filter(|&node| matches!(types[node], Type::Enforced(_))).map(|node| node as u8).collect();
    if enforced.is_empty() {
        enforced.push(sheet.nodes.len() as u8);
        sheet.nodes.push(Node { kind: 13, argument: 0, parts: [sheet.nodes.len() as u8 - 1, 0, 0] });
    }
    // From here on the last node is an And or the newest enforced one: take it mostly.
    for _ in 0..1 + random.below(6) {
        let last = enforced[enforced.len() - 1];
        let mut part = |often| if random.chance(often) { last } else { random.pick(&enforced) };
        let (one, two) = (part(70), part(10));
        let parts = if random.chance(50) { [one, two, 0] } else { [two, one, 0] };
        enforced.push(sheet.nodes.len() as u8);
        sheet.nodes.push(Node { kind: 14, argument: 0, parts });
    }
    sheet
}

/// The same without the nodes that the policy does not use, and with others between.
pub fn spared_ands(random: &mut Random) -> Spared {
    let (actions, nodes) = (1 + random.below(4), 3 + random.below(20));
    let drawn = sheet(random, Style { actions, nodes, inside_limits: true, slips: 0 });
    let whole = conjunction(random, drawn);
    put_between(random, taken_out(&whole))
}

fn spare_ands(random: &mut Random) -> Vec<u8> {
    let drawn = spared_ands(random);
    lay_out(random, &drawn.spared)
}

/// And of two to six enforced policies, each node as often as it stands in the text.
fn ands_of_a_text(random: &mut Random) -> Vec<u8> {
    let parts = 2 + random.below(5);
    let mut all: Vec<Tree> = (0..parts)
        .map(|_| {
            let nodes = 2 + random.below(6);
            texts::enforced(random, nodes)
        })
        .collect();
    // Any two beside each other become one, until one is left.
    while all.len() > 1 {
        let place = random.below(all.len() - 1);
        let right = all.remove(place + 1);
        all[place] = tree(14, 0, [all[place].clone(), right]);
    }
    all[0].unshared_sheet(&some_actions(random)).bytes()
}

fn policy_of_a_text(random: &mut Random) -> Vec<u8> {
    let nodes = 2 + random.below(20);
    let policy = texts::enforced(random, nodes);
    policy.unshared_sheet(&some_actions(random)).bytes()
}

/// One to sixteen actions.
fn some_actions(random: &mut Random) -> Vec<u16> {
    std::iter::repeat_with(|| texts::any_actions(random)).find(|list| (1..=16).contains(&list.len())).expect("a list")
}

/// A list for a sheet of any sort. Where it compiles, mostly actions that are permitted, up to one that is not.
pub fn list_for(random: &mut Random, sheet: &[u8]) -> Vec<u8> {
    let length = if random.chance(85) { random.below(12) } else { random.below(40) };
    let Ok(table) = compile(sheet) else {
        return (0..length).map(|_| random.below(5) as u8).collect();
    };
    let rows = Rows { actions: table[2] as usize, entries: table[HEADER..].to_vec() };
    let mut list = match random.below(100) {
        0..=19 => (0..length).map(|_| random.below(rows.actions) as u8).collect(),
        _ => permitted_then_denied(random, &rows, length),
    };
    // A few more behind, and seldom a number that is no action, anywhere.
    if random.chance(40) {
        list.extend((0..random.below(5)).map(|_| random.below(rows.actions) as u8));
    }
    if random.chance(10) {
        let none = random.pick(&[rows.actions as u8, rows.actions as u8 + 1, 16, 17, 128, 255]);
        list.insert(random.below(list.len() + 1), none);
    }
    list
}

/// So many permitted actions, fewer where there are no more; behind them mostly one that is denied, if there is one.
fn permitted_then_denied(random: &mut Random, rows: &Rows, length: usize) -> Vec<u8> {
    let (mut list, mut row) = (Vec::new(), 0);
    let sorted = |row: u8| (0..rows.actions).partition::<Vec<usize>, _>(|&action| rows.next(row, action).is_some());
    loop {
        let (permitted, denied) = sorted(row);
        let enough = list.len() >= length;
        if permitted.is_empty() || enough && (!denied.is_empty() || list.len() >= 2 * length) {
            let end = random.chance(85) && !denied.is_empty();
            list.extend(end.then(|| random.pick(&denied) as u8));
            return list;
        }
        let action = random.pick(&permitted);
        row = rows.next(row, action).expect("permitted");
        list.push(action as u8);
    }
}

/// A list of about 65,536 actions, and a rule whose verdict on it is soon worked out: Ands over actions that never come,
/// come at most so often, or come first.
pub fn long_list(random: &mut Random) -> List {
    let actions = [1, 2, 4, 8];
    let mut part = || match random.below(4) {
        0 => holds(but(prop(random.below(4) as u8))),
        1 => not(ignoring(but(prop(1 + random.below(3) as u8)), count(1 + random.below(4) as u8))),
        _ => always(holds(but(prop(1 + random.below(3) as u8)))),
    };
    let (mut policy, more) = (part(), part());
    policy = tree(14, 0, [more, policy]);
    let length = if random.chance(70) { 65_500 + random.below(80) } else { 64 + random.below(70_000) };
    let mut list = vec![0; length];
    let most = if random.chance(60) { 100.min(length) } else { length };
    for _ in 0..random.below(8) {
        list[length - 1 - random.below(most)] = if random.chance(98) { 1 + random.below(3) as u8 } else { 4 };
    }
    let sheet = policy.sheet(&actions);
    List { sort: "list, about 65,536 actions", sheet: lay_out(random, &sheet), list }
}

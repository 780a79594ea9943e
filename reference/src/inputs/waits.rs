//! Sheets with Fulfilling, whose a has a bound below k, k or above it, or none, or is never fulfilled; and the same with
//! another a, or in two parts, which mean the same.

use super::spare::renumbered;
use crate::generate::{all_types, lay_out, sheet, wait, Random, Style};
use crate::sheet::{Node, Sheet, Type};
use crate::trees::*;

/// The most nodes of a drawn sheet: there is room for a wait that is written otherwise.
const MOST_NODES: usize = 60;

/// Fulfilling of small parts.
pub fn small_fulfilling(random: &mut Random) -> Vec<u8> {
    let sheet = of_few_nodes(random, small_wait);
    lay_out(random, &sheet)
}

/// The sheet of such a tree that has at most so many nodes.
fn of_few_nodes(random: &mut Random, tree: fn(&mut Random) -> Tree) -> Sheet {
    let mut drawn = std::iter::repeat_with(|| tree(random).sheet(&small_actions(random)));
    drawn.find(|sheet| sheet.nodes.len() <= MOST_NODES).expect("a small one")
}

/// Two to four actions, each mostly with the proposition of its number.
fn small_actions(random: &mut Random) -> Vec<u16> {
    let count = random.pick(&[2, 3, 3, 4]);
    (0..count).map(|action| if random.chance(85) { 1 << action } else { random.below(8) as u16 }).collect()
}

fn small_wait(random: &mut Random) -> Tree {
    let k = if random.chance(90) { 1 + random.below(6) } else { 1 + random.below(60) } as u8;
    fulfilling(k, watched(random, k), enforced(random, 0), enforced(random, 0))
}

fn formula(random: &mut Random) -> Tree {
    let this = prop(random.below(3) as u8);
    if random.chance(60) {
        this
    } else {
        but(this)
    }
}

/// A small a of a wait of k.
fn watched(random: &mut Random, k: u8) -> Tree {
    let near = (k + random.below(4) as u8).saturating_sub(1).clamp(1, 60);
    let few = count(1 + random.below(5) as u8);
    let (this, other) = (now(formula(random)), now(formula(random)));
    match random.below(16) {
        0 => count(near),
        1 => this,
        2 => not(not(count(near))),
        3 => or(this, after_watched(few, other)),
        4 => after_watched(few, this),
        5 => tree(random.pick(&[14, 15]), 0, [count(near), few]),
        6 => tree(18, 0, [few, count(near)]),
        // From here on without bound.
        7 => tree(18, 0, [this, eventually(other)]),
        8 | 9 => eventually(this),
        10 => ignoring(formula(random), few),
        11 => after_watched(eventually(this), eventually(other)),
        12 => tree(14, 0, [eventually(this), ignoring(formula(random), few)]),
        13 => not(always(after_enforced(this, holds(formula(random))))),
        // Never fulfilled.
        14 => random.pick(&[now, |no| eventually(now(no))])(no()),
        _ => tree(14, 0, [now(prop(0)), now(but(prop(0)))]),
    }
}

/// A small b or c; at most two waits deep.
fn enforced(random: &mut Random, depth: usize) -> Tree {
    let this = formula(random);
    match random.below(if depth < 2 { 9 } else { 8 }) {
        0 => holds(yes()),
        1 => holds(this),
        2 | 3 => always(holds(this)),
        4 => not(count(1 + random.below(5) as u8)),
        5 => after_enforced(eventually(now(this)), always(holds(formula(random)))),
        6 => before_enforced(eventually(now(this)), always(holds(formula(random)))),
        7 => not(after_watched(now(this), now(formula(random)))),
        _ => nested(random, depth + 1),
    }
}

fn nested(random: &mut Random, depth: usize) -> Tree {
    let k = 1 + random.below(4) as u8;
    let a = if random.chance(25) { not(enforced(random, depth)) } else { watched(random, k) };
    fulfilling(k, a, enforced(random, depth), enforced(random, depth))
}

/// Fulfilling in Fulfilling: in a, under Not, in b or in c; and under other kinds.
pub fn fulfilling_in_fulfilling(random: &mut Random) -> Vec<u8> {
    let sheet = of_few_nodes(random, nested_wait);
    lay_out(random, &sheet)
}

fn nested_wait(random: &mut Random) -> Tree {
    let k = 1 + random.below(5) as u8;
    let inner = nested(random, 1);
    let (a, other) = (watched(random, k), enforced(random, 1));
    let whole = match random.below(3) {
        0 => fulfilling(k, not(inner), other, enforced(random, 1)),
        1 => fulfilling(k, a, inner, other),
        _ => fulfilling(k, a, other, inner),
    };
    match random.below(6) {
        0 => always(after_enforced(now(formula(random)), whole)),
        1 => not(whole),
        2 => tree(random.pick(&[14, 15]), 0, [whole, small_wait(random)]),
        _ => whole,
    }
}

/// Waits whose values are about 1,024, or whose rows are about 64.
pub fn waits_near_the_limits(random: &mut Random) -> Vec<u8> {
    let sheet = large_sheet(random);
    lay_out(random, &sheet)
}

fn large_sheet(random: &mut Random) -> Sheet {
    let rows = |random: &mut Random| match random.below(3) {
        0 => holds(yes()),
        1 => always(holds(but(prop(1)))),
        _ => not(count(1 + random.below(14) as u8)),
    };
    // While it waits, p1 below m among n actions below k: see cases/counted.rs.
    let values = random.chance(60);
    let k = if values { 42 + random.below(19) } else { 4 + random.below(57) };
    let waiting = |m: usize| if m <= k { m * k - m * (m - 1) / 2 } else { k * (k + 1) / 2 };
    let most = if values { 1024 } else { 64 };
    let m = (1..60).take_while(|&m| waiting(m) <= most).last().unwrap_or(1) + random.below(3);
    let m = m.saturating_sub(1).clamp(1, 60) as u8;
    let a = match random.below(4) {
        0 => after_watched(eventually(now(prop(1))), ignoring(prop(0), count((m - 1).max(1)))),
        1 => or(ignoring(prop(0), count(m)), now(no())),
        _ => ignoring(prop(0), count(m)),
    };
    let actions = if random.chance(80) { TWO.to_vec() } else { small_actions(random) };
    fulfilling(k as u8, a, rows(random), rows(random)).sheet(&actions)
}

/// Waits over the nodes of a drawn sheet, the last one mostly the policy. Some are ill typed.
pub fn waits_over_drawn_nodes(random: &mut Random) -> Vec<u8> {
    let mut sheet = drawn_sheet(random);
    if random.chance(12) {
        let place = sheet.nodes.iter().rposition(|node| node.kind == 22).expect("a wait");
        sheet.nodes[place].parts[random.below(3)] = random.below(place) as u8;
    }
    lay_out(random, &sheet)
}

fn drawn_sheet(random: &mut Random) -> Sheet {
    let actions = if random.chance(80) { 2 + random.below(3) } else { 1 + random.below(16) };
    let nodes = if random.chance(85) { 3 + random.below(12) } else { 3 + random.below(45) };
    let drawn = sheet(random, Style { actions, nodes, inside_limits: true, slips: 0 });
    with_waits(random, drawn)
}

/// The sheet with some Fulfilling nodes behind its nodes. One without a watched or an enforced node gets one.
pub fn with_waits(random: &mut Random, mut sheet: Sheet) -> Sheet {
    let of = |sheet: &Sheet, wanted: fn(&Type) -> bool| -> Vec<u8> {
        let types = all_types(sheet);
        (0..types.len()).filter(|&node| wanted(&types[node])).map(|node| node as u8).collect()
    };
    let push = |sheet: &mut Sheet, kind, argument, parts| sheet.nodes.push(Node { kind, argument, parts });
    for wanted in [|this: &Type| matches!(this, Type::Watched(_)), |this: &Type| matches!(this, Type::Enforced(_))] {
        if of(&sheet, wanted).is_empty() {
            let last = sheet.nodes.len() as u8 - 1;
            push(&mut sheet, 13, 0, [last, 0, 0]);
        }
    }
    for _ in 0..1 + random.below(3) {
        let watched = of(&sheet, |this| matches!(this, Type::Watched(_)));
        let enforced = of(&sheet, |this| matches!(this, Type::Enforced(_)));
        let (a, one) = (random.pick(&watched), random.pick(&enforced));
        let other = if random.chance(60) { enforced[enforced.len() - 1] } else { random.pick(&enforced) };
        let (b, c) = if random.chance(50) { (one, other) } else { (other, one) };
        let k = wait(random, all_types(&sheet)[a as usize]);
        push(&mut sheet, 22, k, [a, b, c]);
    }
    let last = sheet.nodes.len() as u8 - 1;
    match random.below(10) {
        0 => push(&mut sheet, 13, 0, [last, 0, 0]),
        1 => push(&mut sheet, 17, 0, [last, 0, 0]),
        _ => (),
    }
    sheet
}

/// What is put for a Fulfilling k a b c.
#[derive(Clone, Copy, Debug, PartialEq, Eq, PartialOrd, Ord)]
pub enum Way {
    /// Its a is Before- (Count k) a: what comes behind k actions is not seen.
    Cut,
    /// Its a is Or a (After- (Count k) (Count 1)): fulfilled by the action k + 1, too late.
    Late,
    /// And of two, of which one has Holds true for c and the other for b.
    Split,
}

/// A sheet, the same with another node for one of Fulfilling, and the number there of each of its nodes. Where both
/// compile, the tables are equal.
#[derive(Debug)]
pub struct Rewritten {
    pub way: Way,
    /// The number of that Fulfilling.
    pub place: usize,
    pub plain: Sheet,
    pub other: Sheet,
    pub numbers: Vec<u8>,
}

/// The sheet with the Fulfilling of this number written so.
pub fn rewritten(plain: &Sheet, place: usize, way: Way) -> Rewritten {
    let node = |kind, argument, parts| Node { kind, argument, parts };
    let (this, here) = (plain.nodes[place], place as u8);
    let (k, [a, b, c]) = (this.argument, this.parts);
    let count = node(12, k, [0; 3]);
    let new = match way {
        Way::Cut => vec![count, node(18, 0, [here, a, 0]), node(22, k, [here + 1, b, c])],
        Way::Late => vec![
            count,
            node(12, 1, [0; 3]),
            node(20, 0, [here, here + 1, 0]),
            node(15, 0, [a, here + 2, 0]),
            node(22, k, [here + 3, b, c]),
        ],
        Way::Split => vec![
            node(1, 0, [0; 3]),
            node(11, 0, [here, 0, 0]),
            node(22, k, [a, b, here + 1]),
            node(22, k, [a, here + 1, c]),
            node(14, 0, [here + 2, here + 3, 0]),
        ],
    };
    let more = new.len() as u8 - 1;
    let number = |part: u8| if part < here { part } else { part + more };
    let behind = plain.nodes[place + 1..].iter().map(|node| renumbered(node, number));
    let nodes: Vec<Node> = plain.nodes[..place].iter().copied().chain(new).chain(behind).collect();
    let numbers = (0..plain.nodes.len() as u8).map(number).collect();
    let other = Sheet { actions: plain.actions.clone(), nodes };
    Rewritten { way, place, plain: plain.clone(), other, numbers }
}

/// A drawn sheet, one of whose used Fulfilling nodes is written otherwise.
pub fn any_rewritten(random: &mut Random) -> Rewritten {
    loop {
        let plain = match random.below(10) {
            0..=3 => of_few_nodes(random, small_wait),
            4..=6 => drawn_sheet(random),
            7 | 8 => of_few_nodes(random, nested_wait),
            _ => large_sheet(random),
        };
        if let Some(drawn) = any_way(random, &plain) {
            return drawn;
        }
    }
}

/// One of its used Fulfilling nodes written otherwise; none where there is no such node or no room.
pub fn any_way(random: &mut Random, plain: &Sheet) -> Option<Rewritten> {
    let used = plain.used();
    let waits: Vec<usize> = (0..used.len()).filter(|&node| used[node] && plain.nodes[node].kind == 22).collect();
    let way = random.pick(&[Way::Cut, Way::Late, Way::Split]);
    (!waits.is_empty() && used.len() <= MOST_NODES).then(|| rewritten(plain, random.pick(&waits), way))
}

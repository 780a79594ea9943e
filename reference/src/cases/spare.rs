//! Sheets with nodes that the policy does not use: 4 and 5 are found in them, and nothing else.

use super::Stated::*;
use super::{case, Case, Stated};
use crate::sheet::{Node, Sheet};
use crate::trees::*;

/// A node: kind, argument, parts.
pub(super) type Fields = [u8; 5];

/// A sheet over the roastery's actions.
fn of(name: &str, nodes: &[Fields], stated: Stated) -> Case {
    over(name, &ROASTERY, nodes, stated)
}

pub(super) fn over(name: &str, actions: &[u16], nodes: &[Fields], stated: Stated) -> Case {
    let node = |&[kind, argument, a, b, c]: &Fields| Node { kind, argument, parts: [a, b, c] };
    case(name, Sheet { actions: actions.to_vec(), nodes: nodes.iter().map(node).collect() }.bytes(), stated)
}

const CHARGE: Fields = [3, 0, 0, 0, 0];
fn but(a: u8) -> Fields {
    [4, 0, a, 0, 0]
}
fn holds(a: u8) -> Fields {
    [11, 0, a, 0, 0]
}
fn count(k: u8) -> Fields {
    [12, k, 0, 0, 0]
}
fn not(a: u8) -> Fields {
    [13, 0, a, 0, 0]
}
fn and(a: u8, b: u8) -> Fields {
    [14, 0, a, b, 0]
}
fn eventually(a: u8) -> Fields {
    [16, 0, a, 0, 0]
}
fn always(a: u8) -> Fields {
    [17, 0, a, 0, 0]
}
fn after_watched(a: u8, b: u8) -> Fields {
    [20, 0, a, b, 0]
}

/// No charge, its four nodes from this number on.
fn no_charge(first: u8) -> [Fields; 4] {
    [CHARGE, but(first), holds(first + 1), always(first + 2)]
}

const NO_CHARGE: Stated = Table("enf|- 0 0 0");

/// No charge, with nodes before it that it does not use.
fn behind(name: &str, unused: &[Fields], stated: Stated) -> Case {
    of(name, &[unused, &no_charge(unused.len() as u8)].concat(), stated)
}

/// No charge, with nodes between Holds (node 2) and Always that it does not use.
fn between(name: &str, unused: &[Fields], stated: Stated) -> Case {
    let [charge, other, first, _] = no_charge(0);
    of(name, &[&[charge, other, first], unused, &[always(2)]].concat(), stated)
}

/// Node `first` Count 60, each next one After- of the one before twice.
fn tower(first: u8, nodes: u8) -> Vec<Fields> {
    let more = (first..first + nodes - 1).map(|n| after_watched(n, n));
    std::iter::once(count(60)).chain(more).collect()
}

/// All of them.
pub fn all() -> Vec<Case> {
    [kinds(), fields(), types(), limits(), places(), spots(), order(), used()].into_iter().flatten().collect()
}

/// Check 4, also of a node that is not used.
fn kinds() -> Vec<Case> {
    vec![
        behind("unused node 0 of kind 9", &[[9, 0, 0, 0, 0]], Refused(4, 0)),
        between("unused node 3 of kind 24", &[[24, 0, 0, 0, 0]], Refused(4, 3)),
        between("unused node 4 of kind 0, any fields", &[count(1), [0, 9, 9, 9, 9]], Refused(4, 4)),
        of("unused node 2 of kind 255", &[count(1), not(0), [255, 0, 0, 0, 0], not(0)], Refused(4, 2)),
    ]
}

/// Check 5, also of a node that is not used.
fn fields() -> Vec<Case> {
    vec![
        behind("unused Count 61", &[count(61)], Refused(5, 0)),
        behind("unused Now of itself", &[[10, 0, 0, 0, 0]], Refused(5, 0)),
        behind("unused true with an argument", &[count(1), [1, 1, 0, 0, 0]], Refused(5, 1)),
        between("unused Not with a part b", &[[13, 0, 0, 1, 0]], Refused(5, 3)),
        between("unused And of the policy", &[and(2, 4)], Refused(5, 3)),
        between("unused Fulfilling 0", &[[22, 0, 0, 1, 2]], Refused(5, 3)),
        between("unused proposition 16", &[[3, 16, 0, 0, 0]], Refused(5, 3)),
    ]
}

/// Check 6 is not made of a node that is not used.
fn types() -> Vec<Case> {
    let whole = whenever_charge();
    vec![
        behind("unused Always of Count", &[count(2), always(0)], NO_CHARGE),
        behind("unused Now of a policy", &[count(2), [10, 0, 0, 0, 0]], NO_CHARGE),
        behind("unused not of a policy, and Holds of that", &[count(2), but(0), holds(1)], NO_CHARGE),
        between("unused Eventually of Holds", &[eventually(2)], NO_CHARGE),
        between("unused And of a formula and a policy", &[and(1, 2)], NO_CHARGE),
        between("unused Fulfilling 2 of Count 3, well typed", &[count(3), [22, 2, 3, 2, 2]], NO_CHARGE),
        between("unused Fulfilling 2 of Holds", &[[22, 2, 2, 2, 2]], NO_CHARGE),
        between("unused Fulfilling 2 of a formula", &[[22, 2, 1, 2, 2]], NO_CHARGE),
        between("unused Fulfilling 2, b watched, and Not of it", &[count(3), [22, 2, 3, 3, 2], not(4)], NO_CHARGE),
        between("unused Ignoring of a policy", &[[23, 0, 2, 2, 0], always(3), not(4)], NO_CHARGE),
        of("unused Not of a formula, 78 bytes and 5", &[&[CHARGE, not(0)], &whole[..]].concat(), WHENEVER),
    ]
}

const WHENEVER: Stated = Table("enf|1 0 0 0|- 0 1 1");

/// Between two charges there is a drop: the nodes of the sheet of 78 bytes but its first, charge, behind a Not.
fn whenever_charge() -> [Fields; 11] {
    [
        [10, 0, 0, 0, 0],
        eventually(2),
        [3, 1, 0, 0, 0],
        [10, 0, 4, 0, 0],
        eventually(5),
        but(0),
        holds(7),
        always(8),
        [19, 0, 6, 9, 0],
        [21, 0, 3, 10, 0],
        always(11),
    ]
}

/// Nor are 7, 8 and 9.
fn limits() -> Vec<Case> {
    let large = two_counts(33, 32).sheet(&TWO);
    let large: Vec<Fields> = large.nodes.iter().map(|n| [n.kind, n.argument, n.a() as u8, n.b() as u8, 0]).collect();
    let mut rule = large.clone();
    rule.push(count(2));
    vec![
        behind("unused After- of 65 rows", &[count(60), count(5), after_watched(0, 1)], NO_CHARGE),
        between("unused After- of 65 rows, later", &[count(60), count(5), after_watched(3, 4)], NO_CHARGE),
        behind("unused tower of 11", &tower(0, 11), NO_CHARGE),
        behind("unused tower of 12", &tower(0, 12), NO_CHARGE),
        between("unused tower of 12, later", &tower(3, 12), NO_CHARGE),
        between("unused tower of 60", &tower(3, 60), NO_CHARGE),
        over("unused Or of Counts 33 and 32", &TWO, &rule, Table("mon|1 1|- -")),
        over("used Or of Counts 33 and 32", &TWO, &[&large[..], &[not(6)]].concat(), Refused(8, 6)),
    ]
}

/// Where unused nodes stand, and how many.
fn places() -> Vec<Case> {
    let mut first = vec![count(2)];
    first.extend((1..63).map(|n| always(n - 1)));
    first.push(count(2));
    let chain: Vec<Fields> = std::iter::once(count(1)).chain((1..64).map(|n| not(n - 1))).collect();
    vec![
        of("the policy is node 0 of 1", &[count(2)], Table("mon|1 1 1 1|- - - -")),
        of("node 0 is not used", &[count(3), count(2)], Table("mon|1 1 1 1|- - - -")),
        of("63 unused nodes, 62 ill typed", &first, Table("mon|1 1 1 1|- - - -")),
        of("64 nodes, all used", &chain, Table("enf|- - - -")),
        of("unused nodes around each node", &around(), NO_CHARGE),
        of("an unused copy of the policy, and Not of it", &copies(), NO_CHARGE),
    ]
}

fn around() -> [Fields; 10] {
    let ill = always(0);
    [count(60), CHARGE, ill, but(1), ill, after_watched(0, 0), holds(3), after_watched(5, 5), not(2), always(6)]
}

fn copies() -> [Fields; 6] {
    let [charge, other, first, policy] = no_charge(0);
    [charge, other, first, policy, not(3), policy]
}

/// The spot is the node's own number, with the unused ones counted.
fn spots() -> Vec<Case> {
    let large = [&[count(1)][..], &tower(1, 12)].concat();
    vec![
        of("6 behind two unused nodes", &[count(1), count(1), CHARGE, holds(2), eventually(3)], Refused(6, 4)),
        of("6 of an unused node and of the last", &[count(2), always(0), always(0)], Refused(6, 2)),
        of("6 of an unused node, a last formula", &[count(2), always(0), CHARGE], Refused(6, 2)),
        of("7 behind an unused node", &large, Refused(7, 12)),
        of("9 behind an unused node", &[count(1), count(60), count(5), after_watched(1, 2)], Refused(9, 3)),
        of("9 of an unused node and of a used one", &nines(), Refused(9, 4)),
        over("8 behind 9 of an unused node", &TWO, &eight_behind_nine(), Refused(8, 9)),
    ]
}

/// Node 2 and node 4 have 65 rows; the policy is node 5, over 4.
fn nines() -> [Fields; 6] {
    [count(60), count(5), after_watched(0, 1), not(0), after_watched(0, 1), not(4)]
}

/// Node 2 has 65 rows and is not used; node 9 has over 1,024 values.
fn eight_behind_nine() -> [Fields; 10] {
    let ignoring = |a, b| [23, 0, a, b, 0];
    let counts = [count(60), count(5), after_watched(0, 1)];
    let parts = [CHARGE, count(33), ignoring(3, 4), [3, 1, 0, 0, 0], count(32), ignoring(6, 7)];
    let mut all = [[15, 0, 5, 8, 0]; 10];
    all[..3].copy_from_slice(&counts);
    all[3..9].copy_from_slice(&parts);
    all
}

/// 4 and 5 of all nodes come before any 6 and 7.
fn order() -> Vec<Case> {
    let fault = [13, 0, 1, 1, 0];
    let large = |more: &[Fields]| [&tower(0, 12), more].concat();
    vec![
        of("5 of the last node, 6 of an earlier one", &[count(2), always(0), fault], Refused(5, 2)),
        of("4 of the last node, 6 of an earlier one", &[count(2), always(0), [7, 0, 1, 0, 0]], Refused(4, 2)),
        of("5 of an unused node, 6 of an earlier one", &[count(2), always(0), count(61), not(1)], Refused(5, 2)),
        of("4 of an unused node, 6 of an earlier one", &[count(2), always(0), [9; 5], not(1)], Refused(4, 2)),
        of("6 of a used node", &[count(2), always(0), count(60), not(1)], Refused(6, 1)),
        of("5 of the last node, 7 of an earlier one", &large(&[[13, 0, 12, 0, 0]]), Refused(5, 12)),
        of("4 of an unused node, 7 of an earlier one", &large(&[[99, 0, 0, 0, 0], not(11)]), Refused(4, 12)),
        of("7 of a used node", &large(&[always(0), not(11)]), Refused(7, 11)),
        of("7 of a used node, 6 of a later one", &large(&[not(11), always(11)]), Refused(7, 11)),
        of("5 of node 0, 4 of node 2, both unused", &[count(0), count(1), [8; 5], count(1)], Refused(5, 0)),
        of("4 of node 0, 5 of node 2, both unused", &[[8; 5], count(1), count(0), count(1)], Refused(4, 0)),
        of("5 of an unused node before a last formula", &[count(61), CHARGE], Refused(5, 0)),
    ]
}

/// Each part of a used node is used: an ill-typed or too large one is found there.
fn used() -> Vec<Case> {
    let large = [count(60), count(5), after_watched(0, 1), not(2)];
    let with = |name, more: &[Fields], stated| of(name, &[&large[..], more].concat(), stated);
    let fulfilling = |a, b, c| [22, 1, a, b, c];
    let (fine, one) = ([1, 0, 0, 0, 0], count(1));
    vec![
        with("65 rows, a of Not", &[not(3)], Refused(9, 2)),
        with("65 rows, a of And", &[and(3, 3)], Refused(9, 2)),
        with("65 rows, b of And", &[not(0), and(4, 3)], Refused(9, 2)),
        with("65 rows, b of Ignoring", &[CHARGE, [23, 0, 4, 2, 0]], Refused(9, 2)),
        with("65 rows, a of Fulfilling", &[fine, holds(4), fulfilling(2, 5, 5)], Refused(9, 2)),
        with("65 rows, b of Fulfilling", &[fine, holds(4), one, fulfilling(6, 3, 5)], Refused(9, 2)),
        with("65 rows, c of Fulfilling", &[fine, holds(4), one, fulfilling(6, 5, 3)], Refused(9, 2)),
        with("65 rows of no part", &[fine, holds(4), one, fulfilling(6, 5, 5)], Rows("enf", 1)),
        of("an enforced a of Fulfilling", &[fine, holds(0), [22, 2, 1, 1, 1]], Refused(6, 2)),
        of("Fulfilling 2 of Count 3", &[&no_charge(0)[..], &[count(3), [22, 2, 4, 3, 3]]].concat(), {
            Table("enf|1 1 1 1|2 2 2 2|- 2 2 2")
        }),
        of("an ill-typed formula, through Holds", &[one, but(0), but(1), holds(2)], Refused(6, 1)),
        of("an ill-typed formula, b of or", &[one, but(0), fine, [6, 0, 2, 1, 0], holds(3)], Refused(6, 1)),
        of("an ill-typed formula, a of Ignoring", &[one, but(0), [23, 0, 1, 0, 0]], Refused(6, 1)),
        of("formulas through or and not", &[CHARGE, [3, 1, 0, 0, 0], [6, 0, 0, 1, 0], but(2), holds(3), always(4)], {
            Table("enf|- - 0 0")
        }),
    ]
}

//! Sheets at the limits, faulty in one thing alone, laid out in every way, or lent too little.

use super::Stated::*;
use super::{case, Case, Lent, Stated};
use crate::sheet::{Node, Sheet, HEADER, NODE};
use crate::trees::*;

fn node(kind: u8, argument: u8, parts: [u8; 3]) -> Node {
    Node { kind, argument, parts }
}

/// A sheet of nodes over the roastery's actions.
fn nodes(nodes: &[Node]) -> Vec<u8> {
    Sheet { actions: ROASTERY.to_vec(), nodes: nodes.to_vec() }.bytes()
}

/// Count 2 over the roastery's actions, 23 bytes: header, actions at 10, the node at 18.
fn small() -> Vec<u8> {
    count(2).sheet(&ROASTERY).bytes()
}

const SMALL: Stated = Table("mon|1 1 1 1|- - - -");

/// All of them.
pub fn all() -> Vec<Case> {
    let lists = [limits(), values(), rows(), bounds(), lengths(), counts(), areas(), layouts(), long(), lent()];
    lists.into_iter().chain([kinds(), arguments(), parts(), types(), lasts(), order()]).flatten().collect()
}

/// The largest counts, and the same policies over one action, on which they can be read to their end.
fn limits() -> Vec<Case> {
    let of = |name, tree: Tree, actions: &[u16], stated| case(name, tree.sheet(actions).bytes(), stated);
    let sixteen: Vec<u16> = (0..16).map(|action| 1 << action).collect();
    let longest = || after_watched(count(60), count(4));
    let mut full = vec![node(12, 1, [0; 3]); 64];
    full[63] = node(13, 0, [62, 0, 0]);
    vec![
        of("Count 60, one action", count(60), &[0], Rows("mon", 60)),
        of("64 rows, one action", longest(), &[0], Rows("mon", 64)),
        of("65 rows, one action", after_watched(count(60), count(5)), &[0], Refused(9, 2)),
        of("64 rows, 16 actions", longest(), &sixteen, Rows("mon", 64)),
        of("64 rows, 16 actions, enforced", not(longest()), &sixteen, Rows("enf", 64)),
        case("64 nodes", nodes(&full), Table("enf|- - - -")),
    ]
}

/// As many values as there may be, and one more.
fn values() -> Vec<Case> {
    let two = |name, tree: Tree, stated| case(name, tree.sheet(&TWO).bytes(), stated);
    let pair = |kind, j, k| tree(kind, 0, [ignoring(prop(0), count(j)), ignoring(prop(1), count(k))]);
    let last = |tree: &Tree| tree.sheet(&TWO).nodes.len() as u8 - 1;
    vec![
        two("1,022 values, copies", many_values(), Rows("mon", 25)),
        // 31 rows or tripped, twice, less both tripped: 1,023 values; one row more is over the limit.
        two("1,023 values, And", pair(14, 31, 31), Refused(9, 5)),
        two("1,055 values, And", pair(14, 31, 32), Refused(8, 6)),
        // Both rows and "released": 31 * 33 + 1 = 1,024 values, 32 * 32 + 1 are over.
        two("1,024 values, Before-", pair(18, 31, 33), Refused(9, 6)),
        two("1,025 values, Before-", pair(18, 32, 32), Refused(8, 5)),
        // b and c are told apart, also where they are one node: 956 + 2 * 34 = 1,024 values.
        two("1,024 values, Fulfilling", long_wait(34), Refused(9, last(&long_wait(34)))),
        two("1,026 values, Fulfilling", long_wait(35), Refused(8, last(&long_wait(35)))),
    ]
}

/// 64 and 65 rows of a node that the policy uses, and of one that it does not use.
fn rows() -> Vec<Case> {
    let with = |k, last| nodes(&[node(12, 60, [0; 3]), node(12, k, [0; 3]), node(20, 0, [0, 1, 0]), last]);
    let (used, unused) = (node(13, 0, [2, 0, 0]), node(12, 1, [0; 3]));
    vec![
        case("64 rows of a used node", with(4, used), Rows("enf", 64)),
        case("65 rows of a used node", with(5, used), Refused(9, 2)),
        case("64 rows of an unused node", with(4, unused), Table("mon|- - - -")),
        case("65 rows of an unused node", with(5, unused), Table("mon|- - - -")),
    ]
}

/// Bounds of 65,534 and 65,535: node n of the tower has 60 * 2^n.
fn bounds() -> Vec<Case> {
    let with = |last| {
        let mut all = Sheet::read(&tower(11)).expect("a sheet").nodes;
        all.push(node(20, 0, [10, 6, 0])); // 61,440 + 3,840
        all.push(node(20, 0, [11, 2, 0])); // 65,280 + 240
        all.push(node(12, last, [0; 3]));
        all.push(node(20, 0, [12, 13, 0])); // 65,520 and this
        nodes(&all)
    };
    // Nodes 0 to 12 as above; Not 12 has 65,520 as well, Holds true 1; Eventually of node 0 and Always of 13 have none.
    let fulfilling = |name: &str, k, parts, stated| {
        let mut all = Sheet::read(&with(1)).expect("a sheet").nodes;
        all.truncate(13);
        all.extend([node(13, 0, [12, 0, 0]), node(1, 0, [0; 3]), node(11, 0, [14, 0, 0])]);
        all.extend([node(16, 0, [0; 3]), node(17, 0, [13, 0, 0]), node(22, k, parts)]);
        case(name, nodes(&all), stated)
    };
    let (large, a_large, small, a_small, unbounded, always) = (13, 12, 15, 0, 16, 17);
    vec![
        case("bound 65,534", with(14), Refused(9, 1)),
        case("bound 65,535", with(15), Refused(7, 14)),
        // k and the larger of b and c; what a has is neither added nor compared.
        fulfilling("bound 65,534 by b, a unbounded", 14, [unbounded, large, small], Refused(9, 1)),
        fulfilling("bound 65,535 by b, a unbounded", 15, [unbounded, large, small], Refused(7, 18)),
        fulfilling("bound 65,534 by c, a unbounded", 14, [unbounded, small, large], Refused(9, 1)),
        fulfilling("bound 65,535 by c, a unbounded", 15, [unbounded, small, large], Refused(7, 18)),
        fulfilling("bound 65,534, a of 60", 14, [a_small, large, large], Refused(9, 1)),
        fulfilling("bound 65,535, a of 60", 15, [a_small, large, large], Refused(7, 18)),
        fulfilling("bound 65,534, a of 65,520", 14, [a_large, large, small], Refused(9, 1)),
        fulfilling("bound 65,580, a of 65,520", 60, [a_large, large, small], Refused(7, 18)),
        fulfilling("bound 61, a of 65,520", 60, [a_large, small, small], Refused(9, 1)),
        fulfilling("no bound by b, c of 65,520", 60, [a_small, always, large], Refused(9, 1)),
        fulfilling("no bound by c, b of 65,520", 60, [unbounded, large, always], Refused(9, 1)),
    ]
}

/// Check 1.
fn lengths() -> Vec<Case> {
    let cut = |length| small()[..length].to_vec();
    let total = |low, high| changed(&[(8, low), (9, high)]);
    vec![
        case("no byte", vec![], Refused(1, 0)),
        case("9 bytes", cut(9), Refused(1, 0)),
        case("a header alone", cut(10), Refused(1, 0)),
        case("a byte too few", cut(22), Refused(1, 0)),
        case("a byte too many", [small(), vec![0]].concat(), Refused(1, 0)),
        case("a total one too low", total(22, 0), Refused(1, 0)),
        case("a total one too high", total(24, 0), Refused(1, 0)),
        case("a total with a high byte", total(23, 1), Refused(1, 0)),
    ]
}

/// The small sheet with some bytes changed.
fn changed(changes: &[(usize, u8)]) -> Vec<u8> {
    let mut bytes = small();
    changes.iter().for_each(|&(offset, byte)| bytes[offset] = byte);
    bytes
}

/// Check 2.
fn counts() -> Vec<Case> {
    let with = |offset, byte| changed(&[(offset, byte)]);
    let seventeen = Sheet { actions: vec![1; 17], nodes: vec![node(12, 1, [0; 3])] };
    let sixty_five = Sheet { actions: vec![1], nodes: vec![node(12, 1, [0; 3]); 65] };
    vec![
        case("no action", with(0, 0), Refused(2, 0)),
        case("17 actions said", with(0, 17), Refused(2, 0)),
        case("17 actions there", seventeen.bytes(), Refused(2, 0)),
        case("260 actions", with(1, 1), Refused(2, 0)),
        case("no node", with(2, 0), Refused(2, 0)),
        case("65 nodes said", with(2, 65), Refused(2, 0)),
        case("65 nodes there", sixty_five.bytes(), Refused(2, 0)),
        case("257 nodes", with(3, 1), Refused(2, 0)),
    ]
}

/// Check 3.
fn areas() -> Vec<Case> {
    let with = |name, changes: &[(usize, u8)]| case(name, changed(changes), Refused(3, 0));
    vec![
        with("the node list ends behind the total", &[(2, 2)]),
        with("the node list begins one later", &[(6, 19)]),
        with("the action list begins in the header", &[(4, 9)]),
        with("the node list begins in the header", &[(6, 9)]),
        with("the lists overlap by a byte", &[(4, 11)]),
        with("the node list begins in the actions", &[(6, 17)]),
        with("the lists begin together", &[(6, 10)]),
        with("the action list far behind", &[(5, 255)]),
        with("the node list at 65,535", &[(6, 255), (7, 255)]),
        with("the action list at 65,535", &[(4, 255), (5, 255)]),
    ]
}

/// Areas in either order, with bytes around them that nobody reads.
fn layouts() -> Vec<Case> {
    let spread = |gaps| spread(&count(2).sheet(&ROASTERY), gaps, true);
    let turned = |gaps| turned(&count(2).sheet(&ROASTERY), gaps);
    vec![
        case("actions first, no gap", spread([0, 0, 0]), SMALL),
        case("actions first, gaps", spread([3, 2, 1]), SMALL),
        case("actions first, a long tail", spread([0, 0, 300]), SMALL),
        case("nodes first, no gap", turned([0, 0, 0]), SMALL),
        case("nodes first, gaps", turned([1, 2, 3]), SMALL),
        case("nodes first, 255 bytes before", turned([255, 0, 0]), SMALL),
    ]
}

/// The lists of a sheet with gaps before, between and behind them, filled with 170.
fn spread(sheet: &Sheet, gaps: [usize; 3], actions_first: bool) -> Vec<u8> {
    let plain = sheet.bytes();
    let (actions, nodes) = plain[HEADER..].split_at(2 * sheet.actions.len());
    let (one, two) = if actions_first { (actions, nodes) } else { (nodes, actions) };
    let first = HEADER + gaps[0];
    let second = first + one.len() + gaps[1];
    let total = second + two.len() + gaps[2];
    let (action_list, node_list) = if actions_first { (first, second) } else { (second, first) };
    let mut bytes = plain[..4].to_vec();
    bytes.extend([action_list, node_list, total].iter().flat_map(|number| (*number as u16).to_le_bytes()));
    bytes.resize(first, 170);
    bytes.extend(one);
    bytes.resize(second, 170);
    bytes.extend(two);
    bytes.resize(total, 170);
    bytes
}

fn turned(sheet: &Sheet, gaps: [usize; 3]) -> Vec<u8> {
    spread(sheet, gaps, false)
}

/// The longest sheet, its lists at its end; and one whose node list would end behind 65,535.
fn long() -> Vec<Case> {
    let sheet = count(2).sheet(&ROASTERY);
    let lists = 2 * ROASTERY.len() + NODE;
    let mut past = spread(&sheet, [0, 0, 0], true);
    past[6..8].copy_from_slice(&65_532u16.to_le_bytes());
    vec![
        case("65,535 bytes, lists at the end", spread(&sheet, [65_535 - HEADER - lists, 0, 0], true), SMALL),
        case("a node list past 65,535", past, Refused(3, 0)),
    ]
}

/// Areas that are too short: refused before the sheet is looked at.
fn lent() -> Vec<Case> {
    let with = |name: &str, lent, sheet| Case { name: name.into(), lent, sheet, stated: Refused(14, 0) };
    vec![
        with("a table area of 1,031 bytes", Lent::ShortOutput, small()),
        with("a work area of 65,535 bytes", Lent::ShortWork, small()),
        with("a list of 1,023 numbers", Lent::ShortValues, small()),
        with("a sheet of 9 bytes, and a table area of 1,031", Lent::ShortOutput, small()[..9].to_vec()),
        with("no sheet, and a work area of 65,535", Lent::ShortWork, vec![]),
    ]
}

/// Check 4.
fn kinds() -> Vec<Case> {
    let unknown = [0, 7, 8, 9, 24, 25, 128, 255];
    let first = unknown.map(|kind| (format!("kind {kind}"), nodes(&[node(kind, 0, [0; 3])]), Refused(4, 0)));
    let second = unknown.map(|kind| {
        let sheet = nodes(&[node(12, 1, [0; 3]), node(kind, 9, [9; 3])]);
        (format!("kind {kind} at node 1"), sheet, Refused(4, 1))
    });
    first.into_iter().chain(second).map(|(name, sheet, stated)| case(&name, sheet, stated)).collect()
}

/// A faulty second node behind Count 1 or proposition 0, by what its kind takes.
fn second(name: &str, second: Node, stated: Stated) -> Case {
    let first = if matches!(second.kind, 4..=6 | 10 | 11 | 23) { node(3, 0, [0; 3]) } else { node(12, 1, [0; 3]) };
    case(name, nodes(&[first, second]), stated)
}

/// Check 5: arguments.
fn arguments() -> Vec<Case> {
    let one = |name, kind, argument| case(name, nodes(&[node(kind, argument, [0; 3])]), Refused(5, 0));
    vec![
        one("true with an argument", 1, 1),
        one("false with an argument", 2, 255),
        one("proposition 16", 3, 16),
        one("proposition 255", 3, 255),
        one("Count 0", 12, 0),
        one("Count 255", 12, 255),
        second("Now with an argument", node(10, 1, [0; 3]), Refused(5, 1)),
        second("Not with an argument", node(13, 1, [0; 3]), Refused(5, 1)),
        second("Ignoring with an argument", node(23, 1, [0; 3]), Refused(5, 1)),
        second("Fulfilling 0", node(22, 0, [0; 3]), Refused(5, 1)),
        second("Fulfilling 61", node(22, 61, [0; 3]), Refused(5, 1)),
    ]
}

/// Check 5: parts that are no earlier nodes, and fields that the kind does not use.
fn parts() -> Vec<Case> {
    let one = |name, this| case(name, nodes(&[this]), Refused(5, 0));
    let two = |name, this| second(name, this, Refused(5, 1));
    vec![
        one("Now of itself", node(10, 0, [0; 3])),
        one("Count with a part c", node(12, 1, [0, 0, 1])),
        one("true with a part a", node(1, 0, [1, 0, 0])),
        two("Not of itself", node(13, 0, [1, 0, 0])),
        two("Not of a later node", node(13, 0, [2, 0, 0])),
        two("Not with a part b", node(13, 0, [0, 1, 0])),
        two("Eventually of node 255", node(16, 0, [255, 0, 0])),
        two("Or of itself", node(15, 0, [0, 1, 0])),
        two("Or with a part c", node(15, 0, [0, 0, 1])),
        two("Before- of itself", node(18, 0, [1, 0, 0])),
        two("After+ with a part c", node(21, 0, [0, 0, 2])),
        two("Fulfilling whose c is itself", node(22, 1, [0, 0, 1])),
        two("Ignoring of itself", node(23, 0, [0, 1, 0])),
    ]
}

/// Check 6: for each kind a part of each wrong type. Nodes 0 to 2 are a formula, a watched and an enforced policy.
fn types() -> Vec<Case> {
    const FORMULA: u8 = 0;
    const WATCHED: u8 = 1;
    const ENFORCED: u8 = 2;
    let of = |kind: u8, argument: u8, parts: [u8; 3]| {
        let before = [node(3, 0, [0; 3]), node(10, 0, [0; 3]), node(11, 0, [0; 3])];
        let sheet = nodes(&[&before[..], &[node(kind, argument, parts)]].concat());
        case(&format!("kind {kind} {argument} of {parts:?}"), sheet, Refused(6, 3))
    };
    let mut all = Vec::new();
    for kind in [4, 10, 11] {
        all.extend([of(kind, 0, [WATCHED, 0, 0]), of(kind, 0, [ENFORCED, 0, 0])]);
    }
    for kind in [5, 6] {
        all.extend([of(kind, 0, [WATCHED, FORMULA, 0]), of(kind, 0, [FORMULA, ENFORCED, 0])]);
    }
    all.push(of(13, 0, [FORMULA, 0, 0]));
    for kind in [14, 15] {
        all.extend([of(kind, 0, [WATCHED, ENFORCED, 0]), of(kind, 0, [ENFORCED, WATCHED, 0])]);
        all.extend([of(kind, 0, [FORMULA, FORMULA, 0]), of(kind, 0, [WATCHED, FORMULA, 0])]);
    }
    for (kind, wrong) in [(16, ENFORCED), (17, WATCHED)] {
        all.extend([of(kind, 0, [wrong, 0, 0]), of(kind, 0, [FORMULA, 0, 0])]);
    }
    for (kind, right, wrong) in [(18, WATCHED, ENFORCED), (19, ENFORCED, WATCHED)] {
        for kind in [kind, kind + 2] {
            all.extend([of(kind, 0, [ENFORCED, right, 0]), of(kind, 0, [FORMULA, right, 0])]);
            all.extend([of(kind, 0, [WATCHED, wrong, 0]), of(kind, 0, [WATCHED, FORMULA, 0])]);
        }
    }
    // Whether k is the bound of a, which is 1, or not.
    for k in [1, 2, 60] {
        all.extend([of(22, k, [ENFORCED, ENFORCED, ENFORCED]), of(22, k, [FORMULA, ENFORCED, ENFORCED])]);
        all.extend([of(22, k, [WATCHED, WATCHED, ENFORCED]), of(22, k, [WATCHED, FORMULA, ENFORCED])]);
        all.extend([of(22, k, [WATCHED, ENFORCED, WATCHED]), of(22, k, [WATCHED, ENFORCED, FORMULA])]);
    }
    all.extend([of(23, 0, [WATCHED, WATCHED, 0]), of(23, 0, [FORMULA, FORMULA, 0])]);
    all
}

/// Check 6: a last node that is a formula.
fn lasts() -> Vec<Case> {
    let of = |name, all: &[Node], spot| case(name, nodes(all), Refused(6, spot));
    vec![
        of("true alone", &[node(1, 0, [0; 3])], 0),
        of("a formula behind a policy", &[node(12, 1, [0; 3]), node(3, 1, [0; 3])], 1),
        of("not behind a policy", &[node(3, 1, [0; 3]), node(11, 0, [0; 3]), node(4, 0, [0; 3])], 2),
    ]
}

/// The order of the checks: 4 and 5 node by node, then 6 and 7, then the last node's 6, then 8 and 9.
fn order() -> Vec<Case> {
    let tower = |count, last| {
        let mut all = Sheet::read(&tower(count)).expect("a sheet").nodes;
        all.push(last);
        nodes(&all)
    };
    let formula = node(3, 0, [0; 3]);
    // Node 3 is Fulfilling 2 (Now p0), which nothing is wrong with; some nodes, the last an enforced one; And of both.
    let behind = |name: &str, actions: &[u16], more: &[Node], stated| {
        let first = [formula, node(10, 0, [0; 3]), node(11, 0, [0; 3]), node(22, 2, [1, 2, 2])];
        let last = node(14, 0, [3, 3 + more.len() as u8, 0]);
        let nodes = [&first[..], more, &[last]].concat();
        case(name, Sheet { actions: actions.to_vec(), nodes }.bytes(), stated)
    };
    let mut doubled = vec![node(12, 60, [0; 3])];
    doubled.extend((4..15).map(|n| node(20, 0, [n, n, 0])));
    doubled.push(node(13, 0, [15, 0, 0]));
    let sixty_five = [node(12, 60, [0; 3]), node(12, 5, [0; 3]), node(20, 0, [4, 5, 0]), node(13, 0, [6, 0, 0])];
    let ill_typed = [node(17, 0, [1, 0, 0])];
    let many = [
        node(12, 33, [0; 3]),
        node(23, 0, [0, 4, 0]),
        node(3, 1, [0; 3]),
        node(12, 32, [0; 3]),
        node(23, 0, [6, 7, 0]),
        node(15, 0, [5, 8, 0]),
        node(13, 0, [9, 0, 0]),
    ];
    vec![
        behind("6 behind a shorter wait", &ROASTERY, &ill_typed, Refused(6, 4)),
        behind("7 behind a shorter wait", &ROASTERY, &doubled, Refused(7, 15)),
        behind("8 behind a shorter wait", &TWO, &many, Refused(8, 9)),
        behind("9 behind a shorter wait", &ROASTERY, &sixty_five, Refused(9, 6)),
        case("4 before 7 of an earlier node", tower(12, node(99, 0, [0; 3])), Refused(4, 12)),
        case("5 before 7 of an earlier node", tower(12, node(13, 0, [12, 0, 0])), Refused(5, 12)),
        case("7 before 6 of the next node", tower(12, node(17, 0, [11, 0, 0])), Refused(7, 11)),
        case("7 of an earlier node", tower(12, node(13, 0, [11, 0, 0])), Refused(7, 11)),
        case("4 before 9 of an earlier node", tower(11, node(99, 0, [0; 3])), Refused(4, 11)),
        case("5 before 9 of an earlier node", tower(11, node(13, 0, [11, 0, 0])), Refused(5, 11)),
        case("6 before 9 of an earlier node", tower(11, node(17, 0, [10, 0, 0])), Refused(6, 11)),
        case("the last 6, and 9 of an unused node", tower(11, formula), Refused(6, 11)),
        case("the last 6, and 7 of an unused node", tower(12, formula), Refused(6, 12)),
        case("4 before 5", nodes(&[node(0, 9, [9; 3])]), Refused(4, 0)),
        case("5 before 6", nodes(&[formula, node(13, 9, [0; 3])]), Refused(5, 1)),
        case("2 before 3", changed(&[(0, 0), (4, 0)]), Refused(2, 0)),
        case("3 before 4", changed(&[(4, 0), (18, 0)]), Refused(3, 0)),
        case("1 before 2", changed(&[(0, 0), (8, 0)]), Refused(1, 0)),
    ]
}

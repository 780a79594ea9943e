//! Sheets and lists of actions with the answer of explaining stated beside each: denials and their nodes, lists that are
//! permitted, each refusal, and two refusals where the earlier check decides.

use super::{sheets, small_roastery, Case, Lent, Stated};
use crate::sheet::{Node, Sheet};
use crate::trees::ROASTERY;

/// A sheet and a list, what is lent beside them, and what is stated of the answer.
pub struct DenialCase {
    pub name: String,
    pub lent: Lent,
    pub sheet: Vec<u8>,
    /// So often action 0 stands before the rest of the list.
    pub before: usize,
    pub rest: Vec<u8>,
    pub stated: Explained,
}

/// What is stated of a list.
#[derive(Clone, Copy, Debug, PartialEq, Eq)]
pub enum Explained {
    /// No action is denied.
    Permitted,
    /// The place of the first denied action, and the node.
    Denied(u64, u8),
    /// Number and spot.
    Refused(u8, u8),
}

use Explained::*;

impl DenialCase {
    /// The whole list.
    pub fn list(&self) -> Vec<u8> {
        [vec![0; self.before], self.rest.clone()].concat()
    }
}

/// A node: kind, argument, parts.
type Fields = [u8; 5];

fn sheet_over(actions: &[u16], nodes: &[Fields]) -> Vec<u8> {
    let node = |&[kind, argument, a, b, c]: &Fields| Node { kind, argument, parts: [a, b, c] };
    Sheet { actions: actions.to_vec(), nodes: nodes.iter().map(node).collect() }.bytes()
}

fn case(name: &str, sheet: Vec<u8>, rest: &[u8], stated: Explained) -> DenialCase {
    DenialCase { name: name.into(), lent: Lent::Whole, sheet, before: 0, rest: rest.to_vec(), stated }
}

/// Over the roastery's actions: charge, drop, tray, log.
fn of(name: &str, nodes: &[Fields], rest: &[u8], stated: Explained) -> DenialCase {
    case(name, sheet_over(&ROASTERY, nodes), rest, stated)
}

/// Nodes 0 to 3: no charge.
const NO_CHARGE: [Fields; 4] = [[3, 0, 0, 0, 0], [4, 0, 0, 0, 0], [11, 0, 1, 0, 0], [17, 0, 2, 0, 0]];
/// Nodes 4 to 7: no drop.
const NO_DROP: [Fields; 4] = [[3, 1, 0, 0, 0], [4, 0, 4, 0, 0], [11, 0, 5, 0, 0], [17, 0, 6, 0, 0]];

/// Node 3 forbids a charge, node 7 a drop; these nodes come behind.
fn both(more: &[Fields]) -> Vec<Fields> {
    [&NO_CHARGE[..], &NO_DROP, more].concat()
}

fn and(a: u8, b: u8) -> Fields {
    [14, 0, a, b, 0]
}
fn or(a: u8, b: u8) -> Fields {
    [15, 0, a, b, 0]
}
fn not(a: u8) -> Fields {
    [13, 0, a, 0, 0]
}
fn count(k: u8) -> Fields {
    [12, k, 0, 0, 0]
}

/// All of them, denials first.
pub fn all() -> Vec<DenialCase> {
    let denials = [places(), parts(), lowest(), shared(), other_kinds(), waits(), unused(), long()];
    denials.into_iter().chain([no_action(), compiler(), order(), short_areas()]).flatten().collect()
}

/// The place, by one policy without And.
fn places() -> Vec<DenialCase> {
    let no_charge = |name, rest: &[u8], stated| of(name, &NO_CHARGE, rest, stated);
    let at_most = |k: u8, given: usize, stated| {
        let name = format!("fewer than {k} actions, {given} given");
        of(&name, &[count(k), not(0)], &vec![2; given], stated)
    };
    vec![
        no_charge("no charge: the empty list", &[], Permitted),
        no_charge("no charge: permitted", &[1, 2, 3, 2, 1], Permitted),
        no_charge("no charge: at place 0", &[0], Denied(0, 3)),
        no_charge("no charge: at place 0 of four", &[0, 1, 2, 3], Denied(0, 3)),
        no_charge("no charge: at the last place", &[1, 2, 3, 0], Denied(3, 3)),
        no_charge("no charge: the first of three", &[2, 0, 1, 0, 0], Denied(1, 3)),
        of("the first action is a drop: it is", &NO_DROP_FIRST, &[0, 1], Permitted),
        of("the first action is no drop: it is", &NO_DROP_FIRST, &[1, 0], Denied(0, 2)),
        of("nothing is permitted, the empty list", &[[2, 0, 0, 0, 0], [11, 0, 0, 0, 0]], &[], Permitted),
        of("nothing is permitted", &[[2, 0, 0, 0, 0], [11, 0, 0, 0, 0]], &[3], Denied(0, 1)),
        of("everything is permitted", &[[1, 0, 0, 0, 0], [11, 0, 0, 0, 0]], &[0, 1, 2, 3], Permitted),
        at_most(1, 0, Permitted),
        at_most(1, 1, Denied(0, 1)),
        at_most(60, 59, Permitted),
        at_most(60, 60, Denied(59, 1)),
        at_most(60, 300, Denied(59, 1)),
        case("one action", sheet_over(&[0], &[count(3), not(0)]), &[0, 0, 0], Denied(2, 1)),
        case("16 actions", sheet_over(&[1; 16], &NO_CHARGE), &[15], Denied(0, 3)),
        case("16 actions, all other", sheet_over(&[2; 16], &NO_CHARGE), &[15, 0, 7], Permitted),
    ]
}

const NO_DROP_FIRST: [Fields; 3] = [[3, 1, 0, 0, 0], [4, 0, 0, 0, 0], [11, 0, 1, 0, 0]];

/// The part of an And that is violated, also through several.
fn parts() -> Vec<DenialCase> {
    let two = |name, rest: &[u8], stated| of(name, &both(&[and(3, 7)]), rest, stated);
    let three = |name, rest: &[u8], stated| of(name, &both(&[and(3, 7), count(3), not(9), and(8, 10)]), rest, stated);
    let first = |name, rest: &[u8], stated| {
        let nodes = [NO_CHARGE[0], NO_CHARGE[1], NO_CHARGE[2], [3, 2, 0, 0, 0], [4, 0, 3, 0, 0], [11, 0, 4, 0, 0]];
        of(name, &[&nodes[..], &[and(2, 5)]].concat(), rest, stated)
    };
    vec![
        two("no charge and no drop: a charge", &[2, 0], Denied(1, 3)),
        two("no charge and no drop: a drop", &[2, 1], Denied(1, 7)),
        two("no charge and no drop: a charge, then a drop", &[0, 1], Denied(0, 3)),
        two("no charge and no drop: a drop, then a charge", &[1, 0], Denied(0, 7)),
        two("no charge and no drop: neither", &[2, 3], Permitted),
        two("no charge and no drop: the empty list", &[], Permitted),
        three("And of And: a charge", &[2, 0], Denied(1, 3)),
        three("And of And: a drop", &[2, 1], Denied(1, 7)),
        three("And of And: the third action", &[2, 2, 2], Denied(2, 10)),
        three("And of And: the third action is a drop", &[2, 2, 1], Denied(2, 7)),
        three("And of And: two actions", &[2, 3], Permitted),
        first("only the first action counts: a charge", &[0], Denied(0, 2)),
        first("only the first action counts: a tray", &[2], Denied(0, 5)),
        first("only the first action counts: a log", &[3, 0, 2], Permitted),
        of("And to the right", &both(&[count(2), not(8), and(7, 9), and(3, 10)]), &[2, 2], Denied(1, 9)),
        of("And of one node twice", &[&NO_CHARGE[..], &[and(3, 3)]].concat(), &[1, 0], Denied(1, 3)),
        of("60 Ands, each of the one before twice", &deep_and(), &[1, 0], Denied(1, 3)),
        of("60 Ands, permitted", &deep_and(), &[1, 2], Permitted),
    ]
}

/// A charge is forbidden by node 3; nodes 4 to 63 are And of the node before, twice.
fn deep_and() -> Vec<Fields> {
    let ands = (4..64).map(|n| and(n - 1, n - 1));
    NO_CHARGE.into_iter().chain(ands).collect()
}

/// Several parts are violated by one action: the lowest number is named, wherever it stands.
fn lowest() -> Vec<DenialCase> {
    // Action 4 is a charge and a drop.
    let list = [1, 2, 4, 8, 3];
    let over = |name, more: &[Fields], rest: &[u8], stated| case(name, sheet_over(&list, &both(more)), rest, stated);
    let counted = [count(2), not(8), and(9, 7), and(10, 3)];
    vec![
        over("two are violated, left first", &[and(3, 7)], &[2, 4], Denied(1, 3)),
        over("two are violated, right first", &[and(7, 3)], &[2, 4], Denied(1, 3)),
        over("three are violated", &counted, &[2, 4], Denied(1, 3)),
        over("two of three are violated", &counted, &[2, 1], Denied(1, 7)),
        over("one of three is violated", &counted, &[2, 3], Denied(1, 9)),
        over("one of three, at place 0", &counted, &[4], Denied(0, 3)),
        over("two nodes of one meaning", &[[17, 0, 2, 0, 0], and(8, 3)], &[0], Denied(0, 3)),
        over("two nodes of one meaning, one reached", &[[17, 0, 2, 0, 0], and(8, 7)], &[0], Denied(0, 8)),
    ]
}

/// Nodes that are reached in two ways.
fn shared() -> Vec<DenialCase> {
    vec![
        of("a part of two Ands", &both(&[and(3, 7), and(7, 3), and(8, 9)]), &[2, 1], Denied(1, 7)),
        of("a part of two Ands, a charge", &both(&[and(7, 7), and(3, 7), and(8, 9)]), &[2, 0], Denied(1, 3)),
        of("a part of And and of Or, Or satisfied", &both(&[or(3, 7), and(8, 7)]), &[1], Denied(0, 7)),
        of("a part of And and of Or, both violated", &both(&[or(3, 7), and(8, 7)]), &[0, 1], Denied(1, 7)),
        of("a part of And and of Or, permitted", &both(&[or(3, 7), and(8, 7)]), &[0, 2, 0], Permitted),
        of("And under Or and beside it", &both(&[and(3, 7), or(8, 3), and(9, 8)]), &[2, 1], Denied(1, 7)),
    ]
}

/// Other kinds are not gone through: they are named, and not what stands below them.
fn other_kinds() -> Vec<DenialCase> {
    // Node 8 is And of no charge and no drop; the policy is made of it.
    let over =
        |name, more: &[Fields], rest: &[u8], stated| of(name, &both(&[&[and(3, 7)], more].concat()), rest, stated);
    let no_tray: [Fields; 4] = [[3, 2, 0, 0, 0], [4, 0, 9, 0, 0], [11, 0, 10, 0, 0], [17, 0, 11, 0, 0]];
    let with_tray = |more: &[Fields]| [&no_tray[..], more].concat();
    let tray: [Fields; 3] = [[3, 2, 0, 0, 0], [10, 0, 9, 0, 0], [16, 0, 10, 0, 0]];
    let behind_tray = |last: Fields| [&tray[..], &[last]].concat();
    let both_came: [Fields; 8] = [
        [3, 0, 0, 0, 0],
        [10, 0, 0, 0, 0],
        [16, 0, 1, 0, 0],
        [3, 1, 0, 0, 0],
        [10, 0, 3, 0, 0],
        [16, 0, 4, 0, 0],
        and(2, 5),
        not(6),
    ];
    let first = [NO_CHARGE[0], NO_CHARGE[1], NO_CHARGE[2], [3, 1, 0, 0, 0], [4, 0, 3, 0, 0], [11, 0, 4, 0, 0]];
    let first = |more: &[Fields]| [&first[..], &[and(2, 5)], more].concat();
    vec![
        over("And under Or: one side satisfied", &with_tray(&[or(8, 12)]), &[0], Permitted),
        over("And under Or", &with_tray(&[or(8, 12)]), &[0, 2], Denied(1, 13)),
        over("Or under And", &with_tray(&[or(8, 12), count(9), not(14), and(13, 15)]), &[0, 2], Denied(1, 13)),
        over("And under Or under And", &with_tray(&[or(8, 12), and(13, 12)]), &[0, 2], Denied(1, 12)),
        over("Not of Not of And", &[not(8), not(9)], &[2, 0], Denied(1, 10)),
        of("Not of And, watched", &both_came, &[0, 2, 1], Denied(2, 7)),
        of("Not of And, watched: permitted", &both_came, &[0, 2, 0], Permitted),
        over("Not of Not of And, under And", &[not(8), not(9), count(7), not(11), and(10, 12)], &[0], Denied(0, 10)),
        of("Always over And", &first(&[[17, 0, 6, 0, 0]]), &[2, 0], Denied(1, 7)),
        of("Always over And, under And", &first(&[[17, 0, 6, 0, 0], and(7, 6)]), &[0], Denied(0, 2)),
        of("Always over And, under And, later", &first(&[[17, 0, 6, 0, 0], and(7, 6)]), &[2, 0], Denied(1, 7)),
        over("Before+ over And", &behind_tray([19, 0, 11, 8, 0]), &[3, 1], Denied(1, 12)),
        over("Before+ over And, released", &behind_tray([19, 0, 11, 8, 0]), &[3, 2, 1, 0], Permitted),
        over("After+ over And", &behind_tray([21, 0, 11, 8, 0]), &[0, 2, 1], Denied(2, 12)),
        over("After+ over And, not yet", &behind_tray([21, 0, 11, 8, 0]), &[0, 1, 3], Permitted),
        over("Fulfilling over And", &[count(1), [22, 1, 9, 8, 7]], &[1, 0], Denied(1, 10)),
        over("Ignoring over And", &[[3, 3, 0, 0, 0], [23, 0, 9, 8, 0]], &[3, 3, 1], Denied(2, 10)),
        over("Ignoring over And, ignored", &[[3, 3, 0, 0, 0], [23, 0, 9, 8, 0]], &[3, 3, 2], Permitted),
    ]
}

/// Fulfilling 2 of an a that has no bound, a log: b is no charge (node 3), c no drop (node 7).
fn waits() -> Vec<DenialCase> {
    let log: [Fields; 4] = [[3, 3, 0, 0, 0], [10, 0, 8, 0, 0], [16, 0, 9, 0, 0], [22, 2, 10, 3, 7]];
    let alone = |name, rest: &[u8], stated| of(name, &both(&log), rest, stated);
    // With fewer than five actions, and with no drop at all.
    let few = |name, rest: &[u8], stated| {
        of(name, &both(&[&log[..], &[count(5), not(12), and(11, 13)]].concat()), rest, stated)
    };
    let beside = |name, rest: &[u8], stated| of(name, &both(&[&log[..], &[and(11, 7)]].concat()), rest, stated);
    vec![
        alone("a wait of 2: the empty list", &[], Permitted),
        alone("a wait of 2: anything while it waits", &[0, 1, 0], Permitted),
        alone("a wait of 2: the second action is not judged by c", &[1, 1], Permitted),
        alone("a wait of 2: c behind the second action", &[2, 2, 1], Denied(2, 11)),
        alone("a wait of 2: c, three drops", &[1, 1, 1], Denied(2, 11)),
        alone("a wait of 2: a log as the third is too late", &[2, 2, 3, 1], Denied(3, 11)),
        alone("a wait of 2: a log as the third, a charge", &[2, 2, 3, 0], Permitted),
        alone("a wait of 2: a log as the second is in time", &[2, 3, 1], Permitted),
        alone("a wait of 2: b behind the second action", &[2, 3, 1, 0], Denied(3, 11)),
        alone("a wait of 2: b behind the first action", &[3, 0], Denied(1, 11)),
        alone("a wait of 2: b behind the first, a drop", &[3, 1, 1, 1], Permitted),
        few("a wait of 2 under And: c", &[2, 2, 1], Denied(2, 11)),
        few("a wait of 2 under And: too late", &[2, 2, 3, 1], Denied(3, 11)),
        few("a wait of 2 under And: b", &[2, 3, 1, 0], Denied(3, 11)),
        few("a wait of 2 under And: in time, four actions", &[2, 3, 1, 1], Permitted),
        few("a wait of 2 under And: in time, five actions", &[2, 3, 1, 1, 1], Denied(4, 13)),
        few("a wait of 2 under And: both violated", &[2, 2, 2, 2, 1], Denied(4, 11)),
        beside("a wait of 2 and c itself under And: in the wait", &[2, 1], Denied(1, 7)),
        beside("a wait of 2 and c itself under And: behind it", &[2, 2, 1], Denied(2, 7)),
        beside("a wait of 2 and c itself under And: b", &[3, 0], Denied(1, 11)),
    ]
}

/// Nodes that the policy does not use are not named, and neither typed nor built. The others keep their numbers.
fn unused() -> Vec<DenialCase> {
    // Nodes 0 to 3: Count 60, an ill-typed Always, 120 rows, and an And of these. No charge is node 7, no drop 11.
    let left = [count(60), [17, 0, 0, 0, 0], [20, 0, 0, 0, 0], and(1, 2)];
    let behind = |name, more: &[Fields], rest: &[u8], stated| {
        let shifted = both(&[]).into_iter().map(|[kind, argument, a, b, c]| match kind {
            3 => [kind, argument, a, b, c],
            _ => [kind, argument, a + 4, b, c],
        });
        of(name, &left.into_iter().chain(shifted).chain(more.to_vec()).collect::<Vec<_>>(), rest, stated)
    };
    vec![
        behind("unused nodes in front: a charge", &[and(7, 11)], &[2, 0], Denied(1, 7)),
        behind("unused nodes in front: a drop", &[and(7, 11)], &[2, 1], Denied(1, 11)),
        behind("unused nodes in front: permitted", &[and(7, 11)], &[2, 3], Permitted),
        behind("unused nodes in front: no action", &[and(7, 11)], &[2, 4], Refused(12, 0)),
        behind("an unused And between", &[and(7, 1), and(11, 11)], &[0, 1], Denied(1, 11)),
        behind("an ill-typed part of And", &[and(7, 1)], &[0], Refused(6, 1)),
        behind("a part of 120 rows", &[not(2), and(7, 12)], &[0], Refused(9, 2)),
        of("9 of a node that is not used", &[count(60), count(5), [20, 0, 0, 1, 0], not(0)], &[0], Permitted),
        of("a lower node that is not used", &both(&[]), &[0, 1], Denied(1, 7)),
        of("an And that is not used", &both(&[and(3, 7), count(2), not(9)]), &[0, 1], Denied(1, 10)),
        of("And over some of the nodes", &both(&[and(3, 7), count(2), not(9), and(7, 10)]), &[0, 2], Denied(1, 10)),
        of("a watched node before", &[&NO_CHARGE[..], &[count(1), and(3, 3)]].concat(), &[1, 0], Denied(1, 3)),
    ]
}

/// Places over 65,535.
fn long() -> Vec<DenialCase> {
    let charges = |name: &str, before, rest: &[u8], stated| {
        let no_drop = [[3, 1, 0, 0, 0], [4, 0, 0, 0, 0], [11, 0, 1, 0, 0], [17, 0, 2, 0, 0]];
        DenialCase { before, ..of(name, &no_drop, rest, stated) }
    };
    vec![
        charges("at place 255", 255, &[1], Denied(255, 3)),
        charges("at place 256", 256, &[1, 1], Denied(256, 3)),
        charges("at place 65,535", 65_535, &[1], Denied(65_535, 3)),
        charges("at place 65,536", 65_535, &[0, 1, 0], Denied(65_536, 3)),
        charges("at place 65,790", 65_535, &[[0; 255].as_slice(), &[1; 9]].concat(), Denied(65_790, 3)),
        charges("65,935 actions, permitted", 65_535, &[3; 400], Permitted),
        charges("65,536 actions, the last is none", 65_535, &[4], Refused(12, 0)),
    ]
}

/// Check 12, anywhere in the list.
fn no_action() -> Vec<DenialCase> {
    let none = |name, rest: &[u8]| of(name, &both(&[and(3, 7)]), rest, Refused(12, 0));
    vec![
        none("number 4", &[4]),
        none("number 255", &[255]),
        none("number 4 behind two that are permitted", &[2, 3, 4]),
        none("number 4 before the denial", &[4, 0]),
        none("number 4 behind the denial", &[2, 0, 4]),
        none("number 128 far behind the denial", &[&[0; 300][..], &[128]].concat()),
        case("number 16 of 16 actions", sheet_over(&[2; 16], &NO_CHARGE), &[0, 16], Refused(12, 0)),
        case("number 1 of one action", sheet_over(&[0], &[count(3), not(0)]), &[1], Refused(12, 0)),
    ]
}

/// Most of a sheet's bytes where it is one of the corpus.
const LONGEST: usize = 400;

/// The compiler's refusals, of sheets for which they are stated: some of each.
fn compiler() -> Vec<DenialCase> {
    let mut all = Vec::new();
    for number in 1..=9 {
        let stated = small_roastery().into_iter().chain(sheets::all());
        let these = stated.filter_map(|Case { name, lent, sheet, stated }| match stated {
            Stated::Refused(this, spot) if this == number && lent == Lent::Whole && sheet.len() <= LONGEST => {
                Some(case(&name, sheet, &[0], Refused(number, spot)))
            }
            _ => None,
        });
        all.extend(these.take(5));
    }
    all
}

/// The order of the checks.
fn order() -> Vec<DenialCase> {
    let watched = |name, rest: &[u8]| of(name, &[count(2)], rest, Refused(34, 0));
    vec![
        watched("a watched sheet", &[0, 1]),
        watched("a watched sheet, the empty list", &[]),
        watched("34 before 12", &[9]),
        of("watched, And", &[count(2), count(3), and(0, 1)], &[0, 1, 2], Refused(34, 0)),
        of("4 before 34 and 12", &[[7, 0, 0, 0, 0], count(2)], &[9], Refused(4, 0)),
        of("5 before 12", &[count(61), not(0)], &[9], Refused(5, 0)),
        of("6 before 34", &[count(2), [17, 0, 0, 0, 0], not(1)], &[0], Refused(6, 1)),
        of("5 of a later node before 6", &[count(2), [17, 0, 0, 0, 0], [13, 0, 1, 1, 0]], &[0], Refused(5, 2)),
        of("9 before 34", &[count(60), count(5), [20, 0, 0, 1, 0]], &[0], Refused(9, 2)),
        of("9 before 12", &[count(60), count(5), [20, 0, 0, 1, 0], not(2)], &[9], Refused(9, 2)),
        of("4 of a node that is not used before 34", &[[99, 0, 0, 0, 0], count(2)], &[9], Refused(4, 0)),
        of("5 of a node that is not used before 12", &[count(61), count(2), not(1)], &[9], Refused(5, 0)),
        of("34 beside 6 of a node that is not used", &[count(2), [17, 0, 0, 0, 0], count(2)], &[0], Refused(34, 0)),
        of(
            "12 beside 9 of a node that is not used",
            &[count(60), count(5), [20, 0, 0, 1, 0], not(0)],
            &[4],
            Refused(12, 0),
        ),
        case("1 before 12", vec![0; 9], &[9], Refused(1, 0)),
        case("no sheet and no list", vec![], &[], Refused(1, 0)),
    ]
}

/// Check 14, before all others.
fn short_areas() -> Vec<DenialCase> {
    let mut all = Vec::new();
    for (area, lent) in [("place", Lent::ShortOutput), ("work", Lent::ShortWork), ("values", Lent::ShortValues)] {
        let short = |name, sheet, rest: &[u8]| DenialCase {
            lent,
            ..case(&format!("short {area}: {name}"), sheet, rest, Refused(14, 0))
        };
        all.push(short("a denial", sheet_over(&ROASTERY, &NO_CHARGE), &[1, 0]));
        all.push(short("permitted", sheet_over(&ROASTERY, &NO_CHARGE), &[1]));
        all.push(short("no sheet", vec![], &[]));
        all.push(short("a watched sheet, no action", sheet_over(&ROASTERY, &[count(2)]), &[9]));
    }
    all
}

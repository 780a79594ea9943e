//! Sheets whose values and rows are known by arithmetic, so that their answers are known too.

use super::{case, Case, Stated};
use crate::sheet::{Node, Sheet};
use crate::trees::*;

/// Three actions: proposition 0, proposition 1, and none.
const THREE: [u16; 3] = [1, 2, 0];

/// What is known of a policy whose only large node is the last.
fn outcome(word: &'static str, values: usize, rows: usize, spot: usize) -> Stated {
    match (values, rows) {
        (1025.., _) => Stated::Refused(8, spot as u8),
        (_, 65..) => Stated::Refused(9, spot as u8),
        _ => Stated::Rows(word, rows),
    }
}

fn known(name: String, tree: Tree, actions: &[u16], values: usize, rows: usize) -> Case {
    let sheet = tree.sheet(actions);
    case(&name, sheet.bytes(), outcome("mon", values, rows, sheet.nodes.len() - 1))
}

/// After- (Count i) (Count j): i + j values, all of them rows.
fn in_turn(i: u8, j: u8) -> Case {
    let all = i as usize + j as usize;
    known(format!("After- Counts {i} {j}"), after_watched(count(i), count(j)), &TWO, all, all)
}

/// Not (Fulfilling i (Count i) (Not Count j) (Not Count j)): i values before b begins and j in it, all of them rows.
fn fulfilled(i: u8, j: u8) -> Case {
    let all = i as usize + j as usize;
    let then = not(count(j));
    let tree = fulfilling(i, count(i), then.clone(), then);
    let sheet = not(tree).sheet(&TWO);
    // Where there are too many, node Fulfilling itself is refused, which stands before Not.
    case(&format!("Not Fulfilling {i} {j}"), sheet.bytes(), outcome("mon", all, all, sheet.nodes.len() - 2))
}

/// Fulfilling k (Ignoring p0 (Count m)) b c: a has a row for each number of p1 below m. It is fulfilled in time, and b
/// begins, exactly where m is at most k; c always begins, behind k times p0.
fn waited(name: String, [k, m]: [usize; 2], b: Tree, c: Tree, values: usize, rows: usize) -> Case {
    let tree = fulfilling(k as u8, ignoring(prop(0), count(m as u8)), b, c);
    let sheet = tree.sheet(&TWO);
    case(&name, sheet.bytes(), outcome("enf", values, rows, sheet.nodes.len() - 1))
}

/// Values while it waits: after n actions 0 to n of them were p1, and fewer than m. Where m is at most k these are
/// 1 + 2 + .. + m and then m for each n, m * k - m * (m - 1) / 2 in all; else k * (k + 1) / 2.
fn waiting([k, m]: [usize; 2]) -> usize {
    if m <= k {
        m * k - m * (m - 1) / 2
    } else {
        k * (k + 1) / 2
    }
}

/// Rows while it waits and a can still be fulfilled in time, where b and c are not alike: t actions are left, and s times
/// p1 is wanted, s at most t. After n actions s is m - n to m, and at least 1.
fn open([k, m]: [usize; 2]) -> usize {
    (0..k).map(|n| (m.min(k - n) + 1).saturating_sub(m.saturating_sub(n).max(1))).sum()
}

/// b and c permit everything and have one row each: the values are many, and the row is one.
fn idle([k, m]: [usize; 2]) -> Case {
    let values = waiting([k, m]) + (m <= k) as usize + 1;
    waited(format!("Fulfilling {k} of {m}, nothing denied"), [k, m], holds(yes()), holds(yes()), values, 1)
}

/// b permits everything, c denies p1; one row each. Where too few actions are left for a, as many rows as are left.
fn denied_late([k, m]: [usize; 2]) -> Case {
    let begins = (m <= k) as usize;
    let lost = (1..=k).filter(|&left| m > left).count();
    let (values, rows) = (waiting([k, m]) + begins + 1, open([k, m]) + lost + begins + 1);
    waited(
        format!("Fulfilling {k} of {m}, else no p1"),
        [k, m],
        holds(yes()),
        always(holds(but(prop(1)))),
        values,
        rows,
    )
}

/// b asks for p1 next and has two rows, c permits everything and has one. Its row is that of b behind p1, and that of
/// a wait with too few actions left.
fn asked([k, m]: [usize; 2]) -> Case {
    let begins = (m <= k) as usize;
    let (values, rows) = (waiting([k, m]) + 2 * begins + 1, open([k, m]) + begins + 1);
    waited(format!("Fulfilling {k} of {m}, then p1"), [k, m], holds(prop(1)), holds(yes()), values, rows)
}

/// Or of two counts that each ignore the other's action: both stay below, i * j values, all of them rows.
fn product(i: u8, j: u8) -> Case {
    let all = i as usize * j as usize;
    known(format!("Or of Counts {i} {j}, both open"), two_counts(i, j), &TWO, all, all)
}

/// And of the same: each may have tripped but not both, (i + 1) * (j + 1) - 1 values, all of them rows.
fn conjunction(i: u8, j: u8) -> Case {
    let all = (i as usize + 1) * (j as usize + 1) - 1;
    let tree = tree(14, 0, [ignoring(prop(0), count(i)), ignoring(prop(1), count(j))]);
    known(format!("And of Counts {i} {j}"), tree, &THREE, all, all)
}

/// Eventually (After- (Now p0) (After- (Count k) (Now p1))): p0 and, k + 1 actions later, p1. Any set of the last
/// k + 1 actions may have had p0: 2^(k + 1) rows. Values tell besides whether a copy has been lost, which none has
/// while all actions, at most k + 1, had p0: k + 2 more.
fn remembered(k: u8) -> Case {
    let rows = 1 << (k + 1);
    let tree = eventually(after_watched(now(prop(0)), after_watched(count(k), now(prop(1)))));
    known(format!("the last {} actions", k + 1), tree, &THREE, rows + k as usize + 2, rows)
}

/// Count k and eleven nodes more, each After- of the one before twice: node n has k * 2^n values and rows and this
/// bound, so the last refuses with 7 where 2,048 k is above 65,534, else the first node of over 64 rows with 9.
fn doubled(k: u8) -> Case {
    let mut nodes = vec![Node { kind: 12, argument: k, parts: [0; 3] }];
    nodes.extend((0..11).map(|n| Node { kind: 20, argument: 0, parts: [n, n, 0] }));
    let over = (0..).find(|&n| (k as usize) << n > 64).expect("some power");
    let stated = if k as usize * 2048 > 65_534 { Stated::Refused(7, 11) } else { Stated::Refused(9, over) };
    case(&format!("Count {k}, doubled"), Sheet { actions: TWO.to_vec(), nodes }.bytes(), stated)
}

/// Some of each, near the limits and far from them.
pub fn all() -> Vec<Case> {
    let mut all: Vec<Case> = (1..=11).map(remembered).collect();
    let pairs = [(1, 1), (2, 7), (9, 1), (20, 30), (31, 33), (33, 31), (32, 33), (60, 4), (60, 5), (4, 60), (60, 60)];
    all.extend(pairs.iter().map(|&(i, j)| in_turn(i, j)));
    all.extend(pairs.iter().map(|&(i, j)| fulfilled(i, j)));
    let pairs = [(1, 1), (2, 3), (3, 5), (8, 8), (1, 60), (5, 13), (16, 4), (7, 10), (17, 60), (18, 57), (60, 60)];
    all.extend(pairs.iter().map(|&(i, j)| product(i, j)));
    let pairs = [(1, 1), (2, 2), (3, 7), (4, 12), (7, 7), (12, 4), (5, 10), (20, 40), (24, 40), (31, 32), (59, 60)];
    all.extend(pairs.iter().map(|&(i, j)| conjunction(i, j)));
    // 1,022 values while it waits where k is 50 and m is 28, and nowhere else; 1,023 in the three last.
    all.extend([[1, 60], [44, 60], [45, 60], [50, 28], [50, 29], [51, 28], [60, 20], [60, 21], [60, 60]].map(idle));
    all.extend([[57, 22], [48, 31], [47, 33]].map(idle));
    // m of 3: 3 k - 6 rows while a can be fulfilled, two while it cannot, b and c: 64 where k is 22.
    let waits = [[2, 3], [8, 8], [31, 2], [32, 2], [22, 3], [23, 3], [20, 5], [60, 1], [60, 21]];
    all.extend(waits.map(denied_late));
    // 1,022, two of b and one of c: 1,025.
    all.extend([[1, 60], [22, 3], [23, 3], [49, 28], [50, 28]].map(asked));
    all.extend([1, 2, 3, 4, 5, 8, 9, 16, 17, 31, 32, 33, 60].map(doubled));
    all
}

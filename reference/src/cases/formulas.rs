//! Sheets whose formulas are satisfied by no action, by every action or by some, over 1, 3 and 16 actions.

use super::spare::over;
use super::Stated::*;
use super::{case, Case, Stated};
use crate::trees::*;

/// Three actions: proposition 0, proposition 1, and none.
const THREE: [u16; 3] = [1, 2, 0];

fn of(name: &str, tree: Tree, actions: &[u16], stated: Stated) -> Case {
    case(name, tree.sheet(actions).bytes(), stated)
}

/// All of them.
pub fn all() -> Vec<Case> {
    [one_action(), three_actions(), sixteen_actions(), nodes()].into_iter().flatten().collect()
}

/// A set has no more actions than the sheet: `not` of no action is the one that there is, and `not` of that none.
fn one_action() -> Vec<Case> {
    vec![
        of("Now true, one action", now(yes()), &[0], Table("mon|-")),
        of("Now not false, one action", now(but(no())), &[0], Table("mon|-")),
        of("Holds false, one action", holds(no()), &[1], Table("enf|-")),
        of("Holds not true, one action of all propositions", holds(but(yes())), &[65_535], Table("enf|-")),
        of("Ignoring true Count 1, one action", ignoring(yes(), count(1)), &[1], Table("mon|0")),
    ]
}

fn three_actions() -> Vec<Case> {
    let and_not = tree(5, 0, [prop(0), but(prop(0))]);
    // Each action has propositions 1 to 15, or 1 and 15, or 15; the first alone has 0.
    let unnamed = [65_535, 32_770, 32_768];
    vec![
        // Everything is passed over, so nothing is denied.
        of("Ignoring true Holds false, three actions", ignoring(yes(), holds(no())), &THREE, Table("enf|0 0 0")),
        // The first action alone is counted.
        of("Ignoring not p0 Count 2, three actions", ignoring(but(prop(0)), count(2)), &THREE, {
            Table("mon|1 0 0|- 1 1")
        }),
        of("Now (p0 and not p0), three actions", now(and_not), &THREE, Table("mon|0 0 0")),
        of("Now not not p1, three actions", now(but(but(prop(1)))), &THREE, Table("mon|1 - 1|1 1 1")),
        // The last has no proposition: it satisfies `not` of each.
        of("Now not p0, an action without propositions", now(but(prop(0))), &THREE, Table("mon|1 - -|1 1 1")),
        of("propositions that no node names", always(holds(but(prop(0)))), &unnamed, Table("enf|- 0 0")),
    ]
}

/// The last action is in the sets as the others are.
fn sixteen_actions() -> Vec<Case> {
    let own: Vec<u16> = (0..16).map(|action| 1 << action).collect();
    let others: Vec<u16> = own.iter().map(|own| !own).collect();
    vec![
        of("Now not false, 16 actions", now(but(no())), &own, Table("mon|- - - - - - - - - - - - - - - -")),
        of("Always Holds not p15, 16 actions", always(holds(but(prop(15)))), &own, {
            Table("enf|0 0 0 0 0 0 0 0 0 0 0 0 0 0 0 -")
        }),
        // Each action has all propositions but that of its number.
        of("Ignoring p3 Count 2, 16 actions", ignoring(prop(3), count(2)), &others, {
            Table("mon|0 0 0 1 0 0 0 0 0 0 0 0 0 0 0 0|1 1 1 - 1 1 1 1 1 1 1 1 1 1 1 1")
        }),
    ]
}

/// Formulas that several policies use, or none.
fn nodes() -> Vec<Case> {
    let (yes, no, p0) = ([1, 0, 0, 0, 0], [2, 0, 0, 0, 0], [3, 0, 0, 0, 0]);
    let (but, now, holds) = (|a| [4, 0, a, 0, 0], |a| [10, 0, a, 0, 0], |a| [11, 0, a, 0, 0]);
    let (all, any, always) = (|a, b| [5, 0, a, b, 0], |a, b| [6, 0, a, b, 0], |a| [17, 0, a, 0, 0]);
    vec![
        // Now p0, and then p0: row 1 is behind a first p0, in row 2 anything goes.
        over("one formula of two policies", &THREE, &[p0, now(0), holds(0), [21, 0, 1, 2, 0]], {
            Table("enf|1 2 2|2 - -|2 2 2")
        }),
        // Nodes 1, 3, 5 and 7 are used: Always Holds not p0. Before, between and behind them stand others.
        over(
            "unused formulas before and behind",
            &THREE,
            &[no, p0, yes, but(1), any(1, 2), holds(3), all(0, 4), always(5)],
            Table("enf|- 0 0"),
        ),
    ]
}

//! Histories of calls on a board, with the answer stated beside each call.

use super::{small_roastery_table, table_bytes};
use crate::calls::DENIED;

/// A call on the board, or a byte of its area or of its record written by hand, as no call does.
#[derive(Clone, Debug, PartialEq, Eq)]
pub enum Call {
    New,
    PutOn(usize, Vec<u8>),
    TakeOff(usize),
    Action(usize),
    Damage(usize, u8),
    Forge(usize, u8),
}

/// A call, whether its area is lent a byte too short, and its answer.
#[derive(Clone, Debug)]
pub struct Step {
    pub call: Call,
    pub short: bool,
    pub answer: Answer,
}

/// What a call answers. A byte written by hand answers `Done`.
#[derive(Clone, Copy, Debug, PartialEq, Eq)]
pub enum Answer {
    Done,
    Permitted(u8),
    Denied(u8),
    Refused(u8),
}

impl Answer {
    /// The answer as the corpus has it: number, value, actions, rows, a byte each.
    pub fn bytes(self) -> [u8; 4] {
        match self {
            Done => [0; 4],
            Permitted(places) => [0, places, 0, 0],
            Denied(place) => [DENIED, place, 0, 0],
            Refused(number) => [number, 0, 0, 0],
        }
    }
}

use Answer::*;
use Call::*;

pub struct History {
    pub name: String,
    pub steps: Vec<Step>,
}

fn history(name: &str, steps: Vec<(Call, Answer)>) -> History {
    let step = |(call, answer)| Step { call, short: false, answer };
    History { name: name.into(), steps: steps.into_iter().map(step).collect() }
}

fn no_charge() -> Vec<u8> {
    small_roastery_table("Always Holds not charge")
}

fn tray_first() -> Vec<u8> {
    small_roastery_table("Before+ tray, no charge")
}

fn drop() -> Vec<u8> {
    small_roastery_table("Eventually Now drop")
}

/// All of them. Actions are 0 charge, 1 drop, 2 tray, 3 log; 4, where it is one, is charge and tray.
pub fn all() -> Vec<History> {
    let refusals = [refusals(), order(), short()];
    let shifts = [roast(), between(), again(), denials(), combined(), fulfilling(), waits(), watched(), eight()];
    refusals.into_iter().chain(shifts).chain([damaged(), forged(), unread(), other_actions()]).collect()
}

/// Each refusal of each call but 14 and 25.
fn refusals() -> History {
    history(
        "refusals",
        vec![
            (New, Done),
            (Action(0), Refused(24)),
            (TakeOff(0), Refused(21)),
            (TakeOff(8), Refused(13)),
            (PutOn(8, no_charge()), Refused(13)),
            (PutOn(0, no_charge()), Done),
            (PutOn(0, no_charge()), Refused(22)),
            (PutOn(1, vec![1, 0]), Refused(10)),
            (PutOn(1, table_bytes("enf|1|0")), Refused(11)),
            (PutOn(1, table_bytes("enf|0")), Refused(23)),
            (Action(4), Refused(12)),
            (Action(65535), Refused(12)),
            (TakeOff(1), Refused(21)),
            (TakeOff(0), Done),
            (Action(0), Refused(24)),
        ],
    )
}

/// The order of the refusals: the place before the table, a taken place before the table, the table before its A.
fn order() -> History {
    history(
        "order of refusals",
        vec![
            (New, Done),
            (PutOn(65535, vec![]), Refused(13)),
            (PutOn(7, no_charge()), Done),
            (PutOn(7, vec![]), Refused(22)),
            (PutOn(6, table_bytes("enf|2")), Refused(10)),
            (PutOn(6, table_bytes("enf|1|0")), Refused(11)),
            (Damage(7 * 1032, 0), Done),
            (PutOn(8, vec![]), Refused(13)),
            (PutOn(7, vec![]), Refused(25)),
            (TakeOff(8), Refused(13)),
            (TakeOff(0), Refused(25)),
            (Action(9), Refused(25)),
        ],
    )
}

/// An area that is a byte too short: refused before all else.
fn short() -> History {
    let mut all = history(
        "short areas",
        vec![
            (New, Refused(14)),
            (New, Done),
            (PutOn(0, no_charge()), Done),
            (PutOn(8, vec![]), Refused(14)),
            (TakeOff(8), Refused(14)),
            (Action(9), Refused(14)),
            (Action(0), Denied(0)),
        ],
    );
    all.steps.iter_mut().for_each(|step| step.short = step.answer == Refused(14));
    all
}

/// No charge before the tray is empty, at place 0; Eventually Now drop is watched at place 1.
fn roast() -> History {
    history(
        "a roast",
        vec![
            (New, Done),
            (PutOn(0, tray_first()), Done),
            (PutOn(1, drop()), Done),
            (Action(0), Denied(0)),
            (Action(1), Permitted(2)),
            (Action(1), Permitted(0)),
            (Action(2), Permitted(0)),
            (Action(0), Permitted(0)),
        ],
    )
}

/// Between two charges there is a drop. Permitting all after the first action would let the second charge pass.
fn between() -> History {
    history(
        "a drop between charges",
        vec![
            (New, Done),
            (PutOn(5, small_roastery_table("Whenever charge: Before+ drop")), Done),
            (Action(3), Permitted(0)),
            (Action(0), Permitted(0)),
            (Action(0), Denied(5)),
            (Action(2), Permitted(0)),
            (Action(0), Denied(5)),
            (Action(1), Permitted(0)),
            (Action(0), Permitted(0)),
            (Action(0), Denied(5)),
        ],
    )
}

/// Taking off and putting on again starts the rule anew.
fn again() -> History {
    history(
        "put on again",
        vec![
            (New, Done),
            (PutOn(3, drop()), Done),
            (Action(1), Permitted(8)),
            (Action(1), Permitted(0)),
            (TakeOff(3), Done),
            (Action(1), Refused(24)),
            (PutOn(3, drop()), Done),
            (Action(1), Permitted(8)),
            (TakeOff(3), Done),
            (PutOn(3, tray_first()), Done),
            (Action(2), Permitted(0)),
            (Action(0), Permitted(0)),
            (New, Done),
            (Action(0), Refused(24)),
            (PutOn(3, tray_first()), Done),
            (Action(0), Denied(3)),
        ],
    )
}

/// A denied action moves no rule, watched ones included, and the lowest denying place is named.
fn denials() -> History {
    history(
        "denials",
        vec![
            (New, Done),
            (PutOn(7, no_charge()), Done),
            (PutOn(3, table_bytes("mon|- 0 0 0")), Done),
            (Action(0), Denied(7)),
            (PutOn(2, no_charge()), Done),
            (Action(0), Denied(2)),
            (TakeOff(2), Done),
            (TakeOff(7), Done),
            (Action(0), Permitted(8)),
            (Action(0), Permitted(0)),
        ],
    )
}

/// Charge and tray in one: b is judged on the action that fulfils a.
fn combined() -> History {
    history(
        "charge and tray in one",
        vec![
            (New, Done),
            (PutOn(0, small_roastery_table("Before+ with charge and tray in one")), Done),
            (Action(4), Denied(0)),
            (Action(2), Permitted(0)),
            (Action(4), Permitted(0)),
        ],
    )
}

/// A denied action does not count towards Fulfilling.
fn fulfilling() -> History {
    history(
        "Fulfilling beside a rule that denies",
        vec![
            (New, Done),
            (PutOn(0, small_roastery_table("Fulfilling 1 log")), Done),
            (PutOn(1, no_charge()), Done),
            (Action(0), Denied(1)),
            (Action(3), Permitted(0)),
            (Action(1), Permitted(0)),
            (TakeOff(0), Done),
            (PutOn(0, small_roastery_table("Fulfilling 1 log")), Done),
            (Action(2), Permitted(0)),
            (Action(1), Denied(0)),
        ],
    )
}

/// Nor does it count towards a wait for what has no bound; a log behind the wait is too late.
fn waits() -> History {
    let within_three = || small_roastery_table("Fulfilling 3 eventually log");
    history(
        "Fulfilling 3 beside a rule that denies",
        vec![
            (New, Done),
            (PutOn(0, within_three()), Done),
            (PutOn(1, no_charge()), Done),
            (Action(0), Denied(1)),
            (Action(2), Permitted(0)),
            (Action(0), Denied(1)),
            (Action(1), Permitted(0)),
            (Action(0), Denied(1)),
            (Action(3), Permitted(0)), // the third that is permitted
            (Action(1), Permitted(0)),
            (TakeOff(0), Done),
            (PutOn(0, within_three()), Done),
            (Action(2), Permitted(0)),
            (Action(1), Permitted(0)),
            (Action(1), Permitted(0)),
            (Action(3), Permitted(0)), // the fourth
            (Action(1), Denied(0)),
            (Action(3), Permitted(0)),
            (Action(1), Denied(0)),
            (TakeOff(0), Done),
            (PutOn(0, small_roastery_table("Fulfilling 2 log")), Done),
            (Action(2), Permitted(0)),
            (Action(0), Denied(1)),
            (Action(3), Permitted(0)), // a asks for it as the first
            (Action(1), Denied(0)),
        ],
    )
}

/// A board that holds only watched rules permits every action in its list.
fn watched() -> History {
    history(
        "watched rules alone",
        vec![
            (New, Done),
            (PutOn(0, small_roastery_table("Now true")), Done),
            (PutOn(2, small_roastery_table("Now false")), Done),
            (PutOn(4, small_roastery_table("Count 2")), Done),
            (Action(3), Permitted(1)),
            (Action(0), Permitted(16)),
            (Action(1), Permitted(0)),
            (Action(4), Refused(12)),
            (PutOn(0, drop()), Refused(22)),
            (TakeOff(4), Done),
            (Action(2), Permitted(0)),
        ],
    )
}

/// All eight places: every one of them is asked.
fn eight() -> History {
    let mut steps = vec![(New, Done)];
    steps.extend((0..8).map(|place| (PutOn(place, if place == 6 { tray_first() } else { drop() }), Done)));
    let after =
        [(Action(0), Denied(6)), (Action(1), Permitted(191)), (Action(2), Permitted(0)), (Action(0), Permitted(0))];
    steps.extend(after);
    history("eight places", steps)
}

/// A board whose area is damaged by hand cannot be; mended, it goes on.
fn damaged() -> History {
    history(
        "damaged areas",
        vec![
            (New, Done),
            (PutOn(0, tray_first()), Done),
            (Damage(0, 2), Done),
            (Action(1), Refused(25)),
            (PutOn(0, vec![]), Refused(25)),
            (TakeOff(0), Refused(25)),
            (Damage(0, 1), Done),
            (Damage(9, 2), Done),
            (Action(1), Refused(25)),
            (Damage(9, 0), Done),
            (Action(2), Permitted(0)),
            (Damage(4, 1), Done), // its row is 1, and the table has but row 0
            (Action(0), Refused(25)),
            (Damage(4, 2), Done),
            (Action(0), Permitted(0)),
            (PutOn(1, drop()), Done),
            (Damage(1032, 1), Done), // a watched rule over an enforced table
            (Action(1), Refused(25)),
            (Damage(1032, 2), Done),
            (Action(1), Permitted(2)),
            (Damage(1034, 3), Done), // a fulfilled rule over another number of actions
            (Action(1), Refused(25)),
        ],
    )
}

/// A record that does not fit its tables: the board cannot be.
fn forged() -> History {
    let with = |case, row, answer| [(Forge(2, case), Done), (Forge(3, row), Done), (Action(1), answer)];
    let mut steps = vec![
        (New, Done),
        (PutOn(1, small_roastery_table("Count 2")), Done),
        (PutOn(6, small_roastery_table("Holds drop")), Done),
        (Action(1), Permitted(0)),
    ];
    steps.extend(with(2, 2, Refused(25))); // a row that the table has not
    steps.extend(with(1, 0, Refused(25))); // another type
    steps.extend(with(4, 0, Refused(25))); // no case
    steps.extend(with(255, 255, Refused(25)));
    steps.extend(with(3, 200, Permitted(0))); // a fulfilled place's row is not read
    steps.extend([(PutOn(1, vec![]), Refused(22)), (TakeOff(0), Refused(21))]);
    steps.extend(with(2, 1, Permitted(2)));
    steps.extend(with(0, 9, Permitted(0))); // nor is an empty place's
    steps.extend([(Forge(12, 0), Done), (Action(1), Refused(24))]);
    history("forged records", steps)
}

/// What stands behind a table, and in an empty place, is not read.
fn unread() -> History {
    history(
        "bytes that are not read",
        vec![
            (New, Done),
            (PutOn(1, no_charge()), Done),
            (Damage(0, 255), Done),
            (Damage(1032 + 12, 9), Done),
            (Damage(2063, 9), Done),
            (Damage(8255, 9), Done),
            (Action(1), Permitted(0)),
            (Action(0), Denied(1)),
            (PutOn(0, drop()), Done),
            (PutOn(7, drop()), Done),
            (Action(1), Permitted(129)),
        ],
    )
}

/// A differs from that of the rules on, also of a fulfilled one.
fn other_actions() -> History {
    let five = || small_roastery_table("Before+ with charge and tray in one");
    history(
        "other numbers of actions",
        vec![
            (New, Done),
            (PutOn(0, drop()), Done),
            (PutOn(1, five()), Refused(23)),
            (Action(1), Permitted(1)),
            (PutOn(1, five()), Refused(23)),
            (TakeOff(0), Done),
            (PutOn(1, five()), Done),
            (PutOn(0, drop()), Refused(23)),
            (Action(4), Denied(1)),
        ],
    )
}

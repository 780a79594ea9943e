//! Cases with the answer stated beside each, by hand or by arithmetic and not by the reference.
//! This file has those of "A small roastery", which are stated here and nowhere else, and some like them.

pub mod counted;
pub mod denials;
pub mod formulas;
pub mod histories;
pub mod house;
pub mod joins;
pub mod sheets;
pub mod spare;
pub mod tables;
pub mod texts;

use crate::table::{ENFORCED, HEADER, WATCHED};
use crate::trees::*;

/// What is stated of a sheet.
#[derive(Clone, Copy, Debug, PartialEq, Eq)]
pub enum Stated {
    /// Type and rows, "-" for a trip.
    Table(&'static str),
    /// Type and number of rows.
    Rows(&'static str, usize),
    /// Number and spot.
    Refused(u8, u8),
}

/// The areas that compiling, joining and explaining are lent: as long as it asks, or one of them shorter by one. The
/// output is a table, or the place of a denial.
#[derive(Clone, Copy, Debug, PartialEq, Eq)]
pub enum Lent {
    Whole = 0,
    ShortOutput = 1,
    ShortWork = 2,
    ShortValues = 3,
}

/// A sheet, and what is stated of it.
pub struct Case {
    pub name: String,
    pub lent: Lent,
    pub sheet: Vec<u8>,
    pub stated: Stated,
}

/// A case over whole areas.
fn case(name: &str, sheet: Vec<u8>, stated: Stated) -> Case {
    Case { name: name.into(), lent: Lent::Whole, sheet, stated }
}

/// The type byte of a type's word.
pub fn type_byte(word: &str) -> u8 {
    if word == "enf" {
        ENFORCED
    } else {
        WATCHED
    }
}

/// The bytes of a stated table.
pub fn table_bytes(text: &str) -> Vec<u8> {
    let mut lines = text.split('|');
    let kind = type_byte(lines.next().expect("a type"));
    let entry = |word: &str| if word == "-" { 255 } else { word.parse().expect("a row") };
    let rows: Vec<Vec<u8>> = lines.map(|line| line.split(' ').map(entry).collect()).collect();
    let mut bytes = vec![kind, 0, rows[0].len() as u8, 0, rows.len() as u8, 0, HEADER as u8, 0];
    bytes.extend(rows.concat());
    bytes
}

const CHARGE: u8 = 0;
const DROP: u8 = 1;
const TRAY: u8 = 2;
const LOG: u8 = 3;
/// The roastery's actions, and an action 4 that is both charge and tray.
const WITH_BOTH: [u16; 5] = [1, 2, 4, 8, 5];

fn no_charge() -> Tree {
    always(holds(but(prop(CHARGE))))
}

/// "No charge before the tray is empty".
fn tray_first() -> Tree {
    before_enforced(eventually(now(prop(TRAY))), no_charge())
}

/// Whenever (Eventually Now charge): Before+ (Eventually Now drop) (Always Holds not charge).
fn whenever_charge() -> Tree {
    let after = before_enforced(eventually(now(prop(DROP))), no_charge());
    always(after_enforced(eventually(now(prop(CHARGE))), after))
}

/// Fulfilling k (Now log) (Holds true) (Always Holds not drop).
fn fulfilling_log(k: u8) -> Tree {
    fulfilling(k, now(prop(LOG)), holds(yes()), always(holds(but(prop(DROP)))))
}

/// A case over the roastery's actions.
fn four(name: &str, tree: Tree, stated: Stated) -> Case {
    case(name, tree.sheet(&ROASTERY).bytes(), stated)
}

/// The cases of docs/FORMATS.md, "A small roastery", but those of Fulfilling with another k than the bound of a, which
/// `waits` and cases/counted.rs have.
pub fn small_roastery() -> Vec<Case> {
    use Stated::*;
    let over = |name, tree: Tree, actions: &[u16], stated| case(name, tree.sheet(actions).bytes(), stated);
    let drop = || eventually(now(prop(DROP)));
    vec![
        four("Always Holds not charge", no_charge(), Table("enf|- 0 0 0")),
        four("Eventually Now drop", drop(), Table("mon|0 - 0 0")),
        four("Holds drop", holds(prop(DROP)), Table("enf|- 1 - -|1 1 1 1")),
        four("Not Now not drop", not(now(but(prop(DROP)))), Table("enf|- 1 - -|1 1 1 1")),
        four("Now false", now(no()), Table("mon|0 0 0 0")),
        four("Now true", now(yes()), Table("mon|- - - -")),
        four("Count 2", count(2), Table("mon|1 1 1 1|- - - -")),
        four("Before+ tray, no charge", tray_first(), Table("enf|- 0 1 0|1 1 1 1")),
        over("Before+ with charge and tray in one", tray_first(), &WITH_BOTH, Table("enf|- 0 1 0 -|1 1 1 1 1")),
        four("After+ drop, no charge", after_enforced(drop(), no_charge()), Table("enf|0 1 0 0|- 1 1 1")),
        four("Fulfilling 1 log", fulfilling_log(1), Table("enf|1 1 1 2|1 - 1 1|2 2 2 2")),
        four("Ignoring log Holds drop", ignoring(prop(LOG), holds(prop(DROP))), Table("enf|- 1 - 0|1 1 1 1")),
        four("Eventually Holds drop", eventually(holds(prop(DROP))), Refused(6, 2)),
        four("Fulfilling 2 log", fulfilling_log(2), Table("enf|1 1 1 2|3 3 3 3|2 2 2 2|3 - 3 3")),
        four("Count 60", count(60), Rows("mon", 60)),
        four("Count 61", count(61), Refused(5, 0)),
        four("After- Count 60 Count 4", after_watched(count(60), count(4)), Rows("mon", 64)),
        four("After- Count 60 Count 5", after_watched(count(60), count(5)), Refused(9, 2)),
        case("tower of 11", tower(11), Refused(9, 1)),
        case("tower of 12", tower(12), Refused(7, 11)),
        over("Or of Counts 32 and 32", two_counts(32, 32), &TWO, Refused(9, 5)),
        over("Or of Counts 33 and 32", two_counts(33, 32), &TWO, Refused(8, 6)),
        over("Or of Counts 32 and 33", two_counts(32, 33), &TWO, Refused(8, 6)),
        four("Whenever charge: Before+ drop", whenever_charge(), Table("enf|1 0 0 0|- 0 1 1")),
    ]
}

/// Fulfilling in the small roastery whose a has no bound, or one that is below k, k or above it.
pub fn waits() -> Vec<Case> {
    use Stated::*;
    let log = || now(prop(LOG));
    let tray = || eventually(now(prop(TRAY)));
    let no_drop = || always(holds(but(prop(DROP))));
    let wait = |k, a| fulfilling(k, a, holds(yes()), no_drop());
    let no_charge_after = |k, a| fulfilling(k, a, no_charge(), no_drop());
    // The first action or the second: its bound is 2.
    let log_soon = || or(log(), after_watched(count(1), log()));
    let log_behind_tray = || after_watched(tray(), eventually(log()));
    vec![
        four("Fulfilling 3 eventually log", wait(3, eventually(log())), {
            Table("enf|1 1 1 2|3 3 3 2|2 2 2 2|4 4 4 2|4 - 4 4")
        }),
        // The same as Fulfilling 1 log.
        four("Fulfilling 1 eventually log", wait(1, eventually(log())), Table("enf|1 1 1 2|1 - 1 1|2 2 2 2")),
        // 60 rows of waiting, b and c.
        four("Fulfilling 60 eventually log", wait(60, eventually(log())), Rows("enf", 62)),
        four("Fulfilling 60 log", wait(60, log()), Rows("enf", 62)),
        // b never begins.
        four("Fulfilling 60 of nothing", wait(60, now(no())), Rows("enf", 61)),
        four("Fulfilling 2 of nothing", no_charge_after(2, now(no())), Table("enf|1 1 1 1|2 2 2 2|2 - 2 2")),
        // Rows 1 and 3 wait for nothing more.
        four("Fulfilling 3 log", wait(3, log()), Table("enf|1 1 1 2|3 3 3 3|2 2 2 2|4 4 4 4|4 - 4 4")),
        four("Fulfilling 3 log soon", no_charge_after(3, log_soon()), {
            Table("enf|1 1 1 2|3 3 3 2|- 2 2 2|4 4 4 4|4 - 4 4")
        }),
        four("Fulfilling 1 log soon", no_charge_after(1, log_soon()), Table("enf|1 1 1 2|1 - 1 1|- 2 2 2")),
        // a is fulfilled by the third action alone: b never begins.
        four("Fulfilling 2 Count 3", no_charge_after(2, count(3)), Table("enf|1 1 1 1|2 2 2 2|2 - 2 2")),
        four("Fulfilling 3 Count 3", no_charge_after(3, count(3)), Table("enf|1 1 1 1|2 2 2 2|3 3 3 3|- 3 3 3")),
        four("Fulfilling 4 Count 3", no_charge_after(4, count(3)), Table("enf|1 1 1 1|2 2 2 2|3 3 3 3|- 3 3 3")),
        // The action k itself, and the action k + 1 alone.
        four("Fulfilling 3, the third is log", no_charge_after(3, after_watched(count(2), log())), {
            Table("enf|1 1 1 1|2 2 2 2|3 3 3 4|3 - 3 3|- 4 4 4")
        }),
        four("Fulfilling 3, the fourth is log", no_charge_after(3, after_watched(count(3), log())), {
            Table("enf|1 1 1 1|2 2 2 2|3 3 3 3|3 - 3 3")
        }),
        // Row 2: a tray has come, and a log as the second action is in time.
        four("Fulfilling 2 log behind a tray", no_charge_after(2, log_behind_tray()), {
            Table("enf|1 1 2 1|3 3 3 3|3 3 3 4|3 - 3 3|- 4 4 4")
        }),
        // A tray is passed over by a, and is counted by k.
        four("Fulfilling 2 Ignoring tray log", wait(2, ignoring(prop(TRAY), log())), {
            Table("enf|1 1 2 3|4 4 4 4|4 4 4 3|3 3 3 3|4 - 4 4")
        }),
        // No log among two: a tray next, or no drop.
        four(
            "Fulfilling 2 log, else Fulfilling 1 tray",
            fulfilling(2, eventually(log()), holds(yes()), wait(1, tray())),
            Table("enf|1 1 1 2|3 3 3 2|2 2 2 2|4 4 2 4|4 - 4 4"),
        ),
        // Row 1: a wait has just begun. Row 2: one ends by the next action.
        four(
            "Whenever charge: Fulfilling 2 log",
            always(after_enforced(now(prop(CHARGE)), wait(2, eventually(log())))),
            Table("enf|1 0 0 0|2 2 2 0|3 3 3 0|3 - 3 3"),
        ),
        four("Not Fulfilling 2 log", not(wait(2, eventually(log()))), Table("mon|1 1 1 2|3 3 3 2|2 2 2 2|3 - 3 3")),
    ]
}

/// What is stated for one of these.
fn stated_of(name: &str) -> Option<Stated> {
    small_roastery().into_iter().chain(waits()).find(|case| case.name == name).map(|case| case.stated)
}

/// The table that is stated for one of them.
pub fn small_roastery_table(name: &str) -> Vec<u8> {
    match stated_of(name) {
        Some(Stated::Table(text)) => table_bytes(text),
        _ => panic!("no table is stated for {name}"),
    }
}

//! Joins with the answer stated beside each: tables, each refusal, and two refusals where the earlier check decides.

use super::house::RULES;
use super::{small_roastery_table, table_bytes, Lent, Stated};
use crate::table::{ENFORCED, HEADER};

/// A count and tables, what is lent beside them, and what is stated of the answer. The spot of a refusal is 0.
pub struct JoinCase {
    pub name: String,
    pub lent: Lent,
    pub count: usize,
    pub tables: Vec<u8>,
    pub stated: Stated,
}

fn case(name: &str, count: usize, tables: Vec<u8>, stated: Stated) -> JoinCase {
    JoinCase { name: name.into(), lent: Lent::Whole, count, tables, stated }
}

/// As many as there are, each written as in docs/FORMATS.md.
fn of(name: &str, tables: &[&str], stated: Stated) -> JoinCase {
    case(name, tables.len(), bytes(tables), stated)
}

fn refused(name: &str, count: usize, tables: Vec<u8>, number: u8) -> JoinCase {
    case(name, count, tables, Stated::Refused(number, 0))
}

fn bytes(tables: &[&str]) -> Vec<u8> {
    tables.iter().flat_map(|text| table_bytes(text)).collect()
}

const NO_CHARGE: &str = "enf|- 0 0 0";
const DROP_FIRST: &str = "enf|- 1 - -|1 1 1 1";
const TRAY_FIRST: &str = "enf|- 0 1 0|1 1 1 1";
const DROP_BETWEEN: &str = "enf|1 0 0 0|- 0 1 1";
/// Fulfilling 1 log and Fulfilling 2 log.
const WAIT_OF_1: &str = "enf|1 1 1 2|1 - 1 1|2 2 2 2";
const WAIT_OF_2: &str = "enf|1 1 1 2|3 3 3 3|2 2 2 2|3 - 3 3";
const WATCHED: &str = "mon|0 - 0 0";
/// Two rows alike.
const ALIKE: &str = "enf|1 1 1 1|0 0 0 0";
const ALIKE_AND_WATCHED: &str = "mon|1 1 1 1|0 0 0 0";
/// An entry that is no row.
const MALFORMED: &str = "enf|0 1 0 0";
const FIVE_ACTIONS: &str = "enf|- 0 0 0 0";

/// All of them, tables first.
pub fn all() -> Vec<JoinCase> {
    [tables(), itself(), house(), counted(), absorbed_ones(), counts(), lengths(), each_table(), order(), short_areas()]
        .into_iter()
        .flatten()
        .collect()
}

/// Few rows, worked out by hand.
fn tables() -> Vec<JoinCase> {
    use Stated::Table;
    vec![
        of("tray first, drop between", &[TRAY_FIRST, DROP_BETWEEN], Table("enf|- 0 1 0|2 1 1 1|- 1 2 2")),
        of("drop between, tray first", &[DROP_BETWEEN, TRAY_FIRST], Table("enf|- 0 1 0|2 1 1 1|- 1 2 2")),
        of("no charge, drop between: the rows of one fall together", &[NO_CHARGE, DROP_BETWEEN], Table(NO_CHARGE)),
        of("no charge, drop first", &[NO_CHARGE, DROP_FIRST], Table("enf|- 1 - -|- 1 1 1")),
        of(
            "drop first, tray first: no tray can come first",
            &[DROP_FIRST, TRAY_FIRST],
            Table("enf|- 1 - -|- 1 2 1|2 2 2 2"),
        ),
        of("a wait of 2, no charge", &[WAIT_OF_2, NO_CHARGE], Table("enf|- 1 1 2|- 3 3 3|- 2 2 2|- - 3 3")),
        of("waits of 2 and of 1: the shorter decides", &[WAIT_OF_2, WAIT_OF_1], Table(WAIT_OF_1)),
        of("no p0, no p1", &["enf|- 0", "enf|0 -"], Table("enf|- -")),
        of("one action, 3 and 2 of it", &["enf|1|2|-", "enf|1|-"], Table("enf|1|-")),
        of("one action, nothing denied", &["enf|0", "enf|0"], Table("enf|0")),
        of("nothing denied, tray first", &["enf|0 0 0 0", TRAY_FIRST], Table(TRAY_FIRST)),
        of("everything denied, tray first", &["enf|- - - -", TRAY_FIRST], Table("enf|- - - -")),
        of(
            "each of four actions denied by another",
            &["enf|- 0 0 0", "enf|0 - 0 0", "enf|0 0 - 0", "enf|0 0 0 -"],
            Table("enf|- - - -"),
        ),
        of("turn by turn, begun by either", &["enf|1 0|- 0", "enf|0 1|0 -"], Table("enf|1 2|- 2|1 -")),
        of(
            "16 actions",
            &["enf|- 0 0 0 0 0 0 0 0 0 0 0 0 0 0 0", "enf|0 0 0 0 0 0 0 0 0 0 0 0 0 0 0 -"],
            Table("enf|- 0 0 0 0 0 0 0 0 0 0 0 0 0 0 -"),
        ),
    ]
}

/// A table as often as it may stand is itself; so is the longest.
fn itself() -> Vec<JoinCase> {
    use Stated::{Rows, Table};
    let times = |name: &str, text, count| case(name, count, table_bytes(text).repeat(count), Table(text));
    let longest = |name: &str, actions: usize, count| {
        case(name, count, at_most(64, |_| true, actions).repeat(count), Rows("enf", 64))
    };
    vec![
        times("tray first twice", TRAY_FIRST, 2),
        times("drop first, seven times", DROP_FIRST, 7),
        times("drop between, eight times", DROP_BETWEEN, 8),
        times("Fulfilling 1 log, three times", WAIT_OF_1, 3),
        times("Fulfilling 2 log, five times", WAIT_OF_2, 5),
        longest("64 rows, one action, twice", 1, 2),
        longest("64 rows, 16 actions, twice", 16, 2),
        longest("64 rows, 16 actions, eight times", 16, 8),
    ]
}

/// The enforced house rules.
pub fn house_tables() -> Vec<Vec<u8>> {
    let compiled = RULES.iter().map(|rule| crate::compile(rule.sheet).expect("a house rule compiles"));
    compiled.filter(|table| table[0] == ENFORCED).collect()
}

/// As many rows as compiling their policies under And gives (tests/joins.rs).
fn house() -> Vec<JoinCase> {
    let tables = house_tables();
    let rows = [(2, 3), (3, 9), (4, 9), (5, 14), (6, 17), (7, 21)];
    let first = |&(count, rows): &(usize, usize)| {
        case(&format!("the first {count} house rules"), count, tables[..count].concat(), Stated::Rows("enf", rows))
    };
    let mut all: Vec<JoinCase> = rows.iter().map(first).collect();
    let eight = RULES.iter().flat_map(|rule| crate::compile(rule.sheet).expect("a house rule compiles")).collect();
    all.push(refused("all eight house rules, one watched", 8, eight, 34));
    all
}

/// Denies the counted action number `rows`: a row for each before it. Other actions stay.
pub fn at_most(rows: u8, counted: impl Fn(usize) -> bool, actions: usize) -> Vec<u8> {
    let mut bytes = vec![ENFORCED, 0, actions as u8, 0, rows, 0, HEADER as u8, 0];
    for row in 0..rows {
        let next = if row + 1 < rows { row + 1 } else { 255 };
        bytes.extend((0..actions).map(|action| if counted(action) { next } else { row }));
    }
    bytes
}

/// Table t denies action t after some of it. No table sees the others' actions, so every tuple occurs, and what is left
/// of each action tells them apart: as many rows as tuples.
pub fn independent(rows: &[u8], actions: usize) -> Vec<u8> {
    (0..rows.len()).flat_map(|table| at_most(rows[table], |action| action == table, actions)).collect()
}

/// What is known where the tuples and the rows are.
fn outcome(tuples: usize, rows: usize) -> Stated {
    match (tuples, rows) {
        (1025.., _) => Stated::Refused(8, 0),
        (_, 65..) => Stated::Refused(9, 0),
        _ => Stated::Rows("enf", rows),
    }
}

fn counted() -> Vec<JoinCase> {
    let sets: [&[u8]; 24] = [
        &[1, 1],
        &[2, 3],
        &[8, 8],
        &[64, 1],
        &[1, 64],
        &[13, 5],
        &[64, 2],
        &[32, 32],
        &[64, 16],
        &[16, 64],
        &[41, 25],
        &[33, 32],
        &[64, 17],
        &[4, 4, 4],
        &[5, 5, 3],
        &[16, 8, 8],
        &[16, 8, 9],
        &[4, 4, 4, 4, 4],
        &[2, 2, 2, 2, 2, 2],
        &[3, 3, 3, 3, 3, 3],
        &[2, 2, 2, 2, 2, 2, 2],
        &[3, 3, 3, 3, 3, 3, 3],
        &[2, 2, 2, 2, 2, 2, 2, 2],
        &[2, 2, 2, 2, 2, 2, 2, 9],
    ];
    let one = |rows: &&[u8]| {
        let all = rows.iter().map(|&rows| rows as usize).product();
        case(&format!("independent counts {rows:?}"), rows.len(), independent(rows, rows.len()), outcome(all, all))
    };
    sets.iter().map(one).collect()
}

/// Table t goes round its rows by action t. In row 0 alone it permits its own question, an action behind the first ones,
/// and it permits no other table's question: each table by itself needs all its rows, and all together deny every
/// question. As many tuples as there can be, one row.
pub fn absorbed(rows: &[u8]) -> Vec<u8> {
    let (count, actions) = (rows.len(), 2 * rows.len());
    let table = |table: usize| {
        let mut bytes = vec![ENFORCED, 0, actions as u8, 0, rows[table], 0, HEADER as u8, 0];
        for row in 0..rows[table] {
            let entry = |action| match action {
                action if action == table => (row + 1) % rows[table],
                action if action < count => row,
                action if action == count + table && row == 0 => 0,
                _ => 255,
            };
            bytes.extend((0..actions).map(entry));
        }
        bytes
    };
    (0..count).flat_map(table).collect()
}

fn absorbed_ones() -> Vec<JoinCase> {
    let sets: [&[u8]; 13] = [
        &[2, 2],
        &[8, 9],
        &[32, 32],
        &[33, 31],
        &[64, 16],
        &[41, 25],
        &[33, 32],
        &[16, 8, 8],
        &[11, 10, 10],
        &[2, 2, 2, 2, 2, 2, 2],
        &[2, 2, 2, 2, 2, 2, 2, 2],
        &[2, 2, 2, 2, 2, 2, 2, 8],
        &[2, 2, 2, 2, 2, 2, 2, 9],
    ];
    let one = |rows: &&[u8]| {
        let all = rows.iter().map(|&rows| rows as usize).product();
        case(&format!("counts that fall together {rows:?}"), rows.len(), absorbed(rows), outcome(all, 1))
    };
    sets.iter().map(one).collect()
}

/// Check 2, before any table is looked at.
fn counts() -> Vec<JoinCase> {
    let two = || bytes(&[TRAY_FIRST, DROP_BETWEEN]);
    vec![
        refused("count 0, no byte", 0, vec![], 2),
        refused("count 0, two tables", 0, two(), 2),
        refused("count 1, one table", 1, bytes(&[TRAY_FIRST]), 2),
        refused("count 1, no table", 1, vec![0; 8], 2),
        refused("count 9, nine tables", 9, bytes(&[TRAY_FIRST; 9]), 2),
        refused("count 9, two tables", 9, two(), 2),
        refused("count 9, no byte", 9, vec![], 2),
        refused("count 258, two tables", 258, two(), 2),
        refused("count 65,535, two tables", 65_535, two(), 2),
        refused("count 9, a watched table", 9, bytes(&[WATCHED; 9]), 2),
    ]
}

/// Check 10: input that ends too soon, or goes on behind the last table.
fn lengths() -> Vec<JoinCase> {
    let one = || table_bytes(TRAY_FIRST);
    let with = |more: &[u8]| [one(), more.to_vec()].concat();
    let two = || bytes(&[TRAY_FIRST, DROP_BETWEEN]);
    vec![
        refused("no byte", 2, vec![], 10),
        refused("one table of two", 2, one(), 10),
        refused("seven tables of eight", 8, bytes(&[TRAY_FIRST; 7]), 10),
        refused("one table and a byte", 2, with(&[1]), 10),
        refused("one table and a header of 7 bytes", 2, with(&[1, 0, 4, 0, 1, 0, 8]), 10),
        refused("one table and a header", 2, with(&[1, 0, 4, 0, 1, 0, 8, 0]), 10),
        refused("a byte too few", 2, two()[..31].to_vec(), 10),
        refused("the first cut by a byte", 2, [&one()[..15], &one()].concat(), 10),
        refused("a byte left over", 2, [two(), vec![0]].concat(), 10),
        refused("a table left over", 2, bytes(&[TRAY_FIRST; 3]), 10),
        refused(
            "the first says a row too few",
            2,
            {
                let mut bytes = two();
                bytes[4] = 1;
                bytes
            },
            10,
        ),
        refused(
            "the longest tables, a byte left over",
            8,
            {
                let longest = at_most(64, |_| true, 16);
                [longest.repeat(8), vec![255]].concat()
            },
            10,
        ),
    ]
}

/// Checks 10, 11 and 34 at the first, a middle and the last place.
fn each_table() -> Vec<JoinCase> {
    let mut all = Vec::new();
    for (what, table, number) in [("malformed", MALFORMED, 10), ("rows alike", ALIKE, 11), ("watched", WATCHED, 34)] {
        for (place, count) in [(0, 2), (1, 2), (1, 3), (7, 8), (4, 8)] {
            let mut tables = vec![TRAY_FIRST; count];
            tables[place] = table;
            all.push(refused(&format!("{what}, table {place} of {count}"), count, bytes(&tables), number));
        }
    }
    all
}

/// Two things wrong: which is found first.
fn order() -> Vec<JoinCase> {
    let of = |name: &str, tables: &[&str], number| refused(name, tables.len(), bytes(tables), number);
    let left_over =
        |name: &str, tables: &[&str], number| refused(name, tables.len(), [bytes(tables), vec![9]].concat(), number);
    let and = |tables: Vec<u8>, text| [tables, table_bytes(text)].concat();
    vec![
        of("watched, then malformed", &[WATCHED, MALFORMED], 34),
        of("malformed, then watched", &[MALFORMED, WATCHED], 10),
        of("watched, then rows alike", &[WATCHED, ALIKE], 34),
        of("rows alike, then watched", &[ALIKE, WATCHED], 11),
        of("rows alike, then malformed", &[ALIKE, MALFORMED], 11),
        of("malformed, then rows alike", &[MALFORMED, ALIKE], 10),
        of("rows alike and watched in one", &[TRAY_FIRST, ALIKE_AND_WATCHED], 11),
        of("malformed and watched in one", &[TRAY_FIRST, "mon|0 1 0 0"], 10),
        refused("watched, then the end", 2, bytes(&[WATCHED]), 34),
        refused("rows alike, then the end", 2, bytes(&[ALIKE]), 11),
        left_over("two watched, a byte left over", &[WATCHED, WATCHED], 34),
        left_over("the last watched, a byte left over", &[TRAY_FIRST, WATCHED], 34),
        left_over("the last with rows alike, a byte left over", &[TRAY_FIRST, ALIKE], 11),
        left_over("other actions, a byte left over", &[TRAY_FIRST, FIVE_ACTIONS], 10),
        of("other actions", &[TRAY_FIRST, FIVE_ACTIONS], 23),
        of("other actions, fewer", &[FIVE_ACTIONS, TRAY_FIRST], 23),
        of("other actions at the last of three", &[TRAY_FIRST, TRAY_FIRST, FIVE_ACTIONS], 23),
        of("other actions at the first of three", &[FIVE_ACTIONS, TRAY_FIRST, TRAY_FIRST], 23),
        of("other actions, all of one row that denies nothing", &["enf|0 0", "enf|0"], 23),
        of("other actions, then watched", &[TRAY_FIRST, FIVE_ACTIONS, WATCHED], 34),
        of("other actions, then malformed", &[TRAY_FIRST, FIVE_ACTIONS, MALFORMED], 10),
        of("other actions, then rows alike", &[TRAY_FIRST, FIVE_ACTIONS, ALIKE], 11),
        refused("over 1,024 tuples, then other actions", 3, and(independent(&[33, 32], 2), NO_CHARGE), 23),
        refused("over 64 rows, then other actions", 3, and(independent(&[9, 8], 2), NO_CHARGE), 23),
        refused("over 1,024 tuples, then watched", 3, and(independent(&[33, 32], 2), "mon|- 0"), 34),
        refused("over 1,024 tuples, a byte left over", 2, [independent(&[33, 32], 2), vec![0]].concat(), 10),
        refused("over 1,024 tuples and over 64 rows", 2, independent(&[64, 64], 2), 8),
        case(
            "over 1,024 tuples but for the last table",
            3,
            and(independent(&[33, 32], 2), "enf|- -"),
            Stated::Table("enf|- -"),
        ),
        case("over 64 rows but for the last table", 3, and(independent(&[9, 8], 2), "enf|- 0"), Stated::Rows("enf", 8)),
    ]
}

/// Check 14, before all others.
fn short_areas() -> Vec<JoinCase> {
    let mut all = Vec::new();
    for (area, lent) in [("table", Lent::ShortOutput), ("work", Lent::ShortWork), ("values", Lent::ShortValues)] {
        let short =
            |name, count, tables| JoinCase { lent, ..refused(&format!("short {area}: {name}"), count, tables, 14) };
        all.push(short("two tables", 2, bytes(&[TRAY_FIRST, DROP_BETWEEN])));
        all.push(short("count 0", 0, vec![]));
        all.push(short("a watched table", 2, bytes(&[WATCHED, TRAY_FIRST])));
    }
    all
}

/// The tables of "A small roastery" that are enforced and have four actions.
pub fn roastery_tables() -> Vec<Vec<u8>> {
    let names = [
        "Always Holds not charge",
        "Holds drop",
        "Before+ tray, no charge",
        "After+ drop, no charge",
        "Fulfilling 1 log",
        "Ignoring log Holds drop",
        "Whenever charge: Before+ drop",
    ];
    names.iter().map(|name| small_roastery_table(name)).collect()
}

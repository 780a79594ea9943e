//! Tables with the loader's answer stated beside each: accepted ones, and ones wrong in one thing alone.

use super::{small_roastery, table_bytes, Stated};
use crate::table::{Table, HEADER, LARGEST};

/// A table's bytes, and what is stated of them: what the header says, or refusal 10 or 11.
pub struct TableCase {
    pub name: String,
    pub bytes: Vec<u8>,
    pub stated: Result<Table, u8>,
}

fn case(name: &str, bytes: Vec<u8>, stated: Result<Table, u8>) -> TableCase {
    TableCase { name: name.into(), bytes, stated }
}

/// A table that is accepted, written as in docs/FORMATS.md.
fn accepted(name: &str, text: &str) -> TableCase {
    let bytes = table_bytes(text);
    let table = Table { kind: bytes[0], actions: bytes[2], rows: bytes[4] };
    case(name, bytes, Ok(table))
}

/// A header and so many entries 0.
fn zeros(kind: u8, actions: u8, rows: u8, entries: usize) -> Vec<u8> {
    let mut bytes = vec![kind, 0, actions, 0, rows, 0, HEADER as u8, 0];
    bytes.resize(HEADER + entries, 0);
    bytes
}

/// All of them, the small roastery's tables first.
pub fn all() -> Vec<TableCase> {
    [roastery(), limits(), headers(), counts(), lengths(), entries(), numbering(), alike()]
        .into_iter()
        .flatten()
        .collect()
}

/// The tables of "A small roastery".
fn roastery() -> Vec<TableCase> {
    let table = |case: super::Case| match case.stated {
        Stated::Table(text) => Some(accepted(&case.name, text)),
        _ => None,
    };
    small_roastery().into_iter().filter_map(table).collect()
}

/// The ends of the ranges, and rows that only a longer sequence tells apart.
fn limits() -> Vec<TableCase> {
    let one = |kind, actions| Ok(Table { kind, actions, rows: 1 });
    vec![
        accepted("Count 3", "mon|1 1|2 2|- -"),
        accepted("a trip in one row alone", "enf|1 0|2 0|- 0"),
        case("one row, one action", zeros(1, 1, 1, 1), one(1, 1)),
        case("one row, 16 actions", zeros(2, 16, 1, 16), one(2, 16)),
        case("64 rows, one action", chain(1), Ok(Table { kind: 2, actions: 1, rows: 64 })),
        case("64 rows, 16 actions", chain(16), Ok(Table { kind: 2, actions: 16, rows: 64 })),
    ]
}

/// 64 rows that each lead to the next; the last trips.
fn chain(actions: u8) -> Vec<u8> {
    let mut bytes = zeros(2, actions, 64, 0);
    (1..64).chain([255]).for_each(|next| bytes.extend(vec![next; actions as usize]));
    bytes
}

/// Check 10: the fields of the header.
fn headers() -> Vec<TableCase> {
    let good = || table_bytes("enf|- 0 0 0");
    let changed = |name, changes: &[(usize, u8)]| {
        let mut bytes = good();
        changes.iter().for_each(|&(offset, byte)| bytes[offset] = byte);
        case(name, bytes, Err(10))
    };
    vec![
        case("no byte", vec![], Err(10)),
        case("a header of 7 bytes", good()[..7].to_vec(), Err(10)),
        case("a header alone", good()[..8].to_vec(), Err(10)),
        changed("type 0", &[(0, 0)]),
        changed("type 3", &[(0, 3)]),
        changed("type 257", &[(1, 1)]),
        changed("a type with its bytes turned round", &[(0, 0), (1, 1)]),
        changed("offset 7", &[(6, 7)]),
        changed("offset 9", &[(6, 9)]),
        changed("offset 264", &[(7, 1)]),
        changed("260 actions", &[(3, 1)]),
        changed("257 rows", &[(5, 1)]),
    ]
}

/// Check 10: counts outside their ranges, with as many entries as they say.
fn counts() -> Vec<TableCase> {
    vec![
        case("no action", zeros(1, 0, 1, 0), Err(10)),
        case("17 actions", zeros(1, 17, 1, 17), Err(10)),
        case("no row", zeros(1, 1, 0, 0), Err(10)),
        case("65 rows", zeros(1, 1, 65, 65), Err(10)),
    ]
}

/// Check 10: lengths.
fn lengths() -> Vec<TableCase> {
    let good = || table_bytes("enf|- 1 - -|1 1 1 1");
    let mut three = good();
    three[4] = 3;
    vec![
        case("a byte too few", good()[..15].to_vec(), Err(10)),
        case("a byte too many", [good(), vec![1]].concat(), Err(10)),
        case("a row too few", good()[..12].to_vec(), Err(10)),
        case("3 rows over 2", three, Err(10)),
        case("a byte behind the largest", [chain(16), vec![0]].concat(), Err(10)),
        case("the largest, cut", chain(16)[..LARGEST - 1].to_vec(), Err(10)),
    ]
}

/// Check 10: entries that are no row.
fn entries() -> Vec<TableCase> {
    let of = |name, text| case(name, table_bytes(text), Err(10));
    vec![
        of("an entry that is the count of rows", "enf|- 1 - -|1 1 1 2"),
        of("an entry 254", "enf|- 1 - 254|1 1 1 1"),
        of("an entry 64 in the first row", "enf|64 0"),
        of("an entry 2 in the first of two rows", "mon|2 1|- -"),
    ]
}

/// Check 11: rows not in the stated numbering, or not met.
fn numbering() -> Vec<TableCase> {
    let of = |name, text| case(name, table_bytes(text), Err(11));
    vec![
        of("a row never met", "mon|0 0 0 0|- - - -"),
        of("rows 1 and 2 exchanged", "enf|2 2 2 1|1 1 1 1|2 - 2 2"),
        of("only row 1 leads to row 1", "enf|0 0 0 0|1 - - -"),
        of("row 2 met before row 1", "enf|2 1|- 1|1 -"),
        of("row 2 met from row 0, row 1 later", "mon|0 2|- -|1 0"),
        of("a row never met at the end", "enf|1 0|- 1|- -"),
    ]
}

/// Check 11: rows alike, and padded row counts.
fn alike() -> Vec<TableCase> {
    let of = |name, text| case(name, table_bytes(text), Err(11));
    vec![
        of("the last row twice, both met", "enf|- 0 1 0|2 2 2 2|1 1 1 1"),
        of("two rows alike, the start among them", "enf|1|0"),
        of("two rows alike by their trips", "enf|1 -|0 -"),
        of("rows alike in a ring of three", "mon|1 -|2 -|0 -"),
        of("a padded row count", "enf|- 0 1 0|1 1 1 1|1 1 1 1"),
        case("64 rows, of which 63 are never met", zeros(1, 1, 64, 64), Err(11)),
    ]
}

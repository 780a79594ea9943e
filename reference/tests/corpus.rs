//! The corpus in the repository is what the command writes, and covers what it is for.

use reference::corpus::{all, denials, joins, sheets, texts};
use reference::sheet::Sheet;
use std::collections::HashSet;
use std::path::Path;

#[test]
fn files_are_what_the_command_writes() {
    let crates = Path::new(env!("CARGO_MANIFEST_DIR")).join("../crates");
    let command = "cargo run --manifest-path reference/Cargo.toml --bin corpus";
    for corpus in all() {
        let folder = crates.join(corpus.program);
        let stdin = std::fs::read(folder.join("stdin")).unwrap();
        let stdout = std::fs::read_to_string(folder.join("stdout")).unwrap();
        assert!(stdin == corpus.stdin, "{}: stdin is another; {command}", corpus.program);
        assert!(stdout == corpus.stdout, "{}: stdout is another; {command}", corpus.program);
    }
}

/// Every kind is the last node of tables with several rows, and every refusal but 14 is there at least eight times.
#[test]
fn sheets_cover_kinds_and_refusals() {
    let records = sheets::all();
    for kind in 10..=23 {
        let tables = records.iter().filter(|record| record.table.len() > 8 && record.table[4] > 1);
        let last = tables.map(|record| Sheet::read(&record.sheet).unwrap().nodes.last().unwrap().kind);
        assert!(last.filter(|&last| last == kind).count() >= 5, "kind {kind}");
    }
    for number in 1..=9 {
        assert!(records.iter().filter(|record| record.answer[0] == number).count() >= 8, "refusal {number}");
    }
}

/// A sheet with spare nodes and the same without have one table, or one refusal. Both sorts of answers are there.
#[test]
fn pairs_agree() {
    let records = sheets::all();
    let pairs: Vec<_> = records.windows(2).filter(|pair| pair[0].name == sheets::WITH_SPARE_NODES).collect();
    for pair in &pairs {
        assert_eq!(pair[1].name, sheets::WITHOUT_SPARE_NODES);
        assert_eq!((pair[0].answer[0], &pair[0].table), (pair[1].answer[0], &pair[1].table));
    }
    let compiled = pairs.iter().filter(|pair| pair[0].answer[0] == 0).count();
    assert!(compiled >= 10 && pairs.len() - compiled >= 3, "{compiled} of {}", pairs.len());
}

/// A Fulfilling and the same written otherwise have one table. Every way is there.
#[test]
fn waits_agree() {
    let records = sheets::all();
    let pairs: Vec<_> = records.windows(2).filter(|pair| pair[0].name == sheets::WAIT).collect();
    for pair in &pairs {
        assert_eq!((pair[0].answer, &pair[0].table), (pair[1].answer, &pair[1].table), "{}", pair[1].name);
        assert!(pair[0].answer[0] == 0 && pair[0].table[4] > 2);
    }
    for (_, name) in sheets::OTHERWISE {
        assert!(pairs.iter().filter(|pair| pair[1].name == name).count() >= 4, "{name}");
    }
}

/// A sheet of many formulas and the same with other formulas have one answer and one table. Both sorts of answers are
/// there.
#[test]
fn formulas_agree() {
    let records = sheets::all();
    let pairs: Vec<_> = records.windows(2).filter(|pair| pair[0].name == sheets::MANY_FORMULAS).collect();
    for pair in &pairs {
        assert_eq!(pair[1].name, sheets::OTHER_FORMULAS);
        assert_eq!((pair[0].answer, &pair[0].table), (pair[1].answer, &pair[1].table));
        assert_ne!(pair[0].sheet, pair[1].sheet);
    }
    let compiled = pairs.iter().filter(|pair| pair[0].answer[0] == 0 && pair[0].table[4] > 2).count();
    assert!(compiled >= 8 && pairs.len() - compiled >= 2, "{compiled} of {}", pairs.len());
}

/// Every kind is in eight sheets of texts and more, the whole policy of one; every answer is there at least eight times.
#[test]
fn texts_cover_kinds_and_answers() {
    let records = texts::all();
    let sheets: Vec<Sheet> = records
        .iter()
        .filter(|record| !record.sheet.is_empty())
        .map(|record| Sheet::read(&record.sheet).unwrap())
        .collect();
    for kind in (1..=6).chain(10..=23) {
        let with = sheets.iter().filter(|sheet| sheet.nodes.iter().any(|node| node.kind == kind)).count();
        assert!(with >= 8, "kind {kind}: {with}");
        let whole = sheets.iter().any(|sheet| sheet.nodes.last().unwrap().kind == kind);
        assert!(whole || kind < 10, "kind {kind}");
    }
    for number in [0, 2, 14, 31, 32, 33] {
        assert!(records.iter().filter(|record| record.answer as u16 == number).count() >= 8, "answer {number}");
    }
    let spots: HashSet<u64> =
        records.iter().filter(|record| record.answer as u16 == 32).map(|record| record.answer >> 16).collect();
    assert!(spots.len() >= 30, "{spots:?}");
    assert!(records
        .iter()
        .all(|record| record.text.len() <= 3000 && record.output <= 400 && record.actions.len() <= 17));
}

/// Every answer is there at least eight times, and joins of every count that is in range give tables.
#[test]
fn joins_cover_counts_and_answers() {
    let records = joins::all(&sheets::tables_of(&sheets::all()));
    for number in [0, 2, 8, 9, 10, 11, 14, 23, 34] {
        let with = records.iter().filter(|record| record.answer[0] == number).count();
        assert!(with >= 8, "answer {number}: {with}");
    }
    for count in 2..=8 {
        let tables = records.iter().filter(|record| record.count == count && record.answer[0] == 0).count();
        assert!(tables >= 3, "count {count}: {tables}");
    }
    let several = records.iter().filter(|record| record.table.len() > 8 && record.table[4] > 4).count();
    assert!(several >= 10, "{several}");
    assert!(records.iter().all(|record| record.tables.len() <= 8300));
}

/// Every answer is there at least eight times, the compiler's four times, denials at many nodes and places. No denial is at the place that stands
/// for none.
#[test]
fn denials_cover_nodes_and_answers() {
    let records = denials::all();
    for number in (1..=9).chain([0, 12, 14, 34, 255]) {
        let with = records.iter().filter(|record| record.answer[0] == number).count();
        assert!(with >= if matches!(number, 1..=9) { 4 } else { 8 }, "answer {number}: {with}");
    }
    let denied: Vec<&denials::Record> = records.iter().filter(|record| record.answer[0] == 255).collect();
    let nodes: HashSet<u8> = denied.iter().map(|record| record.answer[1]).collect();
    let places: HashSet<u64> = denied.iter().map(|record| record.place).collect();
    assert!(nodes.len() >= 15 && places.len() >= 12, "{nodes:?}, {places:?}");
    assert!(denied.iter().any(|record| record.place > 65_535));
    assert!(records.iter().all(|record| (record.answer[0] == 255) == (record.place != denials::FRESH)));
    assert!(records.iter().all(|record| record.sheet.len() <= 400 && record.rest.len() <= 400));
}

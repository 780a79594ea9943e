//! Explaining, beside compiling the same sheet, compiling it and walking its rows by hand, and the reference, which judges
//! prefixes by the meanings.

use crate::{compiler, library, medians_of};
use reference::calls::{fields, DENIED, VALUES, WORK};
use reference::cases::house::{House, RULES};
use reference::generate::Random;
use reference::machine::{Rows, TRIP};
use reference::table::HEADER;
use std::hint::black_box;

const REPETITIONS: usize = 101;
/// The lists' lengths, and the longest that is one for the reference: it judges all prefixes of all suffixes.
const LENGTHS: [usize; 3] = [0, 100, 10_000];
const SHORT: usize = 100;

/// The sheet of some house rules under Ands, as its text is read.
fn under_ands(rules: &[&House]) -> Vec<u8> {
    let parts = rules.iter().map(|rule| rule.text().strip_prefix("enforce ").expect("an enforced rule"));
    let text = format!("enforce {}{}", "and ".repeat(rules.len() - 1), parts.collect::<Vec<_>>().join(" "));
    reference::read_text(text.as_bytes(), &rules[0].actions()).expect("a rule").bytes()
}

/// A drawn list of so many actions: all permitted but the last, which is denied.
fn list_for(rows: &Rows, length: usize) -> Vec<u8> {
    let mut random = Random(31);
    let denied = |row: u8| (0..rows.actions).find(|&action| rows.next(row, action).is_none());
    // The walk is drawn again where nothing is denied at its end.
    let mut walk = || {
        let (mut list, mut row) = (Vec::new(), 0);
        while list.len() + 1 < length {
            let action = random.below(rows.actions);
            if let Some(next) = rows.next(row, action) {
                list.push(action as u8);
                row = next;
            }
        }
        denied(row).map(|action| {
            list.push(action as u8);
            list
        })
    };
    (0..1000).find_map(|_| walk()).expect("a list that ends with a denial")
}

/// The first place at which the rows trip: what a list takes at least, once there is a table.
fn walk(rows: &Rows, list: &[u8]) -> Option<usize> {
    let mut row = 0;
    list.iter().position(|&action| {
        let next = rows.entries[row * rows.actions + action as usize];
        row = next as usize;
        next == TRIP
    })
}

fn line(on: &str, sheet: &[u8], length: usize) {
    let table = reference::compile(sheet).expect("a table");
    let rows = Rows { actions: table[2] as usize, entries: table[HEADER..].to_vec() };
    let list = if length == 0 { Vec::new() } else { list_for(&rows, length) };
    let (mut place, mut work, mut values) = ([0], vec![0; WORK], vec![0; VALUES]);
    let mut explain = || library::explain(black_box(sheet), black_box(&list), &mut place, &mut work, &mut values);
    let [number, node, ..] = fields(explain());
    assert_eq!(number, if length > 0 { DENIED.into() } else { 0 });
    let node = if length > 0 { node.to_string() } else { "-".into() };

    let mut by_library = || {
        black_box(explain());
    };
    let sheets = [sheet.to_vec()];
    let (mut compile, mut compile_again) = (compiler(&sheets), compiler(&sheets));
    let mut by_hand = || {
        compile_again();
        black_box(walk(black_box(&rows), black_box(&list)));
    };
    let [library, compiling, by_hand] = medians_of(REPETITIONS, [&mut by_library, &mut compile, &mut by_hand]);
    print!("{on:44} {length:7} {node:>5} {library:10.3} {compiling:10.3} {:7.2}", library / compiling);
    print!(" {by_hand:10.3} {:7.2}", library / by_hand);
    if length > SHORT {
        println!();
        return;
    }
    let mut by_reference = || {
        let _ = black_box(reference::explain(black_box(sheet), black_box(&list)));
    };
    let [reference] = medians_of(REPETITIONS, [&mut by_reference]);
    println!(" {reference:10.3} {:8.4}", library / reference);
}

pub fn all() {
    println!("\nExplaining, in microseconds a list, beside the library's compiling of the same sheet; beside that and");
    println!("a plain walk of the list through the table's rows, which names the place and no node; and beside the");
    println!("reference, which judges prefixes by the meanings. All actions but the last are permitted.\n");
    println!(
        "{:44} {:>7} {:>5} {:>10} {:>10} {:>7} {:>10} {:>7} {:>10} {:>8}",
        "rule", "actions", "node", "library", "compiling", "ratio", "and a walk", "ratio", "reference", "ratio"
    );
    let six = under_ands(&[0, 1, 2, 4, 5, 6].map(|rule| &RULES[rule]));
    // Where the reference stands in for the library there are no long lists.
    for length in LENGTHS.into_iter().filter(|&length| length <= SHORT || !cfg!(feature = "self")) {
        line("a drop between two charges", RULES[1].sheet, length);
        line("no gas on an empty drum, And of two", RULES[3].sheet, length);
        line("six house rules under Ands, 60 nodes", &six, length);
    }
}

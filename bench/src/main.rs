//! Times of the library's calls, as ratios to the reference in the same run; of actions also to a
//! plain scan of the bytes that the check of the board has to read, and to the same call written by
//! hand in C, plain and with SSE2; of reading a text also to compiling its sheet; of minimisation and of
//! joining to OpenFst; of explaining to compiling the sheet; of a sheet with spare nodes to the same without; of sheets
//! of many formulas to one of a single formula.
//! Arguments: the programs built from minimise.cc and intersect.cc, if there are any; or the word `actions`, for the
//! rows of actions alone.

mod by_hand;
mod denials;
mod formulas;
mod joins;
#[allow(dead_code)] // not every call is timed
#[path = "../../examples/rust/src/calls.rs"]
mod library;
mod openfst;
mod spare;
mod texts;

use reference::board::{AREA, PLACES, RECORD};
use reference::calls::{self, VALUES, WORK};
use reference::cases::small_roastery;
use reference::generate::{sheet, Random, Style};
use reference::machine::Machine;
use reference::sheet::Sheet;
use reference::table::LARGEST;
use reference::trees::*;
use std::hint::black_box;
use std::time::Instant;

const REPETITIONS: usize = 301;
/// Microseconds that one repetition takes at least: few, so that most are not interrupted.
const BATCH: f64 = 200.0;
/// Actions before the records are set back.
const ACTIONS: usize = 64;
/// Records that the actions go round.
const RECORDS: usize = 8;

/// The medians of some functions in microseconds a call; repetitions go round all of them.
fn medians<const N: usize>(functions: [&mut dyn FnMut(); N]) -> [f64; N] {
    medians_of(REPETITIONS, functions)
}

fn medians_of<const N: usize>(repetitions: usize, mut functions: [&mut dyn FnMut(); N]) -> [f64; N] {
    let mut time = |function: usize, calls: usize| {
        let start = Instant::now();
        (0..calls).for_each(|_| functions[function]());
        start.elapsed().as_secs_f64() * 1e6 / calls as f64
    };
    let calls: [usize; N] = std::array::from_fn(|function| {
        time(function, 1);
        (BATCH / time(function, 1).max(0.01)).clamp(1.0, 1e6) as usize
    });
    let mut times = [(); N].map(|_| Vec::new());
    for _ in 0..repetitions {
        (0..N).for_each(|function| times[function].push(time(function, calls[function])));
    }
    times.map(median)
}

fn median(mut times: Vec<f64>) -> f64 {
    times.sort_by(f64::total_cmp);
    times[times.len() / 2]
}

/// Prints times of one call, given for `calls` calls together: the library's, then others with its ratio to them.
/// The others are the reference; a scan, or a clearing; the call written by hand, plain and with SSE2.
fn line(call: &str, on: &str, calls: usize, library: f64, others: &[f64]) {
    let each = |time: f64| time / calls as f64;
    print!("{call:9} {on:52} {:10.3}", each(library));
    others.iter().for_each(|&other| print!(" {:10.3} {:7.2}", each(other), library / other));
    println!();
}

/// The library's compiler over some sheets, with areas of its own.
fn compiler(sheets: &[Vec<u8>]) -> impl FnMut() + '_ {
    let (mut out, mut work, mut values) = (vec![0; LARGEST], vec![0; WORK], vec![0; VALUES]);
    move || {
        for sheet in sheets {
            black_box(library::compile(black_box(sheet), &mut out, &mut work, &mut values));
        }
    }
}

fn compile(on: &str, sheets: &[Vec<u8>]) {
    let mut by_reference = || {
        for sheet in sheets {
            let _ = black_box(reference::compile(black_box(sheet)));
        }
    };
    let (mut work, mut values) = (vec![0u8; WORK], vec![0u64; VALUES]);
    let mut clearing = || {
        for _ in sheets {
            black_box(&mut work).fill(0);
            black_box(&mut values).fill(0);
        }
    };
    let [library, reference, clearing] = medians([&mut compiler(sheets), &mut by_reference, &mut clearing]);
    line("compile", on, sheets.len(), library, &[reference, clearing]);
}

/// Prints times of compiling a sheet: the library's, then others with its ratio to them. The others are those of
/// compiling a smaller sheet, of clearing the work areas, and of the reference.
fn compile_beside(on: &str, sheet: &[u8], smaller: &[Vec<u8>]) {
    let (mut work, mut values) = (vec![0u8; WORK], vec![0u64; VALUES]);
    let mut clearing = || {
        black_box(&mut work).fill(0);
        black_box(&mut values).fill(0);
    };
    let mut by_reference = || {
        let _ = black_box(reference::compile(black_box(sheet)));
    };
    let sheets = [sheet.to_vec()];
    let functions: [&mut dyn FnMut(); 4] =
        [&mut compiler(&sheets), &mut compiler(smaller), &mut clearing, &mut by_reference];
    let [library, others @ ..] = medians(functions);
    print!("{on:52} {library:10.3}");
    others.iter().for_each(|&other| print!(" {other:10.3} {:7.2}", library / other));
    println!();
}

fn load(on: &str, tables: &[Vec<u8>]) {
    let mut by_library = || tables.iter().for_each(|table| assert!(library::load(black_box(table)) as u16 == 0));
    let mut by_reference = || tables.iter().for_each(|table| assert!(reference::load(black_box(table)).is_ok()));
    let [library, reference] = medians([&mut by_library, &mut by_reference]);
    line("load", on, tables.len(), library, &[reference]);
}

/// A board with these tables in its first places.
fn board_of(tables: &[Vec<u8>]) -> (Vec<u8>, Vec<u8>) {
    let (mut record, mut area) = (vec![0; RECORD], vec![0; AREA]);
    for (place, table) in tables.iter().enumerate() {
        assert_eq!(calls::put_on(&mut record, &mut area, place, table), 0);
    }
    (record, area)
}

/// Puts each table on the last place, beside seven that are on. The record is set back before each call.
fn put_on(on: &str, tables: &[Vec<u8>]) {
    let (before, mut area) = board_of(&tables[..PLACES - 1]);
    let (mut record, mut other_area, mut other_record) = (before.clone(), area.clone(), before.clone());
    let mut by_library = || {
        for table in tables {
            record.copy_from_slice(&before);
            assert!(library::put_on(&mut record, &mut area, PLACES - 1, black_box(table)) == 0);
        }
    };
    let mut by_reference = || {
        for table in tables {
            other_record.copy_from_slice(&before);
            assert!(calls::put_on(&mut other_record, &mut other_area, PLACES - 1, black_box(table)) == 0);
        }
    };
    let [library, reference] = medians([&mut by_library, &mut by_reference]);
    line("put on", &format!("{on}, 7 on"), tables.len(), library, &[reference]);
}

/// Calls with these actions, in turn on each of some records of one area; all records are set to `before` first.
fn asker<'a>(
    call: impl Fn(&mut [u8], &[u8], usize) -> u64 + 'a,
    (before, area): &'a (Vec<u8>, Vec<u8>),
    records: usize,
    actions: &'a [usize],
) -> impl FnMut() + 'a {
    let mut all = before.repeat(records);
    move || {
        all.chunks_exact_mut(RECORD).for_each(|record| record.copy_from_slice(before));
        for round in actions.chunks(records) {
            for (record, &action) in all.chunks_exact_mut(RECORD).zip(round) {
                black_box(call(record, area, black_box(action)));
            }
        }
    }
}

/// Random actions, permitted and denied, round so many records.
fn action_on(on: &str, tables: &[Vec<u8>], records: usize) {
    let board = board_of(tables);
    let mut random = Random(7);
    let actions: Vec<usize> = (0..ACTIONS).map(|_| random.below(tables[0][2] as usize)).collect();
    by_hand::check(&board.0, &board.1, &actions);
    let mut by_scan = || {
        for _ in &actions {
            for table in tables {
                black_box(black_box(table).iter().fold(0u8, |sum, byte| sum.wrapping_add(*byte)));
            }
        }
    };
    let functions: [&mut dyn FnMut(); 5] = [
        &mut asker(library::action, &board, records, &actions),
        &mut asker(calls::action, &board, records, &actions),
        &mut by_scan,
        &mut asker(by_hand::action, &board, records, &actions),
        &mut asker(by_hand::action_with_sse2, &board, records, &actions),
    ];
    let [library, others @ ..] = medians(functions);
    line("action", on, ACTIONS, library, &others);
}

fn action(on: &str, tables: &[Vec<u8>]) {
    action_on(&format!("{on}, {} on", tables.len()), tables, RECORDS);
}

fn board_calls(on: &str, tables: &[Vec<u8>]) {
    load(on, tables);
    put_on(on, tables);
    action(on, &tables[..1]);
    action(on, &tables[..PLACES]);
}

/// The tables of those sheets that compile with so many actions, the first ones again up to eight.
fn tables_of(sheets: &[Vec<u8>], actions: u8) -> Vec<Vec<u8>> {
    let tables = sheets.iter().filter_map(|sheet| reference::compile(sheet).ok());
    let tables: Vec<Vec<u8>> = tables.filter(|table| table[2] == actions).collect();
    let count = tables.len().max(PLACES);
    tables.into_iter().cycle().take(count).collect()
}

/// The sheets of the small roastery, of which the tables over four actions are put on boards.
fn small_sheets() -> Vec<Vec<u8>> {
    small_roastery().into_iter().map(|case| case.sheet).collect()
}

/// Sheets of 64 nodes over 16 actions whose tables have 8 rows or more.
fn seeded_sheets() -> Vec<Sheet> {
    let mut random = Random(2026);
    let style = Style { actions: 16, nodes: 64, inside_limits: true, slips: 0 };
    let rows = |sheet: &Sheet| reference::compile(&sheet.bytes()).map_or(0, |table| table[4]);
    let drawn = std::iter::repeat_with(|| sheet(&mut random, style));
    drawn.filter(|sheet| rows(sheet) >= 8).take(20).collect()
}

/// Each action with a proposition of its own.
fn sixteen_actions() -> Vec<u16> {
    (0..16).map(|action| 1 << action).collect()
}

/// Sheets of the largest tables: 64 rows, 16 actions.
fn full_sheets() -> Vec<Vec<u8>> {
    let full = after_watched(count(60), count(4));
    vec![full.sheet(&sixteen_actions()).bytes(), not(full).sheet(&sixteen_actions()).bytes()]
}

/// Actions on boards of more and more bytes.
fn growing_actions() {
    for rows in [1, 4, 16, 60] {
        let table = reference::compile(&count(rows).sheet(&sixteen_actions()).bytes()).expect("a table");
        action(&format!("{} bytes", table.len()), std::slice::from_ref(&table));
    }
    let largest = tables_of(&full_sheets(), 16);
    for on in [1, 2, 4, 6, 8] {
        action(&format!("{} bytes", on * largest[0].len()), &largest[..on]);
    }
}

fn action_again_and_again(tables: &[Vec<u8>]) {
    action_on("the small roastery's tables, 1 on, one record again and again", &tables[..1], 1);
}

const SMALL: &str = "the small roastery's tables";
const SEEDED: &str = "their tables, of 8 to 64 rows";
const FULL: &str = "tables of 64 rows, 16 actions";

/// The rows of actions alone.
fn actions() {
    let small = tables_of(&small_sheets(), 4);
    let seeded = seeded_sheets();
    let seeded: Vec<Vec<u8>> = seeded.iter().map(Sheet::bytes).collect();
    for (on, tables) in [(SMALL, &small), (SEEDED, &tables_of(&seeded, 16)), (FULL, &tables_of(&full_sheets(), 16))] {
        action(on, &tables[..1]);
        action(on, &tables[..PLACES]);
    }
    action_again_and_again(&small);
    growing_actions();
}

fn main() {
    println!("Times in microseconds a call: medians of {REPETITIONS} repetitions that go round the columns, each of");
    println!(
        "as many calls as take {} ms, at least one. A ratio is the library's time by that of the column",
        BATCH / 1000.0
    );
    println!("before it. No buffer is cleared first: a call finds its areas as the call before left them, in");
    println!("the cache. The library's compiler clears its work areas in each call, and its time has that;");
    println!("the reference takes memory from the heap. The scan adds up the bytes of the tables that are");
    println!("on, which is what the check of the board has to read at each action. The clearing zeroes the two");
    println!("work areas, which is the least that a compilation writes.");
    println!("By hand is the same action in plain C (by_hand.c, compiled by gcc -O3): the same record, area,");
    println!("checks and answers; with SSE2 is the same with intrinsics for the check of a table. Before they are");
    println!("timed their answers and records are held to the library's, on these actions and on damaged boards.");
    println!("Actions go round {RECORDS} records on one area, in every column: a unit's actions come seconds apart.");
    println!("The row of one record again and again has calls back to back: a call that needs what the one before");
    println!("wrote does not overlap with it in the processor.\n");
    println!(
        "{:9} {:52} {:>10} {:>10} {:>7} {:>10} {:>7} {:>10} {:>7} {:>10} {:>7}",
        "call", "on", "library", "reference", "ratio", "scan/clear", "ratio", "by hand", "ratio", "with SSE2", "ratio"
    );

    if std::env::args().nth(1).is_some_and(|word| word == "actions") {
        return actions();
    }

    let cases = small_roastery();
    for name in ["Whenever charge: Before+ drop", "Always Holds not charge", "After- Count 60 Count 4"] {
        let case = cases.iter().find(|case| case.name == name).expect("a case of the small roastery");
        compile(&format!("{name} ({} bytes)", case.sheet.len()), std::slice::from_ref(&case.sheet));
    }
    let small_sheets = small_sheets();
    compile(&format!("the small roastery's sheets ({})", small_sheets.len()), &small_sheets);
    let tables = tables_of(&small_sheets, 4);
    board_calls(SMALL, &tables);
    action_again_and_again(&tables);

    let seeded = seeded_sheets();
    let seeded_bytes: Vec<Vec<u8>> = seeded.iter().map(Sheet::bytes).collect();
    compile("20 seeded sheets, 64 nodes, 16 actions", &seeded_bytes);
    board_calls(SEEDED, &tables_of(&seeded_bytes, 16));

    // Sheets at the limits.
    let sixteen = sixteen_actions();
    let many_values = many_values().sheet(&TWO);
    let all_values = two_counts(32, 32).sheet(&TWO);
    compile("1,022 values, 25 rows", &[many_values.bytes()]);
    compile("1,024 values, refused 9", &[all_values.bytes()]);
    compile("over 1,024 values, refused 8", &[two_counts(33, 32).sheet(&TWO).bytes()]);
    let full_sheets = full_sheets();
    compile("64 rows, 16 actions", &full_sheets);
    board_calls(FULL, &tables_of(&full_sheets, 16));

    println!("\nWhat grows: values, rows, bytes on a board. tools/times draws these.\n");
    let values = |sheet: &Sheet| {
        let machines = reference::compile::machines(sheet).expect("inside the limits");
        machines.iter().map(Machine::states).max().expect("a policy")
    };
    let grows = |what: &str, tree: Tree, actions: &[u16]| {
        let sheet = tree.sheet(actions);
        let rows = reference::compile(&sheet.bytes()).expect("a table")[4];
        compile(&format!("{what}: {} values, {rows} rows", values(&sheet)), &[sheet.bytes()]);
    };
    for all in 3..=10 {
        grows("copies", copies_of(all, all - 2), &TWO);
    }
    for k in [1, 2, 4, 8, 16, 32, 60] {
        grows("chain", count(k), &sixteen);
    }
    grows("chain", after_watched(count(60), count(4)), &sixteen);
    growing_actions();

    texts::all();

    println!("\nMinimisation, microseconds for all machines of the sheets together. The library has no call");
    println!("for it alone: its column is the whole compilation.\n");
    let mut programs = std::env::args().skip(1);
    let program = programs.next();
    openfst::header();
    openfst::compare("20 seeded sheets, 64 nodes, 16 actions", program.as_deref(), &seeded);
    openfst::compare("1,022 values, 25 rows", program.as_deref(), &[many_values]);
    openfst::compare("1,024 values, refused 9", program.as_deref(), &[all_values]);

    joins::all(programs.next().as_deref());
    denials::all();
    spare::all();
    formulas::all();
}

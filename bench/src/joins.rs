//! Joining, beside the reference's product, the clearing of the work areas, and OpenFst's intersection and minimisation.

use crate::{library, median, medians_of, openfst};
use reference::calls::{VALUES, WORK};
use reference::cases::joins::{house_tables, independent};
use reference::generate::Random;
use reference::inputs::tables::random_table;
use reference::join::{join, product, split};
use reference::machine::{Machine, Rows};
use reference::table::{self, ENFORCED, LARGEST};
use std::fmt::Write as _;
use std::hint::black_box;

const ROUNDS: usize = 5;
/// Repetitions in a round.
const REPETITIONS: usize = 61;

/// A count, and as many tables one after the other.
type Tables = (usize, Vec<u8>);

fn of(tables: &[Vec<u8>]) -> Tables {
    (tables.len(), tables.concat())
}

/// The table of a machine.
fn table_of(states: usize, actions: usize, next: impl Fn(usize, usize) -> Option<usize>) -> Vec<u8> {
    let next = (0..states * actions).map(|index| next(index / actions, index % actions)).collect();
    let rows = Machine { actions, next }.canonical().expect("at most 64 rows");
    table::write(false, &rows)
}

/// Two tables of 64 rows. Action 0 moves both by one row round their rings, action 1 the first by one and the second by
/// five, so that their distance takes 16 values: 1,024 tuples. Action 2 is permitted in row 0 of the first, action 3
/// never by the first, and in row 0 of the second: the joined rows are those of the first.
fn two_rings() -> Tables {
    let ring = |row: usize, by: usize| Some((row + by) % 64);
    let first = table_of(64, 4, |row, action| match action {
        0 | 1 => ring(row, 1),
        2 => (row == 0).then_some(0),
        _ => None,
    });
    let second = table_of(64, 4, |row, action| match action {
        0 => ring(row, 1),
        1 => ring(row, 5),
        2 => Some(row),
        _ => (row == 0).then_some(0),
    });
    of(&[first, second])
}

/// The first eight drawn tables of at most four rows whose join has 20 rows or more.
fn eight_small() -> Tables {
    let mut random = Random(8);
    let mut small = || {
        let mut drawn = std::iter::repeat_with(|| random_table(&mut random, 4, true));
        let mut table = drawn.find(|table| (2..=4).contains(&table[4])).expect("a small one");
        table[0] = ENFORCED;
        table
    };
    let drawn = std::iter::repeat_with(|| of(&(0..8).map(|_| small()).collect::<Vec<_>>()));
    let mut large = drawn.filter(|(count, tables)| join(*count, tables).is_ok_and(|table| table[4] >= 20));
    large.next().expect("some eight")
}

/// The time of OpenFst on these tables, minimised at the end or after each intersection, whichever is less. Its states must
/// be as many as the reference's.
fn by_openfst(program: &str, all: &[Rows], tuples: Option<usize>, rows: Option<usize>) -> f64 {
    let mut text = format!("{REPETITIONS}\n{} {}", all.len(), all[0].actions);
    for table in all {
        write!(text, " {}", table.count()).unwrap();
        for &entry in &table.entries {
            write!(text, " {}", if entry == reference::machine::TRIP { -1 } else { entry as i64 }).unwrap();
        }
    }
    let output = openfst::output_of(program, text + "\n");
    let words: Vec<&str> = output.split_whitespace().collect();
    let [end, each, intersected, left] = words[..] else { panic!("four numbers: {output}") };
    let counted = |word: &str| word.parse::<usize>().expect("a number");
    let same = |found: usize, stated: Option<usize>, most: usize| stated.map_or(found > most, |stated| stated == found);
    assert!(same(counted(intersected), tuples, VALUES), "{intersected} states of OpenFst, tuples {tuples:?}");
    assert!(same(counted(left), rows, 64), "{left} states of OpenFst, rows {rows:?}");
    let time = |word: &str| word.parse::<f64>().expect("a time");
    time(end).min(time(each))
}

fn line(on: &str, program: Option<&str>, (count, tables): &Tables) {
    let all = split(*count, tables).expect("tables that can be joined");
    let tuples = product(&all).map(|machine| machine.states());
    let rows = join(*count, tables).ok().map(|table| table[4] as usize);
    let (mut out, mut work, mut values) = (vec![0; LARGEST], vec![0; WORK], vec![0; VALUES]);
    let mut by_library = || {
        black_box(library::join(*count, black_box(tables), &mut out, &mut work, &mut values));
    };
    let mut by_reference = || {
        let _ = black_box(join(*count, black_box(tables)));
    };
    let (mut other_work, mut other_values) = (vec![0u8; WORK], vec![0u64; VALUES]);
    let mut clearing = || {
        black_box(&mut other_work).fill(0);
        black_box(&mut other_values).fill(0);
    };
    // In rounds, so that all see the machine alike.
    let mut times = [(); 4].map(|_| Vec::new());
    for _ in 0..ROUNDS {
        let round = medians_of(REPETITIONS, [&mut by_library, &mut by_reference, &mut clearing]);
        let openfst = program.map_or(0.0, |program| by_openfst(program, &all, tuples, rows));
        times.iter_mut().zip([round[0], round[1], round[2], openfst]).for_each(|(times, time)| times.push(time));
    }
    let [library, reference, clearing, openfst] = times.map(median);
    let shown = |number: Option<usize>| number.map_or("over".into(), |number| number.to_string());
    print!("{on:44} {count:6} {:>6} {:>5}", shown(tuples), if tuples.is_some() { shown(rows) } else { "-".into() });
    print!(" {library:10.3} {reference:10.3} {:7.2} {clearing:10.3} {:7.2}", library / reference, library / clearing);
    match program {
        None => println!("  libfst-dev is missing"),
        Some(_) => println!(" {openfst:10.3} {:7.2} {:7.2}", library / openfst, reference / openfst),
    }
}

pub fn all(program: Option<&str>) {
    println!("\nJoining, in microseconds a join, beside the reference's product of rows, the clearing of the two work");
    println!("areas, and OpenFst, whose column is the intersection and the minimisation of the same tables alone,");
    println!("minimised at the end or after each intersection, whichever is faster. The library's and the reference's");
    println!("time has the checks of every table; the library's has the clearing too. Tuples are those of rows that occur.\n");
    println!(
        "{:44} {:>6} {:>6} {:>5} {:>10} {:>10} {:>7} {:>10} {:>7} {:>10} {:>7} {:>7}",
        "join of",
        "tables",
        "tuples",
        "rows",
        "library",
        "reference",
        "ratio",
        "clearing",
        "ratio",
        "OpenFst",
        "lib/OF",
        "ref/OF"
    );
    let house = house_tables();
    line("the first two house rules", program, &of(&house[..2]));
    line("the seven enforced house rules", program, &of(&house));
    line("eight small tables, 4 actions", program, &eight_small());
    line("counts of 8 and 8", program, &(2, independent(&[8, 8], 2)));
    line("two tables of 64 rows", program, &two_rings());
    line("counts of 32 and 32, refused 9", program, &(2, independent(&[32, 32], 2)));
    line("counts of 33 and 32, refused 8", program, &(2, independent(&[33, 32], 2)));
}

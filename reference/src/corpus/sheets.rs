//! The corpus of sheets: those of "A small roastery" first, then those with a stated answer, then drawn ones, at the end
//! pairs: a sheet with spare nodes and the same without, a Fulfilling and the same written otherwise, and formulas
//! likewise.

use super::{tally, write, Corpus};
use crate::calls::{self, VALUES, WORK};
use crate::cases::{counted, formulas, sheets, small_roastery, spare, waits, Case, Lent};
use crate::compile;
use crate::generate::{lay_out, sheet, Random, Style};
use crate::inputs::formulas::{many_formulas, rewritten};
use crate::inputs::sheets::SORTS;
use crate::inputs::spare::{any_spared, Spared};
use crate::inputs::tables::Pool;
use crate::inputs::waits::{any_rewritten, Rewritten, Way};
use crate::sheet::Sheet;
use crate::table::LARGEST;

/// A sheet, with the reference's answer, as the library gives it, and table.
pub struct Record {
    pub name: String,
    pub lent: Lent,
    pub sheet: Vec<u8>,
    pub answer: [u8; 4],
    pub table: Vec<u8>,
}

fn record(name: String, lent: Lent, sheet: Vec<u8>) -> Record {
    let short = |area, length: usize| if lent == area { length - 1 } else { length };
    let mut out = vec![0; short(Lent::ShortOutput, LARGEST)];
    let mut work = vec![0; short(Lent::ShortWork, WORK)];
    let mut values = vec![0; short(Lent::ShortValues, VALUES)];
    let answer = calls::bytes(calls::compile(&sheet, &mut out, &mut work, &mut values));
    out.truncate(if answer[0] == 0 { 8 + answer[2] as usize * answer[3] as usize } else { 0 });
    Record { name, lent, sheet, answer, table: out }
}

/// The longest drawn sheet that is kept.
const LONGEST: usize = 400;
/// Drawn sheets of each kind as the last node.
const OF_EACH_KIND: usize = 14;
/// Drawn sheets of a sort for each hundredth of its share.
const ROUNDS: usize = 4;
/// Pairs of sheets, of which each fourth is refused, and their names.
const PAIRS: usize = 20;
pub const WITH_SPARE_NODES: &str = "spare nodes between";
pub const WITHOUT_SPARE_NODES: &str = "the same, spare nodes taken out";
/// Pairs for each way to write a Fulfilling, and their names.
const WAITS: usize = 4;
pub const WAIT: &str = "a wait";
pub const OTHERWISE: [(Way, &str); 3] = [
    (Way::Cut, "the same, a cut off behind k actions"),
    (Way::Late, "the same, a fulfilled by k + 1 actions"),
    (Way::Split, "the same in two parts"),
];
/// Pairs of sheets with many formulas, of which each fifth is refused by 8 or 9, and their names.
const FORMULAS: usize = 10;
pub const MANY_FORMULAS: &str = "many formulas";
pub const OTHER_FORMULAS: &str = "the same, formulas written otherwise";

pub fn all() -> Vec<Record> {
    let stated = [small_roastery(), waits(), sheets::all(), spare::all(), counted::all(), formulas::all()];
    let stated = stated.into_iter().flatten();
    let mut all: Vec<Record> = stated.map(|Case { name, lent, sheet, .. }| record(name, lent, sheet)).collect();
    let mut random = Random(1);
    let mut draw = |name: String, draw: &dyn Fn(&mut Random) -> Vec<u8>| {
        let drawn = std::iter::repeat_with(|| draw(&mut random)).find(|bytes| bytes.len() <= LONGEST);
        all.push(record(name, Lent::Whole, drawn.expect("a short one")));
    };
    for kind in (10..=23).flat_map(|kind| [kind; OF_EACH_KIND]) {
        draw(format!("kind {kind} last"), &|random| of_kind(random, kind));
    }
    for sort in SORTS.iter().filter(|sort| sort.name != "sheet, long") {
        (0..ROUNDS * sort.share).for_each(|_| draw(sort.name.into(), &sort.draw));
    }
    for pair in 0..PAIRS {
        let refused = |pair: &Spared| compile(&pair.plain.bytes()).is_err();
        let mut drawn = std::iter::repeat_with(|| any_spared(&mut random));
        let pair = drawn.find(|drawn| refused(drawn) == (pair % 4 == 3)).expect("a pair");
        all.push(record(WITH_SPARE_NODES.into(), Lent::Whole, pair.spared.bytes()));
        all.push(record(WITHOUT_SPARE_NODES.into(), Lent::Whole, pair.plain.bytes()));
    }
    for (way, name) in OTHERWISE.into_iter().flat_map(|way| [way; WAITS]) {
        let short = |pair: &Rewritten| pair.other.nodes.len() <= 30;
        let several = |pair: &Rewritten| compile(&pair.other.bytes()).is_ok_and(|table| table[4] > 2);
        let mut drawn = std::iter::repeat_with(|| any_rewritten(&mut random));
        let pair = drawn.find(|drawn| drawn.way == way && short(drawn) && several(drawn)).expect("a pair");
        all.push(record(WAIT.into(), Lent::Whole, pair.plain.bytes()));
        all.push(record(name.into(), Lent::Whole, pair.other.bytes()));
    }
    for pair in 0..FORMULAS {
        let fits = |plain: &Sheet| match compile(&plain.bytes()) {
            Ok(table) => pair % 5 != 4 && table[4] > 2,
            Err(refusal) => pair % 5 == 4 && matches!(refusal.number, 8 | 9),
        };
        let plain = std::iter::repeat_with(|| many_formulas(&mut random)).find(fits).expect("a sheet");
        let other = rewritten(&mut random, &plain);
        all.push(record(MANY_FORMULAS.into(), Lent::Whole, plain.bytes()));
        all.push(record(OTHER_FORMULAS.into(), Lent::Whole, other.bytes()));
    }
    all
}

/// A sheet that compiles and whose last node is of a kind.
fn of_kind(random: &mut Random, kind: u8) -> Vec<u8> {
    let actions = random.pick(&[1, 2, 2, 2, 3, 3, 3, 4, 4, 5, 6, 8, 13, 16]);
    let style = Style { actions, nodes: 6 + random.below(10), inside_limits: true, slips: 0 };
    let drawn = std::iter::repeat_with(|| sheet(random, style)).find(|sheet| sheet.nodes[style.nodes - 1].kind == kind);
    lay_out(random, &drawn.expect("one of the kind"))
}

/// The tables of the sheets.
pub fn tables_of(records: &[Record]) -> Pool {
    let (mut random, mut pool) = (Random(3), Pool::default());
    let compiled = records.iter().filter(|record| record.answer[0] == 0);
    compiled.for_each(|record| pool.keep(&mut random, &record.table));
    pool
}

/// How many sequences the second implementation judges: all up to a length, at most 130 actions and 2,048 sequences.
fn judged(actions: usize) -> usize {
    let longer = |count: &usize| Some(actions * count + 1).filter(|&count| count <= 2048);
    std::iter::successors(Some(1), longer).take(131).last().expect("the empty sequence")
}

pub fn corpus(records: &[Record]) -> Corpus {
    let block = |record: &Record| {
        let answer = [&record.answer[..], &record.table].concat();
        [record.name.clone().into_bytes(), vec![record.lent as u8], record.sheet.clone(), answer]
    };
    let blocks: Vec<[Vec<u8>; 4]> = records.iter().map(block).collect();
    let compiled = records.iter().filter(|record| record.answer[0] == 0);
    let compiled: Vec<Sheet> = compiled.map(|record| Sheet::read(&record.sheet).expect("a sheet")).collect();
    let kinds = compiled.iter().flat_map(|sheet| sheet.nodes.iter().map(|node| node.kind));
    let sequences: usize = compiled.iter().map(|sheet| judged(sheet.actions.len())).sum();
    let stdout = format!(
        "sheets {}\nanswers{}\nkinds{}\nsequences {sequences}\ndisagreements 0\n",
        records.len(),
        tally(records.iter().map(|record| record.answer[0])),
        tally(kinds),
    );
    Corpus { program: "compiler_cases", stdin: write(&blocks), stdout }
}

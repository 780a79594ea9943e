//! Fulfilling whose k is not the bound of a: tables against the meanings, and the same rule written otherwise.

use reference::generate::{Random, Style};
use reference::inputs::lists::{list_for, waits_under_and};
use reference::inputs::sheets::SORTS;
use reference::inputs::waits::{any_rewritten, any_way, with_waits, Rewritten, Way};
use reference::machine::Rows;
use reference::meaning::Meaning;
use reference::sheet::{Sheet, Type};
use reference::{compile, explain, Denial};
use std::collections::BTreeMap;

/// The drawn sheets of each sort of waits.
fn drawn(random: &mut Random, name: &str) -> Sheet {
    let sort = SORTS.iter().find(|sort| sort.name == name).expect("a sort");
    Sheet::read(&(sort.draw)(random)).expect("a sheet")
}

const NAMES: [&str; 3] = ["sheet, Fulfilling", "sheet, Fulfilling over drawn nodes", "sheet, Fulfilling in Fulfilling"];

/// The verdict of the rows on a sequence, and that of the meaning, after all short sequences and some that are longer
/// than most waits.
#[test]
fn tables_give_the_verdicts() {
    let mut random = Random(51);
    let (mut compared, mut trips) = (0, 0);
    for round in 0..1500 {
        let sheet = drawn(&mut random, NAMES[round % NAMES.len()]);
        let actions = sheet.actions.len();
        let Ok(table) = compile(&sheet.bytes()) else { continue };
        let rows = Rows { actions, entries: table[8..].to_vec() };
        let mut meaning = Meaning::new(&sheet);
        let mut traces = vec![vec![]];
        let shorter = |n: usize| traces_of(actions, n);
        (1..=4).filter(|&n| actions.pow(n as u32) <= 256).for_each(|n| traces.extend(shorter(n)));
        traces.extend((0..12).map(|_| (0..random.below(60)).map(|_| random.below(actions) as u8).collect()));
        for trace in traces {
            let row = trace.iter().try_fold(0, |row, &action| rows.next(row, action as usize));
            let satisfied = meaning.satisfied(sheet.nodes.len() - 1, &trace);
            assert_eq!(row.is_some() == (table[0] == 1), satisfied, "{sheet:?} on {trace:?}");
            compared += 1;
            trips += row.is_none() as usize;
        }
    }
    assert!((compared / 10..9 * compared / 10).contains(&trips), "{trips} of {compared} tripped");
}

fn traces_of(actions: usize, length: usize) -> Vec<Vec<u8>> {
    let digits = |mut number: usize| {
        let mut trace = vec![0; length];
        trace.iter_mut().for_each(|action| {
            *action = (number % actions) as u8;
            number /= actions;
        });
        trace
    };
    (0..actions.pow(length as u32)).map(digits).collect()
}

/// Among them are an a with a bound below k, k, above it and none, and an a that is fulfilled never, at k and behind it.
#[test]
fn waits_of_every_sort() {
    let mut random = Random(52);
    let side = |number: usize, k: usize| (number.cmp(&k) as i8 + 1) as usize;
    let (mut bounds, mut firsts) = ([0; 4], [0; 4]);
    for round in 0..3000 {
        let sheet = drawn(&mut random, NAMES[round % NAMES.len()]);
        let Ok(types) = sheet.types() else { continue };
        let mut meaning = Meaning::new(&sheet);
        let waits = (0..types.len()).filter(|&node| types[node] != Type::Unused && sheet.nodes[node].kind == 22);
        for node in waits.collect::<Vec<_>>() {
            let (k, a) = (sheet.nodes[node].argument as usize, sheet.nodes[node].a());
            let Type::Watched(bound) = types[a] else { panic!("a is watched") };
            bounds[bound.map_or(3, |bound| side(bound as usize, k))] += 1;
            let trace: Vec<u8> = (0..k + 3).map(|_| random.below(sheet.actions.len()) as u8).collect();
            let first = (0..=trace.len()).find(|&n| meaning.satisfied(a, &trace[..n]));
            firsts[first.map_or(3, |first| side(first, k))] += 1;
        }
    }
    assert!(bounds.iter().chain(&firsts).all(|&count| count > 100), "bounds {bounds:?}, first fulfilments {firsts:?}");
}

/// The answers to both, held to each other: one table, or one refusal; 8 and 9 may come to one of them alone.
fn alike(pair: &Rewritten) -> [u8; 2] {
    let [plain, other] = [&pair.plain, &pair.other].map(|sheet| compile(&sheet.bytes()));
    let numbers = [&plain, &other].map(|answer| answer.as_ref().map_or_else(|refusal| refusal.number, |_| 0));
    if numbers.iter().any(|number| matches!(number, 8 | 9)) {
        assert!(numbers.iter().all(|number| matches!(number, 0 | 8 | 9)), "{pair:?}: {numbers:?}");
    } else {
        assert_eq!(plain.map_err(|refusal| refusal.number), other.map_err(|refusal| refusal.number), "{pair:?}");
    }
    numbers
}

#[test]
fn written_otherwise() {
    let mut random = Random(53);
    let mut seen: BTreeMap<(Way, [u8; 2]), usize> = BTreeMap::new();
    for _ in 0..4000 {
        let pair = any_rewritten(&mut random);
        *seen.entry((pair.way, alike(&pair))).or_default() += 1;
    }
    for way in [Way::Cut, Way::Late, Way::Split] {
        assert!(seen[&(way, [0, 0])] > 500, "{seen:?}");
    }
    // The other has larger nodes, so one of these may be over a limit.
    assert!(seen.keys().any(|(_, numbers)| numbers[0] == 0 && numbers[1] != 0), "{seen:?}");
}

/// Under And: the same place, and the node at its number. In two parts it is one of these, directly before.
#[test]
fn explained_otherwise() {
    let mut random = Random(54);
    let (mut denials, mut waits) = (0, 0);
    for _ in 0..3000 {
        let plain = waits_under_and(&mut random);
        let Some(pair) = any_way(&mut random, &plain) else { continue };
        let list = list_for(&mut random, &plain.bytes());
        let (Ok(found), Ok(other)) = (explain(&plain.bytes(), &list), explain(&pair.other.bytes(), &list)) else {
            continue;
        };
        assert_eq!(found.map(|denial| denial.place), other.map(|denial| denial.place), "{pair:?} on {list:?}");
        if let (Some(Denial { node, .. }), Some(other)) = (found, other) {
            let (number, split) = (pair.numbers[node] as usize, pair.way == Way::Split && node == pair.place);
            let nodes = if split { number - 2..=number - 1 } else { number..=number };
            assert!(nodes.contains(&other.node), "{pair:?} on {list:?}: {node}, {}", other.node);
            denials += 1;
            waits += (plain.nodes[node].kind == 22) as usize;
        }
    }
    assert!(denials > 300 && waits > 100, "{denials} {waits}");
}

/// A sheet of one node gets what a wait needs.
#[test]
fn every_sheet_has_room_for_a_wait() {
    let mut random = Random(55);
    for nodes in (1..=12).cycle().take(600) {
        let style = Style { actions: 1 + random.below(3), nodes, inside_limits: true, slips: 0 };
        let drawn = reference::generate::sheet(&mut random, style);
        let whole = with_waits(&mut random, drawn);
        assert!(whole.types().is_ok() && whole.nodes.iter().any(|node| node.kind == 22), "{whole:?}");
    }
}

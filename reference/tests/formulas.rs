//! Sheets against the same with their formulas written otherwise, which the same actions satisfy.

use reference::generate::{lay_out, Random};
use reference::inputs::formulas::{any_pair, many_formulas, rewritten, sets};
use reference::inputs::lists::{formulas_under_and, list_for};
use reference::sheet::{check_fields, Node, Sheet};
use reference::{compile, explain};
use std::collections::BTreeSet;

/// Whether an action satisfies each of the nodes; none for one that is no formula.
fn satisfied(sheet: &Sheet, action: usize) -> Vec<Option<bool>> {
    let mut all: Vec<Option<bool>> = Vec::new();
    for (place, node) in sheet.nodes.iter().enumerate() {
        let formed = check_fields(node, place).is_ok();
        let part = |part: usize| all.get(part).copied().flatten().filter(|_| formed);
        let both = part(node.a()).zip(part(node.b()));
        all.push(match node.kind {
            1 if formed => Some(true),
            2 if formed => Some(false),
            3 if formed => Some(sheet.actions[action] & 1 << node.argument != 0),
            4 => part(node.a()).map(|a| !a),
            5 => both.map(|(a, b)| a && b),
            6 => both.map(|(a, b)| a || b),
            _ => None,
        });
    }
    all
}

/// The sets are those of the actions that satisfy the node, with no bit from the number of actions up; and those of the
/// reference, where it compiles.
#[test]
fn sets_of_actions() {
    let mut random = Random(61);
    for _ in 0..1500 {
        for sheet in any_pair(&mut random) {
            let found = sets(&sheet);
            let by_action: Vec<_> = (0..sheet.actions.len()).map(|action| satisfied(&sheet, action)).collect();
            for (place, set) in found.iter().enumerate() {
                let bit = |action: usize| by_action[action][place].map(|satisfied| (satisfied as u16) << action);
                let expected: Option<u16> = (0..sheet.actions.len()).map(bit).sum();
                assert_eq!(*set, expected, "{sheet:?}, node {place}");
            }
            if sheet.types().is_ok() {
                let expected = sheet.formula_sets();
                found.iter().zip(expected).for_each(|(set, expected)| assert_eq!(set.unwrap_or(expected), expected));
            }
        }
    }
}

/// One set at each number, in nodes that pass 4 and 5; the nodes that are no formulas stay. Every kind is written for
/// every other one.
#[test]
fn formulas_written_otherwise() {
    let mut random = Random(62);
    let mut kinds = BTreeSet::new();
    let (mut formulas, mut changed, mut lists) = (0, 0, 0);
    for _ in 0..3000 {
        let [plain, other] = any_pair(&mut random);
        assert_eq!(plain.actions.len(), other.actions.len());
        assert_eq!(plain.nodes.len(), other.nodes.len());
        let (expected, found) = (sets(&plain), sets(&other));
        assert_eq!(expected, found, "{plain:?}, {other:?}");
        for (place, set) in found.iter().enumerate() {
            let (this, that) = (plain.nodes[place], other.nodes[place]);
            if set.is_none() {
                assert_eq!(this, that, "{plain:?}, node {place}");
                continue;
            }
            assert!(matches!(that.kind, 1..=6) && check_fields(&that, place).is_ok(), "{other:?}, node {place}");
            formulas += 1;
            changed += (this != that) as usize;
            kinds.insert((this.kind, that.kind));
        }
        lists += (plain.actions != other.actions) as usize;
    }
    // `true` and `false` are never the same set.
    assert_eq!(kinds.len(), 34, "{kinds:?}");
    assert!(changed > 9 * formulas / 10, "{changed} of {formulas}");
    assert!(lists > 1500, "{lists}");
}

/// Most sheets become others.
#[test]
fn most_are_changed() {
    let mut random = Random(63);
    let changed = |random: &mut Random| {
        let plain = many_formulas(random);
        rewritten(random, &plain) != plain
    };
    let count = (0..500).filter(|_| changed(&mut random)).count();
    assert_eq!(count, 500);
}

/// The whole answer is the same, with its spot, for 8 and 9 too.
#[test]
fn other_formulas_change_no_answer() {
    let mut random = Random(64);
    let mut answers = [0; 10];
    for _ in 0..3000 {
        let [plain, other] = any_pair(&mut random);
        let expected = compile(&plain.bytes());
        assert_eq!(compile(&lay_out(&mut random, &other)), expected, "{plain:?}, {other:?}");
        answers[expected.map_or_else(|refusal| refusal.number as usize, |_| 0)] += 1;
    }
    assert!(answers[0] > 1000 && [4, 5, 6, 8, 9].iter().all(|&number| answers[number] > 30), "{answers:?}");
}

/// The same place and the same node.
#[test]
fn explained_with_other_formulas() {
    let mut random = Random(65);
    let mut denials = 0;
    for _ in 0..1000 {
        let plain = formulas_under_and(&mut random);
        let other = rewritten(&mut random, &plain);
        let list = list_for(&mut random, &plain.bytes());
        let expected = explain(&plain.bytes(), &list);
        assert_eq!(explain(&other.bytes(), &list), expected, "{plain:?}, {other:?} on {list:?}");
        denials += matches!(expected, Ok(Some(_))) as usize;
    }
    assert!(denials > 300, "{denials}");
}

/// 20 to 45 formulas of all kinds, mostly used and some not, under policies of several rows.
#[test]
fn sheets_of_many_formulas() {
    let mut random = Random(66);
    let (mut typed, mut tables, mut several, mut spare, mut used_most) = (0, 0, 0, 0, 0);
    let (mut counts, mut parts) = ([0; 17], [0; 24]);
    for _ in 0..1000 {
        let sheet = many_formulas(&mut random);
        let formulas: Vec<usize> = (0..sheet.nodes.len()).filter(|&node| sheet.nodes[node].kind < 10).collect();
        assert!((20..=45).contains(&formulas.len()) && sheet.nodes.len() <= 64, "{sheet:?}");
        assert!((1..=6).all(|kind| sheet.nodes.iter().any(|node| node.kind == kind)), "{sheet:?}");
        assert_eq!(sheet.check_fields(), Ok(()), "{sheet:?}");
        typed += sheet.types().is_ok() as usize;
        let table = compile(&sheet.bytes());
        tables += table.is_ok() as usize;
        several += table.is_ok_and(|table| table[4] > 2) as usize;
        let used = sheet.used();
        let unused = formulas.iter().filter(|&&node| !used[node]).count();
        spare += (unused > 0) as usize;
        used_most += (2 * unused < formulas.len()) as usize;
        counts[sheet.actions.len()] += 1;
        let of_used = |(node, used): (&Node, &bool)| used.then_some(node.kind);
        sheet.nodes.iter().zip(&used).filter_map(of_used).for_each(|kind| parts[kind as usize] += 1);
    }
    assert!(typed > 950 && tables > 850 && several > 400, "{typed} {tables} {several}");
    assert!(spare > 300 && used_most > 300, "{spare} {used_most}");
    assert!([1, 2, 15, 16].iter().all(|&actions| counts[actions] > 100) && counts[1..].iter().all(|&c| c > 5));
    assert!((1..=6).chain(10..=23).all(|kind| parts[kind] > 100), "{parts:?}");
    assert!([10, 11, 23].iter().all(|&kind| parts[kind] > 1000), "{parts:?}");
}

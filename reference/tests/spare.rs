//! Sheets with spare nodes against the same sheets without.

use reference::generate::{lay_out, Random};
use reference::inputs::lists::{list_for, spared_ands};
use reference::inputs::spare::{any_spared, faulty, renumbered, taken_out, Spared};
use reference::sheet::{Node, Sheet, Type};
use reference::{compile, explain, Denial, Refusal};

/// The same refusal at the node's number among the spare ones.
fn at_its_number(refusal: Refusal, numbers: &[u8]) -> Refusal {
    let spot = if (4..=9).contains(&refusal.number) { numbers[refusal.spot as usize].into() } else { refusal.spot };
    Refusal { spot, ..refusal }
}

/// One table, or one refusal at the node's own number. Taking the spare nodes out gives the sheet back.
#[test]
fn spare_nodes_change_no_answer() {
    let mut random = Random(41);
    let (mut answers, mut spare, mut first) = ([0; 10], 0, 0);
    for _ in 0..4000 {
        let Spared { plain, spared, numbers } = any_spared(&mut random);
        assert!(plain.used().iter().all(|&used| used));
        assert_eq!(taken_out(&spared), plain);
        let used = spared.used();
        let found: Vec<u8> = (0..used.len()).filter(|&node| used[node]).map(|node| node as u8).collect();
        assert_eq!(found, numbers);
        let expected = compile(&plain.bytes()).map_err(|refusal| at_its_number(refusal, &numbers));
        let bytes = lay_out(&mut random, &spared);
        assert_eq!(compile(&bytes), expected, "{spared:?}");
        answers[expected.map_or_else(|refusal| refusal.number as usize, |_| 0)] += 1;
        spare += spared.nodes.len() - plain.nodes.len();
        first += !used[0] as usize;
    }
    assert!([0, 6, 8, 9].iter().all(|&number| answers[number] > 10), "{answers:?}");
    assert!(spare > 20_000 && first > 1000, "{spare} {first}");
}

/// Spare nodes that a check of every node would refuse are among them, for each of 6, 7, 8 and 9.
#[test]
fn spare_nodes_are_of_every_sort() {
    let mut random = Random(42);
    let mut refused = [0; 10];
    for _ in 0..1500 {
        let Spared { spared, numbers, .. } = any_spared(&mut random);
        for place in (0..spared.nodes.len()).filter(|&place| !numbers.contains(&(place as u8))) {
            let alone = Sheet { actions: spared.actions.clone(), nodes: spared.nodes[..=place].to_vec() };
            let number = compile(&alone.bytes()).map_or_else(|refusal| refusal.number as usize, |_| 0);
            assert!(matches!(number, 0 | 6..=9), "{number} {alone:?}");
            refused[number] += 1;
        }
    }
    assert!([0, 6, 7, 8, 9].iter().all(|&number| refused[number] > 50), "{refused:?}");
}

/// A fault of a spare node is found at its number, whatever the others are.
#[test]
fn faults_of_spare_nodes() {
    let mut random = Random(43);
    for _ in 0..2000 {
        let (sheet, number, spot) = faulty(&mut random);
        assert_eq!(compile(&sheet.bytes()), Err(Refusal { number, spot: spot as u16 }), "{sheet:?}");
    }
}

/// The same place, and the same node at its number.
#[test]
fn explained_with_spare_nodes() {
    let mut random = Random(44);
    let mut denials = 0;
    for _ in 0..2000 {
        let Spared { plain, spared, numbers } = spared_ands(&mut random);
        let list = list_for(&mut random, &plain.bytes());
        let expected = explain(&plain.bytes(), &list).map_err(|refusal| at_its_number(refusal, &numbers));
        let named = |Denial { place, node }| Denial { place, node: numbers[node].into() };
        let expected = expected.map(|denial| denial.map(named));
        assert_eq!(explain(&spared.bytes(), &list), expected, "{spared:?} on {list:?}");
        denials += matches!(expected, Ok(Some(_))) as usize;
    }
    assert!(denials > 500, "{denials}");
}

/// The sheet of 78 bytes, and the example sheets with a spare node.
const PLAIN: &[u8] = include_bytes!("../../examples/drop_between_charges.sheet");
const SPARED: &[u8] = include_bytes!("../../examples/drop_between_charges_spare.sheet");
const UNKNOWN: &[u8] = include_bytes!("../../examples/spare_unknown_kind.sheet");

/// The listing of docs/FORMATS.md is the example's nodes, and the example has the same table as the sheet without.
#[test]
fn the_example_of_the_formats() {
    let page = include_str!("../../docs/FORMATS.md");
    let section = page.split("### Spare nodes").nth(1).unwrap().split("\n## ").next().unwrap();
    let listed = section.lines().filter_map(|line| line.strip_prefix("    ")).flat_map(|line| {
        let byte = |word: &str| u8::from_str_radix(word, 16).unwrap();
        line.split(' ').take(5).map(byte).collect::<Vec<u8>>()
    });
    assert_eq!(listed.collect::<Vec<u8>>(), SPARED[18..]);
    let (plain, spared) = (Sheet::read(PLAIN).unwrap(), Sheet::read(SPARED).unwrap());
    assert_eq!((SPARED.len(), taken_out(&spared)), (83, plain));
    assert_eq!(compile(SPARED).unwrap(), [1, 0, 4, 0, 2, 0, 8, 0, 1, 0, 0, 0, 255, 0, 1, 1]);
    assert_eq!(compile(SPARED), compile(PLAIN));
    assert_eq!(compile(UNKNOWN), Err(Refusal { number: 4, spot: 3 }));
}

/// The sheet of 78 bytes with these nodes put before node `place`.
fn with(place: u8, nodes: &[Node]) -> Vec<u8> {
    let plain = Sheet::read(PLAIN).unwrap();
    let shifted = |part| if part < place { part } else { part + nodes.len() as u8 };
    let own: Vec<Node> = plain.nodes.iter().map(|node| renumbered(node, shifted)).collect();
    let (front, rest) = own.split_at(place.into());
    Sheet { actions: plain.actions, nodes: [front, nodes, rest].concat() }.bytes()
}

/// What docs/FORMATS.md says that a spare node can do.
#[test]
fn what_a_spare_node_can_do() {
    let node = |kind, argument, a, b| Node { kind, argument, parts: [a, b, 0] };
    let refused = |number| Err(Refusal { number, spot: 3 });
    assert_eq!(compile(&with(3, &[node(24, 0, 0, 0)])), refused(4));
    assert_eq!(compile(&with(3, &[node(12, 61, 0, 0)])), refused(5));
    assert_eq!(with(3, &[node(17, 0, 2, 0)]), SPARED);
    let doubled: Vec<Node> =
        (0..12).map(|n| if n == 0 { node(12, 60, 0, 0) } else { node(20, 0, n + 2, n + 2) }).collect();
    for spare in [&doubled[..2], &doubled[..], &[node(12, 2, 0, 0)]] {
        assert_eq!(compile(&with(3, spare)), compile(PLAIN));
    }
    assert_eq!(compile(&with(0, &[node(12, 2, 0, 0)])), compile(PLAIN));
}

/// Exactly the last node and the parts of used nodes are used: the least set that has both.
#[test]
fn used_is_the_least_set() {
    let mut random = Random(45);
    for _ in 0..1000 {
        let sheet = any_spared(&mut random).spared;
        let used = sheet.used();
        let is_part = |part: usize| {
            let whole = |(node, used): (&Node, &bool)| *used && node.own_parts().contains(&(part as u8));
            sheet.nodes.iter().zip(&used).any(whole)
        };
        let last = sheet.nodes.len() - 1;
        (0..=last).for_each(|node| assert_eq!(used[node], node == last || is_part(node), "{sheet:?}, node {node}"));
        if let Ok(types) = sheet.types() {
            types.iter().zip(used).for_each(|(this, used)| assert_eq!(*this != Type::Unused, used));
        }
    }
}

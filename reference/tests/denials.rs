//! Explaining against the stated answers, and against every prefix judged by the meanings and by the rows.

use reference::cases::denials::{all, DenialCase, Explained};
use reference::cases::Lent;
use reference::explain::conjuncts;
use reference::generate::{sheet, Random, Style};
use reference::inputs::lists::{any_list, conjunction};
use reference::machine::Rows;
use reference::meaning::Meaning;
use reference::sheet::{Node, Sheet};
use reference::trees::ROASTERY;
use reference::{calls, compile, explain, read_text, Denial};
use std::collections::BTreeSet;

/// Explains a case with the areas that it lends, each with some elements more where it is not short. What the areas hold
/// is held to what docs/FORMATS.md says.
fn answer_to(case: &DenialCase) -> Explained {
    let lent = |lent, length: usize| if case.lent == lent { length - 1 } else { length + 3 };
    // A place that is lent short has no number at all.
    let mut place = vec![7; if case.lent == Lent::ShortOutput { 0 } else { 3 }];
    let mut work = vec![7; lent(Lent::ShortWork, calls::WORK)];
    let mut values = vec![7; lent(Lent::ShortValues, calls::VALUES)];
    let answer = calls::explain(&case.sheet, &case.list(), &mut place, &mut work, &mut values);
    let [number, value, actions, rows] = calls::bytes(answer);
    let zero = |length| if number == 14 { 0 } else { length };
    assert!(work[..zero(calls::WORK)].iter().all(|&byte| byte == 0), "{}: work", case.name);
    assert!(work[zero(calls::WORK)..].iter().all(|&byte| byte == 7), "{}: behind the work area", case.name);
    assert!(values[..zero(calls::VALUES)].iter().all(|&value| value == 0), "{}: values", case.name);
    assert!(values[zero(calls::VALUES)..].iter().all(|&value| value == 7), "{}: behind the values", case.name);
    assert_eq!([actions, rows], [0; 2], "{}", case.name);
    let written = (number == calls::DENIED) as usize;
    assert!(place[written..].iter().all(|&number| number == 7), "{}: behind the place", case.name);
    match number {
        calls::DENIED => Explained::Denied(place[0], value),
        0 => {
            assert_eq!(value, 0, "{}", case.name);
            Explained::Permitted
        }
        _ => Explained::Refused(number, value),
    }
}

#[test]
fn stated_denials() {
    for case in all() {
        assert_eq!(answer_to(&case), case.stated, "{}", case.name);
    }
}

/// The example of docs/FORMATS.md: its rule, and each line of its table.
#[test]
fn the_example_of_the_formats() {
    let page = include_str!("../../docs/FORMATS.md");
    let section = page.split("## Explaining a denial").nth(1).unwrap().split("\n## ").next().unwrap();
    let rule = section.split('`').find(|code| code.starts_with("enforce ")).unwrap();
    let sheet = read_text(rule.as_bytes(), &ROASTERY).unwrap().bytes();
    let mut lines = 0;
    for line in section.lines().filter(|line| line.starts_with("| ")).skip(1) {
        let cells: Vec<&str> = line.split('|').map(str::trim).collect();
        let list: Vec<u8> = cells[1].split(' ').filter_map(|word| word.parse().ok()).collect();
        let (answer, place) = match explain(&sheet, &list) {
            Ok(None) => ("0".into(), "as it was".into()),
            Ok(Some(Denial { place, node })) => (format!("255, node {node}"), place.to_string()),
            Err(refusal) => (format!("refused {}", refusal.number), "as it was".into()),
        };
        assert_eq!((cells[2], cells[3]), (&answer[..], &place[..]), "{line}");
        lines += 1;
    }
    assert_eq!(lines, 7);
}

/// Names are told apart, so that one that disagrees is found.
#[test]
fn names_differ() {
    let names: BTreeSet<String> = all().into_iter().map(|case| case.name).collect();
    assert_eq!(names.len(), all().len());
}

/// The first prefix that violates the policy, and the lowest node for it, with every prefix judged and every path of Ands
/// walked.
fn by_prefixes(sheet: &Sheet, list: &[u8]) -> Option<Denial> {
    fn walk(sheet: &Sheet, node: usize, all: &mut Vec<usize>) {
        all.push(node);
        let Node { kind, .. } = sheet.nodes[node];
        if kind == 14 {
            walk(sheet, sheet.nodes[node].a(), all);
            walk(sheet, sheet.nodes[node].b(), all);
        }
    }
    let mut meaning = Meaning::new(sheet);
    let policy = sheet.nodes.len() - 1;
    let mut reached = Vec::new();
    walk(sheet, policy, &mut reached);
    let end = (0..=list.len()).find(|&end| !meaning.satisfied(policy, &list[..end]))?;
    reached.retain(|&node| !meaning.satisfied(node, &list[..end]));
    Some(Denial { place: end - 1, node: reached.into_iter().min().unwrap() })
}

/// The place by the rows of the compiled table.
fn place_by_rows(sheet: &[u8], list: &[u8]) -> Option<usize> {
    let table = compile(sheet).unwrap();
    let rows = Rows { actions: table[2] as usize, entries: table[8..].to_vec() };
    let mut row = Some(0);
    list.iter().position(|&action| {
        row = rows.next(row.unwrap(), action as usize);
        row.is_none()
    })
}

/// Drawn sheets and lists: the place and the node are those of all prefixes, the place also that of the rows. The node is
/// no And.
#[test]
fn drawn_lists() {
    let mut random = Random(21);
    let mut denials = [0; 3];
    for _ in 0..8000 {
        let input = any_list(&mut random);
        let Ok(found) = explain(&input.sheet, &input.list) else { continue };
        if input.list.len() > 64 {
            continue;
        }
        let sheet = Sheet::read(&input.sheet).unwrap();
        let expected = by_prefixes(&sheet, &input.list);
        assert_eq!(found, expected, "{sheet:?} on {:?}", input.list);
        assert_eq!(found.map(|denial| denial.place), place_by_rows(&input.sheet, &input.list), "{sheet:?}");
        match found {
            None => denials[0] += 1,
            Some(denial) => {
                assert_ne!(sheet.nodes[denial.node].kind, 14);
                denials[1 + (denial.node + 1 < sheet.nodes.len()) as usize] += 1;
            }
        }
    }
    // Permitted; denied by the policy's own node; denied by a part.
    assert!(denials.iter().all(|&count| count > 300), "{denials:?}");
}

/// A list judged at doubled and halved lengths: 70,000 actions, and a place that has no 16 bits.
#[test]
fn long_lists() {
    let mut random = Random(22);
    let actions = vec![1, 2, 4];
    // Always Holds not p2, and Not of three actions with p1.
    let nodes = [
        [3, 2, 0, 0, 0],
        [4, 0, 0, 0, 0],
        [11, 0, 1, 0, 0],
        [17, 0, 2, 0, 0],
        [3, 1, 0, 0, 0],
        [4, 0, 4, 0, 0],
        [12, 3, 0, 0, 0],
        [23, 0, 5, 6, 0],
        [13, 0, 7, 0, 0],
        [14, 0, 8, 3, 0],
    ];
    let node = |[kind, argument, a, b, c]: [u8; 5]| Node { kind, argument, parts: [a, b, c] };
    let sheet = Sheet { actions, nodes: nodes.map(node).to_vec() }.bytes();
    let list = vec![0; 70_000];
    assert_eq!(explain(&sheet, &list), Ok(None));
    for place in [63, 64, 65, 127, 128, 129, 8_191, 8_192, 65_535, 65_536, 69_999] {
        let mut list = list.clone();
        list[place..].fill(2);
        assert_eq!(explain(&sheet, &list), Ok(Some(Denial { place, node: 3 })));
        list[random.below(place - 3)] = 1;
        list[place..].fill(1);
        let denied = if place == 69_999 { None } else { Some(Denial { place: place + 1, node: 8 }) };
        assert_eq!(explain(&sheet, &list), Ok(denied));
        list[place] = 3;
        assert_eq!(explain(&sheet, &list).map_err(|refusal| refusal.number), Err(12));
    }
}

/// What is violated stays so, for each enforced node of drawn sheets.
#[test]
fn violations_stay() {
    let mut random = Random(23);
    let mut violations = 0;
    for _ in 0..300 {
        let style = Style { actions: 1 + random.below(3), nodes: 4 + random.below(10), inside_limits: true, slips: 0 };
        let drawn = sheet(&mut random, style);
        let whole = conjunction(&mut random, drawn);
        let Ok(None | Some(_)) = explain(&whole.bytes(), &[]) else { continue };
        let mut meaning = Meaning::new(&whole);
        let list: Vec<u8> = (0..14).map(|_| random.below(style.actions) as u8).collect();
        for node in conjuncts(&whole) {
            let verdicts: Vec<bool> = (0..=list.len()).map(|end| meaning.satisfied(node, &list[..end])).collect();
            assert!(verdicts[0]);
            assert!(verdicts.is_sorted_by_key(|&satisfied| !satisfied), "{whole:?}, node {node}: {verdicts:?}");
            violations += !verdicts[list.len()] as usize;
        }
    }
    assert!(violations > 200, "{violations}");
}

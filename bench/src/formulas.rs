//! Compiling sheets of 40 formula nodes, beside a rule of one.

use crate::compile_beside;
use reference::generate::Random;
use reference::sheet::{Node, Sheet};
use reference::trees::*;

/// Formula nodes of a sheet, and all nodes of the largest.
const FORMULAS: usize = 40;
const NODES: usize = 64;

/// 16 actions, each with the proposition of its number.
fn actions() -> Vec<u16> {
    (0..16).map(|action| 1 << action).collect()
}

/// A formula of 16 propositions, true and false, 17 disjunctions and conjunctions over these, and five negations. Four
/// actions satisfy it.
fn formula() -> Tree {
    let mut all: Vec<Tree> = (0..16).map(prop).chain([yes(), no()]).collect();
    for round in 0..17 {
        let both = all.drain(..2).collect();
        let both = Tree::new(if round < 9 { 6 } else { 5 + round % 2 }, 0, both);
        all.push(if round % 3 == 2 { but(both) } else { both });
    }
    all.remove(0)
}

/// How many formula nodes there are, and how many of them are used.
fn formulas(sheet: &Sheet) -> (usize, usize) {
    let is_formula = |(node, _): &(&Node, bool)| node.kind < 10;
    let used: Vec<bool> = sheet.nodes.iter().zip(sheet.used()).filter(is_formula).map(|(_, used)| used).collect();
    (used.len(), used.iter().filter(|&&used| used).count())
}

/// Always Holds p0, with the nodes of the formula before it, of which it uses one.
fn unused() -> Sheet {
    let mut sheet = formula().sheet(&actions());
    let p0 = sheet.nodes.iter().position(|node| (node.kind, node.argument) == (3, 0)).expect("p0");
    let first = sheet.nodes.len() as u8;
    sheet.nodes.push(Node { kind: 11, argument: 0, parts: [p0 as u8, 0, 0] });
    sheet.nodes.push(Node { kind: 17, argument: 0, parts: [first, 0, 0] });
    sheet
}

/// Now and Holds, each under Ignoring, the four of each under Ands and Ors, and both of these under an And: 24 policy
/// nodes over some nodes of the formula.
fn many_policies(random: &mut Random) -> Sheet {
    let mut sheet = formula().sheet(&actions());
    let put = |sheet: &mut Sheet, kind, a, b| {
        sheet.nodes.push(Node { kind, argument: 0, parts: [a, b, 0] });
        sheet.nodes.len() as u8 - 1
    };
    let mut below = |n| random.below(n) as u8;
    let mut wholes = Vec::new();
    for kind in [10, 11] {
        let mut parts = Vec::new();
        for _ in 0..4 {
            let first = put(&mut sheet, kind, below(FORMULAS), 0);
            parts.push(put(&mut sheet, 23, below(FORMULAS), first));
        }
        let last = parts.into_iter().reduce(|a, b| put(&mut sheet, 14 + below(2), a, b));
        wholes.extend(last);
    }
    let enforced = put(&mut sheet, 13, wholes[0], 0);
    put(&mut sheet, 14, enforced, wholes[1]);
    sheet
}

/// Its rows; 0 where it is refused.
fn rows(sheet: &Sheet) -> u8 {
    reference::compile(&sheet.bytes()).map_or(0, |table| table[4])
}

/// The first drawn one that uses all formulas and is inside the limits.
fn largest() -> Sheet {
    let mut random = Random(40);
    let mut drawn = std::iter::repeat_with(|| many_policies(&mut random));
    drawn.find(|sheet| formulas(sheet).1 == FORMULAS && rows(sheet) >= 8).expect("a sheet")
}

pub fn all() {
    println!(
        "\nSheets of {FORMULAS} formula nodes, in microseconds a compilation, 16 actions: beside `Always Holds p0`,"
    );
    println!("which has two policy nodes and one formula node, the clearing of the work areas, and the reference,");
    println!("on the same sheet.\n");
    println!(
        "{:52} {:>10} {:>10} {:>7} {:>10} {:>7} {:>10} {:>7}",
        "sheet", "library", "1 formula", "ratio", "clearing", "ratio", "reference", "ratio"
    );
    let base = always(holds(prop(0))).sheet(&actions());
    let one = always(holds(formula())).sheet(&actions());
    let (unused, largest) = (unused(), largest());
    assert_eq!((base.nodes.len(), formulas(&base)), (3, (1, 1)));
    assert_eq!((one.nodes.len(), formulas(&one)), (FORMULAS + 2, (FORMULAS, FORMULAS)));
    assert_eq!((unused.nodes.len(), formulas(&unused)), (FORMULAS + 2, (FORMULAS, 1)));
    assert_eq!((largest.nodes.len(), formulas(&largest)), (NODES, (FORMULAS, FORMULAS)));
    assert_eq!(reference::compile(&unused.bytes()), reference::compile(&base.bytes()));
    let alone = [base.bytes()];
    compile_beside("Always Holds p0, 1 formula node", &base.bytes(), &alone);
    compile_beside("Always Holds f, f of 40 formula nodes", &one.bytes(), &alone);
    compile_beside("Always Holds p0, 39 formula nodes that nothing uses", &unused.bytes(), &alone);
    let on = format!("24 policy nodes over 40 formula nodes, {} rows", rows(&largest));
    compile_beside(&on, &largest.bytes(), &alone);
}

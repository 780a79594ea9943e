//! Compiling a sheet of 64 nodes of which the policy uses 12, beside the same 12 nodes alone.

use crate::compile_beside;
use reference::cases::house::{House, RULES};
use reference::inputs::spare::renumbered;
use reference::sheet::{Node, Sheet};

/// Nodes of a sheet, and those that its policy uses.
const NODES: usize = 64;
const USED: usize = 12;

/// Old rules of the house, 52 nodes in all.
fn old_rules() -> Vec<&'static str> {
    let rules = [0, 2, 4, 5, 6, 7].map(|rule| RULES[rule].text());
    rules.into_iter().chain(["watch eventually now p1", "watch now p4"]).collect()
}

/// Old rules that count far: of 60 and 64 rows, and of many values; 52 nodes in all.
fn large_rules() -> Vec<&'static str> {
    let often = [
        ("watch eventually after now p0 or count 6 ignoring p1 count 4", 2),
        ("watch or ignoring p0 count 8 ignoring p1 count 8", 2),
        ("watch after count 60 count 4", 4),
        ("watch after count 30 count 34", 2),
        ("watch count 60", 2),
    ];
    often.iter().flat_map(|&(text, times)| vec![text; times]).collect()
}

fn read(text: &str, rule: &House) -> Sheet {
    reference::read_text(text.as_bytes(), &rule.actions()).expect("a rule")
}

/// The rule with these before it, of which it uses no node. Each of them compiles by itself.
fn after(texts: &[&str], rule: &House) -> Vec<u8> {
    let mut nodes: Vec<Node> = Vec::new();
    for text in texts.iter().copied().chain([rule.text()]) {
        let own = read(text, rule);
        assert!(reference::compile(&own.bytes()).is_ok(), "{text}");
        let first = nodes.len() as u8;
        nodes.extend(own.nodes.iter().map(|node| renumbered(node, |part| part + first)));
    }
    let sheet = Sheet { actions: rule.actions(), nodes };
    assert_eq!(sheet.nodes.len(), NODES);
    assert_eq!(sheet.used().iter().filter(|&&used| used).count(), USED);
    sheet.bytes()
}

fn line(on: &str, sheet: Vec<u8>, alone: &[Vec<u8>]) {
    assert_eq!(reference::compile(&sheet), reference::compile(&alone[0]));
    compile_beside(on, &sheet, alone);
}

pub fn all() {
    println!(
        "\nSpare nodes, in microseconds a compilation: a sheet of {NODES} nodes of which the policy, a drop between"
    );
    println!("two charges, uses the last {USED}, beside the same {USED} nodes alone, the clearing of the work areas, and the");
    println!("reference, on the whole sheet. Each rule that is left in the sheet compiles by itself.\n");
    println!(
        "{:52} {:>10} {:>10} {:>7} {:>10} {:>7} {:>10} {:>7}",
        "left in the sheet", "library", "12 alone", "ratio", "clearing", "ratio", "reference", "ratio"
    );
    let rule = &RULES[1];
    let alone = [read(rule.text(), rule).bytes()];
    line("nothing", alone[0].clone(), &alone);
    line("eight old rules, 52 nodes", after(&old_rules(), rule), &alone);
    line("twelve rules that count far, 52 nodes", after(&large_rules(), rule), &alone);
}

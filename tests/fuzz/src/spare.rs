//! A sheet with spare nodes and the same without them, both through the library alone: one table or one refusal, one place
//! and one node. The spot and the node are the node's own number in each sheet.

use crate::library;
use reference::calls::{fields, DENIED, VALUES, WORK};
use reference::table::LARGEST;

/// Areas for calls that no guard looks at: the same sheets are compiled beside the reference too.
pub struct Desk {
    out: Vec<u8>,
    work: Vec<u8>,
    values: Vec<u64>,
}

/// Two sheets of the same used nodes, and the number in the second of each node of the first.
pub struct Pair<'a> {
    pub plain: &'a [u8],
    pub spared: &'a [u8],
    pub numbers: &'a [u8],
}

impl Desk {
    pub fn new() -> Desk {
        Desk { out: vec![0; LARGEST], work: vec![0; WORK], values: vec![0; VALUES] }
    }

    /// The answer, and the output after the call.
    pub fn compile(&mut self, sheet: &[u8]) -> (u64, Vec<u8>) {
        self.out.fill(0);
        let answer = library::compile(sheet, &mut self.out, &mut self.work, &mut self.values);
        (answer, self.out.clone())
    }

    /// The answer, and the place after the call.
    pub fn explain(&mut self, sheet: &[u8], list: &[u8]) -> (u64, u64) {
        let mut place = [u64::MAX];
        let answer = library::explain(sheet, list, &mut place, &mut self.work, &mut self.values);
        (answer, place[0])
    }

    /// The number of both answers, or what differs.
    pub fn compiled(&mut self, pair: &Pair) -> Result<u16, String> {
        let (plain, spared) = (self.compile(pair.plain), self.compile(pair.spared));
        pair.same("compile", plain.0, spared.0, plain.1 == spared.1)
    }

    /// The same of a list that is explained.
    pub fn explained(&mut self, pair: &Pair, list: &[u8]) -> Result<u16, String> {
        let (plain, spared) = (self.explain(pair.plain, list), self.explain(pair.spared, list));
        pair.same("explain", plain.0, spared.0, plain.1 == spared.1).map_err(|text| format!("{text}, list {list:?}"))
    }
}

impl Pair<'_> {
    fn same(&self, call: &str, plain: u64, spared: u64, same_output: bool) -> Result<u16, String> {
        let (mut expected, found) = (fields(plain), fields(spared));
        let number = expected[0];
        if (4..=9).contains(&number) || number == DENIED.into() {
            expected[1] = self.numbers.get(expected[1] as usize).map_or(u16::MAX, |&node| node.into());
        }
        if expected == found && same_output {
            return Ok(number);
        }
        let hex = |bytes: &[u8]| bytes.iter().map(|byte| format!("{byte:02x}")).collect::<String>();
        let same = if same_output { "the same output" } else { "another output" };
        Err(format!(
            "{call}: answer {found:?} with spare nodes, {expected:?} without, {same}\n  with: {}\n  without: {}",
            hex(self.spared),
            hex(self.plain)
        ))
    }
}

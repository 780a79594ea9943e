//! A sheet with a Fulfilling and the same with that node written otherwise, both through the library alone: one table, one
//! place and one node. 8 and 9 may come to one of them alone, as their nodes are not the same.

use crate::spare::Desk;
use reference::calls::{fields, DENIED};
use reference::inputs::waits::{Rewritten, Way};

/// Both, and how they are laid out.
pub struct Pair<'a> {
    pub drawn: &'a Rewritten,
    pub plain: &'a [u8],
    pub other: &'a [u8],
}

/// The number of both answers, none where 8 or 9 refuses one alone; or what differs.
type Outcome = Result<Option<u16>, String>;

impl Pair<'_> {
    pub fn compiled(&self, desk: &mut Desk) -> Outcome {
        let (plain, other) = (desk.compile(self.plain), desk.compile(self.other));
        self.same("compile", plain.0, other.0, plain.1 == other.1)
    }

    /// The same of a list that is explained.
    pub fn explained(&self, desk: &mut Desk, list: &[u8]) -> Outcome {
        let (plain, other) = (desk.explain(self.plain, list), desk.explain(self.other, list));
        self.same("explain", plain.0, other.0, plain.1 == other.1).map_err(|text| format!("{text}, list {list:?}"))
    }

    fn same(&self, call: &str, plain: u64, other: u64, same_output: bool) -> Outcome {
        let (expected, found) = (fields(plain), fields(other));
        let [number, value, ..] = expected;
        let alike = number == found[0]
            && match number {
                // The spot is that of a node of another sheet.
                1..=9 => true,
                _ if number == DENIED.into() => same_output && self.named(value, found[1]),
                _ => same_output && expected == found,
            };
        if alike {
            return Ok(Some(number));
        }
        // 1 to 7 come to both or to neither, and before these.
        let both = [number, found[0]];
        if both.iter().any(|number| matches!(number, 8 | 9)) && both.iter().all(|number| !matches!(number, 1..=7)) {
            return Ok(None);
        }
        let hex = |bytes: &[u8]| bytes.iter().map(|byte| format!("{byte:02x}")).collect::<String>();
        let same = if same_output { "the same output" } else { "another output" };
        Err(format!(
            "{call}: answer {expected:?}, {found:?} written otherwise ({:?} at node {}), {same}\n  plain: {}\n  other: {}",
            self.drawn.way,
            self.drawn.place,
            hex(self.plain),
            hex(self.other)
        ))
    }

    /// Whether a node of the other sheet is this node of the plain one. In two parts it is one of these.
    fn named(&self, node: u16, other: u16) -> bool {
        let Some(&number) = self.drawn.numbers.get(node as usize) else { return false };
        let split = self.drawn.way == Way::Split && node as usize == self.drawn.place;
        let first = if split { number as u16 - 2 } else { number as u16 };
        let last = if split { number as u16 - 1 } else { number as u16 };
        (first..=last).contains(&other)
    }
}

//! A sheet and the same with its formulas written otherwise, both through the library alone: one answer in every field,
//! and one table or one place. The same actions satisfy the formulas of each number, and the policies are the same.

use crate::spare::Desk;
use reference::calls::fields;

/// Both, as they are laid out.
pub struct Pair<'a> {
    pub plain: &'a [u8],
    pub other: &'a [u8],
}

/// The number of both answers, or what differs.
type Outcome = Result<u16, String>;

impl Pair<'_> {
    pub fn compiled(&self, desk: &mut Desk) -> Outcome {
        let (plain, other) = (desk.compile(self.plain), desk.compile(self.other));
        self.same("compile", plain.0, other.0, plain.1 == other.1)
    }

    /// The same of a list that is explained.
    pub fn explained(&self, desk: &mut Desk, list: &[u8]) -> Outcome {
        let (plain, other) = (desk.explain(self.plain, list), desk.explain(self.other, list));
        self.same("explain", plain.0, other.0, plain.1 == other.1).map_err(|text| format!("{text}, list {list:?}"))
    }

    fn same(&self, call: &str, plain: u64, other: u64, same_output: bool) -> Outcome {
        if plain == other && same_output {
            return Ok(fields(plain)[0]);
        }
        let hex = |bytes: &[u8]| bytes.iter().map(|byte| format!("{byte:02x}")).collect::<String>();
        let same = if same_output { "the same output" } else { "another output" };
        let (expected, found) = (fields(plain), fields(other));
        Err(format!(
            "{call}: answer {expected:?}, {found:?} written otherwise, {same}\n  plain: {}\n  other: {}",
            hex(self.plain),
            hex(self.other)
        ))
    }
}

//! What a policy node remembers while it has not tripped, and its step, by the table of docs/FORMATS.md, "Policies".

use crate::machine::Rows;
use crate::sheet::Node;

/// A remembered value.
#[derive(Clone, Debug, PartialEq, Eq, Hash)]
pub enum Value {
    /// 10, 11: before and after the first action.
    Fresh,
    Spent,
    /// 12: actions so far.
    Count(u8),
    /// 13, 23: the part's row.
    Row(u8),
    /// 14, 15: for each part its row; none where it has tripped.
    Pair(Option<u8>, Option<u8>),
    /// 16, 17: the rows of all copies, bit r for row r.
    Copies(u64),
    /// 18, 19: both rows, until a is fulfilled.
    Both(u8, u8),
    Released,
    /// 20, 21: the row of a; once a is fulfilled, that of b.
    First(u8),
    Second(u8),
    /// 22: the row of a and the actions so far; then b's or c's row.
    Waiting(u8, u8),
    Then(u8),
    Else(u8),
}

/// A policy node with what its step needs.
pub struct Rule<'a> {
    pub node: Node,
    pub enforced: bool,
    /// The actions that satisfy formula a (kinds 10, 11, 23).
    pub formula: u16,
    /// The rows of the parts; none for a formula or an unused part.
    pub parts: [Option<&'a Rows>; 3],
}

impl Rule<'_> {
    /// The value at the empty sequence.
    pub fn start(&self) -> Value {
        match self.node.kind {
            10 | 11 => Value::Fresh,
            12 => Value::Count(0),
            13 | 23 => Value::Row(0),
            14 | 15 => Value::Pair(Some(0), Some(0)),
            16 | 17 => Value::Copies(1),
            18 | 19 => Value::Both(0, 0),
            20 | 21 => Value::First(0),
            _ => Value::Waiting(0, 0),
        }
    }

    /// The value after one more action; none when the node trips.
    pub fn step(&self, value: &Value, action: usize) -> Option<Value> {
        use Value::*;
        let k = self.node.argument;
        let next = |part: usize, row: u8| self.parts[part].expect("a policy part").next(row, action);
        let in_formula = self.formula >> action & 1 == 1;
        match *value {
            // Now trips by an action of the formula, Holds by any other.
            Fresh => (in_formula == self.enforced).then_some(Spent),
            Spent => Some(Spent),
            Count(so_far) => (so_far + 1 < k).then_some(Count(so_far + 1)),
            Row(row) if self.node.kind == 13 => next(0, row).map(Row),
            Row(row) if in_formula => Some(Row(row)),
            Row(row) => next(1, row).map(Row),
            Pair(a, b) => {
                let (a, b) = (a.and_then(|row| next(0, row)), b.and_then(|row| next(1, row)));
                // One tripped part trips a watched Or and an enforced And; the others need both.
                let one_is_enough = (self.node.kind == 14) == self.enforced;
                let tripped = if one_is_enough { a.is_none() || b.is_none() } else { a.is_none() && b.is_none() };
                (!tripped).then_some(Pair(a, b))
            }
            Copies(set) => {
                let mut moved = 1; // the copy that begins now
                for row in (0..64).filter(|row| set >> row & 1 == 1) {
                    moved |= 1 << next(0, row)?;
                }
                Some(Copies(moved))
            }
            Both(a, b) => {
                let b = next(1, b)?; // b is judged on the action that fulfils a too
                Some(next(0, a).map_or(Released, |a| Both(a, b)))
            }
            Released => Some(Released),
            First(row) => Some(next(0, row).map_or(Second(0), First)),
            Second(row) => next(1, row).map(Second),
            Waiting(row, so_far) => Some(match next(0, row) {
                None => Then(0),
                Some(_) if so_far + 1 == k => Else(0),
                Some(row) => Waiting(row, so_far + 1),
            }),
            Then(row) => next(1, row).map(Then),
            Else(row) => next(2, row).map(Else),
        }
    }
}

//! Answers, decoded from the number of 64 bits that a call returns: four fields of 16 bits.

use crate::{AT_A_NODE, AT_A_WORD};
use std::fmt;

/// The answer of a call.
#[derive(Clone, Copy, Debug, PartialEq, Eq)]
pub enum Answer {
    /// Done, or permitted. Of a table the value is its type; of an action it is the set of places fulfilled;
    /// of a text it is the length of its sheet, and the rows are its nodes.
    Done {
        value: u16,
        actions: u16,
        rows: u16,
    },
    /// Denied by the rule on this place; of an explained list, by this node.
    Denied {
        place: u16,
    },
    Refused(Refusal),
}

/// A refusal: the number of docs/FORMATS.md and, of a sheet's node, the node; of a text, the word, counted from 0,
/// that does not fit, or that is missing.
#[derive(Clone, Copy, Debug, PartialEq, Eq)]
pub struct Refusal {
    pub number: u16,
    pub node: Option<u16>,
    pub word: Option<u16>,
}

impl From<u64> for Answer {
    fn from(answer: u64) -> Answer {
        let [number, value, actions, rows] = [0, 16, 32, 48].map(|lowest| (answer >> lowest) as u16);
        match number {
            0 => Answer::Done { value, actions, rows },
            255 => Answer::Denied { place: value },
            _ => Answer::Refused(Refusal {
                number,
                node: Some(value).filter(|_| AT_A_NODE.contains(&number)),
                word: Some(value).filter(|_| number == AT_A_WORD),
            }),
        }
    }
}

impl Answer {
    /// Value, actions and rows of a call that is done. Only an action, asked for or of an explained list, can be denied.
    pub(crate) fn done(self) -> Result<(u16, u16, u16), Refusal> {
        match self {
            Answer::Done { value, actions, rows } => Ok((value, actions, rows)),
            Answer::Refused(refusal) => Err(refusal),
            Answer::Denied { .. } => unreachable!("no action was asked for"),
        }
    }
}

impl fmt::Display for Refusal {
    fn fmt(&self, text: &mut fmt::Formatter) -> fmt::Result {
        write!(text, "refused {}", self.number)?;
        self.node.map_or(Ok(()), |node| write!(text, " at node {node}"))?;
        self.word.map_or(Ok(()), |word| write!(text, " at word {word}"))
    }
}

impl std::error::Error for Refusal {}

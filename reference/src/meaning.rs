//! A policy's verdict on a sequence, straight from the meanings; nothing here knows rows or trips.

use crate::sheet::Sheet;
use std::collections::HashMap;

/// Meanings over one sheet that passes 1 to 7. Verdicts already worked out are kept, for each node those on short
/// sequences.
pub struct Meaning<'a> {
    sheet: &'a Sheet,
    known: Vec<HashMap<Vec<u8>, bool>>,
}

/// The longest sequence whose verdict is kept.
const SHORT: usize = 64;

impl<'a> Meaning<'a> {
    pub fn new(sheet: &'a Sheet) -> Meaning<'a> {
        Meaning { sheet, known: vec![HashMap::new(); sheet.nodes.len()] }
    }

    /// Whether an action satisfies a formula node.
    fn formula(&self, node: usize, action: u8) -> bool {
        let this = self.sheet.nodes[node];
        match this.kind {
            1 => true,
            2 => false,
            3 => self.sheet.actions[action as usize] & (1 << this.argument) != 0,
            4 => !self.formula(this.a(), action),
            5 => self.formula(this.a(), action) && self.formula(this.b(), action),
            _ => self.formula(this.a(), action) || self.formula(this.b(), action),
        }
    }

    /// Whether a sequence satisfies a policy node.
    pub fn satisfied(&mut self, node: usize, trace: &[u8]) -> bool {
        if trace.len() > SHORT {
            return self.work_out(node, trace);
        }
        if let Some(&verdict) = self.known[node].get(trace) {
            return verdict;
        }
        let verdict = self.work_out(node, trace);
        self.known[node].insert(trace.to_vec(), verdict);
        verdict
    }

    /// The length of the shortest prefix that satisfies a policy node.
    fn first_fulfilment(&mut self, node: usize, trace: &[u8]) -> Option<usize> {
        (0..=trace.len()).find(|&n| self.satisfied(node, &trace[..n]))
    }

    fn work_out(&mut self, node: usize, trace: &[u8]) -> bool {
        let this = self.sheet.nodes[node];
        let (k, a, b, c) = (this.argument as usize, this.a(), this.b(), this.c());
        match this.kind {
            10 => trace.first().is_some_and(|&action| self.formula(a, action)),
            11 => trace.first().is_none_or(|&action| self.formula(a, action)),
            12 => trace.len() >= k,
            13 => !self.satisfied(a, trace),
            14 => self.satisfied(a, trace) && self.satisfied(b, trace),
            15 => self.satisfied(a, trace) || self.satisfied(b, trace),
            16 => (0..=trace.len()).any(|n| self.satisfied(a, &trace[n..])),
            17 => (0..=trace.len()).all(|n| self.satisfied(a, &trace[n..])),
            18 | 19 => {
                let end = self.first_fulfilment(a, trace).unwrap_or(trace.len());
                self.satisfied(b, &trace[..end])
            }
            20 => self.first_fulfilment(a, trace).is_some_and(|n| self.satisfied(b, &trace[n..])),
            21 => self.first_fulfilment(a, trace).is_none_or(|n| self.satisfied(b, &trace[n..])),
            22 => match self.first_fulfilment(a, trace) {
                Some(n) if n <= k => self.satisfied(b, &trace[n..]),
                _ if trace.len() >= k => self.satisfied(c, &trace[k..]),
                _ => true,
            },
            _ => {
                let kept: Vec<u8> = trace.iter().copied().filter(|&action| !self.formula(a, action)).collect();
                self.satisfied(b, &kept)
            }
        }
    }
}

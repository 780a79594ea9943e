//! Explaining: the first denied action of a list and the part of the policy that denies it, by the meanings.

use crate::meaning::Meaning;
use crate::sheet::Sheet;
use crate::table::WATCHED;
use crate::{at, compile, Refusal};
use std::collections::BTreeSet;

/// The first denied action of a list: its place, from 0, and the node that is named for it.
#[derive(Clone, Copy, Debug, PartialEq, Eq)]
pub struct Denial {
    pub place: usize,
    pub node: usize,
}

/// The kind And.
const AND: u8 = 14;
/// The longest list whose prefixes are all judged.
const SHORT: usize = 64;

/// The first denial of a list of actions; none where all of it is permitted. Refusals of the compiler, then 34, then
/// 12. (14 is a matter of the lent areas: see `calls`.)
pub fn explain(sheet: &[u8], list: &[u8]) -> Result<Option<Denial>, Refusal> {
    if compile(sheet)?[0] == WATCHED {
        return Err(at(34, 0));
    }
    let sheet = Sheet::read(sheet)?;
    if list.iter().any(|&action| action as usize >= sheet.actions.len()) {
        return Err(at(12, 0));
    }
    let mut meaning = Meaning::new(&sheet);
    let Some(end) = shortest_violation(&mut meaning, sheet.nodes.len() - 1, list) else { return Ok(None) };
    let violated = conjuncts(&sheet).into_iter().find(|&node| !meaning.satisfied(node, &list[..end]));
    Ok(Some(Denial { place: end - 1, node: violated.expect("the policy's own node at least") }))
}

/// The length of the shortest prefix that violates an enforced policy. What is violated stays so: a long list is
/// judged at doubled lengths, and then at halves between the last two.
fn shortest_violation(meaning: &mut Meaning, policy: usize, list: &[u8]) -> Option<usize> {
    let mut violated = |end: usize| !meaning.satisfied(policy, &list[..end]);
    if let Some(end) = (0..=list.len().min(SHORT)).find(|&end| violated(end)) {
        return Some(end);
    }
    let (mut satisfied, mut end) = (SHORT, 2 * SHORT);
    while end < list.len() && !violated(end) {
        (satisfied, end) = (end, 2 * end);
    }
    end = end.min(list.len());
    if end <= satisfied || !violated(end) {
        return None;
    }
    while satisfied + 1 < end {
        let middle = (satisfied + end) / 2;
        if violated(middle) {
            end = middle;
        } else {
            satisfied = middle;
        }
    }
    Some(end)
}

/// The policy's own node and those reached from it through And alone.
pub fn conjuncts(sheet: &Sheet) -> BTreeSet<usize> {
    let mut reached = BTreeSet::from([sheet.nodes.len() - 1]);
    // Parts are earlier nodes: each node is met behind all that it is a part of.
    for node in (0..sheet.nodes.len()).rev().filter(|&node| sheet.nodes[node].kind == AND) {
        if reached.contains(&node) {
            reached.extend([sheet.nodes[node].a(), sheet.nodes[node].b()]);
        }
    }
    reached
}

//! Rule sheets: layout (1 to 3), kinds and fields (4, 5), the nodes that are used, their types and bounds (6, 7).

use crate::{at, word, Refusal};

pub const HEADER: usize = 10;
pub const NODE: usize = 5;
/// The largest finite bound.
const LARGEST_BOUND: u32 = 65_534;

/// A node as it stands in the sheet.
#[derive(Clone, Copy, Debug, PartialEq, Eq, Hash)]
pub struct Node {
    pub kind: u8,
    pub argument: u8,
    pub parts: [u8; 3],
}

impl Node {
    pub fn a(&self) -> usize {
        self.parts[0] as usize
    }
    pub fn b(&self) -> usize {
        self.parts[1] as usize
    }
    pub fn c(&self) -> usize {
        self.parts[2] as usize
    }

    /// The parts that its kind has; none of an unknown kind.
    pub fn own_parts(&self) -> &[u8] {
        &self.parts[..fields(self.kind).map_or(0, |(_, parts)| parts)]
    }
}

/// The two lists of a sheet.
#[derive(Clone, Debug, PartialEq, Eq)]
pub struct Sheet {
    pub actions: Vec<u16>,
    pub nodes: Vec<Node>,
}

/// What a node is: an action formula, or a policy with its bound (none: unbounded). A node that is not used has no type.
#[derive(Clone, Copy, Debug, PartialEq, Eq)]
pub enum Type {
    Unused,
    Formula,
    Enforced(Option<u32>),
    Watched(Option<u32>),
}

impl Sheet {
    /// Reads the two lists: refusals 1, 2, 3.
    pub fn read(bytes: &[u8]) -> Result<Sheet, Refusal> {
        if bytes.len() < HEADER || word(bytes, 8) != bytes.len() {
            return Err(at(1, 0));
        }
        let (actions, nodes) = (word(bytes, 0), word(bytes, 2));
        if !(1..=16).contains(&actions) || !(1..=64).contains(&nodes) {
            return Err(at(2, 0));
        }
        let action_list = word(bytes, 4)..word(bytes, 4) + 2 * actions;
        let node_list = word(bytes, 6)..word(bytes, 6) + NODE * nodes;
        let inside = |area: &std::ops::Range<usize>| area.start >= HEADER && area.end <= bytes.len();
        let apart = action_list.end <= node_list.start || node_list.end <= action_list.start;
        if !inside(&action_list) || !inside(&node_list) || !apart {
            return Err(at(3, 0));
        }
        let actions = action_list.step_by(2).map(|offset| word(bytes, offset) as u16).collect();
        let nodes = bytes[node_list]
            .chunks(NODE)
            .map(|n| Node { kind: n[0], argument: n[1], parts: [n[2], n[3], n[4]] })
            .collect();
        Ok(Sheet { actions, nodes })
    }

    /// The sheet as the unit itself writes one: no gaps, actions first.
    pub fn bytes(&self) -> Vec<u8> {
        let action_list = HEADER;
        let node_list = action_list + 2 * self.actions.len();
        let total = node_list + NODE * self.nodes.len();
        let header = [self.actions.len(), self.nodes.len(), action_list, node_list, total];
        let mut bytes: Vec<u8> = header.iter().flat_map(|n| (*n as u16).to_le_bytes()).collect();
        bytes.extend(self.actions.iter().flat_map(|set| set.to_le_bytes()));
        for node in &self.nodes {
            bytes.extend([node.kind, node.argument]);
            bytes.extend(node.parts);
        }
        bytes
    }

    /// Kinds and fields of all nodes, used or not: 4 and 5 node by node.
    pub fn check_fields(&self) -> Result<(), Refusal> {
        let mut nodes = self.nodes.iter().enumerate();
        nodes.try_for_each(|(place, node)| check_fields(node, place).map_err(|number| at(number, place)))
    }

    /// Which nodes are used: the last, which is the policy, and every part of one that is. Of a sheet that passes 5.
    pub fn used(&self) -> Vec<bool> {
        let mut used = vec![false; self.nodes.len()];
        let mut met = vec![self.nodes.len() - 1];
        while let Some(node) = met.pop() {
            if !std::mem::replace(&mut used[node], true) {
                met.extend(self.nodes[node].own_parts().iter().map(|&part| part as usize));
            }
        }
        used
    }

    /// The types of the nodes: 4 and 5 of all of them, then 6 and 7 node by node of those that are used, then the last
    /// node's 6.
    pub fn types(&self) -> Result<Vec<Type>, Refusal> {
        self.check_fields()?;
        let mut types = Vec::new();
        for (place, used) in self.used().into_iter().enumerate() {
            let this = if used { judge(&self.nodes[place], &types) } else { Ok(Type::Unused) };
            types.push(this.map_err(|number| at(number, place))?);
        }
        match types.last() {
            Some(Type::Formula) => Err(at(6, types.len() - 1)),
            _ => Ok(types),
        }
    }

    /// For each formula node that is well typed the set of actions that satisfy it, bit i for action i; 0 for policies.
    pub fn formula_sets(&self) -> Vec<u16> {
        let mut sets: Vec<u16> = Vec::new();
        for node in &self.nodes {
            let set = (0..self.actions.len()).filter(|&action| match node.kind {
                1 => true,
                3 => self.actions[action] >> node.argument & 1 == 1,
                4 => sets[node.a()] >> action & 1 == 0,
                5 => sets[node.a()] & sets[node.b()] & 1 << action != 0,
                6 => (sets[node.a()] | sets[node.b()]) & 1 << action != 0,
                _ => false,
            });
            let set = set.fold(0, |set, action| set | 1 << action);
            sets.push(set);
        }
        sets
    }
}

/// Checks kind and fields of the node of this number: 4, 5.
pub fn check_fields(node: &Node, place: usize) -> Result<(), u8> {
    let (arguments, parts) = fields(node.kind).ok_or(4)?;
    let (own, others) = node.parts.split_at(parts);
    let earlier = own.iter().all(|&part| (part as usize) < place);
    if !arguments.contains(&node.argument) || !earlier || others.iter().any(|&part| part != 0) {
        return Err(5);
    }
    Ok(())
}

/// Judges one node that passes 5, over the types of those before it: 6, 7.
pub fn judge(node: &Node, types: &[Type]) -> Result<Type, u8> {
    let parts: Vec<Type> = node.own_parts().iter().map(|&part| types[part as usize]).collect();
    let this = type_of(node.kind, node.argument, &parts).ok_or(6)?;
    match this {
        Type::Enforced(Some(bound)) | Type::Watched(Some(bound)) if bound > LARGEST_BOUND => Err(7),
        _ => Ok(this),
    }
}

/// A kind's arguments and its number of parts, which are the first ones; none for an unknown kind.
fn fields(kind: u8) -> Option<(std::ops::RangeInclusive<u8>, usize)> {
    Some(match kind {
        1 | 2 => (0..=0, 0),
        3 => (0..=15, 0),
        4 | 10 | 11 | 13 | 16 | 17 => (0..=0, 1),
        5 | 6 | 14 | 15 | 18..=21 | 23 => (0..=0, 2),
        12 => (1..=60, 0),
        22 => (1..=60, 3),
        _ => return None,
    })
}

/// The type of a node from those of its parts; none where a part is of the wrong type.
fn type_of(kind: u8, argument: u8, parts: &[Type]) -> Option<Type> {
    use Type::*;
    Some(match (kind, parts) {
        (1..=3, []) | (4, [Formula]) | (5 | 6, [Formula, Formula]) => Formula,
        (10, [Formula]) => Watched(Some(1)),
        (11, [Formula]) => Enforced(Some(1)),
        (12, []) => Watched(Some(argument as u32)),
        (13, [Watched(a)]) => Enforced(*a),
        (13, [Enforced(a)]) => Watched(*a),
        (14 | 15, [Watched(a), Watched(b)]) => Watched(larger(*a, *b)),
        (14 | 15, [Enforced(a), Enforced(b)]) => Enforced(larger(*a, *b)),
        (16, [Watched(_)]) => Watched(None),
        (17, [Enforced(_)]) => Enforced(None),
        (18, [Watched(_), Watched(b)]) => Watched(*b),
        (19, [Watched(_), Enforced(b)]) => Enforced(*b),
        (20, [Watched(a), Watched(b)]) => Watched(sum(*a, *b)),
        (21, [Watched(a), Enforced(b)]) => Enforced(sum(*a, *b)),
        (22, [Watched(_), Enforced(b), Enforced(c)]) => Enforced(sum(Some(argument as u32), larger(*b, *c))),
        (23, [Formula, Watched(_)]) => Watched(None),
        (23, [Formula, Enforced(_)]) => Enforced(None),
        _ => return None,
    })
}

fn larger(a: Option<u32>, b: Option<u32>) -> Option<u32> {
    Some(a?.max(b?))
}

fn sum(a: Option<u32>, b: Option<u32>) -> Option<u32> {
    Some(a? + b?)
}

//! Seeded inputs: a small generator of numbers, and sheets over all kinds.

use crate::compile::build;
use crate::machine::Rows;
use crate::sheet::{check_fields, judge, Node, Sheet, Type, HEADER, NODE};

/// Splitmix64.
pub struct Random(pub u64);

impl Random {
    pub fn draw(&mut self) -> u64 {
        self.0 = self.0.wrapping_add(0x9e37_79b9_7f4a_7c15);
        let mut z = self.0;
        z = (z ^ z >> 30).wrapping_mul(0xbf58_476d_1ce4_e5b9);
        z = (z ^ z >> 27).wrapping_mul(0x94d0_49bb_1331_11eb);
        z ^ z >> 31
    }

    /// A number below n.
    pub fn below(&mut self, n: usize) -> usize {
        (self.draw() % n as u64) as usize
    }

    pub fn byte(&mut self) -> u8 {
        self.draw() as u8
    }

    /// True in so many cases of a hundred.
    pub fn chance(&mut self, percent: usize) -> bool {
        self.below(100) < percent
    }

    pub fn pick<T: Copy>(&mut self, from: &[T]) -> T {
        from[self.below(from.len())]
    }

    pub fn shuffle<T>(&mut self, list: &mut [T]) {
        (1..list.len()).rev().for_each(|last| list.swap(last, self.below(last + 1)));
    }

    pub fn fill(&mut self, bytes: &mut [u8]) {
        for chunk in bytes.chunks_mut(8) {
            let junk = self.draw().to_le_bytes();
            chunk.copy_from_slice(&junk[..chunk.len()]);
        }
    }
}

/// What the sheets of a generator are like.
#[derive(Clone, Copy)]
pub struct Style {
    pub actions: usize,
    pub nodes: usize,
    /// Draw a node again where 7, 8 or 9 would refuse it, and mostly where it trips never or always.
    pub inside_limits: bool,
    /// In so many cases of a hundred a node's fields are drawn without regard to types.
    pub slips: usize,
}

/// A sheet of random nodes, mostly well typed. Nodes are shared and left unused as it comes.
pub fn sheet(random: &mut Random, style: Style) -> Sheet {
    let combined = random.chance(50);
    let actions = (0..style.actions)
        .map(|action| if combined { random.draw() as u16 & random.draw() as u16 } else { 1 << action })
        .collect();
    let mut sheet = Sheet { actions, nodes: Vec::new() };
    let (mut types, mut rows) = (Vec::new(), Vec::new());
    while sheet.nodes.len() < style.nodes {
        let last = sheet.nodes.len() + 1 == style.nodes;
        let slip = random.chance(style.slips);
        sheet.nodes.push(if slip && random.chance(50) {
            any_node(random, types.len())
        } else {
            let mut node = typed_node(random, &types, style.actions, last && !slip);
            if slip {
                spoil(random, &mut node, types.len());
            }
            node
        });
        let here = types.len();
        let Ok(this) = check_fields(&sheet.nodes[here], here).and_then(|()| judge(&sheet.nodes[here], &types)) else {
            if style.inside_limits {
                sheet.nodes.pop();
                continue;
            }
            // Refused there: go on as if it were some formula, so that later nodes have parts.
            types.push(Type::Formula);
            continue;
        };
        types.push(this);
        if style.inside_limits {
            let formulas = sheet.formula_sets();
            let built = build(&sheet, &types, &formulas, &rows, here);
            // Policies that trip never, or by every action, are mostly done without: they spread.
            let constant = |rows: &Rows| rows.count() == 1 && rows.entries.iter().all(|&next| next == rows.entries[0]);
            let dull = matches!(&built, Ok(Some(rows)) if constant(rows)) && random.chance(85);
            match built {
                Ok(built) if !dull => rows.push(built),
                _ => {
                    sheet.nodes.pop();
                    types.pop();
                }
            }
        }
    }
    sheet
}

/// The types of all nodes, used or not, of a sheet in which each of them passes 4 to 7.
pub fn all_types(sheet: &Sheet) -> Vec<Type> {
    let mut types = Vec::new();
    for node in &sheet.nodes {
        types.push(judge(node, &types).expect("a node that passes 4 to 7"));
    }
    types
}

/// Any kind, known or not, with fields near their ranges.
fn any_node(random: &mut Random, here: usize) -> Node {
    let kind = if random.chance(10) { random.byte() } else { random.below(25) as u8 };
    let mut field = |most: usize| if random.chance(50) { 0 } else { random.below(most) as u8 };
    Node { kind, argument: field(63), parts: [field(here + 2), field(here + 2), field(here + 2)] }
}

/// Another part, lower than the node, in the place of one that is used; or another argument.
fn spoil(random: &mut Random, node: &mut Node, here: usize) {
    let any_part = random.below(here.max(1)) as u8;
    match node.kind {
        1..=3 | 12 => node.argument = random.pick(&[0, 1, 15, 16, 60, 61, 255]),
        4 | 10 | 11 | 13 | 16 | 17 => node.parts[0] = any_part,
        22 => node.parts[random.below(3)] = any_part,
        _ => node.parts[random.below(2)] = any_part,
    }
}

/// A node whose parts are of the right types, of a kind for which there are such parts.
fn typed_node(random: &mut Random, types: &[Type], actions: usize, policy: bool) -> Node {
    let of = |wanted: fn(&Type) -> bool| -> Vec<u8> {
        (0..types.len()).filter(|&n| wanted(&types[n])).map(|n| n as u8).collect()
    };
    let formulas = of(|this| matches!(this, Type::Formula));
    let watched = of(|this| matches!(this, Type::Watched(_)));
    let enforced = of(|this| matches!(this, Type::Enforced(_)));
    loop {
        let kind = match random.below(100) {
            0..=19 => random.pick(&[1, 2, 3, 3, 3, 3, 3, 4, 5, 6]),
            20..=39 => 10 + random.below(3) as u8,
            _ => 10 + random.below(14) as u8,
        };
        // Late nodes are the likelier parts, so that policies grow deep.
        let mut part = |from: &[u8]| match from.len() {
            0 => None,
            n if random.chance(50) => Some(from[n - 1 - random.below(n.min(3))]),
            _ => Some(random.pick(from)),
        };
        let (one, two) = if part(&[0, 1]) == Some(0) { (&watched, &watched) } else { (&enforced, &enforced) };
        let parts = match kind {
            1..=3 | 12 => Some([0; 3]),
            4 | 10 | 11 => part(&formulas).map(|a| [a, 0, 0]),
            5 | 6 => part(&formulas).zip(part(&formulas)).map(|(a, b)| [a, b, 0]),
            13 => part(one).map(|a| [a, 0, 0]),
            14 | 15 => part(one).zip(part(two)).map(|(a, b)| [a, b, 0]),
            16 => part(&watched).map(|a| [a, 0, 0]),
            17 => part(&enforced).map(|a| [a, 0, 0]),
            18 | 20 => part(&watched).zip(part(&watched)).map(|(a, b)| [a, b, 0]),
            19 | 21 => part(&watched).zip(part(&enforced)).map(|(a, b)| [a, b, 0]),
            22 => part(&watched).zip(part(&enforced).zip(part(&enforced))).map(|(a, (b, c))| [a, b, c]),
            _ => part(&formulas).zip(part(one)).map(|(a, b)| [a, b, 0]),
        };
        let Some(parts) = parts.filter(|_| kind >= 10 || !policy) else { continue };
        let argument = match kind {
            3 if random.chance(90) => random.below(actions) as u8,
            3 => random.below(16) as u8,
            12 if random.chance(90) => 1 + random.below(4) as u8,
            12 => 1 + random.below(60) as u8,
            22 => wait(random, types[parts[0] as usize]),
            _ => 0,
        };
        return Node { kind, argument, parts };
    }
}

/// The k of a Fulfilling over an a of this type: mostly small, at times about the bound of a, at times up to the most.
pub fn wait(random: &mut Random, a: Type) -> u8 {
    match (random.below(10), a) {
        (0, _) => 1 + random.below(60) as u8,
        (1..=3, Type::Watched(Some(bound @ 1..=61))) => (bound as u8 + random.below(3) as u8 - 1).clamp(1, 60),
        _ => 1 + random.below(6) as u8,
    }
}

/// A sheet's bytes with its areas in either order and junk before, between and behind them.
pub fn lay_out(random: &mut Random, sheet: &Sheet) -> Vec<u8> {
    let mut gap = || match random.below(40) {
        0 => random.below(3000),
        1..=20 => 0,
        _ => random.below(12),
    };
    let gaps = [gap(), gap(), gap()];
    let (actions, nodes) = (2 * sheet.actions.len(), NODE * sheet.nodes.len());
    let actions_first = random.chance(50);
    let first = HEADER + gaps[0];
    let second = first + if actions_first { actions } else { nodes } + gaps[1];
    let total = HEADER + actions + nodes + gaps.iter().sum::<usize>();
    let (action_list, node_list) = if actions_first { (first, second) } else { (second, first) };
    let plain = sheet.bytes();
    let mut bytes = vec![0; total];
    random.fill(&mut bytes);
    bytes[..4].copy_from_slice(&plain[..4]);
    for (field, number) in [action_list, node_list, total].into_iter().enumerate() {
        bytes[4 + 2 * field..6 + 2 * field].copy_from_slice(&(number as u16).to_le_bytes());
    }
    bytes[action_list..][..actions].copy_from_slice(&plain[HEADER..][..actions]);
    bytes[node_list..][..nodes].copy_from_slice(&plain[HEADER + actions..]);
    bytes
}

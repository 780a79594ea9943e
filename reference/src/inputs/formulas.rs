//! Sheets with many formulas; and the same sheet with its formulas written otherwise: at each number another formula
//! that the same actions satisfy.

use super::sheets::{any_sheet, near_the_limits};
use super::spare::renumbered;
use super::waits::waits_near_the_limits;
use crate::compile::build;
use crate::generate::Random;
use crate::machine::Rows;
use crate::sheet::{check_fields, judge, Node, Sheet, Type};

/// The most nodes of a sheet.
const MOST_NODES: usize = 64;
const PROPOSITIONS: u8 = 16;
/// Draws of a policy before one is taken that always fits.
const DRAWS: usize = 20;

/// The set of all actions.
fn every_action(actions: &[u16]) -> u16 {
    u16::MAX >> (16 - actions.len())
}

/// The actions that satisfy a proposition.
fn column(actions: &[u16], p: u8) -> u16 {
    actions.iter().enumerate().fold(0, |set, (action, named)| set | (named >> p & 1) << action)
}

/// For each node that is a formula, as all its parts are, the set of actions that satisfy it.
pub fn sets(sheet: &Sheet) -> Vec<Option<u16>> {
    let all = every_action(&sheet.actions);
    let mut sets: Vec<Option<u16>> = Vec::new();
    for (place, node) in sheet.nodes.iter().enumerate() {
        let own = node.own_parts().iter().map(|&part| sets[part as usize]);
        let parts: Option<Vec<u16>> = check_fields(node, place).ok().and_then(|()| own.collect());
        sets.push(parts.and_then(|parts| match (node.kind, &parts[..]) {
            (1, _) => Some(all),
            (2, _) => Some(0),
            (3, _) => Some(column(&sheet.actions, node.argument)),
            (4, [a]) => Some(all & !a),
            (5, [a, b]) => Some(a & b),
            (6, [a, b]) => Some(a | b),
            _ => None,
        }));
    }
    sets
}

/// The same sheet with each of its formulas written otherwise, where there is another way. Sometimes the propositions
/// have other numbers, or those that no node names other actions. Policies are as they were, and so is a formula that 4,
/// 5 or 6 refuses.
pub fn rewritten(random: &mut Random, sheet: &Sheet) -> Sheet {
    let sets = sets(sheet);
    let mut other = sheet.clone();
    if random.chance(50) {
        fill_unnamed(random, &mut other, &sets);
    }
    for (place, set) in sets.iter().enumerate() {
        if let Some(set) = *set {
            let way = another_way(random, &other, &sets[..place], set);
            other.nodes[place] = way.unwrap_or(other.nodes[place]);
        }
    }
    if random.chance(50) {
        fill_unnamed(random, &mut other, &sets);
    }
    if random.chance(40) {
        rename(random, &mut other, &sets);
    }
    other
}

/// Another node behind those of these sets, of any kind that there is one of, which just these actions satisfy.
fn another_way(random: &mut Random, sheet: &Sheet, before: &[Option<u16>], set: u16) -> Option<Node> {
    let this = sheet.nodes[before.len()];
    let mut kinds = [1, 2, 3, 4, 5, 6];
    random.shuffle(&mut kinds);
    kinds.into_iter().find_map(|kind| {
        let mut ways = ways(&sheet.actions, before, set, kind);
        ways.retain(|way| *way != this);
        (!ways.is_empty()).then(|| random.pick(&ways))
    })
}

/// All nodes of a kind behind those of these sets that just these actions satisfy.
fn ways(actions: &[u16], before: &[Option<u16>], set: u16, kind: u8) -> Vec<Node> {
    let all = every_action(actions);
    let formulas: Vec<(u8, u16)> =
        before.iter().enumerate().filter_map(|(place, set)| set.map(|set| (place as u8, set))).collect();
    let of = |argument, parts| Node { kind, argument, parts };
    let pairs = |both: fn(u16, u16) -> u16| {
        let with = |&(a, one): &(u8, u16)| {
            let fits = formulas.iter().filter(move |(_, two)| both(one, *two) == set);
            fits.map(move |&(b, _)| of(0, [a, b, 0]))
        };
        formulas.iter().flat_map(with).collect()
    };
    match kind {
        1 if set == all => vec![of(0, [0; 3])],
        2 if set == 0 => vec![of(0, [0; 3])],
        3 => (0..PROPOSITIONS).filter(|&p| column(actions, p) == set).map(|p| of(p, [0; 3])).collect(),
        4 => formulas.iter().filter(|(_, a)| all & !a == set).map(|&(a, _)| of(0, [a, 0, 0])).collect(),
        5 => pairs(|a, b| a & b),
        6 => pairs(|a, b| a | b),
        _ => vec![],
    }
}

/// Gives each proposition that no node names other actions: any, or those of one of the sets.
fn fill_unnamed(random: &mut Random, sheet: &mut Sheet, sets: &[Option<u16>]) {
    let known: Vec<u16> = sets.iter().flatten().copied().collect();
    let named = |p: u8| sheet.nodes.iter().any(|node| node.kind == 3 && node.argument == p);
    let unnamed: Vec<u8> = (0..PROPOSITIONS).filter(|&p| !named(p)).collect();
    for p in unnamed {
        let set = if known.is_empty() || random.chance(50) { random.draw() as u16 } else { random.pick(&known) };
        for (action, entry) in sheet.actions.iter_mut().enumerate() {
            *entry = *entry & !(1 << p) | (set >> action & 1) << p;
        }
    }
}

/// Gives the propositions other numbers, in the nodes and in the action list.
fn rename(random: &mut Random, sheet: &mut Sheet, sets: &[Option<u16>]) {
    let mut numbers: Vec<u8> = (0..PROPOSITIONS).collect();
    random.shuffle(&mut numbers);
    let formulas = sheet.nodes.iter_mut().zip(sets).filter(|(_, set)| set.is_some());
    for (node, _) in formulas.filter(|(node, _)| node.kind == 3) {
        node.argument = numbers[node.argument as usize];
    }
    for entry in &mut sheet.actions {
        *entry = numbers.iter().enumerate().fold(0, |set, (p, number)| set | (*entry >> p & 1) << number);
    }
}

/// A sheet and another, in which its formulas are written otherwise. Both pass 1 to 3. Some are near the limits.
pub fn any_pair(random: &mut Random) -> [Sheet; 2] {
    loop {
        let plain = match random.below(10) {
            0..=4 => many_formulas(random),
            5..=6 => near_the_limits_behind_formulas(random),
            _ => any_read(random),
        };
        let other = rewritten(random, &plain);
        if other != plain {
            return [plain, other];
        }
    }
}

/// A sheet of any sort that passes 1 to 3.
fn any_read(random: &mut Random) -> Sheet {
    std::iter::repeat_with(|| any_sheet(random).1).find_map(|bytes| Sheet::read(&bytes).ok()).expect("a sheet")
}

/// Values near 1,024 or rows near 64, with formulas in front that no other node uses.
fn near_the_limits_behind_formulas(random: &mut Random) -> Sheet {
    let bytes = if random.chance(75) { near_the_limits(random) } else { waits_near_the_limits(random) };
    let Sheet { actions, nodes } = Sheet::read(&bytes).expect("a sheet");
    let mut draft = Draft::new(actions, false);
    let count = (4 + random.below(12)).min(MOST_NODES - nodes.len());
    kinds(random, count).into_iter().for_each(|kind| draft.put_formula(random, kind));
    let first = count as u8;
    draft.sheet.nodes.extend(nodes.iter().map(|node| renumbered(node, |part| part + first)));
    draft.sheet
}

/// 20 to 45 formulas of all kinds and policies over them: mostly inside the limits, seldom ill typed.
pub fn many_formulas(random: &mut Random) -> Sheet {
    let mut sheet = well_typed(random, MOST_NODES);
    if random.chance(8) {
        // Mostly another part of a policy, which is a formula then.
        let wholes: Vec<usize> = (0..sheet.nodes.len()).filter(|&n| !sheet.nodes[n].own_parts().is_empty()).collect();
        let whole = wholes[wholes.len() - 1 - random.below(wholes.len().min(12))];
        let (part, parts) = (random.below(whole) as u8, sheet.nodes[whole].own_parts().len());
        sheet.nodes[whole].parts[parts - 1] = part;
    }
    sheet
}

/// The same with at most so many nodes, each of which passes 4 to 7.
pub fn well_typed(random: &mut Random, most: usize) -> Sheet {
    let actions = any_actions(random);
    let formulas = 20 + random.below(26);
    let policies = (5 + random.below(15)).min(most - formulas);
    let mut draft = Draft::new(actions, random.chance(90));
    // The formulas stand before all policies, or between them. The last node is a policy.
    let mut turns: Vec<bool> = (0..formulas + policies).map(|turn| turn < formulas).collect();
    if random.chance(50) {
        random.shuffle(&mut turns[6..formulas + policies - 1]);
    }
    let (mut kinds, mut left) = (kinds(random, formulas).into_iter(), policies);
    for formula in turns {
        if formula {
            draft.put_formula(random, kinds.next().expect("a kind for each"));
        } else {
            draft.put_policy(random, left);
            left -= 1;
        }
    }
    draft.sheet
}

/// 1, 2, 15 and 16 actions most of all: with the proposition of their number, with all but this, or with any.
fn any_actions(random: &mut Random) -> Vec<u16> {
    let count = match random.below(6) {
        0 => 1,
        1 => 2,
        2 => 15,
        3 => 16,
        _ => 1 + random.below(16),
    };
    let style = random.below(4);
    let mut action = |action: usize| match style {
        0 => 1 << action,
        1 => !(1 << action),
        2 => random.draw() as u16 & random.draw() as u16,
        _ => random.draw() as u16,
    };
    (0..count).map(&mut action).collect()
}

/// The kinds of so many formulas: a proposition first, and then every other kind somewhere.
fn kinds(random: &mut Random, count: usize) -> Vec<u8> {
    let mut kinds = vec![1, 2, 4, 5, 6];
    kinds.resize_with(count.max(6) - 1, || random.pick(&[1, 2, 3, 3, 3, 3, 4, 4, 5, 5, 5, 5, 6, 6, 6, 6]));
    random.shuffle(&mut kinds);
    kinds.insert(0, 3);
    kinds.truncate(count);
    kinds
}

fn is_formula(this: &Type) -> bool {
    matches!(this, Type::Formula)
}
fn is_watched(this: &Type) -> bool {
    matches!(this, Type::Watched(_))
}
fn is_enforced(this: &Type) -> bool {
    matches!(this, Type::Enforced(_))
}

/// A sheet to which nodes are put. Each passes 4 to 7.
struct Draft {
    sheet: Sheet,
    types: Vec<Type>,
    /// Whether each passes 8 and 9 too; then their rows.
    inside_limits: bool,
    rows: Vec<Option<Rows>>,
}

impl Draft {
    fn new(actions: Vec<u16>, inside_limits: bool) -> Draft {
        Draft { sheet: Sheet { actions, nodes: Vec::new() }, types: Vec::new(), inside_limits, rows: Vec::new() }
    }

    fn of(&self, wanted: fn(&Type) -> bool) -> Vec<u8> {
        (0..self.types.len()).filter(|&node| wanted(&self.types[node])).map(|node| node as u8).collect()
    }

    /// Those of these nodes that are no part of another.
    fn open(&self, from: &[u8]) -> Vec<u8> {
        let taken = |part: &u8| self.sheet.nodes.iter().any(|node| node.own_parts().contains(part));
        from.iter().copied().filter(|part| !taken(part)).collect()
    }

    /// One of these nodes, more often one that is no part of another.
    fn part(&self, random: &mut Random, from: &[u8]) -> u8 {
        let open = self.open(from);
        let any = open.is_empty() || random.chance(20);
        random.pick(if any { from } else { &open })
    }

    /// Puts a formula of this kind. One of a kind with choices is mostly satisfied by some actions, and not by some.
    fn put_formula(&mut self, random: &mut Random, kind: u8) {
        for draw in 1.. {
            let node = self.formula(random, kind);
            assert!(self.put(node), "a formula fits");
            let set = self.sheet.formula_sets()[self.types.len() - 1];
            let some = set != 0 && set != every_action(&self.sheet.actions);
            if some || kind < 3 || draw > 3 {
                return;
            }
            self.take_back();
        }
    }

    fn formula(&self, random: &mut Random, kind: u8) -> Node {
        let formulas = self.of(is_formula);
        let argument = match kind {
            3 if random.chance(60) => random.below(self.sheet.actions.len()) as u8,
            3 => random.below(PROPOSITIONS.into()) as u8,
            _ => 0,
        };
        let mut node = Node { kind, argument, parts: [0; 3] };
        let parts = node.own_parts().len();
        node.parts[..parts].iter_mut().for_each(|field| *field = self.part(random, &formulas));
        node
    }

    /// Puts a policy, behind which there are so many to come, itself counted.
    fn put_policy(&mut self, random: &mut Random, left: usize) {
        for _ in 0..DRAWS {
            let node = self.policy(random, left);
            if self.put(node) {
                // Policies that trip never, or by every action, are mostly done without.
                let constant = |rows: &Rows| rows.entries.iter().all(|&next| next == rows.entries[0]);
                let dull = matches!(self.rows.last(), Some(Some(rows)) if rows.count() == 1 && constant(rows));
                if !dull || random.chance(15) {
                    return;
                }
                self.take_back();
            }
        }
        let policies = self.policies();
        let fits = if policies.is_empty() {
            self.first(random)
        } else {
            Node { kind: 13, argument: 0, parts: [self.part(random, &policies), 0, 0] }
        };
        assert!(self.put(fits), "two values, or the part's rows");
    }

    fn policies(&self) -> Vec<u8> {
        [self.of(is_watched), self.of(is_enforced)].concat()
    }

    /// Now or Holds of some formula.
    fn first(&self, random: &mut Random) -> Node {
        let a = self.part(random, &self.of(is_formula));
        Node { kind: random.pick(&[10, 11]), argument: 0, parts: [a, 0, 0] }
    }

    fn policy(&self, random: &mut Random, left: usize) -> Node {
        let policies = self.policies();
        let open = self.open(&policies);
        if open.len() > left || open.len() > 1 && random.chance(25) {
            return self.joined(random, open);
        }
        if policies.is_empty() {
            return self.first(random);
        }
        let part = self.part(random, &policies);
        let copied = if is_watched(&self.types[part as usize]) { 16 } else { 17 };
        let most = if self.inside_limits { 4 } else { 60 };
        let node = |kind, argument, parts| Node { kind, argument, parts };
        let more = open.len() < left;
        match random.below(12) {
            0..=4 if more => self.first(random),
            5 if more => node(12, 1 + random.below(most) as u8, [0; 3]),
            6 => node(13, 0, [part, 0, 0]),
            7 => node(copied, 0, [part, 0, 0]),
            _ => node(23, 0, [self.part(random, &self.of(is_formula)), part, 0]),
        }
    }

    /// A node over two or three policies of which two are in the list.
    fn joined(&self, random: &mut Random, mut open: Vec<u8>) -> Node {
        random.shuffle(&mut open);
        let [x, y] = [open[0], open[1]];
        let watched = |part: u8| is_watched(&self.types[part as usize]);
        let node = |kind, parts| Node { kind, argument: 0, parts };
        match (watched(x), watched(y)) {
            (true, true) => node(random.pick(&[14, 15, 18, 20]), [x, y, 0]),
            (false, false) => node(random.pick(&[14, 15]), [x, y, 0]),
            (a_first, _) => {
                let (a, b) = if a_first { (x, y) } else { (y, x) };
                let c = self.part(random, &self.of(is_enforced));
                match random.below(3) {
                    0 => Node { kind: 22, argument: 1 + random.below(4) as u8, parts: [a, b, c] },
                    1 => node(19, [a, b, 0]),
                    _ => node(21, [a, b, 0]),
                }
            }
        }
    }

    /// Puts a node behind the others, if it passes.
    fn put(&mut self, node: Node) -> bool {
        let here = self.types.len();
        let Ok(this) = judge(&node, &self.types) else { return false };
        self.sheet.nodes.push(node);
        self.types.push(this);
        if self.inside_limits {
            match build(&self.sheet, &self.types, &self.sheet.formula_sets(), &self.rows, here) {
                Ok(rows) => self.rows.push(rows),
                Err(_) => {
                    self.take_back();
                    return false;
                }
            }
        }
        true
    }

    fn take_back(&mut self) {
        self.sheet.nodes.pop();
        self.types.pop();
        self.rows.truncate(self.types.len());
    }
}

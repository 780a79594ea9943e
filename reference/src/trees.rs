//! Policies as trees, and the sheets that they make.

use crate::sheet::{Node, Sheet};

/// A node with its parts. Equal nodes are written once, parts before their whole, left first.
#[derive(Clone, Debug, PartialEq, Eq)]
pub struct Tree {
    kind: u8,
    argument: u8,
    parts: Vec<Tree>,
}

pub fn tree<const N: usize>(kind: u8, argument: u8, parts: [Tree; N]) -> Tree {
    Tree { kind, argument, parts: parts.into() }
}

impl Tree {
    pub fn new(kind: u8, argument: u8, parts: Vec<Tree>) -> Tree {
        Tree { kind, argument, parts }
    }

    fn write(&self, nodes: &mut Vec<Node>) -> u8 {
        let mut parts = [0; 3];
        for (field, part) in parts.iter_mut().zip(&self.parts) {
            *field = part.write(nodes);
        }
        let node = Node { kind: self.kind, argument: self.argument, parts };
        let place = nodes.iter().position(|other| *other == node).unwrap_or_else(|| {
            nodes.push(node);
            nodes.len() - 1
        });
        place as u8
    }

    pub fn sheet(&self, actions: &[u16]) -> Sheet {
        let mut nodes = Vec::new();
        self.write(&mut nodes);
        Sheet { actions: actions.to_vec(), nodes }
    }

    /// Nodes, where none is shared.
    pub fn count(&self) -> usize {
        1 + self.parts.iter().map(Tree::count).sum::<usize>()
    }

    fn write_unshared(&self, nodes: &mut Vec<Node>) -> u8 {
        let mut parts = [0; 3];
        for (field, part) in parts.iter_mut().zip(&self.parts) {
            *field = part.write_unshared(nodes);
        }
        nodes.push(Node { kind: self.kind, argument: self.argument, parts });
        u8::try_from(nodes.len() - 1).expect("at most 256 nodes")
    }

    /// The same sheet with every node written as often as it stands in the tree.
    pub fn unshared_sheet(&self, actions: &[u16]) -> Sheet {
        let mut nodes = Vec::new();
        self.write_unshared(&mut nodes);
        Sheet { actions: actions.to_vec(), nodes }
    }

    /// Its words, as the text of a rule has them behind the first.
    pub fn words(&self) -> Vec<String> {
        let name = match self.kind {
            1 => "true",
            2 => "false",
            3 => return vec![format!("p{}", self.argument)],
            4 | 13 => "not",
            5 | 14 => "and",
            6 | 15 => "or",
            10 => "now",
            11 => "holds",
            12 => "count",
            16 => "eventually",
            17 => "always",
            18 | 19 => "before",
            20 | 21 => "after",
            22 => "fulfilling",
            23 => "ignoring",
            kind => panic!("kind {kind} has no word"),
        };
        let number = (self.argument != 0).then(|| self.argument.to_string());
        std::iter::once(name.into()).chain(number).chain(self.parts.iter().flat_map(Tree::words)).collect()
    }
}

pub fn yes() -> Tree {
    tree(1, 0, [])
}
pub fn no() -> Tree {
    tree(2, 0, [])
}
pub fn prop(p: u8) -> Tree {
    tree(3, p, [])
}
pub fn but(a: Tree) -> Tree {
    tree(4, 0, [a])
}
pub fn now(a: Tree) -> Tree {
    tree(10, 0, [a])
}
pub fn holds(a: Tree) -> Tree {
    tree(11, 0, [a])
}
pub fn count(k: u8) -> Tree {
    tree(12, k, [])
}
pub fn not(a: Tree) -> Tree {
    tree(13, 0, [a])
}
pub fn or(a: Tree, b: Tree) -> Tree {
    tree(15, 0, [a, b])
}
pub fn eventually(a: Tree) -> Tree {
    tree(16, 0, [a])
}
pub fn always(a: Tree) -> Tree {
    tree(17, 0, [a])
}
pub fn before_enforced(a: Tree, b: Tree) -> Tree {
    tree(19, 0, [a, b])
}
pub fn after_watched(a: Tree, b: Tree) -> Tree {
    tree(20, 0, [a, b])
}
pub fn after_enforced(a: Tree, b: Tree) -> Tree {
    tree(21, 0, [a, b])
}
pub fn fulfilling(k: u8, a: Tree, b: Tree, c: Tree) -> Tree {
    tree(22, k, [a, b, c])
}
pub fn ignoring(a: Tree, b: Tree) -> Tree {
    tree(23, 0, [a, b])
}

/// Charge, drop, tray, log, each with the proposition of its number.
pub const ROASTERY: [u16; 4] = [1, 2, 4, 8];
/// Two actions, each with the proposition of its number.
pub const TWO: [u16; 2] = [1, 2];

/// Or of two counts that each ignore the other's action.
pub fn two_counts(first: u8, second: u8) -> Tree {
    or(ignoring(prop(0), count(first)), ignoring(prop(1), count(second)))
}

/// 1,022 values and 25 rows with the two actions: copies at many points, of which few matter.
pub fn many_values() -> Tree {
    copies_of(10, 8)
}

/// Eventually, behind p0, so many actions or so many without p1.
pub fn copies_of(all: u8, some: u8) -> Tree {
    eventually(after_watched(now(prop(0)), or(count(all), ignoring(prop(1), count(some)))))
}

/// Fulfilling 60 whose a is p0 within the first 32 actions and 28 actions more. While it waits there
/// are 956 values: 32 before p0, 28 rows behind it at 32 counts each, and a spent row at 28 counts.
/// Then come as many for each of b and c as they have rows.
pub fn long_wait(rows: u8) -> Tree {
    let mut within = now(prop(0));
    for half in [1, 2, 4, 8, 16] {
        within = or(within.clone(), after_watched(count(half), within));
    }
    let then = not(count(rows));
    fulfilling(60, after_watched(within, count(28)), then.clone(), then)
}

/// Node 0 Count 60, each next node After- of the one before twice.
pub fn tower(nodes: u8) -> Vec<u8> {
    let mut all = vec![Node { kind: 12, argument: 60, parts: [0; 3] }];
    all.extend((1..nodes).map(|n| Node { kind: 20, argument: 0, parts: [n - 1, n - 1, 0] }));
    Sheet { actions: ROASTERY.to_vec(), nodes: all }.bytes()
}

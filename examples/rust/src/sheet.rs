//! Rule sheets, written node by node. include/lemondarts.h has the kinds.

/// A sheet in the making. Types are not checked here: the compiler does that, and answers the node.
#[derive(Clone, Debug, Default)]
pub struct Sheet {
    actions: Vec<u16>,
    nodes: Vec<[u8; 5]>,
}

/// The number of a node.
pub type Node = u8;

impl Sheet {
    /// A sheet with these actions: for each the set of propositions that it satisfies.
    pub fn new(actions: &[u16]) -> Sheet {
        Sheet { actions: actions.to_vec(), nodes: Vec::new() }
    }

    /// Adds a node and gives its number. Fields that the kind does not use are 0.
    pub fn node(&mut self, kind: u8, argument: u8, [a, b, c]: [Node; 3]) -> Node {
        assert!(self.nodes.len() < 64, "a sheet has at most 64 nodes");
        self.nodes.push([kind, argument, a, b, c]);
        (self.nodes.len() - 1) as Node
    }

    pub fn proposition(&mut self, number: u8) -> Node {
        self.node(3, number, [0; 3])
    }
    pub fn negation(&mut self, a: Node) -> Node {
        self.node(4, 0, [a, 0, 0])
    }
    pub fn now(&mut self, a: Node) -> Node {
        self.node(10, 0, [a, 0, 0])
    }
    pub fn holds(&mut self, a: Node) -> Node {
        self.node(11, 0, [a, 0, 0])
    }
    pub fn eventually(&mut self, a: Node) -> Node {
        self.node(16, 0, [a, 0, 0])
    }
    pub fn always(&mut self, a: Node) -> Node {
        self.node(17, 0, [a, 0, 0])
    }
    pub fn before_plus(&mut self, a: Node, b: Node) -> Node {
        self.node(19, 0, [a, b, 0])
    }
    pub fn after_plus(&mut self, a: Node, b: Node) -> Node {
        self.node(21, 0, [a, b, 0])
    }

    /// Header, action list, node list. The last node is the policy.
    pub fn bytes(&self) -> Vec<u8> {
        let nodes_at = 10 + 2 * self.actions.len();
        let total = nodes_at + 5 * self.nodes.len();
        let header = [self.actions.len(), self.nodes.len(), 10, nodes_at, total].map(|number| number as u16);
        let numbers = header.iter().chain(&self.actions).flat_map(|number| number.to_le_bytes());
        numbers.chain(self.nodes.concat()).collect()
    }
}

//! Nodes and clauses: one flat list of nodes in preorder, and where each literal begins.

/// A node: a variable, a symbol, or a predicate with its sign, in one number.
/// Bits 0 to 3 hold the count of places, bits 4 to 19 the number, bits 20 and 21 what it is.
pub type Node = u32;

const SYMBOL: u32 = 1 << 20;
const PREDICATE: u32 = 2 << 20;
const NEGATIVE: u32 = 1 << 20;

pub const fn variable(number: u32) -> Node {
    number << 4
}

pub const fn symbol(number: u32, places: u32) -> Node {
    SYMBOL | number << 4 | places
}

pub const fn predicate(negative: bool, number: u32, places: u32) -> Node {
    PREDICATE | (negative as u32) * NEGATIVE | number << 4 | places
}

#[inline(always)]
pub const fn is_variable(node: Node) -> bool {
    node >> 20 == 0
}

#[inline(always)]
pub const fn is_predicate(node: Node) -> bool {
    node & PREDICATE != 0
}

pub const fn is_negative(node: Node) -> bool {
    node >> 20 == 3
}

#[inline(always)]
pub const fn number(node: Node) -> u32 {
    node >> 4 & 0xffff
}

#[inline(always)]
pub const fn places(node: Node) -> u32 {
    node & 15
}

/// A clause of any size: `starts` has where each literal begins, and last where the nodes end.
#[derive(Clone, Debug, PartialEq, Eq)]
pub struct Clause {
    pub nodes: Vec<Node>,
    pub starts: Vec<u16>,
    pub variables: usize,
}

impl Default for Clause {
    fn default() -> Self {
        Clause { nodes: Vec::new(), starts: vec![0], variables: 0 }
    }
}

impl Clause {
    pub fn clear(&mut self) {
        self.nodes.clear();
        self.starts.clear();
        self.starts.push(0);
        self.variables = 0;
    }

    #[inline]
    pub fn len(&self) -> usize {
        self.starts.len() - 1
    }

    pub fn is_empty(&self) -> bool {
        self.len() == 0
    }

    #[inline]
    pub fn literal(&self, at: usize) -> &[Node] {
        &self.nodes[self.starts[at] as usize..self.starts[at + 1] as usize]
    }

    /// Ends the literal in hand.
    pub fn end_literal(&mut self) {
        self.starts.push(self.nodes.len() as u16);
    }

    /// Puts the literals of `from` that `keep` lists here, with variables numbered by their first standing.
    pub fn take_numbered(&mut self, from: &Clause, keep: &[u16], names: &mut Vec<u32>) {
        self.clear();
        names.clear();
        names.resize(from.variables, u32::MAX);
        for &l in keep {
            for &node in from.literal(l as usize) {
                if is_variable(node) {
                    let name = &mut names[number(node) as usize];
                    if *name == u32::MAX {
                        *name = self.variables as u32;
                        self.variables += 1;
                    }
                    self.nodes.push(variable(*name));
                } else {
                    self.nodes.push(node);
                }
            }
            self.end_literal();
        }
    }
}

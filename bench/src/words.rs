//! The words of a clause: where each ends, and an identity number (label) that equal words share.

use crate::clause::*;

#[derive(Default)]
pub struct Words {
    pub ends: Vec<u16>,
    /// The label of the word at each node; that of a predicate's node has no meaning.
    pub labels: Vec<u16>,
    /// How many labels there are.
    pub count: usize,
    /// Open addressing: the run and the node of an entry in one number.
    table: Vec<u32>,
    run: u32,
    mask: usize,
}

const NODE_BITS: u32 = 13;
const RUNS: u32 = 1 << (32 - NODE_BITS);

#[inline(always)]
fn mix(hash: u32, more: u32) -> u32 {
    (hash.rotate_left(5) ^ more).wrapping_mul(0x9e37_79b1)
}

#[inline(always)]
fn fold(hash: u32) -> usize {
    (hash ^ hash >> 15) as usize
}

impl Words {
    /// Numbers the words of a list of nodes of at most 4,096.
    pub fn number(&mut self, nodes: &[Node]) {
        let n = nodes.len();
        let size = (2 * n).next_power_of_two().max(128);
        if self.table.len() < size {
            self.table.clear();
            self.table.resize(size, 0);
            self.run = 0;
        }
        self.mask = size - 1;
        self.run += 1;
        if self.run == RUNS {
            self.table.fill(0);
            self.run = 1;
        }
        if self.ends.len() < n {
            self.ends.resize(n, 0);
            self.labels.resize(n, 0);
        }
        let ends = &mut self.ends[..n];
        let labels = &mut self.labels[..n];
        let table = &mut self.table[..size];
        let mut count = 0;
        for i in (0..n).rev() {
            let node = nodes[i];
            let mut hash = mix(0, node);
            let mut end = i + 1;
            for _ in 0..places(node) {
                hash = mix(hash, labels[end] as u32);
                end = ends[end] as usize;
            }
            ends[i] = end as u16;
            if is_predicate(node) {
                continue;
            }
            let mut slot = fold(hash) & self.mask;
            labels[i] = loop {
                let entry = table[slot];
                if entry >> NODE_BITS != self.run {
                    table[slot] = self.run << NODE_BITS | i as u32;
                    count += 1;
                    break count - 1;
                }
                let j = (entry & ((1 << NODE_BITS) - 1)) as usize;
                if nodes[j] == node {
                    let (mut c, mut d) = (i + 1, j + 1);
                    let same = (0..places(node)).all(|_| {
                        let equal = labels[c] == labels[d];
                        c = ends[c] as usize;
                        d = ends[d] as usize;
                        equal
                    });
                    if same {
                        break labels[j];
                    }
                }
                slot = (slot + 1) & self.mask;
            };
        }
        self.count = count as usize;
    }

    /// The label of a constant, where it stands in the clause.
    pub fn constant(&self, nodes: &[Node], node: Node) -> Option<u16> {
        let mut slot = fold(mix(0, node)) & self.mask;
        loop {
            let entry = self.table[slot];
            if entry >> NODE_BITS != self.run {
                return None;
            }
            let j = (entry & ((1 << NODE_BITS) - 1)) as usize;
            if nodes[j] == node {
                return Some(self.labels[j]);
            }
            slot = (slot + 1) & self.mask;
        }
    }
}

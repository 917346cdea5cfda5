//! Joining of records, and classes of them.

use crate::clause::*;
use crate::cover::Engine;
use crate::record::{LITERALS, NODES};
use crate::words::Words;

/// All memory that the calls work in.
#[derive(Default)]
pub struct Workshop {
    pub engine: Engine,
    left: Words,
    right: Words,
    pairs: Vec<u16>,
    raw: Clause,
    kept: Vec<u16>,
    names: Vec<u32>,
}

/// The join has more than 16 literals or 256 nodes.
#[derive(Clone, Copy, Debug, PartialEq, Eq)]
pub struct Refused;

impl Refused {
    pub const NUMBER: u8 = 11;
}

impl Workshop {
    /// The raw clause of two.
    pub fn raw(&mut self, first: &Clause, second: &Clause) -> &Clause {
        self.left.number(&first.nodes);
        self.right.number(&second.nodes);
        let wide = self.right.count;
        self.pairs.clear();
        self.pairs.resize(self.left.count * wide, 0);
        let raw = &mut self.raw;
        raw.clear();
        let mut variables = 0;
        for a in 0..first.len() {
            let (begin, end) = (first.starts[a] as usize, first.starts[a + 1] as usize);
            for b in 0..second.len() {
                let mut j = second.starts[b] as usize;
                if first.nodes[begin] != second.nodes[j] {
                    continue;
                }
                let mut i = begin;
                while i < end {
                    let node = first.nodes[i];
                    if node == second.nodes[j] && !is_variable(node) {
                        raw.nodes.push(node);
                        i += 1;
                        j += 1;
                    } else {
                        let pair = &mut self.pairs[self.left.labels[i] as usize * wide + self.right.labels[j] as usize];
                        if *pair == 0 {
                            variables += 1;
                            *pair = variables;
                        }
                        raw.nodes.push(variable(*pair as u32 - 1));
                        i = self.left.ends[i] as usize;
                        j = self.right.ends[j] as usize;
                    }
                }
                raw.end_literal();
            }
        }
        raw.variables = variables as usize;
        raw
    }

    /// Tidies a clause that is within the limit already.
    pub fn tidy(&mut self, clause: &Clause, to: &mut Clause) {
        let fine = self.engine.tidied(clause, None, &mut self.kept);
        debug_assert!(fine);
        to.take_numbered(clause, &self.kept, &mut self.names);
    }

    /// The join of two records. Where it is refused, `to` is untouched.
    pub fn join(&mut self, first: &Clause, second: &Clause, to: &mut Clause) -> Result<(), Refused> {
        self.raw(first, second);
        if !self.engine.tidied(&self.raw, Some((LITERALS, NODES)), &mut self.kept) {
            return Err(Refused);
        }
        to.take_numbered(&self.raw, &self.kept, &mut self.names);
        Ok(())
    }
}

/// A class that gathers.
pub struct Class {
    rule: Clause,
    spare: Clause,
    count: u32,
}

/// What came of a class: its rule and how many records it took.
pub struct Issued {
    pub rule: Clause,
    pub count: u32,
}

impl Class {
    pub fn begin(shop: &mut Workshop, record: &Clause) -> Class {
        let mut rule = Clause::default();
        shop.tidy(record, &mut rule);
        Class { rule, spare: Clause::default(), count: 1 }
    }

    pub fn admit(&mut self, shop: &mut Workshop, record: &Clause) -> Result<(), Refused> {
        if !shop.engine.covers(&self.rule, record) {
            shop.join(&self.rule, record, &mut self.spare)?;
            std::mem::swap(&mut self.rule, &mut self.spare);
        }
        self.count = self.count.saturating_add(1);
        Ok(())
    }

    pub fn fits(&self, shop: &mut Workshop, mount: &Clause) -> bool {
        shop.engine.covers(&self.rule, mount)
    }

    pub fn rule(&self) -> &Clause {
        &self.rule
    }

    pub fn issue(self) -> Issued {
        Issued { rule: self.rule, count: self.count }
    }
}

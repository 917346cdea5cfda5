//! What is kept of the clause that is to be covered: its columns.
//!
//! A column is a way down from a predicate through symbols to one place. For each target (literal) that has
//! this way it has the label of the word there, and for each label which targets have it.

use crate::bits::Bits;
use crate::clause::*;
use crate::words::Words;

/// From a column on through one symbol: the first of the columns of its places, and the targets that have it.
struct Step<const W: usize> {
    node: Node,
    next: u16,
    first: u16,
    targets: Bits<W>,
}

const NONE: u16 = u16::MAX;

pub struct Index<const W: usize, const D: usize> {
    pub targets: usize,
    labels: usize,
    pub columns: usize,
    heads: Vec<u16>,
    steps: Vec<Step<W>>,
    rows: Vec<u16>,
    supports: Vec<Bits<W>>,
    pub supported: bool,
    /// More supports than this are not kept; then the rows alone are used.
    pub most_supports: usize,
    stack: Vec<(u16, u16)>,
}

impl<const W: usize, const D: usize> Default for Index<W, D> {
    fn default() -> Self {
        Index {
            targets: 0,
            labels: 0,
            columns: 0,
            heads: Vec::new(),
            steps: Vec::new(),
            rows: Vec::new(),
            supports: Vec::new(),
            supported: false,
            most_supports: 1 << 16,
            stack: Vec::new(),
        }
    }
}

impl<const W: usize, const D: usize> Index<W, D> {
    const STRIDE: usize = 64 * W;

    pub fn build(&mut self, clause: &Clause, words: &Words) {
        debug_assert!(clause.len() <= Self::STRIDE && words.count <= 64 * D);
        self.targets = clause.len();
        self.labels = words.count;
        self.steps.clear();
        self.heads.clear();
        self.supports.clear();
        self.columns = 0;
        self.supported = true;
        self.grow(1);
        for t in 0..clause.len() {
            let mut column = 0usize;
            // The columns of the places still open at this depth; those of the depths above are on the stack.
            let (mut next, mut open) = (0, 0);
            self.stack.clear();
            for i in clause.starts[t] as usize..clause.starts[t + 1] as usize {
                let node = clause.nodes[i];
                if !is_predicate(node) {
                    let label = words.labels[i];
                    self.rows[column * Self::STRIDE + t] = label;
                    if self.supported {
                        self.supports[column * self.labels + label as usize].insert(t);
                    }
                }
                if places(node) > 0 || is_predicate(node) {
                    let step = self.find(column, node);
                    let step = if step == NONE { self.add(column, node) } else { step };
                    let step = &mut self.steps[step as usize];
                    step.targets.insert(t);
                    if open > 0 {
                        self.stack.push((next, open));
                    }
                    (next, open) = (step.first, places(node) as u16);
                }
                while open == 0 {
                    match self.stack.pop() {
                        Some(outer) => (next, open) = outer,
                        None => break,
                    }
                }
                column = next as usize;
                next += 1;
                open = open.wrapping_sub(1);
            }
        }
    }

    fn grow(&mut self, more: usize) {
        self.columns += more;
        let columns = self.columns;
        self.heads.resize(columns, NONE);
        if self.rows.len() < columns * Self::STRIDE {
            self.rows.resize((columns * Self::STRIDE).max(16 * Self::STRIDE), 0);
        }
        if self.supported {
            if columns * self.labels > self.most_supports {
                self.supported = false;
            } else {
                self.supports.resize(columns * self.labels, Bits::EMPTY);
            }
        }
    }

    #[inline]
    fn find(&self, column: usize, node: Node) -> u16 {
        let mut at = self.heads[column];
        while at != NONE && self.steps[at as usize].node != node {
            at = self.steps[at as usize].next;
        }
        at
    }

    fn add(&mut self, column: usize, node: Node) -> u16 {
        let at = self.steps.len() as u16;
        let first = self.columns as u16;
        self.steps.push(Step { node, next: self.heads[column], first, targets: Bits::EMPTY });
        self.heads[column] = at;
        self.grow(places(node) as usize);
        at
    }

    /// Through a symbol: the targets that have it in this column, and the columns of its places.
    #[inline]
    pub fn through(&self, column: usize, node: Node) -> Option<(&Bits<W>, u16)> {
        match self.find(column, node) {
            NONE => None,
            at => Some((&self.steps[at as usize].targets, self.steps[at as usize].first)),
        }
    }

    #[inline(always)]
    pub fn label(&self, column: usize, target: usize) -> usize {
        self.rows[column * Self::STRIDE + target] as usize
    }

    #[inline(always)]
    pub fn support(&self, column: usize, label: usize) -> &Bits<W> {
        &self.supports[column * self.labels + label]
    }

    /// Of these targets, those that have the label in the column.
    pub fn with_label(&self, set: &Bits<W>, column: usize, label: usize) -> Bits<W> {
        if self.supported {
            return set.and(self.support(column, label));
        }
        let mut left = *set;
        set.each(|t| {
            if self.label(column, t) != label {
                left.remove(t);
            }
            true
        });
        left
    }

    /// The labels that these targets have in the column.
    #[inline]
    pub fn labels_of(&self, set: &Bits<W>, column: usize) -> Bits<D> {
        let mut labels = Bits::EMPTY;
        let row = &self.rows[column * Self::STRIDE..(column + 1) * Self::STRIDE];
        set.each(|t| {
            labels.insert(row[t] as usize);
            true
        });
        labels
    }

    /// Which of these labels the targets still give.
    #[inline]
    pub fn still(&self, set: &Bits<W>, few: bool, column: usize, labels: &Bits<D>) -> Bits<D> {
        if few || !self.supported {
            let row = &self.rows[column * Self::STRIDE..(column + 1) * Self::STRIDE];
            let mut given = Bits::<D>::EMPTY;
            set.each(|t| {
                given.insert(row[t] as usize);
                true
            });
            return given.and(labels);
        }
        let mut left = *labels;
        let supports = &self.supports[column * self.labels..(column + 1) * self.labels];
        labels.each(|v| {
            if !supports[v].meets(set) {
                left.remove(v);
            }
            true
        });
        left
    }

    /// Which of these targets give one of the labels.
    #[inline]
    pub fn giving(&self, set: &Bits<W>, few: bool, column: usize, labels: &Bits<D>) -> Bits<W> {
        if few || !self.supported {
            let row = &self.rows[column * Self::STRIDE..(column + 1) * Self::STRIDE];
            let mut left = Bits::<W>::EMPTY;
            set.each(|t| {
                if labels.has(row[t] as usize) {
                    left.insert(t);
                }
                true
            });
            return left;
        }
        let mut given = Bits::<W>::EMPTY;
        let supports = &self.supports[column * self.labels..(column + 1) * self.labels];
        labels.each(|v| {
            given = given.or(&supports[v]);
            true
        });
        given.and(set)
    }

    /// Which of these labels the targets still give, where they gave all of them before some targets were gone.
    #[inline]
    pub fn still_after(&self, set: &Bits<W>, before: &Bits<W>, column: usize, labels: &Bits<D>) -> Bits<D> {
        let row = &self.rows[column * Self::STRIDE..(column + 1) * Self::STRIDE];
        let supports = &self.supports[column * self.labels..(column + 1) * self.labels];
        let mut left = *labels;
        before.without(set).each(|t| {
            let v = row[t] as usize;
            if !supports[v].meets(set) {
                left.remove(v);
            }
            true
        });
        left
    }

    /// Which of these targets give none of the labels.
    #[inline]
    pub fn not_giving(&self, set: &Bits<W>, column: usize, labels: &Bits<D>) -> Bits<W> {
        let mut left = *set;
        let supports = &self.supports[column * self.labels..(column + 1) * self.labels];
        labels.each(|v| {
            left = left.without(&supports[v]);
            true
        });
        left
    }
}

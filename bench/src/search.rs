//! The search for a choice: a target for each literal of the rule, such that one substitution makes them all.
//!
//! For each literal there is the set of targets left, for each variable the set of labels left. A set that got
//! smaller makes others smaller, round and round the variables, until nothing changes. The search fixes the
//! literal with the fewest targets left, and tries those first that are chosen already.

use crate::bits::Bits;
use crate::clause::*;
use crate::index::Index;
use crate::words::Words;

/// A variable of a literal: where it stands first in it.
#[derive(Clone, Copy)]
struct Standing {
    literal: u16,
    variable: u16,
    column: u16,
    next: u16,
    pair: u16,
}

/// A set of targets and a column, which several standings may share; and the labels that allowed targets of the set have.
struct Pair<const W: usize, const D: usize> {
    set: Bits<W>,
    next: u16,
    run: u32,
    labels: Bits<D>,
}

const NONE: u16 = u16::MAX;

/// When covering small clauses a literal with more targets than this takes no labels from its variables: that seldom
/// helps. Tidying prunes in full.
const MANY: u32 = 4;

pub struct Search<const W: usize, const D: usize> {
    pub index: Index<W, D>,
    standings: Vec<Standing>,
    pairs: Vec<Pair<W, D>>,
    /// Of a column its pairs, as a list.
    columns: Vec<u16>,
    /// Where the standings of a literal begin; one more at the end.
    firsts: Vec<u16>,
    /// Of a variable its standings, as a list.
    heads: Vec<u16>,
    base: Vec<Bits<W>>,
    live: Vec<u32>,
    run: u32,
    left: Vec<Bits<W>>,
    count: Vec<u16>,
    labels: Vec<Bits<D>>,
    seen: Vec<u32>,
    dirty: Vec<u64>,
    /// Of a dirty variable, the labels that it lost since it was looked at.
    lost: Vec<Bits<D>>,
    literal_trail: Vec<(u16, u16, Bits<W>)>,
    label_trail: Vec<(u16, Bits<D>)>,
    used: Bits<W>,
    part: Vec<u16>,
    /// The part that a literal is in, from 1.
    home: Vec<u16>,
    here: u16,
    stack: Vec<(u16, u16)>,
    all: Vec<u16>,
    folding: bool,
    /// Variables that were found to become another word, and in which look-out.
    turns: Vec<u32>,
    turned: u32,
    /// How many choices were tried in the last search.
    pub tried: u64,
}

impl<const W: usize, const D: usize> Default for Search<W, D> {
    fn default() -> Self {
        Search {
            index: Index::default(),
            standings: Vec::new(),
            pairs: Vec::new(),
            columns: Vec::new(),
            firsts: Vec::new(),
            heads: Vec::new(),
            base: Vec::new(),
            live: Vec::new(),
            run: 0,
            left: Vec::new(),
            count: Vec::new(),
            labels: Vec::new(),
            seen: Vec::new(),
            dirty: Vec::new(),
            lost: Vec::new(),
            literal_trail: Vec::new(),
            label_trail: Vec::new(),
            used: Bits::EMPTY,
            part: Vec::new(),
            home: Vec::new(),
            here: 0,
            stack: Vec::new(),
            all: Vec::new(),
            folding: false,
            turns: Vec::new(),
            turned: 0,
            tried: 0,
        }
    }
}

impl<const W: usize, const D: usize> Search<W, D> {
    /// Takes a rule, beside the clause that is in the index: false where some literal has no target.
    pub fn set_rule(&mut self, rule: &Clause, other: &Clause, words: &Words) -> bool {
        self.folding = false;
        let n = rule.len();
        self.standings.clear();
        self.firsts.clear();
        self.base.clear();
        self.heads.clear();
        self.heads.resize(rule.variables, NONE);
        self.pairs.clear();
        self.columns.clear();
        self.columns.resize(self.index.columns, NONE);
        if self.left.len() < n {
            self.left.resize(n, Bits::EMPTY);
            self.count.resize(n, 0);
            self.live.resize(n, 0);
            self.home.resize(n, 0);
            self.all = (0..n as u16).collect();
        }
        if self.labels.len() < rule.variables {
            self.labels.resize(rule.variables, Bits::EMPTY);
            self.seen.resize(rule.variables, 0);
            self.lost.resize(rule.variables, Bits::EMPTY);
            self.turns.resize(rule.variables, 0);
        }
        self.dirty.clear();
        self.dirty.resize(rule.variables.div_ceil(64), 0);
        for l in 0..n {
            let from = self.standings.len();
            self.firsts.push(from as u16);
            let Some(base) = self.walk(rule, l, from, other, words) else { return false };
            if base.is_empty() {
                return false;
            }
            self.base.push(base);
            self.pair(from, &base);
        }
        self.firsts.push(self.standings.len() as u16);
        true
    }

    /// Finds the pairs of the last literal's standings. Beyond some that differ a pair is made anew, which is only slower.
    fn pair(&mut self, from: usize, base: &Bits<W>) {
        for s in &mut self.standings[from..] {
            let head = &mut self.columns[s.column as usize];
            let mut at = *head;
            let mut steps = 0;
            while at != NONE && steps < 16 && self.pairs[at as usize].set != *base {
                at = self.pairs[at as usize].next;
                steps += 1;
            }
            if at == NONE || steps == 16 {
                at = self.pairs.len() as u16;
                self.pairs.push(Pair { set: *base, next: *head, run: 0, labels: Bits::EMPTY });
                *head = at;
            }
            s.pair = at;
        }
    }

    fn walk(&mut self, rule: &Clause, l: usize, from: usize, other: &Clause, words: &Words) -> Option<Bits<W>> {
        let mut base = Bits::below(self.index.targets);
        let mut column = 0usize;
        // The columns of the places still open at this depth; those of the depths above are on the stack.
        let (mut next, mut open) = (0, 0);
        self.stack.clear();
        for &node in rule.literal(l) {
            if is_variable(node) {
                let variable = number(node) as u16;
                match self.standings[from..].iter().find(|s| s.variable == variable) {
                    Some(s) => {
                        let (old, index) = (s.column as usize, &self.index);
                        let set = base;
                        set.each(|t| {
                            if index.label(old, t) != index.label(column, t) {
                                base.remove(t);
                            }
                            true
                        });
                    }
                    None => {
                        let at = self.standings.len() as u16;
                        let head = &mut self.heads[variable as usize];
                        self.standings.push(Standing {
                            literal: l as u16,
                            variable,
                            column: column as u16,
                            next: *head,
                            pair: 0,
                        });
                        *head = at;
                    }
                }
            } else if places(node) == 0 && !is_predicate(node) {
                let label = words.constant(&other.nodes, node)?;
                base = self.index.with_label(&base, column, label as usize);
            } else {
                let (targets, first) = self.index.through(column, node)?;
                base = base.and(targets);
                if open > 0 {
                    self.stack.push((next, open));
                }
                (next, open) = (first, places(node) as u16);
            }
            while open == 0 {
                match self.stack.pop() {
                    Some(outer) => (next, open) = outer,
                    None => break,
                }
            }
            column = next as usize;
            next += 1;
            open = open.wrapping_sub(1);
        }
        Some(base)
    }

    /// Looks for a choice that takes all literals of the rule.
    pub fn all(&mut self) -> bool {
        let all = std::mem::take(&mut self.all);
        let found = self.begin(&all[..self.base.len()], None) && self.parts(&all[..self.base.len()]);
        self.all = all;
        found
    }

    /// Of a clause that is rule and target at once, where it is turned into itself so that each target stays what it is
    /// and the literal `out` is no target: which literals may be targets then. None where one has to stay that may not.
    ///
    /// A literal that is no target keeps a variable what it is only by another target with this variable in this column.
    /// Where there is none, the variable becomes another word, and no literal with it is a target.
    pub fn no_targets(&mut self, out: usize, stays: &Bits<W>, stay: &Bits<W>) -> Option<Bits<W>> {
        self.turned += 1;
        let turned = self.turned;
        let mut left = *stays;
        left.remove(out);
        let mut list = std::mem::take(&mut self.part);
        list.clear();
        list.push(out as u16);
        let mut at = 0;
        let mut fine = true;
        'all: while at < list.len() {
            let t = list[at] as usize;
            at += 1;
            for s in self.firsts[t]..self.firsts[t + 1] {
                let Standing { variable, column, .. } = self.standings[s as usize];
                let y = variable as usize;
                if self.turns[y] == turned {
                    continue;
                }
                let label = self.index.label(column as usize, t);
                let with = self.index.with_label(&left, column as usize, label);
                // The literals that are no targets and have the variable in this column: each looks for another target.
                let mut s = self.heads[y];
                let mut lost = false;
                while s != NONE && !lost {
                    let Standing { literal, next, column: c, .. } = self.standings[s as usize];
                    s = next;
                    lost = c == column && !left.has(literal as usize) && !with.meets(&self.base[literal as usize]);
                }
                if !lost {
                    continue;
                }
                self.turns[y] = turned;
                let mut s = self.heads[y];
                while s != NONE {
                    let Standing { literal, next, .. } = self.standings[s as usize];
                    s = next;
                    let l = literal as usize;
                    if left.has(l) {
                        if stay.has(l) {
                            fine = false;
                            break 'all;
                        }
                        left.remove(l);
                        list.push(literal);
                    }
                }
            }
        }
        self.part = list;
        (fine && !left.is_empty()).then_some(left)
    }

    /// Of a clause that is rule and target at once: looks for a choice that takes these literals to allowed targets, where
    /// those of `stay` stay what they are. Where there is one, the targets that are chosen are answered.
    pub fn fold(&mut self, literals: &[u16], allowed: &Bits<W>, stay: &Bits<W>) -> Option<Bits<W>> {
        self.folding = true;
        if !self.begin(literals, Some((allowed, stay))) || !self.parts(literals) {
            return None;
        }
        let mut image = Bits::EMPTY;
        for &l in literals {
            image = image.or(&self.left[l as usize]);
        }
        Some(image)
    }

    /// The target of a literal, after a search that found a choice.
    #[inline]
    pub fn choice(&self, l: usize) -> usize {
        self.left[l].first()
    }

    /// First sets, and pruning: false where a literal has no target left.
    pub fn begin(&mut self, literals: &[u16], within: Option<(&Bits<W>, &Bits<W>)>) -> bool {
        self.tried = 0;
        self.literal_trail.clear();
        self.label_trail.clear();
        self.run += 1;
        self.dirty.fill(0);
        self.used = Bits::EMPTY;
        let run = self.run;
        for &l in literals {
            let l = l as usize;
            let stays = within.is_some_and(|(_, stay)| stay.has(l));
            let base = match within {
                Some(_) if stays => Bits::one(l),
                Some((allowed, _)) => self.base[l].and(allowed),
                None => self.base[l],
            };
            if base.is_empty() {
                return false;
            }
            self.live[l] = run;
            self.left[l] = base;
            self.count[l] = base.count() as u16;
            for s in self.firsts[l]..self.firsts[l + 1] {
                let Standing { variable, column, pair, .. } = self.standings[s as usize];
                let x = variable as usize;
                let given = if stays {
                    Bits::one(self.index.label(column as usize, l))
                } else {
                    let pair = &mut self.pairs[pair as usize];
                    if pair.run != run {
                        pair.run = run;
                        pair.labels = self.index.labels_of(&base, column as usize);
                    }
                    pair.labels
                };
                if self.seen[x] != run {
                    self.seen[x] = run;
                    self.labels[x] = given;
                } else if self.labels[x] != given {
                    let had = self.labels[x];
                    let both = had.and(&given);
                    if both.is_empty() {
                        self.dirty.fill(0);
                        return false;
                    }
                    self.labels[x] = both;
                    self.lose(x, had.or(&given).without(&both));
                }
            }
        }
        self.prune()
    }

    #[inline(always)]
    fn lose(&mut self, x: usize, labels: Bits<D>) {
        let bit = 1 << (x & 63);
        if self.dirty[x >> 6] & bit == 0 {
            self.dirty[x >> 6] |= bit;
            self.lost[x] = labels;
        } else {
            self.lost[x] = self.lost[x].or(&labels);
        }
    }

    /// Goes round the variables whose labels got fewer until there is none.
    fn prune(&mut self) -> bool {
        let words = self.dirty.len();
        let mut w = 0;
        let mut idle = 0;
        while idle < words {
            let word = self.dirty[w];
            if word == 0 {
                idle += 1;
                w += 1;
                if w == words {
                    w = 0;
                }
                continue;
            }
            idle = 0;
            self.dirty[w] = word & (word - 1);
            if !self.prune_from(64 * w + word.trailing_zeros() as usize) {
                self.dirty.fill(0);
                return false;
            }
        }
        true
    }

    fn prune_from(&mut self, x: usize) -> bool {
        let labels = self.labels[x];
        let single = labels.single();
        let (mut wide, mut losses) = (1, 1);
        let lost = self.lost[x];
        if single.is_none() {
            wide = labels.count();
            losses = lost.count();
        }
        let mut s = self.heads[x];
        while s != NONE {
            let Standing { literal, column, next, .. } = self.standings[s as usize];
            s = next;
            let l = literal as usize;
            if self.live[l] != self.run {
                continue;
            }
            let old = self.left[l];
            let new = match single {
                Some(v) if self.index.supported => old.and(self.index.support(column as usize, v)),
                _ if losses < wide && losses < self.count[l] as u32 && self.index.supported => {
                    self.index.not_giving(&old, column as usize, &lost)
                }
                _ => self.index.giving(&old, (self.count[l] as u32) < 2 * wide, column as usize, &labels),
            };
            if new == old {
                continue;
            }
            if new.is_empty() {
                return false;
            }
            if !self.narrow(l, old, new, x) {
                return false;
            }
        }
        true
    }

    /// A literal got fewer targets, by the labels of `from`: its variables may get fewer labels.
    #[inline(always)]
    fn narrow(&mut self, l: usize, old: Bits<W>, new: Bits<W>, from: usize) -> bool {
        let was = self.count[l] as u32;
        self.literal_trail.push((l as u16, self.count[l], old));
        self.left[l] = new;
        let count = new.count();
        self.count[l] = count as u16;
        for s in self.firsts[l]..self.firsts[l + 1] {
            let Standing { variable, column, .. } = self.standings[s as usize];
            let y = variable as usize;
            // A literal with one target settles all its variables; else `from` has been looked at already.
            if y == from && count > 1 {
                continue;
            }
            let had = self.labels[y];
            let has = if count == 1 {
                had.and(&Bits::one(self.index.label(column as usize, new.first())))
            } else {
                if had.single().is_some() || W == 1 && count > MANY && !self.folding {
                    continue;
                }
                let gone = was - count;
                if gone < count && self.index.supported {
                    self.index.still_after(&new, &old, column as usize, &had)
                } else {
                    self.index.still(&new, count < 8 || count < 2 * had.count(), column as usize, &had)
                }
            };
            if has != had {
                if has.is_empty() {
                    return false;
                }
                self.label_trail.push((variable, had));
                self.labels[y] = has;
                self.lose(y, had.without(&has));
            }
        }
        true
    }

    /// Gives a literal one target, and prunes.
    pub fn fix(&mut self, l: usize, target: usize) -> bool {
        let old = self.left[l];
        let new = Bits::one(target);
        if new == old {
            return true;
        }
        if !self.narrow(l, old, new, usize::MAX) {
            self.dirty.fill(0);
            return false;
        }
        self.prune()
    }

    /// When folding, a target that is chosen becomes itself, where it is of the same part: the parts are solved one by
    /// one, and what one is turned into must not bind the others.
    #[inline]
    fn settle(&mut self, t: usize) -> bool {
        let bound = self.folding && self.live[t] == self.run && self.home[t] == self.here;
        !bound || self.left[t].has(t) && self.fix(t, t)
    }

    pub fn mark(&self) -> (usize, usize) {
        (self.literal_trail.len(), self.label_trail.len())
    }

    pub fn undo(&mut self, mark: (usize, usize)) {
        while self.literal_trail.len() > mark.0 {
            let (l, count, set) = self.literal_trail.pop().unwrap();
            self.left[l as usize] = set;
            self.count[l as usize] = count;
        }
        while self.label_trail.len() > mark.1 {
            let (x, set) = self.label_trail.pop().unwrap();
            self.labels[x as usize] = set;
        }
    }

    #[inline]
    pub fn targets(&self, l: usize) -> Bits<W> {
        self.left[l]
    }

    /// Solves the parts that hang together by variables with several labels, one after the other.
    pub fn parts(&mut self, literals: &[u16]) -> bool {
        self.used = Bits::EMPTY;
        let mut open = false;
        for &l in literals {
            let l = l as usize;
            self.home[l] = 0;
            if self.count[l] == 1 {
                self.used = self.used.or(&self.left[l]);
            } else {
                open = true;
            }
        }
        if !open {
            return true;
        }
        let mut part = std::mem::take(&mut self.part);
        let mut fine = true;
        let mut here = 0;
        for &l in literals {
            if self.home[l as usize] != 0 || self.count[l as usize] == 1 {
                continue;
            }
            here += 1;
            part.clear();
            part.push(l);
            self.home[l as usize] = here;
            let mut at = 0;
            while at < part.len() {
                let l = part[at] as usize;
                at += 1;
                for s in self.firsts[l]..self.firsts[l + 1] {
                    let x = self.standings[s as usize].variable as usize;
                    if self.labels[x].single().is_some() {
                        continue;
                    }
                    let mut s = self.heads[x];
                    while s != NONE {
                        let Standing { literal, next, .. } = self.standings[s as usize];
                        s = next;
                        let k = literal as usize;
                        if self.live[k] == self.run && self.home[k] == 0 {
                            self.home[k] = here;
                            part.push(literal);
                        }
                    }
                }
            }
            self.here = here;
            if !self.solve(&part) {
                fine = false;
                break;
            }
            for &l in &part {
                self.used = self.used.or(&self.left[l as usize]);
            }
        }
        self.part = part;
        fine
    }

    fn solve(&mut self, part: &[u16]) -> bool {
        let mut used = self.used;
        let mut best = usize::MAX;
        let mut fewest = u16::MAX;
        for &l in part {
            let l = l as usize;
            let count = self.count[l];
            if count == 1 {
                used = used.or(&self.left[l]);
            } else if count < fewest {
                fewest = count;
                best = l;
            }
        }
        if best == usize::MAX {
            return true;
        }
        let set = self.left[best];
        for half in [set.and(&used), set.without(&used)] {
            let mut half = half;
            while !half.is_empty() {
                let t = half.first();
                half.remove(t);
                let mark = self.mark();
                self.tried += 1;
                if self.fix(best, t) && self.settle(t) && self.solve(part) {
                    return true;
                }
                self.undo(mark);
            }
        }
        false
    }
}

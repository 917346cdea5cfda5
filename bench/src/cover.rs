//! Covering of clauses by the quick engine: sizes are picked by what the other clause holds.

use crate::bits::Bits;
use crate::clause::*;
use crate::search::Search;
use crate::words::Words;

/// The memory that covering, tidying and witnesses work in; it is made once and used again.
#[derive(Default)]
pub struct Engine {
    words: Words,
    small: Search<1, 1>,
    wordy: Search<1, 4>,
    wide: Search<4, 4>,
    wider: Search<4, 8>,
    widest: Search<4, 64>,
    image: Vec<u16>,
}

macro_rules! sized {
    ($engine:expr, $other:expr, |$search:ident, $words:ident, $image:ident| $body:expr) => {{
        let Engine { words: $words, small, wordy, wide, wider, widest, image: $image } = $engine;
        $words.number(&$other.nodes);
        let _ = &$image;
        let few = $other.len() <= 64;
        match $words.count {
            0..=64 if few => {
                let $search = small;
                $body
            }
            0..=256 if few => {
                let $search = wordy;
                $body
            }
            0..=256 => {
                let $search = wide;
                $body
            }
            257..=512 => {
                let $search = wider;
                $body
            }
            _ => {
                let $search = widest;
                $body
            }
        }
    }};
}

fn ready<const W: usize, const D: usize>(s: &mut Search<W, D>, rule: &Clause, other: &Clause, words: &Words) -> bool {
    s.index.build(other, words);
    s.set_rule(rule, other, words)
}

/// Compares the choice that the search found with the definition: each literal is matched with its target.
fn checked<const W: usize, const D: usize>(s: &Search<W, D>, rule: &Clause, other: &Clause, literals: &[u16]) -> bool {
    let choice: Vec<usize> = literals.iter().map(|&l| s.choice(l as usize)).collect();
    let mut part = Clause::default();
    part.take_numbered(rule, literals, &mut Vec::new());
    crate::slow::makes(&part, other, &choice)
}

fn everything(rule: &Clause) -> Vec<u16> {
    (0..rule.len() as u16).collect()
}

impl Engine {
    /// An engine that looks at the rows of labels alone, as it otherwise does where there are too many supports to keep.
    pub fn without_supports() -> Engine {
        let mut engine = Engine::default();
        engine.small.index.most_supports = 0;
        engine.wordy.index.most_supports = 0;
        engine.wide.index.most_supports = 0;
        engine.wider.index.most_supports = 0;
        engine.widest.index.most_supports = 0;
        engine
    }

    /// Whether the rule covers the other clause (each of at most 256 literals and 4,096 nodes).
    pub fn covers(&mut self, rule: &Clause, other: &Clause) -> bool {
        sized!(self, other, |s, words, image| {
            let found = ready(s, rule, other, words) && s.all();
            debug_assert!(!found || checked(s, rule, other, &everything(rule)));
            found
        })
    }

    /// Of the choices that take the rule into the other clause, the first in dictionary order.
    pub fn first_choice(&mut self, rule: &Clause, other: &Clause, choice: &mut Vec<u16>) -> bool {
        choice.clear();
        sized!(self, other, |s, words, image| {
            if !ready(s, rule, other, words) || rule.is_empty() {
                return rule.is_empty();
            }
            image.clear();
            image.extend(0..rule.len() as u16);
            if !s.begin(image, None) {
                return false;
            }
            let root = s.mark();
            if !s.parts(image) {
                return false;
            }
            choice.extend(image.iter().map(|&l| s.choice(l as usize) as u16));
            s.undo(root);
            for l in 0..rule.len() {
                let known = choice[l] as usize;
                let mut pick = known;
                let mark = s.mark();
                let mut earlier = s.targets(l);
                while !earlier.is_empty() {
                    let t = earlier.first();
                    if t >= known {
                        break;
                    }
                    earlier.remove(t);
                    if s.fix(l, t) && s.parts(image) {
                        for (k, c) in choice.iter_mut().enumerate() {
                            *c = s.choice(k) as u16;
                        }
                        pick = t;
                        s.undo(mark);
                        break;
                    }
                    s.undo(mark);
                }
                let fixed = s.fix(l, pick);
                debug_assert!(fixed);
            }
            debug_assert!(checked(s, rule, other, &everything(rule)));
            true
        })
    }

    /// For each variable of the rule the node of the record where the first choice meets it.
    pub fn witness(&mut self, rule: &Clause, record: &Clause, list: &mut [u16]) -> Result<Option<usize>, u8> {
        if list.len() < rule.variables {
            return Err(12);
        }
        let mut choice = Vec::new();
        if !self.first_choice(rule, record, &mut choice) {
            return Ok(None);
        }
        let mut next = 0;
        for l in 0..rule.len() {
            let mut j = record.starts[choice[l] as usize] as usize;
            for &node in rule.literal(l) {
                if is_variable(node) {
                    if number(node) == next {
                        list[next as usize] = j as u16;
                        next += 1;
                    }
                    j = self.words.ends[j] as usize;
                } else {
                    j += 1;
                }
            }
        }
        Ok(Some(rule.variables))
    }

    /// Tidies: puts the literals that stay into `kept`. With a limit on these and on their nodes the answer is
    /// false as soon as they are too many.
    pub fn tidied(&mut self, clause: &Clause, limit: Option<(usize, usize)>, kept: &mut Vec<u16>) -> bool {
        sized!(self, clause, |s, words, image| tidied_with(s, words, image, clause, limit, kept))
    }
}

fn tidied_with<const W: usize, const D: usize>(
    s: &mut Search<W, D>,
    words: &Words,
    image: &mut Vec<u16>,
    clause: &Clause,
    limit: Option<(usize, usize)>,
    kept: &mut Vec<u16>,
) -> bool {
    kept.clear();
    let n = clause.len();
    if n == 0 {
        return true;
    }
    let fine = ready(s, clause, clause, words);
    debug_assert!(fine);
    let mut stays = Bits::<W>::below(n);
    let mut inside = stays;
    // A literal that stays for good is in the image of every choice. Where some choice leaves out a literal, some power
    // of it leaves out that literal and takes its own image to itself, so only such choices are looked for.
    let mut good = Bits::<W>::EMPTY;
    image.clear();
    image.extend(0..n as u16);
    let mut nodes = 0;
    for l in 0..n {
        if !inside.has(l) {
            stays.remove(l);
            continue;
        }
        let folded = match s.no_targets(l, &stays, &good) {
            Some(others) => s.fold(image, &others, &good),
            None => None,
        };
        if let Some(chosen) = folded {
            debug_assert!(checked(s, clause, clause, image));
            stays.remove(l);
            inside = chosen;
            image.clear();
            inside.each(|k| {
                image.push(k as u16);
                true
            });
        } else {
            kept.push(l as u16);
            good.insert(l);
            nodes += clause.literal(l).len();
            if limit.is_some_and(|(literals, most)| kept.len() > literals || nodes > most) {
                return false;
            }
        }
    }
    true
}

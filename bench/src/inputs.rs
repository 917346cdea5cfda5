//! Inputs from a fixed seed.

use crate::clause::*;
use crate::record;

/// A small generator: xorshift with a multiplication at the end.
pub struct Random(u64);

impl Random {
    pub fn new(seed: u64) -> Random {
        Random(seed.wrapping_mul(0x9e37_79b9_7f4a_7c15) | 1)
    }

    pub fn next(&mut self) -> u64 {
        self.0 ^= self.0 >> 12;
        self.0 ^= self.0 << 25;
        self.0 ^= self.0 >> 27;
        self.0.wrapping_mul(0x2545_f491_4f6c_dd1d)
    }

    /// A number below a count.
    pub fn below(&mut self, count: usize) -> usize {
        ((self.next() >> 32) * count as u64 >> 32) as usize
    }

    pub fn between(&mut self, least: usize, most: usize) -> usize {
        least + self.below(most - least + 1)
    }

    pub fn chance(&mut self, percent: usize) -> bool {
        self.below(100) < percent
    }

    pub fn shuffle<T>(&mut self, list: &mut [T]) {
        for at in (1..list.len()).rev() {
            list.swap(at, self.below(at + 1));
        }
    }
}

/// A clause of these literals without repetitions, its variables numbered by their first standing. Literals that
/// would make it too large for a record are left out.
pub fn lawful(literals: &[Vec<Node>]) -> Clause {
    let mut loose = Clause::default();
    let mut most = 0;
    for (at, literal) in literals.iter().enumerate() {
        if literals[..at].contains(literal)
            || loose.len() == record::LITERALS
            || loose.nodes.len() + literal.len() > record::NODES
        {
            continue;
        }
        for &node in literal {
            if is_variable(node) {
                most = most.max(number(node) as usize + 1);
            }
        }
        loose.nodes.extend_from_slice(literal);
        loose.end_literal();
    }
    loose.variables = most;
    let all: Vec<u16> = (0..loose.len() as u16).collect();
    let mut clause = Clause::default();
    clause.take_numbered(&loose, &all, &mut Vec::new());
    clause
}

fn constant(number: usize) -> Node {
    symbol(100 + number as u32, 0)
}

fn two_places(number: usize, first: Node, second: Node) -> Vec<Node> {
    vec![predicate(false, 1 + number as u32, 2), first, second]
}

/// A connected rule of `size` literals over predicates of two places, with just this many variables.
pub fn connected_rule(random: &mut Random, size: usize, variables: usize, predicates: usize) -> Clause {
    loop {
        let mut literals: Vec<Vec<Node>> = Vec::new();
        let mut used = 1;
        while literals.len() < size {
            let old = variable(random.below(used) as u32);
            let fresh = used < variables && random.below(size - literals.len()) < 2 * (variables - used);
            let other = if fresh { variable(used as u32) } else { variable(random.below(used) as u32) };
            let literal = if random.chance(50) {
                two_places(random.below(predicates), old, other)
            } else {
                two_places(random.below(predicates), other, old)
            };
            if !literals.contains(&literal) {
                literals.push(literal);
                used += fresh as usize;
            }
        }
        random.shuffle(&mut literals);
        let rule = lawful(&literals);
        if rule.variables == variables {
            return rule;
        }
    }
}

/// A mount of `size` literals over this many constants.
pub fn random_mount(random: &mut Random, size: usize, constants: usize, predicates: usize) -> Clause {
    let mut literals: Vec<Vec<Node>> = Vec::new();
    while literals.len() < size {
        let (a, b) = (constant(random.below(constants)), constant(random.below(constants)));
        let literal = two_places(random.below(predicates), a, b);
        if !literals.contains(&literal) {
            literals.push(literal);
        }
    }
    lawful(&literals)
}

/// A mount that hides an instance of the rule.
pub fn hidden_mount(random: &mut Random, rule: &Clause, size: usize, constants: usize, predicates: usize) -> Clause {
    let words: Vec<Node> = (0..rule.variables).map(|_| constant(random.below(constants))).collect();
    let mut literals: Vec<Vec<Node>> = Vec::new();
    for l in 0..rule.len() {
        let put = |&node: &Node| if is_variable(node) { words[number(node) as usize] } else { node };
        let literal: Vec<Node> = rule.literal(l).iter().map(put).collect();
        if !literals.contains(&literal) {
            literals.push(literal);
        }
    }
    while literals.len() < size {
        let (a, b) = (constant(random.below(constants)), constant(random.below(constants)));
        let literal = two_places(random.below(predicates), a, b);
        if !literals.contains(&literal) {
            literals.push(literal);
        }
    }
    random.shuffle(&mut literals);
    lawful(&literals)
}

fn nested(random: &mut Random, depth: usize, variables: usize, nodes: &mut Vec<Node>) {
    let pick = random.below(100);
    if pick < 45 && variables > 0 {
        nodes.push(variable(random.below(variables) as u32));
    } else if pick < 65 || depth == 0 {
        nodes.push(symbol(random.below(3) as u32, 0));
    } else {
        let places = random.between(1, 2);
        nodes.push(symbol(10 + random.below(2) as u32, places as u32));
        for _ in 0..places {
            nested(random, depth - 1, variables, nodes);
        }
    }
}

/// A clause of up to `size` literals with both signs, places from 0 to 3 and nested words.
pub fn mixed(random: &mut Random, size: usize, variables: usize, predicates: usize, depth: usize) -> Clause {
    let count = random.between(0, size);
    let mut literals = Vec::new();
    for _ in 0..count {
        let places = if random.chance(4) { 0 } else { random.between(1, 3) };
        let negative = random.chance(25);
        let mut literal = vec![predicate(negative, random.below(predicates) as u32, places as u32)];
        for _ in 0..places {
            nested(random, depth, variables, &mut literal);
        }
        literals.push(literal);
    }
    lawful(&literals)
}

/// An instance of a clause: words for its variables, and some literals more.
pub fn mixed_instance(random: &mut Random, clause: &Clause, size: usize) -> Clause {
    let words: Vec<Vec<Node>> = (0..clause.variables)
        .map(|_| {
            let mut word = Vec::new();
            nested(random, 1, 3, &mut word);
            word
        })
        .collect();
    let mut literals: Vec<Vec<Node>> = (0..clause.len())
        .map(|l| {
            let mut literal = Vec::new();
            for &node in clause.literal(l) {
                if is_variable(node) {
                    literal.extend_from_slice(&words[number(node) as usize]);
                } else {
                    literal.push(node);
                }
            }
            literal
        })
        .collect();
    let more = mixed(random, size, 4, 3, 2);
    literals.extend((0..more.len()).map(|l| more.literal(l).to_vec()));
    random.shuffle(&mut literals);
    lawful(&literals)
}

/// `p` round n constants, each next to the following one.
pub fn ring(size: usize) -> Clause {
    ring_from(size, 0)
}

/// A ring around the constants from `first` on.
pub fn ring_from(size: usize, first: usize) -> Clause {
    let at = |k: usize| constant(first + k % size);
    lawful(&(0..size).map(|k| two_places(0, at(k), at(k + 1))).collect::<Vec<_>>())
}

/// A random graph: this many literals of one predicate over constants.
pub fn graph(random: &mut Random, size: usize, constants: usize) -> Clause {
    random_mount(random, size, constants, 1)
}

/// A grid, its arrows to the right and down; over variables or constants.
pub fn grid(wide: usize, high: usize, variables: bool) -> Clause {
    let at = |x: usize, y: usize| {
        let k = x + wide * y;
        if variables {
            variable(k as u32)
        } else {
            constant(k)
        }
    };
    let mut literals = Vec::new();
    for y in 0..high {
        for x in 0..wide {
            if x + 1 < wide {
                literals.push(two_places(0, at(x, y), at(x + 1, y)));
            }
            if y + 1 < high {
                literals.push(two_places(0, at(x, y), at(x, y + 1)));
            }
        }
    }
    lawful(&literals)
}

/// All arrows between this many vertices, or only those from a lower to a higher one.
pub fn complete(vertices: usize, both: bool, variables: bool) -> Clause {
    let at = |k: usize| if variables { variable(k as u32) } else { constant(k) };
    let mut literals = Vec::new();
    for a in 0..vertices {
        for b in 0..vertices {
            if a < b || both && a > b {
                literals.push(two_places(0, at(a), at(b)));
            }
        }
    }
    lawful(&literals)
}

/// A session: one entry after the other, as many as the input holds or `most`.
pub fn session(random: &mut Random, most: usize, mut one: impl FnMut(&mut Random) -> Vec<u8>) -> Vec<u8> {
    let mut input = Vec::new();
    for _ in 0..most {
        let form = one(random);
        let mut entry = Vec::new();
        record::put_number(&mut entry, form.len() as u32);
        entry.extend(form);
        if input.len() + entry.len() > crate::session::INPUT {
            break;
        }
        input.extend(entry);
    }
    input
}

/// Damages bytes: a cut, one byte changed, or one byte more.
pub fn damaged(random: &mut Random, bytes: &[u8]) -> Vec<u8> {
    let mut bytes = bytes.to_vec();
    match random.below(4) {
        0 => bytes.truncate(random.below(bytes.len() + 1)),
        1 | 2 if !bytes.is_empty() => {
            let at = random.below(bytes.len());
            bytes[at] = if random.chance(50) { random.below(256) as u8 } else { bytes[at] ^ 1 << random.below(8) };
        }
        _ => {
            let at = random.below(bytes.len() + 1);
            let byte = if random.chance(50) { random.below(16) } else { random.below(256) };
            bytes.insert(at, byte as u8);
        }
    }
    bytes
}

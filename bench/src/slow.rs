//! Covering by plain backtracking, to test the quick one with. Choices are tried in dictionary order.

use crate::clause::*;

fn end(nodes: &[Node], at: usize) -> usize {
    let mut at = at;
    let mut open = 1;
    while open > 0 {
        open += places(nodes[at]) as usize;
        open -= 1;
        at += 1;
    }
    at
}

/// Matches a literal with a target; false where they clash with each other or with the bindings.
fn matches<'a>(literal: &[Node], target: &'a [Node], bindings: &mut [Option<&'a [Node]>]) -> bool {
    let mut j = 0;
    for &node in literal {
        if is_variable(node) {
            let next = end(target, j);
            let word = &target[j..next];
            j = next;
            match &mut bindings[number(node) as usize] {
                Some(old) if *old != word => return false,
                slot => *slot = Some(word),
            }
        } else if node == target[j] {
            j += 1;
        } else {
            return false;
        }
    }
    true
}

fn go<'a>(
    rule: &Clause,
    l: usize,
    other: &'a Clause,
    allowed: &[usize],
    bindings: &[Option<&'a [Node]>],
    choice: &mut Vec<usize>,
) -> bool {
    if l == rule.len() {
        return true;
    }
    for &t in allowed {
        let mut more = bindings.to_vec();
        if matches(rule.literal(l), other.literal(t), &mut more) {
            choice.push(t);
            if go(rule, l + 1, other, allowed, &more, choice) {
                return true;
            }
            choice.pop();
        }
    }
    false
}

/// The first choice in dictionary order that takes the rule into the allowed literals of the other clause.
pub fn first_choice_among(rule: &Clause, other: &Clause, allowed: &[usize]) -> Option<Vec<usize>> {
    let mut choice = Vec::new();
    go(rule, 0, other, allowed, &vec![None; rule.variables], &mut choice).then_some(choice)
}

pub fn first_choice(rule: &Clause, other: &Clause) -> Option<Vec<usize>> {
    first_choice_among(rule, other, &(0..other.len()).collect::<Vec<_>>())
}

pub fn covers(rule: &Clause, other: &Clause) -> bool {
    first_choice(rule, other).is_some()
}

/// Whether a choice is one that some substitution makes.
pub fn makes(rule: &Clause, other: &Clause, choice: &[usize]) -> bool {
    let mut bindings = vec![None; rule.variables];
    choice.len() == rule.len()
        && (0..rule.len()).all(|l| matches(rule.literal(l), other.literal(choice[l]), &mut bindings))
}

/// For each variable of the rule the node where the choice meets it.
pub fn meetings(rule: &Clause, other: &Clause, choice: &[usize]) -> Vec<u16> {
    let mut met = vec![None; rule.variables];
    for l in 0..rule.len() {
        let mut j = other.starts[choice[l]] as usize;
        for &node in rule.literal(l) {
            if is_variable(node) {
                met[number(node) as usize].get_or_insert(j as u16);
                j = end(&other.nodes, j);
            } else {
                j += 1;
            }
        }
    }
    met.into_iter().map(|m| m.unwrap()).collect()
}

/// The literals that tidying leaves, straight from its definition.
pub fn tidied(clause: &Clause) -> Vec<u16> {
    let mut kept: Vec<u16> = (0..clause.len() as u16).collect();
    for l in 0..clause.len() as u16 {
        let mut left = Clause::default();
        left.take_numbered(clause, &kept, &mut Vec::new());
        let rest: Vec<usize> = (0..kept.len()).filter(|&k| kept[k] != l).collect();
        if first_choice_among(&left, &left, &rest).is_some() {
            kept.retain(|&k| k != l);
        }
    }
    kept
}

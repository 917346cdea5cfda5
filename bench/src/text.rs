//! Legible clauses, as "p(f(a),X), -q(a)": capitals are variables. A name stands for the same number everywhere.

use crate::clause::*;
use crate::record;

/// Names to numbers. Two names that are told apart have different numbers.
#[derive(Default)]
pub struct Names {
    names: Vec<String>,
}

impl Names {
    fn number(&mut self, name: &str) -> u32 {
        match self.names.iter().position(|n| n == name) {
            Some(at) => at as u32,
            None => {
                self.names.push(name.to_string());
                self.names.len() as u32 - 1
            }
        }
    }
}

struct Parser<'a> {
    names: &'a mut Names,
    variables: Vec<String>,
    text: Vec<char>,
    at: usize,
}

impl Parser<'_> {
    fn blanks(&mut self) {
        while self.at < self.text.len() && self.text[self.at] == ' ' {
            self.at += 1;
        }
    }

    fn meets(&mut self, c: char) -> bool {
        self.blanks();
        let met = self.text.get(self.at) == Some(&c);
        self.at += met as usize;
        met
    }

    fn name(&mut self) -> String {
        self.blanks();
        let from = self.at;
        while self.at < self.text.len() && (self.text[self.at].is_alphanumeric() || self.text[self.at] == '_') {
            self.at += 1;
        }
        assert!(self.at > from, "a name is missing");
        self.text[from..self.at].iter().collect()
    }

    /// A word or a literal; `sign` is there for a literal.
    fn word(&mut self, sign: Option<bool>, nodes: &mut Vec<Node>) {
        let name = self.name();
        if sign.is_none() && name.chars().next().unwrap().is_uppercase() {
            let at = match self.variables.iter().position(|v| *v == name) {
                Some(at) => at,
                None => {
                    self.variables.push(name);
                    self.variables.len() - 1
                }
            };
            nodes.push(variable(at as u32));
            return;
        }
        let head = nodes.len();
        nodes.push(0);
        let mut count = 0;
        if self.meets('(') {
            loop {
                self.word(None, nodes);
                count += 1;
                if !self.meets(',') {
                    break;
                }
            }
            assert!(self.meets(')'));
        }
        let number = self.names.number(&name);
        nodes[head] = match sign {
            Some(negative) => predicate(negative, number, count),
            None => symbol(number, count),
        };
    }
}

pub fn clause(names: &mut Names, text: &str) -> Clause {
    let mut parser = Parser { names, variables: Vec::new(), text: text.chars().collect(), at: 0 };
    let mut clause = Clause::default();
    parser.blanks();
    while parser.at < parser.text.len() {
        let negative = parser.meets('-');
        parser.word(Some(negative), &mut clause.nodes);
        clause.end_literal();
        parser.meets(',');
        parser.blanks();
    }
    clause.variables = parser.variables.len();
    clause
}

pub fn pack(clause: &Clause) -> Vec<u8> {
    let mut form = Vec::new();
    record::write(clause, &mut form);
    form
}

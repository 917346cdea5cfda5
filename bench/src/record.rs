//! The packed form of a record: reading with all questions in order, and writing.

use crate::clause::*;

pub const LITERALS: usize = 16;
pub const NODES: usize = 256;
pub const PLACES: u32 = 8;

#[derive(Clone, Copy, Debug, PartialEq, Eq)]
pub enum Layer {
    Number,
    Word,
    Literal,
    Record,
}

use Layer::*;

const COUNT: &[Layer] = &[Number, Record];
const OWN: &[Layer] = &[Number, Literal, Record];
const INNER: &[Layer] = &[Number, Word, Literal, Record];
const WORD: &[Layer] = &[Word, Literal, Record];
const LITERAL: &[Layer] = &[Literal, Record];
const RECORD: &[Layer] = &[Record];

/// A question that was answered with no.
#[derive(Clone, Copy, Debug, PartialEq, Eq)]
pub struct Fault {
    pub question: u8,
    pub byte: usize,
    pub literal: Option<u8>,
    pub layers: &'static [Layer],
}

/// Reads a number at a place: its value and the place after it, or the question and the byte.
#[inline(always)]
pub fn number_at(bytes: &[u8], at: usize) -> Result<(u32, usize), (u8, usize)> {
    let end = bytes.len();
    let Some(&a) = bytes.get(at) else { return Err((1, end)) };
    if a < 0x80 {
        return Ok((a as u32, at + 1));
    }
    long_number_at(bytes, at, a)
}

fn long_number_at(bytes: &[u8], at: usize, a: u8) -> Result<(u32, usize), (u8, usize)> {
    let Some(&b) = bytes.get(at + 1) else { return Err((1, bytes.len())) };
    let low = (a & 0x7f) as u32 | ((b & 0x7f) as u32) << 7;
    if b < 0x80 {
        return if b == 0 { Err((3, at)) } else { Ok((low, at + 2)) };
    }
    let Some(&c) = bytes.get(at + 2) else { return Err((1, bytes.len())) };
    if c >= 4 {
        return Err((2, at));
    }
    if c == 0 {
        return Err((3, at));
    }
    Ok((low | (c as u32) << 14, at + 3))
}

/// Writes a number after what is there.
pub fn put_number(out: &mut Vec<u8>, mut value: u32) {
    while value >= 0x80 {
        out.push(value as u8 | 0x80);
        value >>= 7;
    }
    out.push(value as u8);
}

/// Reads a record. Where there is a fault, what is in `to` afterwards has no meaning.
pub fn read(bytes: &[u8], to: &mut Clause) -> Result<(), Fault> {
    to.clear();
    let fault = |question, byte, literal, layers| Err(Fault { question, byte, literal, layers });
    let (count, mut at) = match number_at(bytes, 0) {
        Ok(found) => found,
        Err((question, byte)) => return fault(question, byte, None, COUNT),
    };
    if count as usize > LITERALS {
        return fault(4, 0, None, RECORD);
    }
    let mut seen = 0;
    // A number for each literal that equal literals share, so that few are compared node by node.
    let mut marks = [0u32; LITERALS];
    for l in 0..count as u8 {
        let hand = Some(l);
        let begin = at;
        let start = to.nodes.len();
        let (first, next) = match number_at(bytes, at) {
            Ok(found) => found,
            Err((question, byte)) => return fault(question, byte, hand, OWN),
        };
        if start == NODES {
            return fault(6, at, hand, LITERAL);
        }
        let (places, after) = match number_at(bytes, next) {
            Ok(found) => found,
            Err((question, byte)) => return fault(question, byte, hand, OWN),
        };
        if places > PLACES {
            return fault(5, next, hand, LITERAL);
        }
        let node = predicate(first & 1 == 1, first >> 1, places);
        let mut mark = node.wrapping_mul(0x9e37_79b1);
        to.nodes.push(node);
        at = after;
        // How many words are still to be read.
        let mut open = places;
        while open > 0 {
            open -= 1;
            let (first, next) = match number_at(bytes, at) {
                Ok(found) => found,
                Err((question, byte)) => return fault(question, byte, hand, INNER),
            };
            if to.nodes.len() == NODES {
                return fault(6, at, hand, WORD);
            }
            let value = first >> 1;
            if first & 1 == 0 {
                if value > seen {
                    return fault(7, at, hand, WORD);
                }
                seen += (value == seen) as u32;
                to.nodes.push(variable(value));
                mark = (mark.rotate_left(7) ^ variable(value)).wrapping_mul(0x9e37_79b1);
                at = next;
            } else {
                let (places, after) = match number_at(bytes, next) {
                    Ok(found) => found,
                    Err((question, byte)) => return fault(question, byte, hand, INNER),
                };
                if places > PLACES {
                    return fault(5, next, hand, WORD);
                }
                to.nodes.push(symbol(value, places));
                mark = (mark.rotate_left(7) ^ symbol(value, places)).wrapping_mul(0x9e37_79b1);
                open += places;
                at = after;
            }
        }
        let new = &to.nodes[start..];
        marks[l as usize] = mark;
        for other in 0..l as usize {
            if marks[other] == mark && to.literal(other) == new {
                return fault(8, begin, hand, LITERAL);
            }
        }
        to.end_literal();
    }
    if at < bytes.len() {
        return fault(9, at, None, RECORD);
    }
    to.variables = seen as usize;
    Ok(())
}

/// Writes the packed form after what is there.
pub fn write(record: &Clause, out: &mut Vec<u8>) {
    put_number(out, record.len() as u32);
    for &node in &record.nodes {
        if is_variable(node) {
            put_number(out, 2 * number(node));
        } else {
            let odd = if is_predicate(node) { is_negative(node) } else { true };
            put_number(out, 2 * number(node) + odd as u32);
            put_number(out, places(node));
        }
    }
}

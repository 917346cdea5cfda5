//! One call from input bytes to output bytes.

use crate::clause::Clause;
use crate::generalise::{Class, Refused, Workshop};
use crate::record;

pub const ROOM: usize = 61_440;
pub const INPUT: usize = 4_096;

/// The output buffer is too short.
#[derive(Clone, Copy, Debug, PartialEq, Eq)]
pub struct TooShort;

impl TooShort {
    pub const NUMBER: u8 = 13;
}

struct Text<'a> {
    out: &'a mut [u8],
    at: usize,
}

impl Text<'_> {
    fn put(&mut self, bytes: &[u8]) {
        self.out[self.at..self.at + bytes.len()].copy_from_slice(bytes);
        self.at += bytes.len();
    }

    fn put_decimal(&mut self, value: usize) {
        if value >= 10 {
            self.put_decimal(value / 10);
        }
        self.put(&[b'0' + (value % 10) as u8]);
    }

    fn put_bad(&mut self, question: u8, byte: usize) {
        self.put(b"bad ");
        self.put_decimal(question as usize);
        self.put(b" at ");
        self.put_decimal(byte);
        self.put(b"\n");
    }
}

/// Answers an input: how many bytes were written at the start of the buffer.
pub fn answer(shop: &mut Workshop, input: &[u8], out: &mut [u8]) -> Result<usize, TooShort> {
    if out.len() < ROOM {
        return Err(TooShort);
    }
    let mut text = Text { out, at: 0 };
    if input.len() > INPUT {
        text.put_bad(14, INPUT);
        return Ok(text.at);
    }
    let mut class: Option<Class> = None;
    let mut hand = Clause::default();
    let mut at = 0;
    while at < input.len() {
        let (length, begin) = match record::number_at(input, at) {
            Ok(found) => found,
            Err((question, byte)) => {
                text.put_bad(question, byte);
                break;
            }
        };
        let end = begin + length as usize;
        if end > input.len() {
            text.put_bad(1, input.len());
            break;
        }
        at = end;
        if let Err(fault) = record::read(&input[begin..end], &mut hand) {
            text.put_bad(fault.question, begin + fault.byte);
            continue;
        }
        match &mut class {
            None => {
                class = Some(Class::begin(shop, &hand));
                text.put(b"begun\n");
            }
            Some(class) => match class.admit(shop, &hand) {
                Ok(()) => text.put(b"taken\n"),
                Err(Refused) => text.put(b"refused 11\n"),
            },
        }
    }
    match class {
        None => text.put(b"no rule\n"),
        Some(class) => {
            text.put(b"rule ");
            let mut form = Vec::new();
            record::write(&class.issue().rule, &mut form);
            for byte in form {
                text.put(&[b"0123456789abcdef"[byte as usize >> 4], b"0123456789abcdef"[byte as usize & 15]]);
            }
            text.put(b"\n");
        }
    }
    Ok(text.at)
}

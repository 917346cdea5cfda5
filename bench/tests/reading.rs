//! Packed forms and the faults of reading.

use bench::clause::*;
use bench::inputs::{self, Random};
use bench::record::{self, Layer, Layer::*};
use bench::text::{self, Names};

fn hex(text: &str) -> Vec<u8> {
    text.split_whitespace().map(|b| u8::from_str_radix(b, 16).unwrap()).collect()
}

#[test]
fn numbers() {
    for (value, form) in
        [(0, "00"), (127, "7F"), (128, "80 01"), (16_383, "FF 7F"), (16_384, "80 80 01"), (65_535, "FF FF 03")]
    {
        let mut out = Vec::new();
        record::put_number(&mut out, value);
        assert_eq!(out, hex(form));
    }
    for value in 0..65_536 {
        let mut out = vec![9];
        record::put_number(&mut out, value);
        assert_eq!(record::number_at(&out, 1), Ok((value, out.len())));
        for cut in 1..out.len() {
            assert_eq!(record::number_at(&out[..cut], 1), Err((1, cut)));
        }
    }
}

#[test]
fn faults_of_numbers() {
    for (form, question, byte) in [
        ("", 1, 0),
        ("80", 1, 1),
        ("80 80", 1, 2),
        ("80 80 04", 2, 0),
        ("80 80 80", 2, 0),
        ("80 80 FF 00", 2, 0),
        ("80 00", 3, 0),
        ("80 80 00", 3, 0),
        ("FF FF 00", 3, 0),
    ] {
        assert_eq!(record::number_at(&hex(form), 0), Err((question, byte)), "{form}");
    }
    assert_eq!(record::number_at(&[1, 2], 7), Err((1, 2)));
}

#[test]
fn records() {
    let mut hand = Clause::default();
    assert_eq!(record::read(&hex("00"), &mut hand), Ok(()));
    assert!(hand.is_empty());
    assert_eq!(record::read(&hex("02 02 01 00 05 01 07 00"), &mut hand), Ok(()));
    assert_eq!(hand.nodes, [predicate(false, 1, 1), variable(0), predicate(true, 2, 1), symbol(3, 0)]);
    assert_eq!(hand.starts, [0, 2, 4]);
    assert_eq!(hand.variables, 1);
    assert_eq!(text::pack(&hand), hex("02 02 01 00 05 01 07 00"));
}

fn fault(form: &[u8], question: u8, byte: usize, literal: Option<u8>, layers: &[Layer]) {
    let fault = record::read(form, &mut Clause::default()).unwrap_err();
    assert_eq!(
        (fault.question, fault.byte, fault.literal, fault.layers),
        (question, byte, literal, layers),
        "{form:x?}"
    );
}

#[test]
fn faults_of_records() {
    // Those of the documentation.
    fault(&hex("11"), 4, 0, None, &[Record]);
    fault(&hex("01 02 09"), 5, 2, Some(0), &[Literal, Record]);
    fault(&hex("01 03 01 02"), 7, 3, Some(0), &[Word, Literal, Record]);
    fault(&hex("02 02 00 02 00"), 8, 3, Some(1), &[Literal, Record]);
    fault(&hex("00 00"), 9, 1, None, &[Record]);
    // A number in each of the three places of a number.
    fault(&hex(""), 1, 0, None, &[Number, Record]);
    fault(&hex("80 00"), 3, 0, None, &[Number, Record]);
    fault(&hex("80 80 04"), 2, 0, None, &[Number, Record]);
    fault(&hex("01"), 1, 1, Some(0), &[Number, Literal, Record]);
    fault(&hex("01 02"), 1, 2, Some(0), &[Number, Literal, Record]);
    fault(&hex("01 02 80 00"), 3, 2, Some(0), &[Number, Literal, Record]);
    fault(&hex("01 02 01"), 1, 3, Some(0), &[Number, Word, Literal, Record]);
    fault(&hex("01 02 01 07"), 1, 4, Some(0), &[Number, Word, Literal, Record]);
    fault(&hex("01 02 01 80 80 04"), 2, 3, Some(0), &[Number, Word, Literal, Record]);
    // Places of a symbol, a later literal, variables across literals.
    fault(&hex("01 02 01 07 09"), 5, 4, Some(0), &[Word, Literal, Record]);
    fault(&hex("02 02 01 00 04 01 04"), 7, 6, Some(1), &[Word, Literal, Record]);
    assert!(record::read(&hex("02 02 01 00 04 01 02"), &mut Clause::default()).is_ok());
    assert!(record::read(
        &hex("10 00 00 01 00 02 00 03 00 04 00 05 00 06 00 07 00 08 00 09 00 0A 00 0B 00 0C 00 0D 00 0E 00 0F 00"),
        &mut Clause::default()
    )
    .is_ok());
    fault(&hex("11 80 00"), 4, 0, None, &[Record]);
}

#[test]
fn node_limits() {
    // One literal whose words take 255 nodes: eight places, of which the first has a tower.
    let towers = |nodes: usize| {
        let mut form = vec![1, 2, 8];
        for _ in 0..nodes - 9 {
            form.extend([7, 1]);
        }
        form.extend([7, 0]);
        for _ in 0..7 {
            form.extend([9, 0]);
        }
        form
    };
    let mut hand = Clause::default();
    assert_eq!(record::read(&towers(256), &mut hand), Ok(()));
    assert_eq!(hand.nodes.len(), 256);
    assert_eq!(text::pack(&hand), towers(256));
    fault(&towers(257), 6, 513, Some(0), &[Word, Literal, Record]);
    // The next literal is one node too many, even where its count of places would be a fault too.
    let mut more = towers(256);
    more[0] = 2;
    more.extend([4, 0]);
    fault(&more, 6, 513, Some(1), &[Literal, Record]);
    *more.last_mut().unwrap() = 9;
    fault(&more, 6, 513, Some(1), &[Literal, Record]);
    // A fault in the node's first number comes before the limit, and the limit before the order of variables.
    let mut early = towers(257);
    early.truncate(513);
    fault(&early, 1, 513, Some(0), &[Number, Word, Literal, Record]);
    early.push(40);
    fault(&early, 6, 513, Some(0), &[Word, Literal, Record]);
}

#[test]
fn each_record_has_one_form() {
    let mut random = Random::new(1);
    let (mut good, mut bad) = (0, 0);
    let mut questions = [0u32; 16];
    for _ in 0..200_000 {
        let clause = inputs::mixed(&mut random, 6, 4, 4, 2);
        let form = text::pack(&clause);
        let mut hand = Clause::default();
        record::read(&form, &mut hand).unwrap();
        assert_eq!(hand, clause);
        let spoiled = inputs::damaged(&mut random, &form);
        match record::read(&spoiled, &mut hand) {
            Ok(()) => {
                good += 1;
                assert_eq!(text::pack(&hand), spoiled);
            }
            Err(fault) => {
                bad += 1;
                questions[fault.question as usize] += 1;
                assert!(fault.byte <= spoiled.len());
                // What stands before the fault's byte reads as far as before.
                if matches!(fault.question, 2..=7) {
                    let cut = record::read(&spoiled[..fault.byte], &mut hand);
                    assert!(cut.is_err());
                }
            }
        }
    }
    assert!(good > 1_000 && bad > 1_000);
    for question in [1, 3, 4, 5, 7, 8, 9] {
        assert!(questions[question] > 0, "{questions:?}");
    }
}

#[test]
fn legible() {
    let mut names = Names::default();
    let clause = text::clause(&mut names, "p(f(a), X), -q(X), r");
    assert_eq!(clause.len(), 3);
    assert_eq!(clause.variables, 1);
    assert_eq!(clause.nodes.len(), 7);
}

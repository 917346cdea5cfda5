//! Sessions, byte for byte.

use bench::clause::Clause;
use bench::generalise::Workshop;
use bench::inputs::{self, Random};
use bench::record;
use bench::session::{self, TooShort};
use bench::text;

fn run(input: &[u8]) -> String {
    let mut shop = Workshop::default();
    let mut out = vec![0xee; session::ROOM + 7];
    let length = session::answer(&mut shop, input, &mut out).unwrap();
    assert!(out[length..].iter().all(|&b| b == 0xee));
    assert!(length <= session::ROOM);
    String::from_utf8(out[..length].to_vec()).unwrap()
}

const EXAMPLE: [u8; 22] = [9, 2, 2, 1, 7, 0, 4, 1, 7, 0, 9, 2, 2, 1, 9, 0, 4, 1, 9, 0, 1, 0x11];

#[test]
fn example() {
    assert_eq!(run(&EXAMPLE), "begun\ntaken\nbad 4 at 21\nrule 02020100040100\n");
}

#[test]
fn ends() {
    assert_eq!(run(&[]), "no rule\n");
    assert_eq!(run(&[0]), "bad 1 at 1\nno rule\n");
    assert_eq!(run(&[0, 0]), "bad 1 at 1\nbad 1 at 2\nno rule\n");
    assert_eq!(run(&[1, 0]), "begun\nrule 00\n");
    assert_eq!(run(&[2, 0]), "bad 1 at 2\nno rule\n");
    assert_eq!(run(&[1, 0, 0x80]), "begun\nbad 1 at 3\nrule 00\n");
    assert_eq!(run(&[1, 0, 0x80, 0]), "begun\nbad 3 at 2\nrule 00\n");
    assert_eq!(run(&[1, 0, 0x80, 0x80, 4, 1, 0]), "begun\nbad 2 at 2\nrule 00\n");
    assert_eq!(run(&[2, 0, 0, 1, 0]), "bad 9 at 2\nbegun\nrule 00\n");
    // The input of a record is its entry: it ends where the entry ends.
    assert_eq!(run(&[1, 1, 2, 2, 0]), "bad 1 at 2\nbad 1 at 5\nno rule\n");
    assert_eq!(run(&vec![0; 4_097]), "bad 14 at 4096\n");
    let many = run(&vec![0; 4_096]);
    assert_eq!(many.lines().count(), 4_097);
    assert!(many.ends_with("bad 1 at 4096\nno rule\n"));
}

#[test]
fn short_buffers() {
    let mut shop = Workshop::default();
    let mut out = vec![5; session::ROOM - 1];
    assert_eq!(session::answer(&mut shop, &EXAMPLE, &mut out), Err(TooShort));
    assert_eq!(session::answer(&mut shop, &[0; 5_000], &mut out), Err(TooShort));
    assert!(out.iter().all(|&b| b == 5));
}

#[test]
fn refused() {
    let entry = |clause: &Clause| {
        let form = text::pack(clause);
        let mut entry = Vec::new();
        record::put_number(&mut entry, form.len() as u32);
        entry.extend(form);
        entry
    };
    let mut input = entry(&inputs::ring(2));
    input.extend(entry(&inputs::ring(9)));
    input.extend(entry(&inputs::ring(4)));
    let text = run(&input);
    let lines: Vec<&str> = text.lines().collect();
    assert_eq!(lines[..3], ["begun", "refused 11", "taken"]);
    assert!(lines[3].starts_with("rule 04") && lines.len() == 4);
}

#[test]
fn damaged_sessions() {
    let mut random = Random::new(8);
    for _ in 0..5_000 {
        let rule = inputs::mixed(&mut random, 4, 3, 2, 1);
        let input = inputs::session(&mut random, 12, |r| text::pack(&inputs::mixed_instance(r, &rule, 2)));
        let whole = run(&input);
        let spoiled = inputs::damaged(&mut random, &input);
        let text = run(&spoiled);
        let last = text.lines().last().unwrap();
        assert!(last == "no rule" || last.starts_with("rule "));
        assert!(text.ends_with('\n'));
        // Up to the spoiled place the lines are those of the whole.
        let place = input.iter().zip(&spoiled).take_while(|(a, b)| a == b).count();
        let (mut at, mut fine) = (0, 0);
        while let Ok((length, begin)) = record::number_at(&input, at) {
            at = begin + length as usize;
            if at > place {
                break;
            }
            fine += 1;
        }
        assert!(whole.lines().take(fine).eq(text.lines().take(fine)));
    }
}

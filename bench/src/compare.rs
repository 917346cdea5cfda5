//! Compares the answers of the library with those of the second implementation, on inputs of many kinds. The first
//! difference ends it, and its message shows the input.

use crate::report::grouped;
use crate::{Both, Error, Implementation, RECORD_BYTES, WITNESS_ENTRIES};
use bench::inputs::{self, Random};
use bench::record;
use bench::session;
use bench::text::pack;
use std::collections::BTreeMap;
use std::fmt::Debug;

const READS: usize = 300_000;
const SESSIONS: usize = 20_000;
const PAIRS: usize = 20_000;
/// What stands in a buffer before a call.
const BEFORE: u8 = 0x5a;

/// How often each kind of answer came.
#[derive(Default)]
struct Counts(BTreeMap<String, usize>);

impl Counts {
    fn count(&mut self, kind: impl Into<String>) {
        *self.0.entry(kind.into()).or_default() += 1;
    }

    /// The kind of a refusal or of unread input.
    fn count_error(&mut self, error: Error) {
        match error {
            Error::Refused(number) => self.count(format!("refused {number}")),
            Error::FirstUnread(_) => self.count("first unread"),
            Error::SecondUnread(_) => self.count("second unread"),
        }
    }

    fn line(&self, what: &str) -> String {
        let total: usize = self.0.values().sum();
        let kinds: Vec<String> = self.0.iter().map(|(kind, count)| format!("{kind}: {}", grouped(*count))).collect();
        format!("{} {what}: {}", grouped(total), kinds.join(", "))
    }
}

/// Compares all; gives a line for each call, with how many answers there were of each kind.
pub fn all(both: &mut Both, seed: u64) -> Result<Vec<String>, String> {
    let mut random = Random::new(seed);
    let mut lines = Vec::new();
    let mut tell = |line: String| {
        println!("{line}");
        lines.push(line);
    };
    tell(reads(both, &mut random)?);
    tell(sessions(both, &mut random)?);
    pairs(both, &mut random)?.into_iter().for_each(tell);
    Ok(lines)
}

/// The answer, if both gave the same.
fn same<T: PartialEq + Debug>(what: &str, inputs: &[&[u8]], library: T, plain: T) -> Result<T, String> {
    if library == plain {
        return Ok(library);
    }
    let inputs: Vec<String> = inputs.iter().map(|input| hex(input)).collect();
    Err(format!("{what} differs\ninput: {}\nlibrary: {library:?}\nplain Rust: {plain:?}", inputs.join("\ninput: ")))
}

/// Both left the same bytes.
fn same_bytes(what: &str, inputs: &[&[u8]], library: &[u8], plain: &[u8]) -> Result<(), String> {
    let differs = library.iter().zip(plain).position(|(l, p)| l != p);
    let near = |bytes: &[u8]| differs.map(|at| (at, hex(&bytes[at..bytes.len().min(at + 80)])));
    same(what, inputs, near(library), near(plain)).map(|_| ())
}

fn hex(bytes: &[u8]) -> String {
    let digits: Vec<String> = bytes.iter().map(|byte| format!("{byte:02x}")).collect();
    if digits.is_empty() {
        "no bytes".into()
    } else {
        digits.join(" ")
    }
}

fn reads(both: &mut Both, random: &mut Random) -> Result<String, String> {
    let mut counts = Counts::default();
    for round in 0..READS {
        let form = form_to_read(random, round);
        let fault = same("reading", &[&form], both.library.read(&form), both.plain.read(&form))?;
        counts.count(match fault.question {
            0 => "records".into(),
            question => format!("question {question}"),
        });
    }
    Ok(counts.line("reads"))
}

/// Lawful forms, forms damaged once and twice, and forms that keep no limit.
fn form_to_read(random: &mut Random, round: usize) -> Vec<u8> {
    if round % 8 == 0 {
        return loose(random);
    }
    let (size, variables, depth) = (random.between(0, 16), random.between(1, 9), random.between(0, 4));
    let mut form = pack(&inputs::mixed(random, size, variables, 3, depth));
    for _ in 0..round % 3 {
        form = inputs::damaged(random, &form);
    }
    form
}

/// What a loose form is made of.
struct Loose {
    /// Places that each literal and symbol has at most.
    places: usize,
    /// Symbols among the words, in percent.
    symbols: usize,
    /// Faults of a count of places or of a variable, each in so many percent of the words.
    faults: usize,
    /// Variables that were seen.
    seen: usize,
}

/// A form whose counts are about the limits or beyond: literals, places, nodes, variables.
fn loose(random: &mut Random) -> Vec<u8> {
    let mut form = Vec::new();
    let count = random.between(12, 16) + random.chance(3) as usize;
    let faults = if random.chance(30) { 2 } else { 0 };
    let mut loose = Loose { places: random.between(2, 8), symbols: random.between(0, 60), faults, seen: 0 };
    record::put_number(&mut form, count as u32);
    for literal in 0..count {
        record::put_number(&mut form, 2 * literal as u32);
        loose.words(random, &mut form, 2);
    }
    form
}

impl Loose {
    /// A count of places, and as many words, nested to a depth.
    fn words(&mut self, random: &mut Random, form: &mut Vec<u8>, depth: usize) {
        let most = if depth == 0 { 0 } else { self.places };
        let places = if random.chance(self.faults) { 9 } else { random.between(most / 2, most) };
        record::put_number(form, places as u32);
        for _ in 0..places {
            if random.chance(self.symbols) {
                record::put_number(form, 2 * random.below(32_768) as u32 + 1);
                self.words(random, form, depth.saturating_sub(1));
            } else {
                let number = if random.chance(self.faults) { self.seen + 1 } else { random.below(self.seen + 1) };
                record::put_number(form, 2 * number as u32);
                self.seen += (number == self.seen) as usize;
            }
        }
    }
}

fn sessions(both: &mut Both, random: &mut Random) -> Result<String, String> {
    let mut counts = Counts::default();
    for round in 0..SESSIONS {
        let input = session_input(random, round);
        let room = match round % 50 {
            0 => random.below(session::ROOM),
            1 => session::ROOM - 1,
            2 => session::ROOM + 9,
            _ => session::ROOM,
        };
        let mut outs = (vec![BEFORE; room], vec![BEFORE; room]);
        let answers = (both.library.session(&input, &mut outs.0), both.plain.session(&input, &mut outs.1));
        let answer = same("the answer of a session", &[&input], answers.0, answers.1)?;
        same_bytes("the text of a session", &[&input], &outs.0, &outs.1)?;
        match answer {
            Ok(length) => counts.count(kind_of_text(&outs.0[..length])),
            Err(error) => counts.count_error(error),
        }
    }
    Ok(counts.line("sessions"))
}

fn kind_of_text(text: &[u8]) -> &'static str {
    let text = String::from_utf8_lossy(text);
    if text.starts_with("bad 14 ") {
        "too long"
    } else if text.contains("refused ") {
        "with a refused record"
    } else if text.contains("bad ") {
        "with bad input"
    } else {
        "without a fault"
    }
}

fn session_input(random: &mut Random, round: usize) -> Vec<u8> {
    let most = random.between(0, if round % 4 == 0 { 900 } else { 30 });
    let (predicates, literals) = (random.between(1, 3), random.between(1, 6));
    let mut input = match round % 8 {
        0 | 2 | 4 | 6 => inputs::session(random, most, |random| {
            let size = random.between(1, literals);
            pack(&inputs::mixed(random, size, 3, predicates, 2))
        }),
        1 => inputs::session(random, most.min(8), |random| pack(&graph(random))),
        _ => inputs::session(random, most, |random| {
            let (size, constants) = (random.between(1, literals), random.between(2, 5));
            pack(&inputs::random_mount(random, size.min(constants * constants), constants, predicates))
        }),
    };
    if round % 3 == 0 {
        input = inputs::damaged(random, &input);
    }
    if round % 100 == 7 {
        input.resize(session::INPUT + random.between(0, 3), 0);
    }
    input
}

fn pairs(both: &mut Both, random: &mut Random) -> Result<Vec<String>, String> {
    let (mut covers, mut witnesses, mut joins) = (Counts::default(), Counts::default(), Counts::default());
    for round in 0..PAIRS {
        let (mut first, mut second) = pair(random, round % 8);
        if round % 10 == 0 {
            first = inputs::damaged(random, &first);
        }
        if round % 15 == 0 {
            second = inputs::damaged(random, &second);
        }
        covering(both, &first, &second, &mut covers)?;
        witness(both, random, &first, &second, &mut witnesses)?;
        join(both, random, &first, &second, &mut joins)?;
    }
    Ok(vec![covers.line("covers"), witnesses.line("witnesses"), joins.line("joins")])
}

/// Two packed records of a family.
fn pair(random: &mut Random, family: usize) -> (Vec<u8>, Vec<u8>) {
    let (first, second) = match family {
        0 | 1 => {
            let variables = random.between(2, 10);
            let size = random.between(variables, 16.min(variables * variables));
            let predicates = random.between(1, 2);
            let rule = inputs::connected_rule(random, size, variables, predicates);
            let constants = random.between(4, 9);
            let mount = match family {
                0 => inputs::hidden_mount(random, &rule, 16, constants, predicates),
                _ => inputs::random_mount(random, 16, constants, predicates),
            };
            (rule, mount)
        }
        2 => {
            let size = random.between(1, 12);
            let rule = inputs::mixed(random, size, 5, 2, 2);
            let mount = inputs::mixed_instance(random, &rule, 10);
            (rule, mount)
        }
        3 => {
            let sizes = (random.between(0, 9), random.between(0, 9));
            (inputs::mixed(random, sizes.0, 4, 2, 2), inputs::mixed(random, sizes.1, 4, 2, 2))
        }
        4 => {
            let size = random.between(1, 12);
            let rule = inputs::mixed(random, size, 6, 3, 1);
            (inputs::mixed_instance(random, &rule, 4), inputs::mixed_instance(random, &rule, 4))
        }
        5 => (graph(random), graph(random)),
        6 => {
            let (wide, high, variables) = (random.between(1, 4), random.between(1, 3), random.chance(70));
            let (vertices, both) = (random.between(1, 4), random.chance(30));
            (inputs::grid(wide, high, variables), inputs::complete(vertices, both, false))
        }
        _ => (inputs::ring(random.between(1, 9)), graph(random)),
    };
    (pack(&first), pack(&second))
}

fn graph(random: &mut Random) -> bench::clause::Clause {
    let constants = random.between(3, 8);
    let size = random.between(1, 16.min(constants * constants));
    inputs::graph(random, size, constants)
}

fn covering(both: &mut Both, rule: &[u8], mount: &[u8], counts: &mut Counts) -> Result<(), String> {
    match same("covering", &[rule, mount], both.library.covers(rule, mount), both.plain.covers(rule, mount))? {
        Ok(true) => counts.count("yes"),
        Ok(false) => counts.count("no"),
        Err(error) => counts.count_error(error),
    }
    Ok(())
}

fn witness(both: &mut Both, random: &mut Random, rule: &[u8], mount: &[u8], counts: &mut Counts) -> Result<(), String> {
    let entries = if random.chance(20) { WITNESS_ENTRIES } else { random.between(0, 20) };
    let mut lists = (vec![u16::MAX; entries], vec![u16::MAX; entries]);
    let answers = (both.library.witness(rule, mount, &mut lists.0), both.plain.witness(rule, mount, &mut lists.1));
    let answer = same("the answer of a witness", &[rule, mount], answers.0, answers.1)?;
    same("the list of a witness", &[rule, mount], lists.0, lists.1)?;
    match answer {
        Ok(Some(_)) => counts.count("found"),
        Ok(None) => counts.count("none"),
        Err(error) => counts.count_error(error),
    }
    Ok(())
}

fn join(both: &mut Both, random: &mut Random, first: &[u8], second: &[u8], counts: &mut Counts) -> Result<(), String> {
    let mut outs = (vec![BEFORE; RECORD_BYTES], vec![BEFORE; RECORD_BYTES]);
    let length = both.plain.join(first, second, &mut outs.1).unwrap_or(0);
    outs.1.fill(BEFORE);
    // A buffer about as long as the form, or one that is always enough.
    let room = if random.chance(60) { RECORD_BYTES } else { (length + 3).saturating_sub(random.between(0, 6)) };
    let (left, right) = (&mut outs.0[..room], &mut outs.1[..room]);
    let answers = (both.library.join(first, second, left), both.plain.join(first, second, right));
    let answer = same("the answer of a join", &[first, second], answers.0, answers.1)?;
    same_bytes("the form of a join", &[first, second], &outs.0, &outs.1)?;
    match answer {
        Ok(_) => counts.count("made"),
        Err(error) => counts.count_error(error),
    }
    Ok(())
}

//! Times both implementations on the same questions, by the processor time of the thread.

use crate::families::{self, Family, Question};
use crate::foreign::thread_time;
use crate::{Both, Error, Fault, Implementation, RECORD_BYTES, WITNESS_ENTRIES};
use bench::session;
use std::hint::black_box;

/// How often a question is timed; the least time counts.
const RUNS: usize = 5;
/// A quick call is repeated until so many nanoseconds have gone, so that reading the clock does not count.
const BATCH: u128 = 20_000;
const MOST_IN_BATCH: u128 = 200;

/// Microseconds over the questions of a family.
pub struct Stats {
    pub mean: f64,
    pub median: f64,
    pub p99: f64,
    pub max: f64,
}

/// A family's times, of the library and of the second implementation.
pub struct Row {
    pub name: &'static str,
    pub count: usize,
    pub library: Stats,
    pub plain: Stats,
}

impl Row {
    /// How many times as long the library takes.
    pub fn ratio(&self) -> f64 {
        self.library.mean / self.plain.mean
    }
}

/// The growing inputs.
pub struct Growth {
    /// By literals: covers, and joins.
    pub literals: Vec<(usize, Row, Row)>,
    /// By variables: covers.
    pub variables: Vec<(usize, Row)>,
}

/// The buffers that are lent to the calls.
struct Room {
    list: Vec<u16>,
    form: Vec<u8>,
    text: Vec<u8>,
}

impl Room {
    fn new() -> Room {
        Room { list: vec![0; WITNESS_ENTRIES], form: vec![0; RECORD_BYTES], text: vec![0; session::ROOM] }
    }
}

#[derive(PartialEq, Debug)]
enum Answer {
    Read(Fault),
    Covers(Result<bool, Error>),
    Witness(Result<Option<usize>, Error>),
    Written(Result<usize, Error>),
}

pub fn all(both: &mut Both, families: &[Family]) -> Result<Vec<Row>, String> {
    families.iter().map(|family| row(both, family.name, &family.questions)).collect()
}

pub fn growth(both: &mut Both) -> Result<Growth, String> {
    let mut growth = Growth { literals: Vec::new(), variables: Vec::new() };
    for literals in (4..=16).step_by(2) {
        let (covers, joins) = families::growth_with_literals(literals);
        let covers = row(both, "covers", &covers)?;
        growth.literals.push((literals, covers, row(both, "join", &joins)?));
    }
    for variables in (4..=16).step_by(2) {
        let covers = families::growth_with_variables(variables);
        growth.variables.push((variables, row(both, "covers", &covers)?));
    }
    Ok(growth)
}

fn row(both: &mut Both, name: &'static str, questions: &[Question]) -> Result<Row, String> {
    let (mut left, mut right) = (Vec::new(), Vec::new());
    let (mut mine, mut other) = (Room::new(), Room::new());
    for question in questions {
        compared(both, question, &mut mine, &mut other).map_err(|message| format!("{name}: {message}"))?;
        left.push(least_time(&mut both.library, question, &mut mine));
        right.push(least_time(&mut both.plain, question, &mut other));
    }
    Ok(Row { name, count: questions.len(), library: stats(left), plain: stats(right) })
}

/// The answers that are timed are compared too.
fn compared(both: &mut Both, question: &Question, mine: &mut Room, other: &mut Room) -> Result<(), String> {
    let (left, right) = (ask(&mut both.library, question, mine), ask(&mut both.plain, question, other));
    if left != right {
        return Err(format!("{question:02x?}\nlibrary: {left:?}\nplain Rust: {right:?}"));
    }
    if mine.list != other.list || mine.form != other.form || mine.text != other.text {
        return Err(format!("{question:02x?}\nwhat both wrote differs"));
    }
    Ok(())
}

fn ask(one: &mut dyn Implementation, question: &Question, room: &mut Room) -> Answer {
    match question {
        Question::Read(input) => Answer::Read(one.read(input)),
        Question::Covers(rule, mount) => Answer::Covers(one.covers(rule, mount)),
        Question::Witness(rule, mount) => Answer::Witness(one.witness(rule, mount, &mut room.list)),
        Question::Join(first, second) => Answer::Written(one.join(first, second, &mut room.form)),
        Question::Session(input) => Answer::Written(one.session(input, &mut room.text)),
    }
}

/// The least mean time of a call in a batch, in nanoseconds.
fn least_time(one: &mut dyn Implementation, question: &Question, room: &mut Room) -> f64 {
    let calls = (BATCH / batch(one, question, room, 1).max(1)).clamp(1, MOST_IN_BATCH);
    let least = (0..RUNS).map(|_| batch(one, question, room, calls)).min().expect("there are runs");
    least as f64 / calls as f64
}

/// The nanoseconds that so many calls take.
fn batch(one: &mut dyn Implementation, question: &Question, room: &mut Room, calls: u128) -> u128 {
    let begin = thread_time();
    for _ in 0..calls {
        black_box(ask(one, black_box(question), room));
    }
    (thread_time() - begin).as_nanos()
}

/// From nanoseconds to microseconds.
fn stats(mut times: Vec<f64>) -> Stats {
    times.sort_by(f64::total_cmp);
    let count = times.len();
    let micro = |nanoseconds: f64| nanoseconds / 1_000.0;
    Stats {
        mean: micro(times.iter().sum::<f64>() / count as f64),
        median: micro(times[count / 2]),
        p99: micro(times[(count * 99).div_ceil(100) - 1]),
        max: micro(times[count - 1]),
    }
}

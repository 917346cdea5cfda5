//! Compares the second implementation with the library `libcehmoli.a`: answers first, then times. All that is asked goes
//! through byte slices, as a caller of the library has them.

mod compare;
mod families;
mod foreign;
mod measure;
mod plot;
mod report;

use bench::clause::Clause;
use bench::generalise::{Refused, Workshop};
use bench::record::{self, Layer};
use bench::session;

/// Why an input is no record; for a record the question is 0, and all else 0 and false. The layers stand in the order
/// number, word, literal, record.
#[derive(Clone, Copy, PartialEq, Eq, Debug, Default)]
struct Fault {
    question: u8,
    byte: usize,
    has_literal: bool,
    literal: usize,
    layers: [bool; 4],
}

/// Why a call did not answer: the number of the refusal, or the question of the first input's fault, or of the second's.
#[derive(Clone, Copy, PartialEq, Eq, Debug)]
enum Error {
    Refused(usize),
    FirstUnread(usize),
    SecondUnread(usize),
}

/// The calls of `include/cehmoli.h`. Each reads its packed records itself.
trait Implementation {
    fn read(&mut self, input: &[u8]) -> Fault;
    fn covers(&mut self, rule: &[u8], mount: &[u8]) -> Result<bool, Error>;
    fn witness(&mut self, rule: &[u8], mount: &[u8], list: &mut [u16]) -> Result<Option<usize>, Error>;
    fn join(&mut self, first: &[u8], second: &[u8], out: &mut [u8]) -> Result<usize, Error>;
    fn session(&mut self, input: &[u8], out: &mut [u8]) -> Result<usize, Error>;
}

/// The proved library.
struct Library;

impl Implementation for Library {
    fn read(&mut self, input: &[u8]) -> Fault {
        foreign::read(input)
    }

    fn covers(&mut self, rule: &[u8], mount: &[u8]) -> Result<bool, Error> {
        foreign::covers(rule, mount)
    }

    fn witness(&mut self, rule: &[u8], mount: &[u8], list: &mut [u16]) -> Result<Option<usize>, Error> {
        foreign::witness(rule, mount, list)
    }

    fn join(&mut self, first: &[u8], second: &[u8], out: &mut [u8]) -> Result<usize, Error> {
        foreign::join(first, second, out)
    }

    fn session(&mut self, input: &[u8], out: &mut [u8]) -> Result<usize, Error> {
        foreign::session(input, out)
    }
}

/// The second implementation. Unlike the library it keeps the memory that it works in from call to call.
#[derive(Default)]
struct Plain {
    shop: Workshop,
    first: Clause,
    second: Clause,
    found: Clause,
    form: Vec<u8>,
}

impl Plain {
    fn read_both(&mut self, first: &[u8], second: &[u8]) -> Result<(), Error> {
        record::read(first, &mut self.first).map_err(|fault| Error::FirstUnread(fault.question as usize))?;
        record::read(second, &mut self.second).map_err(|fault| Error::SecondUnread(fault.question as usize))
    }
}

impl Implementation for Plain {
    fn read(&mut self, input: &[u8]) -> Fault {
        match record::read(input, &mut self.first) {
            Ok(()) => Fault::default(),
            Err(fault) => Fault {
                question: fault.question,
                byte: fault.byte,
                has_literal: fault.literal.is_some(),
                literal: fault.literal.unwrap_or(0) as usize,
                layers: [Layer::Number, Layer::Word, Layer::Literal, Layer::Record]
                    .map(|layer| fault.layers.contains(&layer)),
            },
        }
    }

    fn covers(&mut self, rule: &[u8], mount: &[u8]) -> Result<bool, Error> {
        self.read_both(rule, mount)?;
        Ok(self.shop.engine.covers(&self.first, &self.second))
    }

    fn witness(&mut self, rule: &[u8], mount: &[u8], list: &mut [u16]) -> Result<Option<usize>, Error> {
        self.read_both(rule, mount)?;
        let witness = self.shop.engine.witness(&self.first, &self.second, list);
        witness.map_err(|number| Error::Refused(number as usize))
    }

    fn join(&mut self, first: &[u8], second: &[u8], out: &mut [u8]) -> Result<usize, Error> {
        self.read_both(first, second)?;
        let joined = self.shop.join(&self.first, &self.second, &mut self.found);
        joined.map_err(|Refused| Error::Refused(Refused::NUMBER as usize))?;
        self.form.clear();
        record::write(&self.found, &mut self.form);
        match out.get_mut(..self.form.len()) {
            Some(start) => start.copy_from_slice(&self.form),
            None => return Err(Error::Refused(NO_ROOM)),
        }
        Ok(self.form.len())
    }

    fn session(&mut self, input: &[u8], out: &mut [u8]) -> Result<usize, Error> {
        let written = session::answer(&mut self.shop, input, out);
        written.map_err(|_| Error::Refused(session::TooShort::NUMBER as usize))
    }
}

/// The two that are compared.
struct Both {
    library: Library,
    plain: Plain,
}

/// The buffer does not hold the packed form.
const NO_ROOM: usize = 10;
/// Sizes that are always enough: for the packed form of a record, and for a witness.
const RECORD_BYTES: usize = 1_539;
const WITNESS_ENTRIES: usize = 256;
/// Joins of large records recurse deeply in the library.
const STACK: usize = 64 << 20;

/// What the command line asks for.
struct Wish {
    write: bool,
    seed: u64,
}

fn wish() -> Result<Wish, String> {
    let mut wish = Wish { write: false, seed: 1 };
    let mut arguments = std::env::args().skip(1);
    while let Some(argument) = arguments.next() {
        match argument.as_str() {
            "--write" => wish.write = true,
            "--seed" => {
                let seed = arguments.next().and_then(|seed| seed.parse().ok());
                wish.seed = seed.ok_or("--seed wants a number")?;
            }
            _ => return Err(format!("{argument} is not known; there are --write and --seed NUMBER")),
        }
    }
    Ok(wish)
}

/// Compares, then times. The message is that of the first difference, or why the report was not written.
fn run(wish: &Wish) -> Result<(), String> {
    let mut both = Both { library: Library, plain: Plain::default() };
    println!("answers of both, seed {}", wish.seed);
    let compared = compare::all(&mut both, wish.seed)?;
    println!("no answer differs\n\nmicroseconds of the thread's processor time; ratio: the library's mean by that of plain Rust");
    let rows = measure::all(&mut both, &families::families())?;
    println!("{}", report::table(&rows));
    let growth = measure::growth(&mut both)?;
    println!("{}", report::growth_tables(&growth));
    if wish.write {
        report::write(&compared, &rows, &growth).map_err(|error| format!("the report is not written: {error}"))?;
    }
    Ok(())
}

fn main() {
    let work = || wish().and_then(|wish| run(&wish));
    let thread = std::thread::Builder::new().stack_size(STACK).spawn(work).expect("a thread");
    if let Err(message) = thread.join().expect("the thread ends") {
        eprintln!("{message}");
        std::process::exit(1);
    }
}

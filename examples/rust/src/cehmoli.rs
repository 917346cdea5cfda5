//! The calls of the library as safe functions. `join` and `session` want a stack of 8 MiB (`docs/SERVING.md`): the first thread has it by
//! default, and another has to ask for it.

/// How many bytes a packed record can have, how many variables a rule, and how many bytes the text of a session.
pub const RECORD_BYTES: usize = 1539;
pub const WITNESS_ENTRIES: usize = 256;
pub const SESSION_BYTES: usize = 61_440;

/// What was being read when a fault arose.
#[derive(Clone, Copy, PartialEq, Eq, Debug)]
pub enum Layer {
    Number,
    Word,
    Literal,
    Record,
}

/// Why an input is no record: the number of the question that was answered with no, a byte, the literal in hand, and what was
/// being read, from where the fault arose upward.
#[derive(Clone, PartialEq, Eq, Debug)]
pub struct Fault {
    pub question: u8,
    pub byte: usize,
    pub literal: Option<usize>,
    pub layers: Vec<Layer>,
}

/// Why a call did not answer.
#[derive(Clone, Copy, PartialEq, Eq, Debug)]
pub enum Error {
    /// Refused with this number.
    Refused(usize),
    /// The first input, or only the second one, is no record: the question of its fault.
    FirstUnread(usize),
    SecondUnread(usize),
}

/// The declarations, as in `include/cehmoli.h`. Nothing compares them with the library.
mod raw {
    #[repr(C)]
    pub struct Answer {
        pub kind: u8,
        pub value: usize,
    }

    #[repr(C)]
    pub struct Fault {
        pub question: u8,
        pub byte: usize,
        pub has_literal: bool,
        pub literal: usize,
        pub in_number: bool,
        pub in_word: bool,
        pub in_literal: bool,
        pub in_record: bool,
    }

    // A slice is passed as a pointer and a length.
    unsafe extern "C" {
        pub fn cehmoli_session(
            input: *const u8,
            input_length: usize,
            out: *mut u8,
            out_length: usize,
        ) -> Answer;
        pub fn cehmoli_read(input: *const u8, input_length: usize) -> Fault;
        pub fn cehmoli_covers(
            rule: *const u8,
            rule_length: usize,
            mount: *const u8,
            mount_length: usize,
        ) -> Answer;
        pub fn cehmoli_witness(
            rule: *const u8,
            rule_length: usize,
            mount: *const u8,
            mount_length: usize,
            list: *mut u16,
            list_length: usize,
        ) -> Answer;
        pub fn cehmoli_join(
            first: *const u8,
            first_length: usize,
            second: *const u8,
            second_length: usize,
            out: *mut u8,
            out_length: usize,
        ) -> Answer;
    }
}

/// What an answer's numbers mean: a value, or none.
fn answer(answer: &raw::Answer) -> Result<Option<usize>, Error> {
    match answer.kind {
        0 => Ok(Some(answer.value)),
        1 => Ok(None),
        2 => Err(Error::Refused(answer.value)),
        3 => Err(Error::FirstUnread(answer.value)),
        4 => Err(Error::SecondUnread(answer.value)),
        kind => unreachable!("there is no kind {kind}"),
    }
}

/// The value of a call that is never answered with none.
fn value(of: &raw::Answer) -> Result<usize, Error> {
    answer(of).map(|value| value.expect("this call is never answered with none"))
}

// SAFETY, of every call below: the declarations fit the library's; a pointer and its length are those of one slice, which is
// borrowed for the call; a `&mut` slice overlaps no other. The library's functions require nothing else but stack.

/// Takes the records of an input into a class, and writes a line for each and last the rule at the start of `out`; gives the
/// length of that text. Refuses with 13 where `out` has fewer than `SESSION_BYTES` bytes.
pub fn session(input: &[u8], out: &mut [u8]) -> Result<usize, Error> {
    value(&unsafe {
        raw::cehmoli_session(input.as_ptr(), input.len(), out.as_mut_ptr(), out.len())
    })
}

/// Whether the input is a packed record, and if not, why.
pub fn read(input: &[u8]) -> Result<(), Fault> {
    let fault = unsafe { raw::cehmoli_read(input.as_ptr(), input.len()) };
    if fault.question == 0 {
        return Ok(());
    }
    let layers = [
        (fault.in_number, Layer::Number),
        (fault.in_word, Layer::Word),
        (fault.in_literal, Layer::Literal),
        (fault.in_record, Layer::Record),
    ];
    Err(Fault {
        question: fault.question,
        byte: fault.byte,
        literal: fault.has_literal.then_some(fault.literal),
        layers: layers.iter().filter(|layer| layer.0).map(|layer| layer.1).collect(),
    })
}

/// Whether the rule covers the mount.
pub fn covers(rule: &[u8], mount: &[u8]) -> Result<bool, Error> {
    let covers = unsafe {
        raw::cehmoli_covers(rule.as_ptr(), rule.len(), mount.as_ptr(), mount.len())
    };
    Ok(answer(&covers)?.is_some())
}

/// Why the rule covers the mount: the node of the mount that each variable of the rule becomes; none where it does not.
pub fn witness(rule: &[u8], mount: &[u8]) -> Result<Option<Vec<u16>>, Error> {
    let mut list = [0; WITNESS_ENTRIES];
    let witness = unsafe {
        raw::cehmoli_witness(
            rule.as_ptr(),
            rule.len(),
            mount.as_ptr(),
            mount.len(),
            list.as_mut_ptr(),
            list.len(),
        )
    };
    Ok(answer(&witness)?.map(|count| list[..count].to_vec()))
}

/// The packed form of the join of two records. Refuses with 11 where they have none within the limit.
pub fn join(first: &[u8], second: &[u8]) -> Result<Vec<u8>, Error> {
    let mut out = [0; RECORD_BYTES];
    let join = unsafe {
        raw::cehmoli_join(
            first.as_ptr(),
            first.len(),
            second.as_ptr(),
            second.len(),
            out.as_mut_ptr(),
            out.len(),
        )
    };
    Ok(out[..value(&join)?].to_vec())
}

//! The functions of C that the program calls: those of the library, and the clock. All `unsafe` of the program stands here.

use crate::{Error, Fault};
use std::time::Duration;

/// The declarations, as in `include/cehmoli.h`, and the clock of the C library. Nothing compares them with what is linked.
mod raw {
    #[repr(C)]
    pub struct Answer {
        pub kind: u8,
        pub value: usize,
    }

    #[repr(C)]
    pub struct Fault {
        pub question: u8,
        pub byte: usize,
        pub has_literal: bool,
        pub literal: usize,
        pub in_number: bool,
        pub in_word: bool,
        pub in_literal: bool,
        pub in_record: bool,
    }

    #[repr(C)]
    #[derive(Default)]
    pub struct Time {
        pub seconds: i64,
        pub nanoseconds: i64,
    }

    pub const THREAD_TIME: i32 = 3;

    // A slice is passed as a pointer and a length.
    #[link(name = "cehmoli", kind = "static")]
    extern "C" {
        pub fn cehmoli_session(input: *const u8, input_length: usize, out: *mut u8, out_length: usize) -> Answer;
        pub fn cehmoli_read(input: *const u8, input_length: usize) -> Fault;
        pub fn cehmoli_covers(rule: *const u8, rule_length: usize, mount: *const u8, mount_length: usize) -> Answer;
        pub fn cehmoli_witness(
            rule: *const u8,
            rule_length: usize,
            mount: *const u8,
            mount_length: usize,
            list: *mut u16,
            list_length: usize,
        ) -> Answer;
        pub fn cehmoli_join(
            first: *const u8,
            first_length: usize,
            second: *const u8,
            second_length: usize,
            out: *mut u8,
            out_length: usize,
        ) -> Answer;
    }

    extern "C" {
        pub fn clock_gettime(clock: i32, time: *mut Time) -> i32;
    }
}

/// What an answer's numbers mean: a value, or none.
fn answer(answer: raw::Answer) -> Result<Option<usize>, Error> {
    match answer.kind {
        0 => Ok(Some(answer.value)),
        1 => Ok(None),
        2 => Err(Error::Refused(answer.value)),
        3 => Err(Error::FirstUnread(answer.value)),
        4 => Err(Error::SecondUnread(answer.value)),
        kind => unreachable!("there is no kind {kind}"),
    }
}

/// The value of a call that is never answered with none.
fn value(of: raw::Answer) -> Result<usize, Error> {
    answer(of).map(|value| value.expect("this call is never answered with none"))
}

// SAFETY, of every call of the library: the declarations fit the library's; a pointer and its length are those of one slice,
// which is borrowed for the call; a `&mut` slice overlaps no other. Nothing else is required but stack.

pub fn session(input: &[u8], out: &mut [u8]) -> Result<usize, Error> {
    value(unsafe { raw::cehmoli_session(input.as_ptr(), input.len(), out.as_mut_ptr(), out.len()) })
}

/// All numbers and flags of a fault.
pub fn read(input: &[u8]) -> Fault {
    let fault = unsafe { raw::cehmoli_read(input.as_ptr(), input.len()) };
    Fault {
        question: fault.question,
        byte: fault.byte,
        has_literal: fault.has_literal,
        literal: fault.literal,
        layers: [fault.in_number, fault.in_word, fault.in_literal, fault.in_record],
    }
}

pub fn covers(rule: &[u8], mount: &[u8]) -> Result<bool, Error> {
    let covers = unsafe { raw::cehmoli_covers(rule.as_ptr(), rule.len(), mount.as_ptr(), mount.len()) };
    Ok(answer(covers)?.is_some())
}

pub fn witness(rule: &[u8], mount: &[u8], list: &mut [u16]) -> Result<Option<usize>, Error> {
    let witness = unsafe {
        raw::cehmoli_witness(rule.as_ptr(), rule.len(), mount.as_ptr(), mount.len(), list.as_mut_ptr(), list.len())
    };
    answer(witness)
}

pub fn join(first: &[u8], second: &[u8], out: &mut [u8]) -> Result<usize, Error> {
    let join = unsafe {
        raw::cehmoli_join(first.as_ptr(), first.len(), second.as_ptr(), second.len(), out.as_mut_ptr(), out.len())
    };
    value(join)
}

/// The processor time that this thread has taken.
pub fn thread_time() -> Duration {
    let mut time = raw::Time::default();
    // SAFETY: on 64-bit Linux the structure is two numbers of 64 bits, and it is written during the call only.
    let failed = unsafe { raw::clock_gettime(raw::THREAD_TIME, &mut time) };
    assert_eq!(failed, 0, "the clock of the thread");
    Duration::new(time.seconds as u64, time.nanoseconds as u32)
}

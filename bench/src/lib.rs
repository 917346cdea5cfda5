//! A second implementation, from the documentation alone: records, covering, witnesses, tidying and joining,
//! classes and sessions. It is compared with the product: answers first, then speed.

pub mod bits;
pub mod clause;
pub mod cover;
pub mod generalise;
pub mod index;
pub mod inputs;
pub mod record;
pub mod search;
pub mod session;
pub mod slow;
pub mod text;
pub mod words;

//! Document 01 once more, and what document 02 adds, from their words alone: a reference to hold the proved program
//! against.
//!
//! `register`, `methods`, `masses`, `report` and `calls` are document 01, part by part, each function under the
//! sentence that it says; `cards` is "Amounts from stock cards" of document 02; `layout`, `bytes` and `answers` serve
//! them. They share no code and no table with the proved program.
//!
//! The rest makes inputs: `draft` writes them out of their parts, `call` is a call with all that is lent to it,
//! `sums` has results that are known from outside, `cases` has chosen calls, `generator` makes calls from a seed,
//! `examples` and `listing` are for people, `samples` are for the test of the front door.

pub mod answers;
pub mod bytes;
pub mod call;
pub mod calls;
pub mod cards;
pub mod cases;
pub mod draft;
pub mod examples;
pub mod generator;
pub mod layout;
pub mod listing;
pub mod masses;
pub mod methods;
pub mod register;
pub mod report;
pub mod samples;
pub mod sums;

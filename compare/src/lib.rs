//! Holds the proved calls against the second program.
//!
//! Both answer the same inputs, and everything that document 01 ("Exact scope and
//! rules") and requests E1 and E2 of document 02 fix is compared: the number, the values
//! returned with it, and the whole later contents of every buffer lent. Where 01 leaves a
//! choice, which is between valid circuits, the choice made is checked against its
//! definitions instead.
//!
//! - [`calls`]: the calls under comparison; [`archive`]: the proved ones.
//! - [`files`], [`loans`] and [`proposals`]: the inputs, by seed and index.
//! - [`buffer`]: what is lent, and what is later found in it.
//! - [`reader`], [`writer`], [`ask`], [`ends`], [`host`], [`report`], [`check`]: the
//!   comparison of one input each.
//! - [`circuit`]: circuits in buffers.
//! - [`held`]: a sheet that the proved reader has read.
//! - [`hand`]: 01's cases; [`stack`]: the stack that calls take; [`tried`]: cases tried
//!   one by one.
//! - [`difference`]: what is shown of two answers that differ.
//! - [`kind`], [`comparison`] and [`tally`]: a run over many inputs, and its summary;
//!   [`spoilt`]: a run over every cut and change of a sheet's file.

#![deny(unsafe_code)]
#![warn(missing_docs)]

pub mod archive;
pub mod ask;
pub mod buffer;
pub mod calls;
pub mod check;
pub mod circuit;
pub mod comparison;
pub mod difference;
pub mod ends;
pub mod files;
pub mod hand;
pub mod held;
pub mod host;
pub mod kind;
pub mod loans;
pub mod proposals;
pub mod reader;
pub mod report;
pub mod spoilt;
pub mod stack;
#[cfg(test)]
mod stub;
pub mod tally;
pub mod tried;
pub mod writer;

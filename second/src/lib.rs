//! The second program: every question of document 01, "Exact scope and rules", and of
//! requests E1 and E2 of document 02, answered by methods of its own.
//!
//! It is there to be compared with proved code. So it follows the words of the
//! documents, takes other ways to the answers, and checks what it is told. In
//! these pages "01" and "02" are these documents and words in quotes are their words.
//!
//! - [`calls`] are the calls with all their refusals, on the parts below.
//! - [`mod@file`], [`number`], [`sheet`], [`window`], [`limits`] and [`refusal`]: the
//!   sheet file and the tables in memory.
//! - [`arc`], [`circuit`], [`fraction`], [`cycle_time`]: what questions are about.
//! - [`ask`] and [`rounds`], [`ends`]: the answers.
//! - [`report`]: the answers in print.
//! - [`check`] and [`judge`]: whether an answer or a report is right; [`proposal`]: what
//!   another engine is told of its answer.
//! - [`generate`] and [`random`]: sheets, damaged files, loans and proposals to compare on.
//! - [`text`]: sheets for people.

#![forbid(unsafe_code)]
#![warn(missing_docs)]

pub mod arc;
pub mod ask;
pub mod calls;
pub mod check;
pub mod circuit;
pub mod cycle_time;
pub mod ends;
pub mod file;
pub mod fraction;
pub mod generate;
pub mod judge;
pub mod limits;
pub mod number;
mod paths;
pub mod proposal;
pub mod random;
pub mod refusal;
pub mod report;
pub mod rounds;
pub mod sheet;
pub mod text;
pub mod window;

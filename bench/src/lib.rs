//! What the proved calls are measured against, and on what.
//!
//! - [`plain`]: a plain Rust program for the same questions.
//! - [`sheets`]: the sheets that both are given.

#![forbid(unsafe_code)]
#![warn(missing_docs)]

pub mod plain;
pub mod sheets;

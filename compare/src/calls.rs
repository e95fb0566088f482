//! The calls under comparison, as functions on slices.
//!
//! Each answers its number and puts the values that come with it at the front of the
//! list it is given last. They are function pointers so that a test can put a wrong
//! answer in the place of a right one.

/// What is lent of a sheet in memory. Nothing is known of it.
///
/// It is the second program's `Lent` but for the schedule, of which the proved calls
/// take bytes.
#[derive(Clone, Copy, Debug)]
pub struct Lent<'a> {
    /// Events per mode.
    pub n: u64,
    /// Modes.
    pub m: u64,
    /// Positions of the schedule.
    pub v: u64,
    /// The tables, perhaps too short or with surplus.
    pub tables: &'a [i32],
    /// The schedule, perhaps too short or with surplus.
    pub schedule: &'a [u8],
}

/// The reader: a file; tables, schedule and values to be written. With 0 come n, m
/// and V, with a refusal its place.
pub type Read = fn(&[u8], &mut [i32], &mut [u8], &mut [u64]) -> u32;

/// The writer: a sheet; file and values to be written. With 0 comes the length.
pub type Write = fn(Lent<'_>, &mut [u8], &mut [u64]) -> u32;

/// Ask: a sheet, p and q; plan, circuit and values to be written. With 0 come the
/// rounds, with 100 the arc count.
pub type Ask = fn(Lent<'_>, u64, u64, &mut [u64], &mut [u8], &mut [u64]) -> u32;

/// Ends: a sheet; two circuits and values to be written. With 0 come low's top and
/// bottom, high's where it is not open, and the arc counts of low's circuit and of
/// high's; with 101 the arc counts of both circuits.
pub type Ends = fn(Lent<'_>, &mut [u8], &mut [u8], &mut [u64]) -> u32;

/// The C call: a file, p and q.
pub type Host = fn(&[u8], u64, u64) -> u32;

/// The check of a proposal: a sheet, p and q, and a list of times (`i64`) or of the numbers
/// of arcs (`u8`); values to be written. With 102 come position, kind, to and from of a
/// window, with 103 the index of an arc.
pub type Check<T> = fn(Lent<'_>, u64, u64, &[T], &mut [u64]) -> u32;

/// The same for C, of a sheet in a file; with its refusals 1 to 8 comes the place.
pub type CheckFile<T> = fn(&[u8], u64, u64, &[T], &mut [u64]) -> u32;

/// The report: a file; text and values to be written. With 0 comes the text's length.
pub type Report = fn(&[u8], &mut [u8], &mut [u64]) -> u32;

/// The calls of one program; those it does not have yet are `None`.
#[derive(Clone, Copy)]
pub struct Calls {
    /// The reader.
    pub read: Read,
    /// The writer.
    pub write: Write,
    /// Ask.
    pub ask: Option<Ask>,
    /// Ends.
    pub ends: Option<Ends>,
    /// The C call.
    pub host: Host,
    /// The report.
    pub report: Option<Report>,
    /// The checks of proposals.
    pub checks: Checks,
}

/// The checks of proposals, of one program.
#[derive(Clone, Copy)]
pub struct Checks {
    /// Of times.
    pub times: Check<i64>,
    /// Of arcs.
    pub arcs: Check<u8>,
    /// Of times, by the C call.
    pub file_times: CheckFile<i64>,
    /// Of arcs, by the C call.
    pub file_arcs: CheckFile<u8>,
}

/// The places of the list lent for values: more than any call returns, to show what is
/// written behind them.
pub const VALUES: usize = 9;

//! The proved calls, through C, out of the archives that `.ci/archive` builds of the
//! crates probe, host and checker.
//!
//! A slice passes as two arguments, a pointer and a count of elements. Nothing checks
//! these declarations against the archives but the comparison itself: keep them beside
//! `crates/probe/src/lib.rt`, `include/tamulehk.h` and `include/tamulehk_check.h`.

#![allow(unsafe_code)]

use crate::calls::{Calls, Checks, Lent};

/// The proved calls, as far as the archives have them.
pub const CALLS: Calls = Calls {
    read,
    write,
    #[cfg(any(feature = "ask", test))]
    ask: Some(ask),
    #[cfg(not(any(feature = "ask", test)))]
    ask: None,
    #[cfg(any(feature = "ends", test))]
    ends: Some(ends),
    #[cfg(not(any(feature = "ends", test)))]
    ends: None,
    host,
    #[cfg(any(feature = "report", test))]
    report: Some(report),
    #[cfg(not(any(feature = "report", test)))]
    report: None,
    checks: Checks {
        times,
        arcs,
        file_times,
        file_arcs,
    },
};

extern "C" {
    fn probe_read(
        file: *const u8,
        file_count: usize,
        tables: *mut i32,
        tables_count: usize,
        schedule: *mut u8,
        schedule_count: usize,
        values: *mut u64,
        values_count: usize,
    ) -> u32;

    fn probe_write(
        n: u64,
        m: u64,
        positions: u64,
        tables: *const i32,
        tables_count: usize,
        schedule: *const u8,
        schedule_count: usize,
        out: *mut u8,
        out_count: usize,
        values: *mut u64,
        values_count: usize,
    ) -> u32;

    #[cfg(any(feature = "ask", test))]
    fn probe_ask(
        n: u64,
        m: u64,
        positions: u64,
        tables: *const i32,
        tables_count: usize,
        schedule: *const u8,
        schedule_count: usize,
        p: u64,
        q: u64,
        plan: *mut u64,
        plan_count: usize,
        circuit: *mut u8,
        circuit_count: usize,
        values: *mut u64,
        values_count: usize,
    ) -> u32;

    #[cfg(any(feature = "ends", test))]
    fn probe_ends(
        n: u64,
        m: u64,
        positions: u64,
        tables: *const i32,
        tables_count: usize,
        schedule: *const u8,
        schedule_count: usize,
        first: *mut u8,
        first_count: usize,
        second: *mut u8,
        second_count: usize,
        values: *mut u64,
        values_count: usize,
    ) -> u32;

    fn tamulehk_ask(sheet: *const u8, length: usize, p: u64, q: u64) -> u32;

    #[cfg(any(feature = "report", test))]
    fn probe_report(
        file: *const u8,
        file_count: usize,
        out: *mut u8,
        out_count: usize,
        values: *mut u64,
        values_count: usize,
    ) -> u32;

    fn probe_times(
        n: u64,
        m: u64,
        positions: u64,
        tables: *const i32,
        tables_count: usize,
        schedule: *const u8,
        schedule_count: usize,
        p: u64,
        q: u64,
        times: *const i64,
        times_count: usize,
        values: *mut u64,
        values_count: usize,
    ) -> u32;

    fn probe_arcs(
        n: u64,
        m: u64,
        positions: u64,
        tables: *const i32,
        tables_count: usize,
        schedule: *const u8,
        schedule_count: usize,
        p: u64,
        q: u64,
        arcs: *const u8,
        arcs_count: usize,
        values: *mut u64,
        values_count: usize,
    ) -> u32;

    fn tamulehk_check_times(
        sheet: *const u8,
        length: usize,
        p: u64,
        q: u64,
        times: *const i64,
        count: usize,
        values: *mut u64,
        room: usize,
    ) -> u32;

    fn tamulehk_check_arcs(
        sheet: *const u8,
        length: usize,
        p: u64,
        q: u64,
        arcs: *const u8,
        count: usize,
        values: *mut u64,
        room: usize,
    ) -> u32;
}

fn read(file: &[u8], tables: &mut [i32], schedule: &mut [u8], values: &mut [u64]) -> u32 {
    // SAFETY: every pointer comes with the count of its own slice; the call keeps none.
    unsafe {
        probe_read(
            file.as_ptr(),
            file.len(),
            tables.as_mut_ptr(),
            tables.len(),
            schedule.as_mut_ptr(),
            schedule.len(),
            values.as_mut_ptr(),
            values.len(),
        )
    }
}

fn write(lent: Lent<'_>, out: &mut [u8], values: &mut [u64]) -> u32 {
    // SAFETY: every pointer comes with the count of its own slice; the call keeps none
    // and writes only through the last two.
    unsafe {
        probe_write(
            lent.n,
            lent.m,
            lent.v,
            lent.tables.as_ptr(),
            lent.tables.len(),
            lent.schedule.as_ptr(),
            lent.schedule.len(),
            out.as_mut_ptr(),
            out.len(),
            values.as_mut_ptr(),
            values.len(),
        )
    }
}

#[cfg(any(feature = "ask", test))]
fn ask(
    lent: Lent<'_>,
    p: u64,
    q: u64,
    plan: &mut [u64],
    circuit: &mut [u8],
    values: &mut [u64],
) -> u32 {
    // SAFETY: every pointer comes with the count of its own slice; the call keeps none
    // and writes only through the last three.
    unsafe {
        probe_ask(
            lent.n,
            lent.m,
            lent.v,
            lent.tables.as_ptr(),
            lent.tables.len(),
            lent.schedule.as_ptr(),
            lent.schedule.len(),
            p,
            q,
            plan.as_mut_ptr(),
            plan.len(),
            circuit.as_mut_ptr(),
            circuit.len(),
            values.as_mut_ptr(),
            values.len(),
        )
    }
}

#[cfg(any(feature = "ends", test))]
fn ends(lent: Lent<'_>, first: &mut [u8], second: &mut [u8], values: &mut [u64]) -> u32 {
    // SAFETY: every pointer comes with the count of its own slice; the call keeps none
    // and writes only through the last three.
    unsafe {
        probe_ends(
            lent.n,
            lent.m,
            lent.v,
            lent.tables.as_ptr(),
            lent.tables.len(),
            lent.schedule.as_ptr(),
            lent.schedule.len(),
            first.as_mut_ptr(),
            first.len(),
            second.as_mut_ptr(),
            second.len(),
            values.as_mut_ptr(),
            values.len(),
        )
    }
}

fn host(file: &[u8], p: u64, q: u64) -> u32 {
    // SAFETY: the pointer comes with the count of its own slice; the call keeps it not
    // and writes nothing.
    unsafe { tamulehk_ask(file.as_ptr(), file.len(), p, q) }
}

#[cfg(any(feature = "report", test))]
fn report(file: &[u8], out: &mut [u8], values: &mut [u64]) -> u32 {
    // SAFETY: every pointer comes with the count of its own slice; the call keeps none
    // and writes only through the last two.
    unsafe {
        probe_report(
            file.as_ptr(),
            file.len(),
            out.as_mut_ptr(),
            out.len(),
            values.as_mut_ptr(),
            values.len(),
        )
    }
}

fn times(lent: Lent<'_>, p: u64, q: u64, times: &[i64], values: &mut [u64]) -> u32 {
    // SAFETY: every pointer comes with the count of its own slice; the call keeps none
    // and writes only through the last.
    unsafe {
        probe_times(
            lent.n,
            lent.m,
            lent.v,
            lent.tables.as_ptr(),
            lent.tables.len(),
            lent.schedule.as_ptr(),
            lent.schedule.len(),
            p,
            q,
            times.as_ptr(),
            times.len(),
            values.as_mut_ptr(),
            values.len(),
        )
    }
}

fn arcs(lent: Lent<'_>, p: u64, q: u64, arcs: &[u8], values: &mut [u64]) -> u32 {
    // SAFETY: every pointer comes with the count of its own slice; the call keeps none
    // and writes only through the last.
    unsafe {
        probe_arcs(
            lent.n,
            lent.m,
            lent.v,
            lent.tables.as_ptr(),
            lent.tables.len(),
            lent.schedule.as_ptr(),
            lent.schedule.len(),
            p,
            q,
            arcs.as_ptr(),
            arcs.len(),
            values.as_mut_ptr(),
            values.len(),
        )
    }
}

fn file_times(file: &[u8], p: u64, q: u64, times: &[i64], values: &mut [u64]) -> u32 {
    // SAFETY: every pointer comes with the count of its own slice; the call keeps none
    // and writes only through the last.
    unsafe {
        tamulehk_check_times(
            file.as_ptr(),
            file.len(),
            p,
            q,
            times.as_ptr(),
            times.len(),
            values.as_mut_ptr(),
            values.len(),
        )
    }
}

fn file_arcs(file: &[u8], p: u64, q: u64, arcs: &[u8], values: &mut [u64]) -> u32 {
    // SAFETY: every pointer comes with the count of its own slice; the call keeps none
    // and writes only through the last.
    unsafe {
        tamulehk_check_arcs(
            file.as_ptr(),
            file.len(),
            p,
            q,
            arcs.as_ptr(),
            arcs.len(),
            values.as_mut_ptr(),
            values.len(),
        )
    }
}

//! The calls of the archive as the second program would answer them, for tests.
//!
//! They stand in for the archive under the same names, so that the tests go through
//! its declarations too.

#![allow(unsafe_code)]

use std::slice;

use second::arc::ArcName;
use second::ask::Answer;
use second::calls;
use second::ends::{Ends, High};
use second::proposal::Answered;
use second::report::Report;
use second::sheet;

use crate::calls::{Calls, Checks, Lent};
use crate::report::PLACES;

/// All calls, by the second program.
pub const CALLS: Calls = Calls {
    read,
    write,
    ask: Some(ask),
    ends: Some(ends),
    host,
    report: Some(report),
    checks: Checks {
        times,
        arcs,
        file_times,
        file_arcs,
    },
};

fn read(file: &[u8], tables: &mut [i32], schedule: &mut [u8], values: &mut [u64]) -> u32 {
    match calls::read(file, tables.len(), schedule.len()) {
        Ok(sheet) => {
            put(tables, sheet.tables());
            let modes: Vec<u8> = sheet.schedule().iter().map(|&mode| mode as u8).collect();
            put(schedule, &modes);
            put(values, &[sheet.n(), sheet.m(), sheet.v()].map(|n| n as u64));
            0
        }
        Err(refused) => {
            put(values, &[refused.place as u64]);
            refused.refusal.number() as u32
        }
    }
}

fn write(lent: Lent<'_>, out: &mut [u8], values: &mut [u64]) -> u32 {
    match with_second(lent, |lent| calls::write(lent, out.len())) {
        Ok(bytes) => {
            put(out, &bytes);
            put(values, &[bytes.len() as u64]);
            0
        }
        Err(refusal) => refusal.number() as u32,
    }
}

pub fn ask(
    lent: Lent<'_>,
    p: u64,
    q: u64,
    plan: &mut [u64],
    circuit: &mut [u8],
    values: &mut [u64],
) -> u32 {
    let answer = with_second(lent, |lent| {
        calls::ask(lent, p, q, plan.len(), circuit.len())
    });
    match answer {
        Ok(Answer::Accepted {
            plan: times,
            rounds,
        }) => {
            let times: Vec<u64> = times.iter().map(|&time| time as u64).collect();
            put(plan, &times);
            put(values, &[rounds as u64]);
            0
        }
        Ok(Answer::Refuted { circuit: arcs }) => {
            put(circuit, &ArcName::bytes(&arcs));
            put(values, &[arcs.len() as u64]);
            100
        }
        Err(refusal) => refusal.number() as u32,
    }
}

pub fn ends(lent: Lent<'_>, first: &mut [u8], second: &mut [u8], values: &mut [u64]) -> u32 {
    match with_second(lent, |lent| calls::ends(lent, first.len(), second.len())) {
        Ok(Ends::Found(found)) => {
            let mut list = vec![found.low.top, found.low.bottom];
            let arcs = match found.high {
                High::Open => Vec::new(),
                High::At { end, circuit } => {
                    list.extend([end.top, end.bottom]);
                    circuit
                }
            };
            put(first, &ArcName::bytes(&found.low_circuit));
            put(second, &ArcName::bytes(&arcs));
            list.extend([found.low_circuit.len(), arcs.len()].map(|count| count as i64));
            let list: Vec<u64> = list.iter().map(|&value| value as u64).collect();
            put(values, &list);
            0
        }
        Ok(Ends::None(none)) => {
            put(first, &ArcName::bytes(&none.first));
            put(second, &ArcName::bytes(&none.second));
            put(
                values,
                &[none.first.len(), none.second.len()].map(|count| count as u64),
            );
            101
        }
        Err(refusal) => refusal.number() as u32,
    }
}

pub fn host(file: &[u8], p: u64, q: u64) -> u32 {
    calls::host(file, p, q) as u32
}

pub fn report(file: &[u8], out: &mut [u8], values: &mut [u64]) -> u32 {
    if out.len() < PLACES {
        return 9;
    }
    let text = Report::new(file).to_string();
    put(out, text.as_bytes());
    put(values, &[text.len() as u64]);
    0
}

pub fn times(lent: Lent<'_>, p: u64, q: u64, times: &[i64], values: &mut [u64]) -> u32 {
    let said = with_second(lent, |lent| calls::check_times(lent, p, q, times));
    give(said.into(), values)
}

pub fn arcs(lent: Lent<'_>, p: u64, q: u64, arcs: &[u8], values: &mut [u64]) -> u32 {
    let said = with_second(lent, |lent| calls::check_arcs(lent, p, q, arcs));
    give(said.into(), values)
}

pub fn file_times(file: &[u8], p: u64, q: u64, times: &[i64], values: &mut [u64]) -> u32 {
    give(calls::check_times_of(file, p, q, times), values)
}

pub fn file_arcs(file: &[u8], p: u64, q: u64, arcs: &[u8], values: &mut [u64]) -> u32 {
    give(calls::check_arcs_of(file, p, q, arcs), values)
}

/// Puts the values at the front, as far as it reaches.
fn give(answered: Answered, values: &mut [u64]) -> u32 {
    for (place, value) in values.iter_mut().zip(answered.values) {
        *place = value;
    }
    answered.number as u32
}

/// Lends the same to the second program.
fn with_second<T>(lent: Lent<'_>, call: impl FnOnce(sheet::Lent<'_>) -> T) -> T {
    let schedule: Vec<u64> = lent.schedule.iter().copied().map(u64::from).collect();
    call(sheet::Lent {
        n: lent.n,
        m: lent.m,
        v: lent.v,
        tables: lent.tables,
        schedule: &schedule,
    })
}

fn put<T: Copy>(buffer: &mut [T], front: &[T]) {
    buffer[..front.len()].copy_from_slice(front);
}

#[no_mangle]
unsafe extern "C" fn probe_read(
    file: *const u8,
    file_count: usize,
    tables: *mut i32,
    tables_count: usize,
    schedule: *mut u8,
    schedule_count: usize,
    values: *mut u64,
    values_count: usize,
) -> u32 {
    read(
        slice::from_raw_parts(file, file_count),
        slice::from_raw_parts_mut(tables, tables_count),
        slice::from_raw_parts_mut(schedule, schedule_count),
        slice::from_raw_parts_mut(values, values_count),
    )
}

#[no_mangle]
unsafe extern "C" fn probe_write(
    n: u64,
    m: u64,
    positions: u64,
    tables: *const i32,
    tables_count: usize,
    schedule: *const u8,
    schedule_count: usize,
    out: *mut u8,
    out_count: usize,
    values: *mut u64,
    values_count: usize,
) -> u32 {
    let lent = Lent {
        n,
        m,
        v: positions,
        tables: slice::from_raw_parts(tables, tables_count),
        schedule: slice::from_raw_parts(schedule, schedule_count),
    };
    write(
        lent,
        slice::from_raw_parts_mut(out, out_count),
        slice::from_raw_parts_mut(values, values_count),
    )
}

#[no_mangle]
unsafe extern "C" fn probe_ask(
    n: u64,
    m: u64,
    positions: u64,
    tables: *const i32,
    tables_count: usize,
    schedule: *const u8,
    schedule_count: usize,
    p: u64,
    q: u64,
    plan: *mut u64,
    plan_count: usize,
    circuit: *mut u8,
    circuit_count: usize,
    values: *mut u64,
    values_count: usize,
) -> u32 {
    let lent = Lent {
        n,
        m,
        v: positions,
        tables: slice::from_raw_parts(tables, tables_count),
        schedule: slice::from_raw_parts(schedule, schedule_count),
    };
    ask(
        lent,
        p,
        q,
        slice::from_raw_parts_mut(plan, plan_count),
        slice::from_raw_parts_mut(circuit, circuit_count),
        slice::from_raw_parts_mut(values, values_count),
    )
}

#[no_mangle]
unsafe extern "C" fn probe_ends(
    n: u64,
    m: u64,
    positions: u64,
    tables: *const i32,
    tables_count: usize,
    schedule: *const u8,
    schedule_count: usize,
    first: *mut u8,
    first_count: usize,
    second: *mut u8,
    second_count: usize,
    values: *mut u64,
    values_count: usize,
) -> u32 {
    let lent = Lent {
        n,
        m,
        v: positions,
        tables: slice::from_raw_parts(tables, tables_count),
        schedule: slice::from_raw_parts(schedule, schedule_count),
    };
    ends(
        lent,
        slice::from_raw_parts_mut(first, first_count),
        slice::from_raw_parts_mut(second, second_count),
        slice::from_raw_parts_mut(values, values_count),
    )
}

#[no_mangle]
unsafe extern "C" fn tamulehk_ask(sheet: *const u8, length: usize, p: u64, q: u64) -> u32 {
    host(slice::from_raw_parts(sheet, length), p, q)
}

#[no_mangle]
unsafe extern "C" fn probe_report(
    file: *const u8,
    file_count: usize,
    out: *mut u8,
    out_count: usize,
    values: *mut u64,
    values_count: usize,
) -> u32 {
    report(
        slice::from_raw_parts(file, file_count),
        slice::from_raw_parts_mut(out, out_count),
        slice::from_raw_parts_mut(values, values_count),
    )
}

#[no_mangle]
unsafe extern "C" fn probe_times(
    n: u64,
    m: u64,
    positions: u64,
    tables: *const i32,
    tables_count: usize,
    schedule: *const u8,
    schedule_count: usize,
    p: u64,
    q: u64,
    proposed: *const i64,
    count: usize,
    values: *mut u64,
    values_count: usize,
) -> u32 {
    let lent = Lent {
        n,
        m,
        v: positions,
        tables: slice::from_raw_parts(tables, tables_count),
        schedule: slice::from_raw_parts(schedule, schedule_count),
    };
    times(
        lent,
        p,
        q,
        slice::from_raw_parts(proposed, count),
        slice::from_raw_parts_mut(values, values_count),
    )
}

#[no_mangle]
unsafe extern "C" fn probe_arcs(
    n: u64,
    m: u64,
    positions: u64,
    tables: *const i32,
    tables_count: usize,
    schedule: *const u8,
    schedule_count: usize,
    p: u64,
    q: u64,
    proposed: *const u8,
    count: usize,
    values: *mut u64,
    values_count: usize,
) -> u32 {
    let lent = Lent {
        n,
        m,
        v: positions,
        tables: slice::from_raw_parts(tables, tables_count),
        schedule: slice::from_raw_parts(schedule, schedule_count),
    };
    arcs(
        lent,
        p,
        q,
        slice::from_raw_parts(proposed, count),
        slice::from_raw_parts_mut(values, values_count),
    )
}

#[no_mangle]
unsafe extern "C" fn tamulehk_check_times(
    sheet: *const u8,
    length: usize,
    p: u64,
    q: u64,
    proposed: *const i64,
    count: usize,
    values: *mut u64,
    room: usize,
) -> u32 {
    file_times(
        slice::from_raw_parts(sheet, length),
        p,
        q,
        slice::from_raw_parts(proposed, count),
        slice::from_raw_parts_mut(values, room),
    )
}

#[no_mangle]
unsafe extern "C" fn tamulehk_check_arcs(
    sheet: *const u8,
    length: usize,
    p: u64,
    q: u64,
    proposed: *const u8,
    count: usize,
    values: *mut u64,
    room: usize,
) -> u32 {
    file_arcs(
        slice::from_raw_parts(sheet, length),
        p,
        q,
        slice::from_raw_parts(proposed, count),
        slice::from_raw_parts_mut(values, room),
    )
}

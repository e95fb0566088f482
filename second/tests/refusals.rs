//! The calls in memory: what they refuse, and in which order.

mod common;

use common::{bytes, sheet, single};
use second::calls;
use second::generate::{self, Loan, Room};
use second::refusal::Refusal;
use second::sheet::{Lent, NO_WINDOW};

/// A loan that is all right, with two modes and two positions of one event.
fn loan() -> Loan {
    let sheet = sheet(1, "0 1", &["2:1,1=3", "2:1,1=4"]);
    let lent = sheet.lend();
    Loan {
        n: lent.n,
        m: lent.m,
        v: lent.v,
        tables: lent.tables.to_vec(),
        schedule: lent.schedule.to_vec(),
        p: 7,
        q: 1,
        room: Room {
            file: 16,
            plan: 2,
            circuit: 8,
            second: 8,
        },
    }
}

/// The numbers that the writer, Ask and Ends answer; 0 also where they answer
/// more than a number.
fn numbers(loan: &Loan) -> [u64; 3] {
    let (lent, room) = (loan.lent(), &loan.room);
    let write = calls::write(lent, room.file).map(|_| 0);
    let ask = calls::ask(lent, loan.p, loan.q, room.plan, room.circuit).map(|a| a.number());
    let ends = calls::ends(lent, room.circuit, room.second).map(|e| e.number());
    [write, ask, ends].map(|answer| answer.unwrap_or_else(Refusal::number))
}

/// The numbers for the loan with some change.
fn after(change: impl FnOnce(&mut Loan)) -> [u64; 3] {
    let mut loan = loan();
    change(&mut loan);
    numbers(&loan)
}

#[test]
fn nothing_is_refused_without_cause() {
    assert_eq!(numbers(&loan()), [0, 0, 0]);
    assert_eq!(after(|loan| loan.p = 6), [0, 100, 0]);
}

#[test]
fn sizes_and_short_buffers_are_4() {
    for size in [0, 13, u64::MAX, 1 << 32, (1 << 32) + 1] {
        assert_eq!(after(|loan| loan.n = size), [4; 3], "{size}");
    }
    for size in [0, 9, u64::MAX, 1 << 32, (1 << 32) + 1] {
        assert_eq!(after(|loan| loan.m = size), [4; 3], "{size}");
    }
    for size in [0, 17, u64::MAX, 1 << 32, (1 << 32) + 1] {
        assert_eq!(after(|loan| loan.v = size), [4; 3], "{size}");
    }
    assert_eq!(after(|loan| loan.n = 2), [4; 3]);
    assert_eq!(after(|loan| loan.m = 3), [4; 3]);
    assert_eq!(after(|loan| loan.v = 3), [4; 3]);
    assert_eq!(after(|loan| loan.tables.truncate(7)), [4; 3]);
    assert_eq!(after(|loan| loan.schedule.truncate(1)), [4; 3]);
}

#[test]
fn modes_not_below_m_are_5() {
    for mode in [2, 3, u64::MAX, 1 << 32] {
        assert_eq!(after(|loan| loan.schedule[1] = mode), [5; 3], "{mode}");
    }
}

#[test]
fn inadmissible_values_are_6() {
    for value in [1_000_001, -1_000_001, i32::MAX, NO_WINDOW + 1] {
        assert_eq!(after(|loan| loan.tables[7] = value), [6; 3], "{value}");
    }
    for value in [1_000_000, -1_000_000, NO_WINDOW] {
        let [write, _, _] = after(|loan| loan.tables[7] = value);
        let expected = if value == NO_WINDOW { 0 } else { 9 };
        assert_eq!(write, expected, "{value}");
    }
}

#[test]
fn cycle_times_are_10_for_ask_alone() {
    assert_eq!(after(|loan| loan.q = 0), [0, 10, 0]);
    assert_eq!(after(|loan| loan.q = 1001), [0, 10, 0]);
    assert_eq!(after(|loan| loan.p = 1_000_000_001), [0, 10, 0]);
    assert_eq!(after(|loan| loan.p = 1_000_000_000), [0, 0, 0]);
}

#[test]
fn room_is_9() {
    assert_eq!(after(|loan| loan.room.file = 15), [9, 0, 0]);
    assert_eq!(after(|loan| loan.room.plan = 1), [0, 9, 0]);
    assert_eq!(after(|loan| loan.room.circuit = 7), [0, 9, 9]);
    assert_eq!(after(|loan| loan.room.second = 7), [0, 0, 9]);
}

#[test]
fn refusals_come_in_their_order() {
    let mut loan = loan();
    loan.v = 0;
    loan.schedule[0] = 2;
    loan.tables[0] = i32::MAX;
    loan.q = 0;
    let needed = loan.room;
    loan.room = Room {
        file: 0,
        plan: 0,
        circuit: 0,
        second: 0,
    };
    assert_eq!(numbers(&loan), [4, 4, 4]);
    loan.v = 2;
    assert_eq!(numbers(&loan), [5, 5, 5]);
    loan.schedule[0] = 0;
    assert_eq!(numbers(&loan), [6, 6, 6]);
    loan.tables[0] = NO_WINDOW;
    assert_eq!(numbers(&loan), [9, 10, 9]);
    loan.q = 1;
    assert_eq!(numbers(&loan), [9, 9, 9]);
    loan.room = needed;
    assert_eq!(numbers(&loan), [0, 0, 0]);
}

#[test]
fn surplus_is_not_read() {
    let with_surplus = after(|loan| {
        loan.tables.extend([i32::MAX, 0, NO_WINDOW + 1]);
        loan.schedule.extend([u64::MAX, 2]);
    });
    assert_eq!(with_surplus, [0, 0, 0]);
}

#[test]
fn any_loan_is_refused_by_all_calls_or_answered_as_its_sheet() {
    let mut admitted = 0;
    for loan in (0..300).map(|index| generate::loan(31, index)) {
        let lent = loan.lent();
        match lent.admit() {
            Ok(sheet) => {
                let (exact, room) = (sheet.lend(), loan.room);
                let ask =
                    |lent: Lent<'_>| calls::ask(lent, loan.p, loan.q, room.plan, room.circuit);
                assert_eq!(ask(lent), ask(exact));
                let write = |lent: Lent<'_>| calls::write(lent, room.file);
                assert_eq!(write(lent), write(exact));
                admitted += 1;
            }
            Err(refusal) => {
                assert!((4..=6).contains(&refusal.number()));
                assert_eq!(numbers(&loan), [refusal.number(); 3]);
            }
        }
    }
    assert!(admitted > 150);
}

#[test]
fn the_host_gets_one_number() {
    let sheet = bytes("01 01 01 01 00 02 02 01 01 0A 03 01 01 10");
    assert_eq!(calls::host(&sheet, 5, 1), 0);
    assert_eq!(calls::host(&sheet, 4, 1), 100);
    assert_eq!(calls::host(&sheet, 17, 2), 100);
    assert_eq!(calls::host(&sheet, 5, 0), 10);
    assert_eq!(calls::host(&sheet, u64::MAX, 1), 10);
    assert_eq!(calls::host(&sheet[1..], 5, 0), 4);
    let with_surplus = [&sheet[..], &[0]].concat();
    assert_eq!(calls::host(&with_surplus, 5, 0), 8);
}

#[test]
fn ends_says_101_for_none() {
    let none = single(1, "2:1,1=9 3:1,1=8");
    assert_eq!(calls::ends(none.lend(), 4, 4).unwrap().number(), 101);
}

//! The stack that the calls take: each is run on the largest sheets in a thread that has
//! no more than is stated for it. A call that takes more ends the whole program.

use std::io;
use std::thread;

use second::file;
use second::limits::{GREATEST_P, GREATEST_Q, MOST_EVENTS, MOST_MODES, MOST_POSITIONS};
use second::sheet::Sheet;
use second::window::{Kind as WindowKind, Window};

use crate::calls::{Calls, VALUES};
use crate::comparison::Comparison;
use crate::held::{Held, CIRCUIT, PLAN, TABLES};
use crate::kind::Kind;
use crate::report::PLACES;
use crate::tried::Tried;

/// The KiB of stack in which a call runs, with the few that a thread takes itself.
pub fn limit(kind: Kind) -> usize {
    match kind {
        Kind::Reader | Kind::Writer => 16,
        Kind::Ask => 48,
        Kind::Ends => 52,
        Kind::Host => 66,
        Kind::Report => 74,
        Kind::Times | Kind::Arcs => 16,
        Kind::Checker => 24,
    }
}

/// How the windows of a sheet are set.
#[derive(Clone, Copy, Debug)]
enum Form {
    /// No window binds.
    Wide,
    /// One arc to each node and on to the next: the longest circuit, and no other binds.
    Ring,
    /// Every lower limit lies above its upper limit.
    Crossed,
}

use Form::{Crossed, Ring, Wide};

/// The limit of each arc in the ring: as long in the file as any.
const STEP: i32 = 10_000;
/// Low of the ring.
const LOW: u64 = PLAN as u64 * STEP as u64;

/// What the calls are asked, and the number they answer.
const QUESTIONS: [(Kind, Form, (u64, u64), u32); 25] = [
    (Kind::Reader, Wide, (0, 1), 0),
    (Kind::Reader, Ring, (0, 1), 0),
    (Kind::Writer, Wide, (0, 1), 0),
    (Kind::Writer, Ring, (0, 1), 0),
    (Kind::Ask, Wide, (0, 1), 0),
    (Kind::Ask, Ring, (LOW, 1), 0),
    (Kind::Ask, Ring, (LOW - 1, 1), 100),
    (Kind::Ask, Crossed, (GREATEST_P, GREATEST_Q), 100),
    (Kind::Ends, Wide, (0, 1), 0),
    (Kind::Ends, Ring, (0, 1), 0),
    (Kind::Ends, Crossed, (0, 1), 101),
    (Kind::Host, Wide, (0, 1), 0),
    (Kind::Host, Ring, (LOW, 1), 0),
    (Kind::Host, Ring, (LOW - 1, 1), 100),
    (Kind::Report, Wide, (0, 1), 0),
    (Kind::Report, Ring, (0, 1), 0),
    (Kind::Report, Crossed, (0, 1), 0),
    (Kind::Times, Ring, (LOW, 1), 0),
    (Kind::Times, Ring, (LOW - 1, 1), 102),
    (Kind::Times, Crossed, (GREATEST_P, GREATEST_Q), 102),
    (Kind::Arcs, Ring, (LOW - 1, 1), 0),
    (Kind::Arcs, Ring, (LOW, 1), 107),
    (Kind::Checker, Ring, (LOW, 1), 107),
    (Kind::Checker, Ring, (LOW - 1, 1), 102),
    (Kind::Checker, Crossed, (GREATEST_P, GREATEST_Q), 102),
];

/// Runs every call that there is in its own limit.
pub fn run(calls: &Calls) -> io::Result<Vec<Tried>> {
    let mut tried = Vec::new();
    for kind in Kind::ALL {
        if Comparison::new(kind, calls).is_some() {
            tried.extend(run_one(calls, kind, limit(kind))?);
        }
    }
    Ok(tried)
}

/// Runs one call in so many KiB.
pub fn run_one(calls: &Calls, kind: Kind, kib: usize) -> io::Result<Vec<Tried>> {
    let mut tried = Vec::new();
    for (_, form, (p, q), number) in QUESTIONS.into_iter().filter(|row| row.0 == kind) {
        let mut room = Room::new(calls, form);
        let said = in_thread(kib, || room.answer(calls, kind, p, q))?;
        let case = format!("{kind} in {kib} KiB, {form:?} {p}/{q}");
        tried.push(Tried::said(&case, &said.to_string(), &number.to_string()));
    }
    Ok(tried)
}

/// Answers in a thread with so much stack.
fn in_thread(kib: usize, answer: impl FnOnce() -> u32 + Send) -> io::Result<u32> {
    thread::scope(|scope| {
        let builder = thread::Builder::new().stack_size(kib * 1024);
        let thread = builder.spawn_scoped(scope, answer)?;
        thread
            .join()
            .map_err(|_| io::Error::new(io::ErrorKind::Other, "the thread panicked"))
    })
}

/// A sheet of 192 nodes with all 4,608 windows, and all that is lent, off the stack.
struct Room {
    file: Vec<u8>,
    held: Held,
    tables: Vec<i32>,
    schedule: Vec<u8>,
    out: Vec<u8>,
    plan: Vec<u64>,
    first: Vec<u8>,
    second: Vec<u8>,
    values: Vec<u64>,
    times: Vec<i64>,
    arcs: Vec<u8>,
}

impl Room {
    fn new(calls: &Calls, form: Form) -> Room {
        let file = file::write(&largest(form));
        let held = Held::read(calls.read, &file).expect("the largest sheet is read");
        Room {
            held,
            tables: vec![0; TABLES],
            schedule: vec![0; MOST_POSITIONS],
            out: vec![0; file.len().max(PLACES)],
            plan: vec![0; PLAN],
            first: vec![0; CIRCUIT],
            second: vec![0; CIRCUIT],
            values: vec![0; VALUES],
            times: (0..).step_by(STEP as usize).take(PLAN).collect(),
            arcs: ring(),
            file,
        }
    }

    /// The number that a call answers; one that is not there answers none of 01's.
    fn answer(&mut self, calls: &Calls, kind: Kind, p: u64, q: u64) -> u32 {
        let lent = self.held.lent();
        let (first, second) = (&mut self.first[..], &mut self.second[..]);
        let (out, values) = (&mut self.out[..], &mut self.values[..]);
        match kind {
            Kind::Reader => {
                let (tables, schedule) = (&mut self.tables, &mut self.schedule);
                (calls.read)(&self.file, tables, schedule, values)
            }
            Kind::Writer => (calls.write)(lent, out, values),
            Kind::Ask => calls.ask.map_or(u32::MAX, |ask| {
                ask(lent, p, q, &mut self.plan, first, values)
            }),
            Kind::Ends => calls
                .ends
                .map_or(u32::MAX, |ends| ends(lent, first, second, values)),
            Kind::Host => (calls.host)(&self.file, p, q),
            Kind::Report => calls
                .report
                .map_or(u32::MAX, |report| report(&self.file, out, values)),
            Kind::Times => (calls.checks.times)(lent, p, q, &self.times, values),
            Kind::Arcs => (calls.checks.arcs)(lent, p, q, &self.arcs, values),
            // of the plan and the circuit one is accepted, and the number is the other's
            Kind::Checker => {
                let by_times = (calls.checks.file_times)(&self.file, p, q, &self.times, values);
                let by_arcs = (calls.checks.file_arcs)(&self.file, p, q, &self.arcs, values);
                by_times.max(by_arcs)
            }
        }
    }
}

/// The circuit through every node that binds the ring.
fn ring() -> Vec<u8> {
    let arc = |node: usize| {
        let (position, event) = (node / MOST_EVENTS + 1, node % MOST_EVENTS + 1);
        let to_next = event == MOST_EVENTS;
        let kind = if to_next { 2 } else { 0 };
        let to = if to_next { 1 } else { event + 1 };
        [kind, position, to, event].map(|number| number as u8)
    };
    (0..PLAN).flat_map(arc).collect()
}

/// A sheet whose file is as long as one can be.
pub(crate) fn longest() -> Sheet {
    largest(Wide)
}

/// The largest sheet of a form.
fn largest(form: Form) -> Sheet {
    let modes = 0..MOST_MODES as u64;
    let schedule: Vec<u64> = modes.cycle().take(MOST_POSITIONS).collect();
    let mut sheet = Sheet::without_windows(MOST_EVENTS, MOST_MODES, &schedule)
        .expect("the sizes are at their limits");
    let events = 1..=MOST_EVENTS;
    for mode in 0..MOST_MODES {
        for kind in WindowKind::ALL {
            for (to, from) in events
                .clone()
                .flat_map(|to| events.clone().map(move |from| (to, from)))
            {
                let w = limit_of(form, kind, to, from);
                sheet
                    .put(mode, Window { kind, to, from, w })
                    .expect("the window is within its limits");
            }
        }
    }
    sheet
}

/// The limit of a window.
fn limit_of(form: Form, kind: WindowKind, to: usize, from: usize) -> i32 {
    let wide = if kind.is_upper() {
        1_000_000
    } else {
        -1_000_000
    };
    let is_next = match kind {
        WindowKind::A0 => to == from + 1,
        WindowKind::A1 => to == 1 && from == MOST_EVENTS,
        WindowKind::B0 | WindowKind::B1 => false,
    };
    match form {
        Ring if is_next => STEP,
        Wide | Ring => wide,
        Crossed => -wide,
    }
}

#[cfg(test)]
mod tests {
    use super::*;
    use crate::stub::CALLS;
    use second::arc::Net;
    use second::ends::{self, Ends};

    #[test]
    fn the_sheets_are_the_largest() {
        for form in [Wide, Ring, Crossed] {
            let sheet = largest(form);
            let windows: usize = (0..sheet.m()).map(|mode| sheet.windows(mode).count()).sum();
            assert_eq!((sheet.nodes(), windows), (192, 4608));
            assert_eq!(file::write(&sheet).len(), file::LONGEST);
        }
    }

    #[test]
    fn the_ring_has_an_arc_to_every_node() {
        match ends::find(&Net::new(&largest(Ring))) {
            Ends::Found(found) => assert_eq!(found.low_circuit.len(), 192),
            Ends::None(none) => panic!("{none}"),
        }
    }

    #[test]
    fn every_question_gets_its_number() {
        // the second program takes more stack than is stated for the calls
        for kind in [Kind::Times, Kind::Arcs, Kind::Checker] {
            let tried = run_one(&CALLS, kind, 8 * 1024).unwrap();
            let lines: Vec<String> = tried.iter().map(Tried::to_string).collect();
            assert!(tried.iter().all(|tried| tried.holds), "{lines:?}");
        }
    }

    #[test]
    fn what_is_stated_stands_in_every_table() {
        let stated = |file: &str, call: &str, stack: String| {
            let row = format!("\n| {call} | {stack} |\n");
            assert!(file.contains(&row), "no row {row:?}");
        };
        let (here, readme) = (
            include_str!("../README.md"),
            include_str!("../../README.md"),
        );
        for (kind, in_this_package, in_readme) in [
            (
                Kind::Reader,
                "reader, writer",
                "`read_sheet`, `write_sheet`",
            ),
            (
                Kind::Writer,
                "reader, writer",
                "`read_sheet`, `write_sheet`",
            ),
            (Kind::Ask, "Ask", "`ask`"),
            (Kind::Ends, "Ends", "`ends`"),
            (Kind::Host, "host", "`tamulehk_ask`"),
            (Kind::Report, "report", "`report`"),
            (Kind::Times, "times, arcs", "`check_times`, `check_arcs`"),
            (Kind::Arcs, "times, arcs", "`check_times`, `check_arcs`"),
            (
                Kind::Checker,
                "checker",
                "`tamulehk_check_times`, `tamulehk_check_arcs`",
            ),
        ] {
            stated(here, in_this_package, format!("{} KiB", limit(kind)));
            stated(readme, in_readme, limit(kind).to_string());
        }
        let constant = |header: &str, name: &str, kind| {
            let line = format!("\n#define {name} {}u\n", 1024 * limit(kind));
            assert!(header.contains(&line), "no line {line:?}");
        };
        let host = include_str!("../../include/tamulehk.h");
        constant(host, "TAMULEHK_STACK", Kind::Host);
        let checker = include_str!("../../include/tamulehk_check.h");
        constant(checker, "TAMULEHK_CHECK_STACK", Kind::Checker);
    }

    #[test]
    fn wrong_answers_fail() {
        let mut calls = CALLS;
        calls.host = |_, _, _| 7;
        let tried = run_one(&calls, Kind::Host, 1024).unwrap();
        assert!(tried.iter().all(|tried| !tried.holds));
    }
}

//! "Sheets tried by hand": every row of 01's table and what stands below it, by the
//! proved calls, their answers put into 01's words; files that are refused, each at its
//! place; and proposals held to a sheet.

mod proposed;
mod refused;

use std::fmt;

use second::arc::ArcName;
use second::check;
use second::circuit::Circuit;
use second::cycle_time::CycleTime;
use second::file;
use second::fraction::Fraction;
use second::limits::MOST_POSITIONS;
use second::sheet::Sheet;
use second::text;

use crate::calls::{Calls, Checks, VALUES};
use crate::difference::hex;
use crate::held::{Held, CIRCUIT, PLAN, TABLES};
use crate::report::PLACES;
use crate::tried::Tried;

/// A sheet as the table writes it: n, the order of the modes, and each one's windows.
struct Drawn(usize, &'static str, &'static [&'static str]);

/// What is asked.
#[derive(Clone, Copy)]
enum Question {
    Ask(u64, u64),
    Ends,
    Written,
    Host(u64, u64),
    Report,
    /// Read, into so many places for tables and schedule.
    Read(usize, usize),
    /// Times or arcs for p/q, held to the sheet in memory.
    Hold(u64, u64, List),
    /// The same by the C call.
    HoldFile(u64, u64, List),
}

/// What is proposed.
#[derive(Clone, Copy)]
enum List {
    Times(&'static [i64]),
    Arcs(&'static [u8]),
}

use Question::{Ask, Ends, Hold, HoldFile, Host, Read, Report, Written};

const FIRST: Drawn = Drawn(1, "0", &["2:1,1=5 3:1,1=8"]);
const OF_THE_REPORT: Drawn = Drawn(2, "0", &["0:2,1=3 1:2,1=4 2:1,2=2"]);
const HALVES: Drawn = Drawn(2, "0", &["2:1,2=2 2:2,1=3"]);
const CROSSED: Drawn = Drawn(2, "0", &["0:2,1=6 1:2,1=5"]);
const APART: Drawn = Drawn(1, "0", &["2:1,1=9 3:1,1=8"]);
const BARE: Drawn = Drawn(1, "0", &[""]);
const AT_MOST_0: Drawn = Drawn(1, "0", &["3:1,1=0"]);
const TWO_MODES: Drawn = Drawn(1, "0 1", &["2:1,1=3", "2:1,1=4 3:1,1=6"]);

/// The rows of the table, and then what else is said of a sheet.
const ROWS: [(Drawn, Question, &str); 21] = [
    (FIRST, Ask(5, 1), "plan 0, rounds 0"),
    (FIRST, Ask(4, 1), "circuit (2 1 1 1), total 1"),
    (FIRST, Ask(17, 2), "circuit (3 1 1 1), total 1"),
    (FIRST, Ends, "5/1, 8/1"),
    (
        OF_THE_REPORT,
        Ask(4, 1),
        "circuit (0 1 2 1) (2 1 1 2), total 1",
    ),
    (HALVES, Ends, "5/2, open"),
    (HALVES, Ask(5, 2), "plan 0 1, rounds 1"),
    (CROSSED, Ends, "none, one circuit, W=1, c=0"),
    (APART, Ends, "none, two circuits, limits 9/1 and 8/1"),
    (BARE, Ends, "0/1, open"),
    (AT_MOST_0, Ends, "0/1, 0/1"),
    (TWO_MODES, Ask(7, 1), "plan 0 then 3, rounds 1"),
    (FIRST, Written, "01 01 01 01 00 02 02 01 01 0a 03 01 01 10"),
    (BARE, Ask(0, 0), "10"),
    (BARE, Ask(0, 1001), "10"),
    (BARE, Ask(0, 1000), "plan 0, rounds 0"),
    (
        OF_THE_REPORT,
        Report,
        "ends 5/1 open\nlow 2\n0 1 2 1\n2 1 1 2\nplan 1 1\n0 3\n",
    ),
    (TWO_MODES, Read(8, 2), "0 1 2 2"),
    (TWO_MODES, Read(TABLES, MOST_POSITIONS), "0 1 2 2"),
    (TWO_MODES, Read(7, 2), "9 0"),
    (TWO_MODES, Read(8, 1), "9 0"),
];

/// Tries all cases; those of the report only where there is one.
///
/// What is asked of Ask is asked of the C call as well.
pub fn run(calls: &Calls) -> Vec<Tried> {
    let mut tried = Vec::new();
    let mut case = |name: &str, file: &[u8], question, outcome: &str| {
        if !matches!(question, Report) || calls.report.is_some() {
            let said = answer(calls, file, question).unwrap_or_else(|trouble| trouble);
            tried.push(Tried::said(&format!("{name}: {question}"), &said, outcome));
        }
    };
    for (drawn, question, outcome) in ROWS {
        let (name, bytes) = (drawn.to_string(), file::write(&drawn.sheet()));
        case(&name, &bytes, question, outcome);
        if let Ask(p, q) = question {
            case(&name, &bytes, Host(p, q), verdict(outcome));
        }
    }
    for refused::File { name, bytes, said } in refused::files() {
        // with room and without: 9 comes last
        case(&name, &bytes, Read(TABLES, MOST_POSITIONS), said);
        case(&name, &bytes, Read(0, 0), said);
        case(&name, &bytes, Report, &format!("refused {said}\n"));
        // "the C call stays as it is"
        let number = said.split(' ').next().unwrap_or_default();
        case(&name, &bytes, Host(0, 0), number);
        // before p and q and the proposal
        case(&name, &bytes, HoldFile(0, 0, List::Times(&[])), said);
        case(&name, &bytes, HoldFile(0, 0, List::Arcs(&[])), said);
    }
    for (drawn, p, q, list, outcome) in proposed::ROWS {
        let (name, bytes) = (drawn.to_string(), file::write(&drawn.sheet()));
        case(&name, &bytes, Hold(p, q, list), outcome);
        case(&name, &bytes, HoldFile(p, q, list), outcome);
    }
    tried
}

/// What the C call answers where Ask has this outcome.
fn verdict(outcome: &str) -> &str {
    match outcome.split(' ').next() {
        Some("plan") => "0",
        Some("circuit") => "100",
        _ => outcome,
    }
}

/// The answer in 01's words, or what is wrong with it.
fn answer(calls: &Calls, file: &[u8], question: Question) -> Result<String, String> {
    match question {
        Host(p, q) => return Ok((calls.host)(file, p, q).to_string()),
        Report => return report(calls, file),
        Read(tables, schedule) => return Ok(read(calls, file, tables, schedule)),
        HoldFile(p, q, list) => return Ok(hold_file(calls.checks, file, p, q, list)),
        Ask(..) | Ends | Written | Hold(..) => {}
    }
    let held = match Held::read(calls.read, file) {
        Ok(held) => held,
        Err(number) => return Ok(number.to_string()),
    };
    let sheet = file::read(file).map_err(|refusal| refusal.to_string())?;
    match question {
        Ask(p, q) => ask(calls, &held, &sheet, p, q),
        Ends => ends(calls, &held, &sheet),
        Hold(p, q, list) => Ok(hold(calls.checks, &held, p, q, list)),
        _ => written(calls, &held),
    }
}

/// The number that a call answers, and the values that came with it.
fn told(call: impl FnOnce(&mut [u64]) -> u32) -> String {
    // no value is so large, so that it tells a place that was not written
    let mut values = [u64::MAX; VALUES];
    let mut numbers = vec![u64::from(call(&mut values))];
    numbers.extend(values.iter().filter(|&&value| value != u64::MAX));
    joined(&numbers, " ")
}

fn read(calls: &Calls, file: &[u8], tables: usize, schedule: usize) -> String {
    let (mut tables, mut schedule) = (vec![0; tables], vec![0; schedule]);
    told(|values| (calls.read)(file, &mut tables, &mut schedule, values))
}

fn hold(checks: Checks, held: &Held, p: u64, q: u64, list: List) -> String {
    told(|values| match list {
        List::Times(times) => (checks.times)(held.lent(), p, q, times, values),
        List::Arcs(arcs) => (checks.arcs)(held.lent(), p, q, arcs, values),
    })
}

fn hold_file(checks: Checks, file: &[u8], p: u64, q: u64, list: List) -> String {
    told(|values| match list {
        List::Times(times) => (checks.file_times)(file, p, q, times, values),
        List::Arcs(arcs) => (checks.file_arcs)(file, p, q, arcs, values),
    })
}

fn ask(calls: &Calls, held: &Held, sheet: &Sheet, p: u64, q: u64) -> Result<String, String> {
    let ask = calls.ask.ok_or("there is no Ask")?;
    let (mut plan, mut arcs) = ([0; PLAN], [0; CIRCUIT]);
    let mut values = [0; VALUES];
    let number = ask(held.lent(), p, q, &mut plan, &mut arcs, &mut values);
    match number {
        0 => {
            let times = plan[..sheet.nodes()].chunks(sheet.n());
            let positions = times.map(|times| joined(times, " "));
            let plan = positions.collect::<Vec<String>>().join(" then ");
            Ok(format!("plan {plan}, rounds {}", values[0]))
        }
        100 => {
            let time = CycleTime::within_limits(p, q).map_err(|wrong| wrong.to_string())?;
            let circuit = circuit_of(sheet, &arcs, values[0])?;
            let names: Vec<String> = circuit.names().iter().map(|a| format!("({a})")).collect();
            let total = circuit.total(time);
            Ok(format!("circuit {}, total {total}", joined(&names, " ")))
        }
        number => Ok(number.to_string()),
    }
}

fn ends(calls: &Calls, held: &Held, sheet: &Sheet) -> Result<String, String> {
    let ends = calls.ends.ok_or("there is no Ends")?;
    let (mut first, mut second) = ([0; CIRCUIT], [0; CIRCUIT]);
    // no value is so large, so that it tells a place that was not written
    let mut values = [u64::MAX; VALUES];
    let number = ends(held.lent(), &mut first, &mut second, &mut values);
    let count = values.iter().filter(|&&value| value != u64::MAX).count();
    match (number, count) {
        (0, 4) => Ok(format!("{}/{}, open", values[0], values[1])),
        (0, 6) => {
            let [a, b, c, d, ..] = values;
            Ok(format!("{a}/{b}, {c}/{d}"))
        }
        (101, 2) => {
            let first = circuit_of(sheet, &first, values[0])?;
            if values[1] == 0 {
                let (w, c) = (first.w(), first.c());
                return Ok(format!("none, one circuit, W={w}, c={c}"));
            }
            let second = circuit_of(sheet, &second, values[1])?;
            let [first, second] = [limit(&first), limit(&second)];
            Ok(format!("none, two circuits, limits {first} and {second}"))
        }
        (number, 0) => Ok(number.to_string()),
        (number, _) => Err(format!("{number} with {count} values")),
    }
}

fn written(calls: &Calls, held: &Held) -> Result<String, String> {
    let mut out = vec![0; file::LONGEST];
    let mut values = [0; VALUES];
    match (calls.write)(held.lent(), &mut out, &mut values) {
        0 => Ok(hex(&out[..values[0] as usize])),
        number => Ok(number.to_string()),
    }
}

fn report(calls: &Calls, file: &[u8]) -> Result<String, String> {
    let report = calls.report.ok_or("there is no report")?;
    let mut out = vec![0; PLACES];
    let mut values = [0; VALUES];
    match report(file, &mut out, &mut values) {
        0 => String::from_utf8(out[..values[0] as usize].to_vec()).map_err(|e| e.to_string()),
        number => Ok(number.to_string()),
    }
}

/// The circuit at the front of a buffer, so many arcs, if it is one of the sheet.
fn circuit_of(sheet: &Sheet, buffer: &[u8], count: u64) -> Result<Circuit, String> {
    let arcs = ArcName::list(&buffer[..4 * count as usize]);
    check::circuit(sheet, &arcs).map_err(|fault| fault.to_string())
}

/// The cycle time at which a circuit's total is zero.
fn limit(circuit: &Circuit) -> Fraction {
    let (w, c) = (circuit.w(), circuit.c());
    Fraction::lowest(-w * c.signum(), c.abs())
}

fn joined<T: ToString>(items: &[T], between: &str) -> String {
    let items: Vec<String> = items.iter().map(T::to_string).collect();
    items.join(between)
}

impl Drawn {
    fn sheet(&self) -> Sheet {
        let Drawn(n, order, modes) = self;
        let mut drawn = format!("events {n}\nmodes {}\norder {order}\n", modes.len());
        for (mode, windows) in modes.iter().enumerate() {
            drawn += &format!("mode {mode}\n{windows}\n");
        }
        text::read(&drawn).unwrap_or_else(|error| panic!("{error} in\n{drawn}"))
    }
}

impl fmt::Display for Drawn {
    fn fmt(&self, f: &mut fmt::Formatter<'_>) -> fmt::Result {
        let Drawn(n, order, modes) = self;
        write!(f, "n={n}, order {order}, {}", modes.join(" / "))
    }
}

impl fmt::Display for Question {
    fn fmt(&self, f: &mut fmt::Formatter<'_>) -> fmt::Result {
        match self {
            Ask(p, q) => write!(f, "Ask {p}/{q}"),
            Host(p, q) => write!(f, "host {p}/{q}"),
            Ends => f.write_str("Ends"),
            Written => f.write_str("written"),
            Report => f.write_str("report"),
            Read(tables, schedule) => write!(f, "read into {tables} and {schedule}"),
            Hold(p, q, list) => write!(f, "{p}/{q}, {list}"),
            HoldFile(p, q, list) => write!(f, "file, {p}/{q}, {list}"),
        }
    }
}

impl fmt::Display for List {
    fn fmt(&self, f: &mut fmt::Formatter<'_>) -> fmt::Result {
        match self {
            List::Times(times) => write!(f, "times {}", joined(times, " ")),
            List::Arcs(arcs) if arcs.len() > 100 => write!(f, "{} numbers of arcs", arcs.len()),
            List::Arcs(arcs) => write!(f, "arcs {}", joined(arcs, " ")),
        }
    }
}

#[cfg(test)]
mod tests {
    use super::*;
    use crate::stub::CALLS;

    /// How many cases fail.
    fn failures(calls: &Calls) -> usize {
        run(calls).iter().filter(|tried| !tried.holds).count()
    }

    #[test]
    fn right_calls_pass_every_case() {
        assert_eq!(failures(&CALLS), 0);
        let cases = ROWS.len() + 9 + 6 * refused::files().len() + 2 * proposed::ROWS.len();
        assert_eq!(run(&CALLS).len(), cases);
    }

    #[test]
    fn wrong_calls_fail() {
        let refused = refused::files().len();
        let mut calls = CALLS;
        calls.host = |_, _, _| 0;
        assert_eq!(failures(&calls), 5 + refused);
        calls = CALLS;
        calls.ask = Some(|_, _, _, _, _, _| 10);
        assert_eq!(failures(&calls), 7);
        calls = CALLS;
        calls.ends = Some(|_, _, _, _| 101);
        assert_eq!(failures(&calls), 6);
        calls = CALLS;
        calls.report = Some(|_, _, _| 0);
        assert_eq!(failures(&calls), 1 + refused);
    }

    /// The rows of times, and of arcs, that are not accepted.
    fn wrong_rows() -> (usize, usize) {
        let wrong = proposed::ROWS.iter().filter(|row| row.4 != "0");
        let (times, arcs): (Vec<_>, Vec<_>) =
            wrong.partition(|row| matches!(row.3, List::Times(_)));
        (times.len(), arcs.len())
    }

    #[test]
    fn checks_that_accept_everything_fail() {
        let refused = refused::files().len();
        let (times, arcs) = wrong_rows();
        assert!(times > 20 && arcs > 30);
        let mut calls = CALLS;
        calls.checks.times = |_, _, _, _, _| 0;
        assert_eq!(failures(&calls), times);
        calls = CALLS;
        calls.checks.arcs = |_, _, _, _, _| 0;
        assert_eq!(failures(&calls), arcs);
        calls = CALLS;
        calls.checks.file_times = |_, _, _, _, _| 0;
        assert_eq!(failures(&calls), times + refused);
        calls = CALLS;
        calls.checks.file_arcs = |_, _, _, _, _| 0;
        assert_eq!(failures(&calls), arcs + refused);
    }

    #[test]
    fn every_number_of_the_checks_is_tried() {
        for number in ["0", "10", "11", "102", "103", "104", "105", "106", "107"] {
            let is_tried = |outcome: &str| outcome.split(' ').next() == Some(number);
            assert!(proposed::ROWS.iter().any(|row| is_tried(row.4)), "{number}");
        }
    }

    #[test]
    fn wrong_places_fail() {
        let refused = refused::files().len();
        let mut calls = CALLS;
        calls.read = |file, tables, schedule, values| {
            let number = (CALLS.read)(file, tables, schedule, values);
            values[0] += u64::from(number > 0);
            number
        };
        assert_eq!(failures(&calls), 2 + 2 * refused);
        calls.read = |file, tables, schedule, values| {
            let number = (CALLS.read)(file, tables, schedule, values);
            if number > 0 {
                // no place
                values[0] = u64::MAX;
            }
            number
        };
        assert_eq!(failures(&calls), 2 + 2 * refused);
    }
}

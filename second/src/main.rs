//! The second program at the command line; see README.md.

use std::env;
use std::ffi::{OsStr, OsString};
use std::fs;
use std::io::{self, Read, Write};
use std::process::ExitCode;

use second::arc::Net;
use second::ask::{self, Answer};
use second::calls;
use second::check::{self, Fault};
use second::cycle_time::CycleTime;
use second::ends::{self, Ends};
use second::file;
use second::generate;
use second::judge;
use second::proposal::Answered;
use second::report::{self, Report};
use second::sheet::Sheet;
use second::text;

const USAGE: &str = "\
usage: second report < SHEET           the report on a sheet
       second ends < SHEET             the ends, without the plan
       second ask P Q < SHEET          does cycle time P/Q work?
       second text < SHEET             a sheet as text
       second sheet < TEXT             a text as sheet
       second check P Q SHEET < TIMES  is this the earliest plan?
       second times P Q SHEET < TIMES  do these times keep every window?
       second arcs P Q SHEET < ARCS    do these arcs refute P/Q?
       second judge SHEET < REPORT     is this a right report?
       second generate SEED INDEX      a file to try programs on";

/// What a run prints, and whether it is a verdict against what was given.
struct Outcome {
    output: Vec<u8>,
    is_against: bool,
}

impl Outcome {
    fn answer(output: impl Into<Vec<u8>>) -> Outcome {
        Outcome {
            output: output.into(),
            is_against: false,
        }
    }

    /// A word if all is well, or what is wrong.
    fn verdict<E: ToString>(word: &str, checked: Result<(), E>) -> Outcome {
        let is_against = checked.is_err();
        let line = checked.map_or_else(|wrong| wrong.to_string(), |()| word.to_owned());
        Outcome {
            output: (line + "\n").into(),
            is_against,
        }
    }
}

fn main() -> ExitCode {
    let arguments: Vec<OsString> = env::args_os().skip(1).collect();
    let printed = run(&arguments).and_then(|outcome| {
        let mut stdout = io::stdout().lock();
        stdout
            .write_all(&outcome.output)
            .and_then(|()| stdout.flush())
            .map_err(|error| format!("standard output: {error}"))?;
        Ok(outcome.is_against)
    });
    match printed {
        Ok(false) => ExitCode::SUCCESS,
        Ok(true) => ExitCode::from(1),
        Err(trouble) => {
            eprintln!("{trouble}");
            ExitCode::from(2)
        }
    }
}

/// Does what the arguments ask for, or says why it cannot.
fn run(arguments: &[OsString]) -> Result<Outcome, String> {
    let words: Vec<&str> = arguments
        .iter()
        .map(|argument| argument.to_str().unwrap_or_default())
        .collect();
    match words[..] {
        ["report"] => Ok(Outcome::answer(Report::new(&input()?).to_string())),
        ["ends"] => Ok(Outcome::answer(answered(ends_text(&input()?)))),
        ["ask", p, q] => {
            let (p, q) = (number(p)?, number(q)?);
            Ok(Outcome::answer(answered(ask_text(&input()?, p, q))))
        }
        ["text"] => {
            let sheet = read_sheet(&input()?)?;
            Ok(Outcome::answer(text::write(&sheet)))
        }
        ["sheet"] => {
            let text = String::from_utf8_lossy(&input()?).into_owned();
            let sheet = text::read(&text).map_err(|error| error.to_string())?;
            Ok(Outcome::answer(file::write(&sheet)))
        }
        ["check", p, q, _] => {
            let (p, q) = (number(p)?, number(q)?);
            check_plan(&file_bytes(&arguments[3])?, p, q)
        }
        ["times", p, q, _] => {
            let (p, q) = (number(p)?, number(q)?);
            let sheet = file_bytes(&arguments[3])?;
            Ok(held(calls::check_times_of(&sheet, p, q, &numbers()?)))
        }
        ["arcs", p, q, _] => {
            let (p, q) = (number(p)?, number(q)?);
            let sheet = file_bytes(&arguments[3])?;
            Ok(held(calls::check_arcs_of(&sheet, p, q, &numbers()?)))
        }
        ["judge", _] => {
            let sheet = file_bytes(&arguments[1])?;
            Ok(Outcome::verdict("right", judge::judge(&sheet, &input()?)))
        }
        ["generate", seed, index] => {
            let (seed, index) = (number(seed)?, number(index)?);
            Ok(Outcome::answer(generate::file(seed, index)))
        }
        _ => Err(format!("no such use\n{USAGE}")),
    }
}

/// An answer as it is printed, which a refusal is too.
fn answered(answer: Result<String, String>) -> String {
    answer.unwrap_or_else(|refusal| refusal + "\n")
}

/// The sheet in a file, or the words and place of its refusal.
fn read_sheet(bytes: &[u8]) -> Result<Sheet, String> {
    file::read(report::judged(bytes)).map_err(|refused| refused.to_string())
}

/// The cycle time p/q, or the words of its refusal, which has no place.
fn cycle_time(p: u64, q: u64) -> Result<CycleTime, String> {
    CycleTime::within_limits(p, q).map_err(|refusal| refusal.to_string())
}

fn ends_text(bytes: &[u8]) -> Result<String, String> {
    let sheet = read_sheet(bytes)?;
    Ok(match ends::find(&Net::new(&sheet)) {
        Ends::Found(found) => found.to_string(),
        Ends::None(none) => none.to_string(),
    })
}

fn ask_text(bytes: &[u8], p: u64, q: u64) -> Result<String, String> {
    let sheet = read_sheet(bytes)?;
    let time = cycle_time(p, q)?;
    Ok(match ask::ask(&Net::new(&sheet), time) {
        Answer::Accepted { plan, rounds } => {
            let times = report::by_position(&plan, sheet.n());
            format!("accepted {rounds}\n{}", report::time_lines(&times))
        }
        Answer::Refuted { circuit } => {
            format!("refuted {}\n{}", circuit.len(), report::arc_lines(&circuit))
        }
    })
}

/// What is said of a proposal; a refusal is an answer, and no verdict.
fn held(answered: Answered) -> Outcome {
    Outcome {
        output: format!("{answered}\n").into(),
        is_against: answered.number > 100,
    }
}

/// Checks the plan on standard input.
fn check_plan(bytes: &[u8], p: u64, q: u64) -> Result<Outcome, String> {
    let sheet = read_sheet(bytes)?;
    let time = cycle_time(p, q)?;
    let checked: Result<(), Fault> = check::is_earliest(&sheet, time, &numbers()?);
    Ok(Outcome::verdict("earliest", checked))
}

/// The numbers on standard input, parted by any white space.
fn numbers<T: std::str::FromStr>() -> Result<Vec<T>, String> {
    let text = String::from_utf8_lossy(&input()?).into_owned();
    text.split_whitespace().map(number).collect()
}

fn input() -> Result<Vec<u8>, String> {
    let mut bytes = Vec::new();
    io::stdin()
        .lock()
        .read_to_end(&mut bytes)
        .map_err(|error| format!("standard input: {error}"))?;
    Ok(bytes)
}

fn file_bytes(path: &OsStr) -> Result<Vec<u8>, String> {
    fs::read(path).map_err(|error| format!("{}: {error}", path.to_string_lossy()))
}

fn number<T: std::str::FromStr>(word: &str) -> Result<T, String> {
    word.parse()
        .map_err(|_| format!("{word:?} is not a number that fits here\n{USAGE}"))
}

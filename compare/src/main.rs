//! Compares the proved calls with the second program at the command line.
//!
//! It ends with 0 where both agree, with 1 after a difference, which it shows, and with
//! 2 where there is nothing to compare.

#![forbid(unsafe_code)]

use std::env;
use std::fs;
use std::io;
use std::process::ExitCode;

use compare::archive;
use compare::comparison::Comparison;
use compare::hand;
use compare::kind::Kind;
use compare::spoilt;
use compare::stack;
use compare::tried::{self, Tried};

const USAGE: &str = "\
usage: compare KIND SEED COUNT      with the second program, on many inputs
       compare spoilt SHEET..       reader and report, on every cut and change of sheets
       compare hand                 the sheets tried by hand
       compare stack [KIND KIB]     on the largest sheets, in the stack stated or given
KIND   reader, writer, ask, ends, host, report, times, arcs, checker; with SEED and COUNT
       also all that there are
SEED   the number that settles the inputs
COUNT  how many inputs of each kind
SHEET  a sheet file";

/// What the arguments ask for.
struct Order {
    comparisons: Vec<Comparison>,
    seed: u64,
    count: u64,
}

fn main() -> ExitCode {
    let arguments: Vec<String> = env::args_os()
        .skip(1)
        .map(|word| word.to_string_lossy().into_owned())
        .collect();
    let words: Vec<&str> = arguments.iter().map(String::as_str).collect();
    let done = match words[..] {
        ["hand"] => Ok(show(&hand::run(&archive::CALLS))),
        ["stack"] => tried(stack::run(&archive::CALLS)),
        ["stack", kind, kib] => in_stack(kind, kib),
        ["spoilt", ref sheets @ ..] => on_spoilt(sheets),
        _ => order(&arguments).map(|order| run(&order)),
    };
    done.unwrap_or_else(|trouble| {
        eprintln!("compare: {trouble}\n{USAGE}");
        ExitCode::from(2)
    })
}

/// Compares on these sheets, each spoilt in every way.
fn on_spoilt(sheets: &[&str]) -> Result<ExitCode, String> {
    if sheets.is_empty() {
        return Err("no sheet to spoil".to_owned());
    }
    for path in sheets {
        let sheet = fs::read(path).map_err(|error| format!("{path}: {error}"))?;
        let comparison = |kind| spoilt::Comparison::new(kind, &archive::CALLS);
        for comparison in Kind::ALL.into_iter().filter_map(comparison) {
            match comparison.run(&sheet) {
                Ok(tally) => println!("{path}: {tally}"),
                Err((spoilt, difference)) => {
                    println!("{path}, {spoilt}: {}: {difference}", comparison.kind());
                    return Ok(ExitCode::from(1));
                }
            }
        }
    }
    Ok(ExitCode::SUCCESS)
}

/// Runs the calls of one kind in so much stack.
fn in_stack(kind: &str, kib: &str) -> Result<ExitCode, String> {
    let kind = named(kind)?;
    let kib = number("stack", kib)? as usize;
    tried(stack::run_one(&archive::CALLS, kind, kib))
}

fn tried(tried: io::Result<Vec<Tried>>) -> Result<ExitCode, String> {
    tried
        .map(|tried| show(&tried))
        .map_err(|error| error.to_string())
}

/// Prints what was tried, and how much of it holds.
fn show(tried: &[Tried]) -> ExitCode {
    for case in tried {
        println!("{case}");
    }
    println!("{}", tried::tally(tried));
    ExitCode::from(u8::from(tried.iter().any(|case| !case.holds)))
}

/// Reads the arguments, or says what is wrong with them.
fn order(arguments: &[String]) -> Result<Order, String> {
    let [kind, seed, count] = match arguments {
        [kind, seed, count] => [kind, seed, count],
        _ => return Err(format!("{} arguments, not 3", arguments.len())),
    };
    Ok(Order {
        comparisons: comparisons(kind)?,
        seed: number("seed", seed)?,
        count: number("count", count)?,
    })
}

/// The comparison of this name, or all that can be made.
fn comparisons(name: &str) -> Result<Vec<Comparison>, String> {
    let comparison = |kind| Comparison::new(kind, &archive::CALLS);
    if name == "all" {
        return Ok(Kind::ALL.into_iter().filter_map(comparison).collect());
    }
    let kind = named(name)?;
    match comparison(kind) {
        Some(comparison) => Ok(vec![comparison]),
        None => Err(format!("this program is built without {kind}")),
    }
}

/// The kind of this name.
fn named(name: &str) -> Result<Kind, String> {
    Kind::from_name(name).ok_or_else(|| format!("no kind \"{name}\""))
}

fn number(what: &str, word: &str) -> Result<u64, String> {
    word.parse()
        .map_err(|_| format!("the {what} \"{word}\" is no number from 0 to 2^64 - 1"))
}

fn run(order: &Order) -> ExitCode {
    println!("seed {}", order.seed);
    for comparison in &order.comparisons {
        match comparison.run(order.seed, order.count) {
            Ok(tally) => println!("{tally}"),
            Err((index, difference)) => {
                println!("{}, index {index}: {difference}", comparison.kind());
                return ExitCode::from(1);
            }
        }
    }
    ExitCode::SUCCESS
}

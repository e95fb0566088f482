//! Measures the proved calls against a plain Rust program. `bench/run` makes a table of
//! what this prints.

#![forbid(unsafe_code)]

mod asks;
mod ours;
mod rows;
mod theirs;
mod time;

use std::env;
use std::process::ExitCode;

use compare::archive;
use second::generate;

use self::rows::{Engine, Row};

const USAGE: &str = "\
usage: bench rows                      the rows of the table, one a line: name, arcs
       bench repeat NAME ENGINE TIMES  asks ours or plain so many times, to be counted
       bench time RUNS                 for each row its name and both median times, in ns
       bench asks SEED COUNT           how many Asks the ends of so many sheets take at the most";

fn main() -> ExitCode {
    let arguments: Vec<String> = env::args().skip(1).collect();
    let words: Vec<&str> = arguments.iter().map(String::as_str).collect();
    match run(&words) {
        Ok(()) => ExitCode::SUCCESS,
        Err(trouble) => {
            eprintln!("bench: {trouble}\n{USAGE}");
            ExitCode::from(2)
        }
    }
}

fn run(words: &[&str]) -> Result<(), String> {
    match words {
        ["rows"] => {
            for mut row in rows::all() {
                row.check()?;
                println!("{} {}", row.name, row.arcs);
            }
        }
        ["repeat", name, engine, times] => {
            let engine = Engine::from_name(engine).ok_or("the engine is ours or plain")?;
            let times = number(times)?;
            let mut row = find(name)?;
            for _ in 0..times {
                row.ask(engine);
            }
        }
        ["time", runs] => {
            let runs = number(runs)?;
            for mut row in rows::all() {
                let (ours, plain) = time::medians(&mut row, runs);
                println!("{} {} {}", row.name, ours.as_nanos(), plain.as_nanos());
            }
        }
        ["asks", seed, count] => {
            let ask = archive::CALLS.ask.ok_or("the archive is without Ask")?;
            let (seed, count) = (number(seed)? as u64, number(count)? as u64);
            let mut most = 0;
            for index in 0..count {
                most = most.max(asks::count(ask, &generate::sheet(seed, index))?);
            }
            println!("{most}");
        }
        _ => return Err("nothing to do".to_owned()),
    }
    Ok(())
}

fn find(name: &str) -> Result<Row, String> {
    rows::all()
        .into_iter()
        .find(|row| row.name == name)
        .ok_or_else(|| format!("no row \"{name}\""))
}

fn number(word: &str) -> Result<usize, String> {
    word.parse().map_err(|_| format!("\"{word}\" is no number"))
}

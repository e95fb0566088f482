//! The rows of the table: one question on one sheet, for both engines.

use bench::sheets::{self, Measured};
use compare::archive::CALLS;

use crate::{ours, theirs};

/// The number answered, and after it the values of which there is but one choice.
pub type Answer = [u64; 6];

/// A question that can be asked again and again.
///
/// That it is behind a pointer keeps the compiler from asking it once for all times.
pub type Question = Box<dyn FnMut() -> Answer>;

/// Who answers.
#[derive(Clone, Copy)]
pub enum Engine {
    /// The proved calls.
    Ours,
    /// The plain Rust program.
    Plain,
}

impl Engine {
    /// The engine of this name.
    pub fn from_name(name: &str) -> Option<Engine> {
        match name {
            "ours" => Some(Engine::Ours),
            "plain" => Some(Engine::Plain),
            _ => None,
        }
    }
}

/// One row.
pub struct Row {
    /// Question and sheet.
    pub name: String,
    /// The arcs of the sheet.
    pub arcs: usize,
    ours: Question,
    plain: Question,
}

impl Row {
    /// Asks once.
    pub fn ask(&mut self, engine: Engine) -> Answer {
        match engine {
            Engine::Ours => (self.ours)(),
            Engine::Plain => (self.plain)(),
        }
    }

    /// Checks that both engines answer the same.
    pub fn check(&mut self) -> Result<(), String> {
        let (ours, plain) = (self.ask(Engine::Ours), self.ask(Engine::Plain));
        if ours == plain {
            Ok(())
        } else {
            Err(format!("{}: ours {ours:?}, plain {plain:?}", self.name))
        }
    }
}

/// All rows that the archive has calls for.
pub fn all() -> Vec<Row> {
    sheets::all().iter().flat_map(of_sheet).collect()
}

fn of_sheet(sheet: &Measured) -> Vec<Row> {
    let row = |question: &str, ours, plain| Row {
        name: format!("{question}-{}", sheet.name),
        arcs: sheet.arcs,
        ours,
        plain,
    };
    let mut rows = vec![row(
        "reader",
        ours::reader(CALLS.read, sheet),
        theirs::reader(sheet),
    )];
    if let Some(call) = CALLS.ask {
        for (question, time) in [
            ("ask-at-low", sheet.at_low()),
            ("ask-below-low", sheet.below_low()),
        ] {
            rows.push(row(
                question,
                ours::ask(call, sheet, time),
                theirs::ask(sheet, time),
            ));
        }
    }
    if let Some(call) = CALLS.ends {
        rows.push(row("ends", ours::ends(call, sheet), theirs::ends(sheet)));
    }
    rows
}

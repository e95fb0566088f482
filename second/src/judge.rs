//! Judging a report that another program printed.

use std::fmt;
use std::str;

use crate::check::{self, Fault};
use crate::ends::Ends;
use crate::file;
use crate::report::{judged, NoReport, Report};

/// Why a report is wrong.
#[derive(Clone, Debug, PartialEq, Eq)]
pub enum Wrong {
    /// It is not in the form of a report.
    Form(NoReport),
    /// It says something else where only one thing is right.
    Differs {
        /// What is right.
        right: String,
        /// What it says.
        said: String,
    },
    /// Its circuits do not show what they should.
    Circuits(Fault),
}

impl fmt::Display for Wrong {
    fn fmt(&self, f: &mut fmt::Formatter<'_>) -> fmt::Result {
        match self {
            Wrong::Form(no_report) => no_report.fmt(f),
            Wrong::Differs { right, said } => write!(f, "{said:?} should be {right:?}"),
            Wrong::Circuits(fault) => fault.fmt(f),
        }
    }
}

impl std::error::Error for Wrong {}

/// Judges a report on the bytes of a file.
///
/// Everything in a report is settled by the file but for one thing: "which valid
/// circuit, or which of the two forms of "none", is given".
pub fn judge(bytes: &[u8], report: &[u8]) -> Result<(), Wrong> {
    let said = read(report).map_err(Wrong::Form)?;
    let right = Report::new(bytes);
    same(first_line(&right), first_line(&said))?;
    let claim = match (right, said) {
        (Report::Ends(_, right), Report::Ends(found, said)) => {
            same(right.to_string(), said.to_string())?;
            Ends::Found(found)
        }
        (Report::None(_), Report::None(none)) => Ends::None(none),
        _ => return Ok(()),
    };
    let sheet = file::read(judged(bytes)).expect("what has a report but no refusal is a sheet");
    check::ends(&sheet, &claim).map_err(Wrong::Circuits)
}

fn read(report: &[u8]) -> Result<Report, NoReport> {
    let text = str::from_utf8(report).map_err(|error| {
        let before = &report[..error.valid_up_to()];
        let line_feeds = before.iter().filter(|&&byte| byte == b'\n').count();
        NoReport {
            line: line_feeds + 1,
        }
    })?;
    text.parse()
}

fn first_line(report: &Report) -> String {
    let text = report.to_string();
    text.lines().next().unwrap_or_default().to_owned()
}

fn same(right: String, said: String) -> Result<(), Wrong> {
    if right == said {
        Ok(())
    } else {
        Err(Wrong::Differs { right, said })
    }
}

//! Sheets as text that people can read and write by hand.
//!
//! ```text
//! events 2
//! modes 1
//! order 0          # the mode at each position
//! mode 0
//! 0:2,1=3          # a window, kind:to,from=w
//! 1:2,1=4 2:1,2=2  # or several on a line
//! ```
//!
//! "events", "modes" and "order" come first, in this order. The windows of a mode
//! follow its "mode" line, in any order; a mode without windows need not be
//! mentioned. What follows # is a comment.

use std::fmt;
use std::str::FromStr;

use crate::limits::{self, GREATEST_VALUE, MOST_EVENTS, MOST_MODES, MOST_POSITIONS};
use crate::sheet::Sheet;
use crate::window::Window;

/// What heads every text that is written.
const LEGEND: &str = r#"# A window is kind:to,from=w. By its kind it says:
#   0  "to" comes at least w after "from"
#   1  "to" comes at most w after "from"
#   2  "to" at the next position comes at least w after "from"
#   3  "to" at the next position comes at most w after "from"
"#;

/// What is wrong with a text, and where.
#[derive(Clone, Debug, PartialEq, Eq)]
pub struct TextError {
    /// The line, counted from 1.
    pub line: usize,
    /// The reason.
    pub reason: String,
}

impl fmt::Display for TextError {
    fn fmt(&self, f: &mut fmt::Formatter<'_>) -> fmt::Result {
        write!(f, "line {}: {}", self.line, self.reason)
    }
}

impl std::error::Error for TextError {}

/// The text of a sheet.
pub fn write(sheet: &Sheet) -> String {
    let order: Vec<String> = sheet.schedule().iter().map(u64::to_string).collect();
    let (n, m, order) = (sheet.n(), sheet.m(), order.join(" "));
    let mut text = format!("{LEGEND}events {n}\nmodes {m}\norder {order}\n");
    for mode in 0..m {
        text += &format!("mode {mode}\n");
        text.extend(sheet.windows(mode).map(|window| format!("{window}\n")));
    }
    text
}

/// The sheet of a text.
pub fn read(text: &str) -> Result<Sheet, TextError> {
    let mut lines = Lines {
        text: text.lines(),
        number: 0,
    };
    let mut sheet = read_head(&mut lines)?;
    let mut mode = None;
    for line in lines {
        if let ["mode", number] = line.words[..] {
            mode = Some(line.mode(number, sheet.m())?);
        } else {
            let mode = mode.ok_or_else(|| line.error("a line \"mode 0\" or so is missing"))?;
            for word in &line.words {
                line.put(&mut sheet, mode, word)?;
            }
        }
    }
    Ok(sheet)
}

/// Reads the lines "events", "modes" and "order".
fn read_head(lines: &mut Lines<'_>) -> Result<Sheet, TextError> {
    let events = lines.headed("events")?;
    let n = limits::events(events.only_number()?)
        .map_err(|_| events.error(format!("there are 1 to {MOST_EVENTS} events")))?;
    let modes = lines.headed("modes")?;
    let m = limits::modes(modes.only_number()?)
        .map_err(|_| modes.error(format!("there are 1 to {MOST_MODES} modes")))?;
    let order = lines.headed("order")?;
    let schedule = order
        .words
        .iter()
        .map(|word| Ok(order.mode(word, m)? as u64))
        .collect::<Result<Vec<u64>, TextError>>()?;
    Sheet::without_windows(n, m, &schedule)
        .map_err(|_| order.error(format!("there are 1 to {MOST_POSITIONS} positions")))
}

/// The lines that say something, one after another.
struct Lines<'a> {
    text: std::str::Lines<'a>,
    /// The line read last, counted from 1.
    number: usize,
}

impl<'a> Lines<'a> {
    /// The next line, which must begin with this word; the words after it.
    fn headed(&mut self, head: &str) -> Result<Line<'a>, TextError> {
        let missing = format!("a line {head:?} is missing here");
        let mut line = self.next().ok_or_else(|| TextError {
            line: self.number + 1,
            reason: missing.clone(),
        })?;
        if line.words.remove(0) == head {
            Ok(line)
        } else {
            Err(line.error(missing))
        }
    }
}

impl<'a> Iterator for Lines<'a> {
    type Item = Line<'a>;

    fn next(&mut self) -> Option<Line<'a>> {
        loop {
            let content = self.text.next()?.split('#').next()?;
            self.number += 1;
            let words: Vec<&str> = content.split_whitespace().collect();
            if !words.is_empty() {
                let number = self.number;
                return Some(Line { number, words });
            }
        }
    }
}

/// A line that says something.
struct Line<'a> {
    number: usize,
    words: Vec<&'a str>,
}

impl Line<'_> {
    fn error(&self, reason: impl Into<String>) -> TextError {
        TextError {
            line: self.number,
            reason: reason.into(),
        }
    }

    fn only_number(&self) -> Result<u64, TextError> {
        match self.words[..] {
            [word] => self.parsed(word),
            _ => Err(self.error("there should be one number")),
        }
    }

    fn parsed<T: FromStr>(&self, word: &str) -> Result<T, TextError> {
        word.parse()
            .map_err(|_| self.error(format!("{word:?} is not a number that fits here")))
    }

    fn mode(&self, word: &str, m: usize) -> Result<usize, TextError> {
        let number = self.parsed(word)?;
        limits::mode(number, m)
            .map(|mode| mode as usize)
            .map_err(|_| self.error(format!("mode {number} is not below {m}")))
    }

    /// Puts a window kind:to,from=w on the sheet.
    fn put(&self, sheet: &mut Sheet, mode: usize, word: &str) -> Result<(), TextError> {
        let [kind, to, from, w] = parts(word)
            .ok_or_else(|| self.error(format!("{word:?} is not a window kind:to,from=w")))?;
        let event = |word| {
            let n = sheet.n();
            limits::event(self.parsed(word)?, n)
                .map_err(|_| self.error(format!("event {word} is not 1 to {n}")))
        };
        let window = Window {
            kind: limits::kind(self.parsed(kind)?)
                .map_err(|_| self.error(format!("kind {kind} is above 3")))?,
            to: event(to)?,
            from: event(from)?,
            w: limits::value(self.parsed(w)?)
                .map_err(|_| self.error(format!("{w} is past {GREATEST_VALUE}")))?,
        };
        if sheet
            .window(mode, window.kind, window.to, window.from)
            .is_some()
        {
            return Err(self.error(format!("mode {mode} has {kind}:{to},{from} twice")));
        }
        sheet
            .put(mode, window)
            .map_err(|refusal| self.error(refusal.to_string()))
    }
}

/// The four parts of kind:to,from=w.
fn parts(word: &str) -> Option<[&str; 4]> {
    let (kind, rest) = word.split_once(':')?;
    let (events, w) = rest.split_once('=')?;
    let (to, from) = events.split_once(',')?;
    Some([kind, to, from, w])
}

#[cfg(test)]
mod tests {
    use super::*;
    use crate::file;

    const SAMPLE: &str = "\
events 2 # people
modes 1

order 0
mode 0
2:1,2=2 0:2,1=3
1:2,1=4
";

    #[test]
    fn a_text_becomes_the_sheet_it_describes() {
        let bytes = file::write(&read(SAMPLE).unwrap());
        let sample = "01 02 01 01 00 03 00 02 01 06 01 02 01 08 02 01 02 04";
        let bytes: Vec<String> = bytes.iter().map(|byte| format!("{byte:02x}")).collect();
        assert_eq!(bytes.join(" "), sample);
    }

    #[test]
    fn a_sheet_becomes_a_text() {
        let body = "events 2\nmodes 1\norder 0\nmode 0\n0:2,1=3\n1:2,1=4\n2:1,2=2\n";
        let text = write(&read(SAMPLE).unwrap());
        assert_eq!(text, format!("{LEGEND}{body}"));
        assert_eq!(read(&text), read(SAMPLE));
    }

    #[test]
    fn errors_name_line_and_reason() {
        let head = "events 2\nmodes 2\norder 0 1\n";
        let cases = [
            ("", "line 1: a line \"events\" is missing here"),
            ("modes 1\n", "line 1: a line \"events\" is missing here"),
            (
                "events 2\n# none\n",
                "line 3: a line \"modes\" is missing here",
            ),
            ("events 13\n", "line 1: there are 1 to 12 events"),
            ("events 0\n", "line 1: there are 1 to 12 events"),
            ("events\n", "line 1: there should be one number"),
            (
                "events two\n",
                "line 1: \"two\" is not a number that fits here",
            ),
            ("events 1\nmodes 9", "line 2: there are 1 to 8 modes"),
            (
                "events 1\nmodes 1\norder",
                "line 3: there are 1 to 16 positions",
            ),
            (
                "events 1\nmodes 1\norder 0 1",
                "line 3: mode 1 is not below 1",
            ),
        ];
        for (text, error) in cases {
            assert_eq!(read(text).unwrap_err().to_string(), error);
        }
        let cases = [
            ("0:1,1=0", "line 4: a line \"mode 0\" or so is missing"),
            ("mode 2", "line 4: mode 2 is not below 2"),
            (
                "mode 0\n0:1,1",
                "line 5: \"0:1,1\" is not a window kind:to,from=w",
            ),
            ("mode 0\n4:1,1=0", "line 5: kind 4 is above 3"),
            ("mode 0\n0:3,1=0", "line 5: event 3 is not 1 to 2"),
            ("mode 0\n0:1,0=0", "line 5: event 0 is not 1 to 2"),
            ("mode 0\n0:1,1=-1000001", "line 5: -1000001 is past 1000000"),
            ("mode 0\n0:1,1=0 0:1,1=0", "line 5: mode 0 has 0:1,1 twice"),
        ];
        for (body, error) in cases {
            let text = format!("{head}{body}");
            assert_eq!(read(&text).unwrap_err().to_string(), error);
        }
    }
}

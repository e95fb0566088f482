//! What is shown of two answers that differ.

use std::fmt;

/// A difference between the proved call and the second program, or a fault of the
/// proved call where 01 leaves a choice.
#[derive(Clone, Debug, PartialEq, Eq)]
pub struct Difference {
    /// What differs, in a few words.
    pub what: String,
    /// What both were given.
    pub input: String,
    /// All that the proved call answered and left behind.
    pub proved: String,
    /// What the second program answers.
    pub second: String,
}

impl fmt::Display for Difference {
    fn fmt(&self, f: &mut fmt::Formatter<'_>) -> fmt::Result {
        writeln!(f, "{}", self.what)?;
        writeln!(f, "input: {}", self.input)?;
        writeln!(f, "proved: {}", self.proved)?;
        write!(f, "second: {}", self.second)
    }
}

/// Checks that the number is the one of the second program.
pub fn same_number(number: u32, right: u64) -> Result<(), String> {
    if u64::from(number) == right {
        Ok(())
    } else {
        Err(format!("the number is {number}, not {right}"))
    }
}

/// Puts the name of a buffer before what is wrong with it.
pub fn named<T>(name: &str, checked: Result<T, impl fmt::Display>) -> Result<T, String> {
    checked.map_err(|wrong| format!("{name}: {wrong}"))
}

/// Bytes in hexadecimal, parted by one space as in 01.
pub fn hex(bytes: &[u8]) -> String {
    let digits: Vec<String> = bytes.iter().map(|byte| format!("{byte:02x}")).collect();
    digits.join(" ")
}

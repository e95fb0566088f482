//! Files that are refused, each with its number and its place (02, E1): that of the number
//! that is bad, cut or missing; for 7 that of the record's kind; for 8 that of the first
//! byte too many.

use second::file::{self, LONGEST};

use crate::stack;

/// A file that is refused.
pub struct File {
    /// Its bytes, or words for them.
    pub name: String,
    /// Its bytes.
    pub bytes: Vec<u8>,
    /// The number of the refusal, and the place.
    pub said: &'static str,
}

/// All of them.
pub fn files() -> Vec<File> {
    let mut files: Vec<File> = SHORT.map(short).into();
    files.extend(LONG.into_iter().flat_map(long));
    files
}

/// Bytes as 01 writes them, and what is said of them.
const SHORT: [(&str, &str); 26] = [
    ("", "1 0"),
    ("01 01 01 01 00 02 02 01 01", "1 9"),
    ("01 01 01 01 00 02 02 01 01 80 89", "1 9"),
    ("01 01 01 01 00 02 02 01 01 0a", "1 10"),
    ("81 00", "2 0"),
    ("01 81 80 80 80", "2 1"),
    ("01 01 01 01 00 02 02 01 01 8a 80 00 03 01 01 10", "2 9"),
    ("02", "3 0"),
    ("01 0d 01 01", "4 1"),
    ("01 01 09 01", "4 2"),
    ("01 01 01 11", "4 3"),
    ("01 01 02 03 00 01 02", "5 6"),
    ("01 01 01 01 00 05", "6 5"),
    ("01 01 01 01 00 02 04", "6 6"),
    ("01 01 01 01 00 02 02 02", "6 7"),
    ("01 01 01 01 00 02 02 01 00", "6 8"),
    ("01 01 01 01 00 02 02 01 01 81 89 7a 03 01 01 10", "6 9"),
    ("01 01 01 01 00 02 02 01 01 ff ff ff 7f 03 01 01 10", "6 9"),
    ("01 01 01 01 00 02 03 01 01 10 02 01 01 0a", "7 10"),
    (
        "01 01 01 01 00 02 02 01 01 80 89 7a 02 01 01 80 89 7a",
        "7 12",
    ),
    // records that fall back, and are bad before that is seen
    ("01 01 01 01 00 02 03 01 01 10 02 02 01 0a", "6 11"),
    ("01 01 01 01 00 02 03 01 01 10 02 01 01 82 89 7a", "6 13"),
    ("01 01 01 01 00 02 03 01 01 10 02 01 01 80 00", "2 13"),
    ("01 01 01 01 00 02 03 01 01 10 02 01 01", "1 13"),
    ("01 01 01 01 00 02 02 01 01 0a 03 01 01 10 00", "8 14"),
    ("01 01 01 01 00 00 ff ff ff ff ff ff", "8 6"),
];

/// The last bytes of the longest sheet, in the place of its last record of six bytes, and
/// what is said of it.
///
/// "Of a file over 27,685 bytes the first 27,685 are judged; the answer is the same": the
/// fourth group of the last value is the last byte judged, and no number is cut there.
const LONG: [(&str, &str); 9] = [
    ("03 0c 0c", "1 27681"),
    ("03 0c 0c 80 89", "1 27681"),
    ("03 0c 0c 80 89 fa", "1 27681"),
    ("03 0c 0c 80 89 fa 00", "2 27681"),
    ("03 0c 0c 80 89 fa 80", "2 27681"),
    ("03 0c 0c 81 89 7a", "6 27681"),
    ("03 0c 0c 80 89 fa 01", "6 27681"),
    ("03 0c 0b 80 89 7a", "7 27678"),
    ("03 0c 0c 80 89 7a 00", "8 27684"),
];

fn short((hex, said): (&'static str, &'static str)) -> File {
    File {
        name: format!("file {hex:?}"),
        bytes: bytes(hex),
        said,
    }
}

/// The file, and where it does not stop too early, the file that goes on.
fn long((hex, said): (&'static str, &'static str)) -> Vec<File> {
    let longest = file::write(&stack::longest());
    let whole = [&longest[..LONGEST - 6], &bytes(hex)].concat();
    let name = format!("the longest sheet, at its end {hex}");
    let mut files = Vec::new();
    if !said.starts_with('1') {
        files.push(File {
            name: format!("{name}, and it goes on"),
            bytes: [&whole[..], &[0x80; 10_000]].concat(),
            said,
        });
    }
    files.push(File {
        name,
        bytes: whole,
        said,
    });
    files
}

/// Bytes written as in 01.
fn bytes(hex: &str) -> Vec<u8> {
    let byte = |word| u8::from_str_radix(word, 16).expect("two digits");
    hex.split_whitespace().map(byte).collect()
}

//! What several tests need. Each uses a part of it.
#![allow(dead_code)]

use std::fs;
use std::path::Path;

use second::arc::ArcName;
use second::sheet::Sheet;
use second::text;
use second::window::{Kind, Window};

/// The sheet of these windows, mode by mode, in 01's notation.
pub fn sheet(n: usize, order: &str, modes: &[&str]) -> Sheet {
    let mut text = format!("events {n}\nmodes {}\norder {order}\n", modes.len());
    for (mode, windows) in modes.iter().enumerate() {
        text += &format!("mode {mode}\n{windows}\n");
    }
    text::read(&text).unwrap_or_else(|error| panic!("{error} in\n{text}"))
}

/// The sheet of one mode at one position.
pub fn single(n: usize, windows: &str) -> Sheet {
    sheet(n, "0", &[windows])
}

/// The longest sheet: every window there can be, with values of three groups.
pub fn longest() -> Sheet {
    let mut sheet = Sheet::without_windows(12, 8, &[7; 16]).unwrap();
    for mode in 0..8 {
        for kind in Kind::ALL {
            for (to, from) in (1..=12).flat_map(|to| (1..=12).map(move |from| (to, from))) {
                let w = if kind.is_upper() {
                    1_000_000
                } else {
                    -1_000_000
                };
                sheet.put(mode, Window { kind, to, from, w }).unwrap();
            }
        }
    }
    sheet
}

/// Bytes written as in 01.
pub fn bytes(hex: &str) -> Vec<u8> {
    let byte = |word| u8::from_str_radix(word, 16).unwrap();
    hex.split_whitespace().map(byte).collect()
}

/// Arcs by their four numbers.
pub fn arcs<const COUNT: usize>(numbers: [[u64; 4]; COUNT]) -> Vec<ArcName> {
    numbers.map(ArcName::from).to_vec()
}

/// The file of a sheet of examples/.
pub fn published(name: &str) -> Vec<u8> {
    let examples = Path::new(env!("CARGO_MANIFEST_DIR")).join("../examples");
    fs::read(examples.join(name).with_extension("sheet")).unwrap()
}

/// The sheets of examples/.
pub const PUBLISHED: [&str; 6] = [
    "hoist-ba",
    "hoist-a-alone",
    "hoist-b-alone",
    "example7-ab",
    "example7-ac",
    "philosophers-24133",
];

//! The sheets built from the figures that source document 000 prints.

mod common;

use common::published;
use second::judge;
use second::report::Report;

/// The first line of the report on a sheet of examples/.
fn ends_of(name: &str) -> String {
    let sheet = published(name);
    let report = Report::new(&sheet).to_string();
    assert_eq!(judge::judge(&sheet, report.as_bytes()), Ok(()));
    report.lines().next().unwrap().to_owned()
}

#[test]
fn ends_are_those_in_print() {
    assert_eq!(ends_of("hoist-ba"), "ends 77/1 192/1");
    assert_eq!(ends_of("hoist-a-alone"), "ends 73/1 open");
    assert_eq!(ends_of("hoist-b-alone"), "ends 72/1 192/1");
    assert_eq!(ends_of("example7-ab"), "ends 3/1 3/1");
    assert_eq!(ends_of("example7-ac"), "none");
    assert_eq!(ends_of("philosophers-24133"), "ends 15/2 16/1");
}

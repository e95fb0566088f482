//! The program at the command line.

mod common;

use std::env;
use std::fs;
use std::io::Write;
use std::process::{Command, Stdio};

use common::bytes;
use second::generate;

/// What a run prints on both outputs, and the number it ends with.
#[derive(Debug, PartialEq, Eq)]
struct Run {
    output: String,
    errors: String,
    code: Option<i32>,
}

fn run(arguments: &[&str], input: &[u8]) -> Run {
    let mut child = Command::new(env!("CARGO_BIN_EXE_second"))
        .args(arguments)
        .stdin(Stdio::piped())
        .stdout(Stdio::piped())
        .stderr(Stdio::piped())
        .spawn()
        .unwrap();
    // A program that has no use for its input may have ended already.
    let _ = child.stdin.take().unwrap().write_all(input);
    let output = child.wait_with_output().unwrap();
    Run {
        output: String::from_utf8_lossy(&output.stdout).into_owned(),
        errors: String::from_utf8_lossy(&output.stderr).into_owned(),
        code: output.status.code(),
    }
}

fn assert_prints(arguments: &[&str], input: &[u8], output: &str) {
    let expected = Run {
        output: output.to_owned(),
        errors: String::new(),
        code: Some(0),
    };
    assert_eq!(run(arguments, input), expected);
}

fn assert_trouble(arguments: &[&str], input: &[u8], trouble: &str) {
    let run = run(arguments, input);
    assert_eq!((run.output.as_str(), run.code), ("", Some(2)));
    assert!(run.errors.starts_with(trouble), "{run:?}");
}

fn sample() -> Vec<u8> {
    bytes("01 02 01 01 00 03 00 02 01 06 01 02 01 08 02 01 02 04")
}

/// The path of a file with the sample, of its own for each test.
fn sample_file(test: &str) -> String {
    file_of(test, &sample())
}

/// The path of a file with these bytes, of its own for each name.
fn file_of(name: &str, bytes: &[u8]) -> String {
    let path = env::temp_dir().join(format!("second-{name}-{}.sheet", std::process::id()));
    fs::write(&path, bytes).unwrap();
    path.to_str().unwrap().to_owned()
}

const REPORT: &str = "ends 5/1 open\nlow 2\n0 1 2 1\n2 1 1 2\nplan 1 1\n0 3\n";

#[test]
fn report_and_ends() {
    assert_prints(&["report"], &sample(), REPORT);
    assert_prints(&["report"], &[], "refused 1 0\n");
    let ends = "ends 5/1 open\nlow 2\n0 1 2 1\n2 1 1 2\n";
    assert_prints(&["ends"], &sample(), ends);
    assert_prints(&["ends"], &[2], "refused 3 0\n");
}

#[test]
fn ask() {
    assert_prints(&["ask", "5", "1"], &sample(), "accepted 1\n0 3\n");
    let refuted = "refuted 2\n0 1 2 1\n2 1 1 2\n";
    assert_prints(&["ask", "4", "1"], &sample(), refuted);
    assert_prints(&["ask", "4", "0"], &sample(), "refused 10\n");
    assert_prints(&["ask", "4", "0"], &[1, 13], "refused 4 1\n");
}

#[test]
fn text_and_sheet() {
    let text = run(&["text"], &sample());
    assert_eq!(text.code, Some(0));
    let body = "events 2\nmodes 1\norder 0\nmode 0\n0:2,1=3\n1:2,1=4\n2:1,2=2\n";
    assert!(text.output.ends_with(body));
    let sheet = String::from_utf8(sample()).unwrap();
    assert_prints(&["sheet"], text.output.as_bytes(), &sheet);
    assert_trouble(
        &["sheet"],
        b"events 2\nmodes 0\n",
        "line 2: there are 1 to 8",
    );
    assert_trouble(&["text"], &[1, 1], "refused 1 2\n");
}

#[test]
fn check() {
    let path = sample_file("check");
    let check = |p, q, times: &str| run(&["check", p, q, &path], times.as_bytes());
    assert_eq!(check("5", "1", "0 3").output, "earliest\n");
    let later = check("5", "1", "1 4");
    assert_eq!(later.output, "the time of node 1 could be smaller\n");
    assert_eq!(later.code, Some(1));
    let broken = check("5", "1", "0\n2");
    assert_eq!(broken.output, "the plan breaks the window 0 1 2 1\n");
    assert_eq!(check("5", "1", "0 x").code, Some(2));
    assert_eq!(check("5", "0", "0 3").errors, "refused 10\n");
    fs::remove_file(path).unwrap();
}

#[test]
fn proposals() {
    let path = sample_file("proposals");
    let said = |word, p, q, list: &str| {
        let Run {
            output,
            errors,
            code,
        } = run(&[word, p, q, &path], list.as_bytes());
        assert_eq!(errors, "");
        (output, code)
    };
    let answer = |line: &str, code| (format!("{line}\n"), Some(code));
    let accepted = answer("accepted 0", 0);
    assert_eq!(said("times", "5", "1", "-7\n-4\n"), accepted);
    let broken = answer("broken 102 1 0 2 1", 1);
    assert_eq!(said("times", "5", "1", "0 2"), broken);
    assert_eq!(said("times", "5", "1", "0"), answer("refused 11", 0));
    assert_eq!(said("arcs", "4", "1", "0 1 2 1\n2 1 1 2\n"), accepted);
    let turned = answer("wrong 106", 1);
    assert_eq!(said("arcs", "4", "1", "2 1 1 2 0 1 2 1"), turned);
    assert_eq!(said("arcs", "4", "0", ""), answer("refused 10", 0));
    let not_a_number = "\"256\" is not a number that fits here";
    assert_trouble(&["arcs", "4", "1", &path], b"256 1 2 1", not_a_number);
    fs::remove_file(path).unwrap();
}

#[test]
fn a_file_that_is_no_sheet() {
    let path = file_of("no-sheet", &[1, 2, 9]);
    assert_prints(&["times", "5", "1", &path], b"0 3", "refused 4 2\n");
    assert_prints(&["arcs", "5", "1", &path], b"", "refused 4 2\n");
    assert_trouble(&["check", "5", "1", &path], b"0 3", "refused 4 2\n");
    assert_prints(&["judge", &path], b"refused 4 2\n", "right\n");
    let elsewhere = run(&["judge", &path], b"refused 4 1\n");
    assert_eq!(
        elsewhere.output,
        "\"refused 4 1\" should be \"refused 4 2\"\n"
    );
    assert_eq!(elsewhere.code, Some(1));
    fs::remove_file(path).unwrap();
}

#[test]
fn judge() {
    let path = sample_file("judge");
    assert_prints(&["judge", &path], REPORT.as_bytes(), "right\n");
    let wrong = run(&["judge", &path], b"none\n");
    assert_eq!(wrong.output, "line 2 is not in the form of a report\n");
    assert_eq!(wrong.code, Some(1));
    fs::remove_file(path).unwrap();
    assert_trouble(&["judge", "/no/such/sheet"], &[], "/no/such/sheet: ");
}

#[test]
fn generated_files() {
    let generated = Command::new(env!("CARGO_BIN_EXE_second"))
        .args(["generate", "7", "12"])
        .output()
        .unwrap();
    assert_eq!(generated.stdout, generate::file(7, 12));
}

#[test]
fn wrong_use() {
    let usages: [&[&str]; 6] = [
        &[],
        &["reports"],
        &["report", "x"],
        &["ask", "1"],
        &["judge"],
        &["text", "x"],
    ];
    for arguments in usages {
        assert_trouble(arguments, &[], "no such use\nusage: second report");
    }
    let not_a_number = "\"-1\" is not a number that fits here\nusage:";
    assert_trouble(&["ask", "-1", "1"], &[], not_a_number);
    assert_trouble(&["generate", "-1", "1"], &[], not_a_number);
}

//! The sheet file: refusals in their order, round trips, the longest sheet. Where a file
//! is refused has tests of its own, in places.rs.

mod common;

use common::{bytes, longest};
use second::calls;
use second::file;
use second::generate;
use second::refusal::Refusal;
use second::report::{judged, MOST_JUDGED};
use second::sheet::Sheet;
use second::text;

/// The sheet in a file, or why there is none.
fn read(bytes: &[u8]) -> Result<Sheet, Refusal> {
    file::read(bytes).map_err(|refused| refused.refusal)
}

/// Asserts what the reader makes of each file.
fn assert_refused(refusal: Refusal, files: &[&str]) {
    for hex in files {
        assert_eq!(read(&bytes(hex)), Err(refusal), "{hex}");
    }
}

#[test]
fn a_file_that_stops_is_1() {
    let whole = bytes("01 02 01 01 00 03 00 02 01 06 01 02 01 08 02 01 02 80 01");
    assert!(read(&whole).is_ok());
    for length in 0..whole.len() {
        let refused = read(&whole[..length]);
        assert_eq!(refused, Err(Refusal::FileStops), "{length} bytes");
    }
}

#[test]
fn a_number_in_another_form_is_2_wherever_it_stands() {
    let numbers = "01 02 01 01 00 01 00 02 01 06";
    for place in 0..10 {
        for form in ["80 00", "81 80 00", "80 80 80 80", "FF FF FF FF 01"] {
            let mut numbers: Vec<&str> = numbers.split(' ').collect();
            numbers[place] = form;
            assert_refused(Refusal::NumberForm, &[&numbers.join(" ")]);
        }
    }
}

#[test]
fn a_format_number_other_than_1_is_3() {
    assert_refused(Refusal::Format, &["00", "02", "81 01", "FF FF FF 7F"]);
}

#[test]
fn a_size_past_its_limit_is_4() {
    assert_refused(Refusal::Size, &["01 00", "01 0D", "01 FF FF FF 7F"]);
    assert_refused(Refusal::Size, &["01 0C 00", "01 0C 09", "01 0C 88 80 01"]);
    assert_refused(Refusal::Size, &["01 0C 08 00", "01 0C 08 11"]);
}

#[test]
fn a_mode_not_below_m_is_5() {
    assert_refused(Refusal::Schedule, &["01 01 01 01 01", "01 01 02 02 01 02"]);
    assert_refused(Refusal::Schedule, &["01 01 08 10 00 80 02"]);
}

#[test]
fn a_window_past_a_limit_is_6() {
    let head = "01 02 01 01 00";
    let refused = [
        "11",                   // a count above 4·n²
        "01 04",                // a kind above 3
        "01 00 00",             // "to" below 1
        "01 00 03",             // "to" above n
        "01 00 01 00",          // "from" below 1
        "01 00 01 03",          // "from" above n
        "01 00 01 01 81 89 7A", // -1,000,001 is 2,000,001
        "01 00 01 01 82 89 7A", // 1,000,001 is 2,000,002
        "01 00 01 01 FF FF FF 7F",
    ];
    for rest in refused {
        assert_refused(Refusal::Window, &[&format!("{head} {rest}")]);
    }
    let at_limits = "02 00 01 01 80 89 7A 01 01 01 FF 88 7A";
    let sheet = file::read(&bytes(&format!("{head} {at_limits}"))).unwrap();
    let values: Vec<i32> = sheet.windows(0).map(|window| window.w).collect();
    assert_eq!(values, [1_000_000, -1_000_000]);
}

#[test]
fn records_that_do_not_rise_are_7() {
    let head = "01 02 01 01 00 02";
    for (one, next) in [
        ("00 01 01", "00 01 01"),
        ("00 01 02", "00 01 01"),
        ("00 02 01", "00 01 02"),
        ("01 01 01", "00 02 02"),
    ] {
        let number = |value: &str| bytes(&format!("{head} {one} 00 {next} {value}"));
        assert_eq!(read(&number("00")), Err(Refusal::Rising));
        // "7 follows a record's fourth number": what is wrong with that number,
        // or its absence, comes first.
        assert_eq!(read(&number("")), Err(Refusal::FileStops));
        assert_eq!(read(&number("80 00")), Err(Refusal::NumberForm));
        assert_eq!(read(&number("81 89 7A")), Err(Refusal::Window));
    }
}

#[test]
fn each_mode_rises_by_itself() {
    let sheet = file::read(&bytes("01 01 02 01 00 01 03 01 01 00 01 00 01 01 00"));
    assert!(sheet.is_ok());
}

#[test]
fn bytes_after_the_sheet_are_8() {
    assert_refused(Refusal::Surplus, &["01 01 01 01 00 00 00"]);
    assert_refused(Refusal::Surplus, &["01 01 01 01 00 00 80"]);
}

#[test]
fn short_buffers_are_9_and_come_last() {
    let sheet = bytes("01 02 03 04 00 01 02 00 00 00 00");
    let places = 4 * 3 * 2 * 2;
    assert!(calls::read(&sheet, places, 4).is_ok());
    assert!(calls::read(&sheet, places + 1, 5).is_ok());
    // "the reader's also return the place, 0 for 9"
    let no_room = Err(Refusal::Room.at(0));
    assert_eq!(calls::read(&sheet, places - 1, 4), no_room);
    assert_eq!(calls::read(&sheet, places, 3), no_room);
    let with_surplus = [&sheet[..], &[0]].concat();
    let surplus = Err(Refusal::Surplus.at(sheet.len()));
    assert_eq!(calls::read(&with_surplus, 0, 0), surplus);
}

#[test]
fn the_longest_sheet_has_27_684_bytes() {
    let sheet = longest();
    let bytes = file::write(&sheet);
    assert_eq!(bytes.len(), 27_684);
    assert_eq!(bytes.len(), file::LONGEST);
    assert_eq!(file::read(&bytes), Ok(sheet.clone()));
    assert_eq!(calls::write(sheet.lend(), 27_684), Ok(bytes));
    assert_eq!(calls::write(sheet.lend(), 27_683), Err(Refusal::Room));
}

#[test]
fn sheets_survive_writing_and_reading() {
    for index in 0..500 {
        let sheet = generate::sheet(2, index);
        let bytes = file::write(&sheet);
        assert!(bytes.len() <= file::LONGEST);
        assert_eq!(file::read(&bytes), Ok(sheet));
    }
}

#[test]
fn what_is_read_is_written_alike() {
    for index in 0..2000 {
        let bytes = generate::damaged(3, index);
        if let Ok(sheet) = file::read(&bytes) {
            assert_eq!(file::write(&sheet), bytes);
        }
    }
}

#[test]
fn of_a_longer_file_the_answer_is_the_same() {
    let files = (0..600).map(|index| generate::damaged(4, index));
    let mut longer = 0;
    for bytes in files.filter(|bytes| bytes.len() > MOST_JUDGED) {
        assert_eq!(file::read(&bytes), file::read(judged(&bytes)));
        longer += 1;
    }
    assert!(longer > 20);
}

#[test]
fn sheets_survive_being_text() {
    for index in 0..300 {
        let sheet = generate::sheet(5, index);
        assert_eq!(text::read(&text::write(&sheet)), Ok(sheet));
    }
}

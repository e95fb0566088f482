//! "Say where the sheet is bad" (02, E1): the place of each refusal, by hand and by what
//! it means.

mod common;

use common::{bytes, longest, published, PUBLISHED};
use second::calls;
use second::file;
use second::generate;
use second::judge;
use second::random::Random;
use second::refusal::{PlacedRefusal, Refusal};
use second::report::{judged, Report, MOST_JUDGED};

/// Asserts that these files are refused at the byte behind the mark >, by the reader, and
/// in the report.
fn assert_refused(refusal: Refusal, files: &[&str]) {
    for marked in files {
        let (before, behind) = marked.split_once('>').expect("a mark");
        let place = bytes(before).len();
        let file = bytes(&format!("{before} {behind}"));
        assert_eq!(file::read(&file), Err(refusal.at(place)), "{marked}");
        assert_reported(&file, refusal.at(place));
    }
}

fn assert_reported(file: &[u8], refused: PlacedRefusal) {
    let PlacedRefusal { refusal, place } = refused;
    let line = format!("refused {} {place}\n", refusal.number());
    assert_eq!(Report::new(file).to_string(), line);
    assert_eq!(judge::judge(file, line.as_bytes()), Ok(()));
}

/// n = 2, one mode at one position: what follows is its count.
const HEAD: &str = "01 02 01 01 00";

/// Asserts that files with that head are refused so.
fn assert_refused_behind_head(refusal: Refusal, rests: &[&str]) {
    for rest in rests {
        assert_refused(refusal, &[&format!("{HEAD} {rest}")]);
    }
}

#[test]
fn a_number_that_is_missing_is_at_the_length_of_the_file() {
    assert_refused(Refusal::FileStops, &[">", "01 >", "01 02 >", "01 02 01 >"]);
    let schedules = ["01 02 01 01 >", "01 02 01 02 00 >"];
    assert_refused(Refusal::FileStops, &schedules);
    assert_refused(Refusal::FileStops, &["01 02 02 01 00 00 >"]);
    assert_refused_behind_head(
        Refusal::FileStops,
        &[
            ">",
            "01 >",
            "01 00 >",
            "01 00 01 >",
            "01 00 01 01 >",
            "02 00 01 01 80 89 7A >",
        ],
    );
}

#[test]
fn a_number_that_is_cut_is_at_its_first_group() {
    let in_head = [">81", ">81 80 80", "01 >82", "01 02 01 01 >80 80"];
    assert_refused(Refusal::FileStops, &in_head);
    assert_refused_behind_head(
        Refusal::FileStops,
        &[
            ">81",
            "01 >83 80",
            "01 00 01 01 >80",
            "01 00 01 01 >80 89",
            "01 00 01 01 >80 89 FA",
        ],
    );
}

#[test]
fn a_number_in_another_form_is_at_its_first_group() {
    let in_head = [">81 00", ">81 80 80 00", ">81 80 80 80", ">FF FF FF FF 01"];
    assert_refused(Refusal::NumberForm, &in_head);
    assert_refused(Refusal::NumberForm, &["01 >82 00 01 01 00 00"]);
    assert_refused_behind_head(
        Refusal::NumberForm,
        &[
            ">81 00 00 01 01 00",
            "01 >80 00 01 01 00",
            "01 00 01 01 >80 89 FA 00",
            "01 00 01 01 >80 89 FA 80",
            "01 00 01 01 >80 89 FA 80 01",
            // behind a value of three groups
            "02 00 01 01 80 89 7A >80 00",
        ],
    );
}

#[test]
fn a_format_number_other_than_1_is_at_0() {
    let files = [">00", ">02", ">81 01", ">FF FF FF 7F", ">02 02 01 01 00 00"];
    assert_refused(Refusal::Format, &files);
}

#[test]
fn each_size_past_its_limit_is_at_its_own_number() {
    assert_refused(Refusal::Size, &["01 >00", "01 >0D", "01 >8C 01 01 01"]);
    assert_refused(Refusal::Size, &["01 0C >00", "01 0C >09", "01 0C >88 01"]);
    let positions = ["01 0C 08 >00", "01 0C 08 >11", "01 0C 08 >90 01 00"];
    assert_refused(Refusal::Size, &positions);
}

#[test]
fn a_mode_not_below_m_is_at_its_own_number() {
    let files = [
        "01 01 01 01 >01",
        "01 01 02 03 >02 00 00",
        "01 01 02 03 00 >02 00",
        "01 01 02 03 00 01 >02",
        "01 01 08 10 00 >80 02 00",
    ];
    assert_refused(Refusal::Schedule, &files);
}

#[test]
fn each_number_of_a_window_past_its_limit_is_at_its_own_place() {
    assert_refused_behind_head(
        Refusal::Window,
        &[
            // a count above 4·n²
            ">11",
            ">90 01 00",
            // a kind above 3
            "01 >04 01 01 00",
            "01 >80 01",
            // "to" not 1..n
            "01 00 >00 01 00",
            "01 00 >03",
            // "from" not 1..n
            "01 00 01 >00 00",
            "01 00 01 >03",
            // a value past its limit, in three groups and in four
            "01 00 01 01 >81 89 7A",
            "01 00 01 01 >82 89 7A 00",
            "01 00 01 01 >FF FF FF 7F",
            // the same in the record after one with a value of three groups
            "02 00 01 01 80 89 7A >04",
            "02 00 01 01 80 89 7A 01 >03",
            "02 00 01 01 80 89 7A 01 01 >00",
            "02 00 01 01 80 89 7A 01 01 01 >82 89 7A",
        ],
    );
    // the second mode's count, where there is no record to be seen
    assert_refused(Refusal::Window, &["01 01 02 01 00 00 >05"]);
    // a count of two groups: 145, with n = 6
    assert_refused(Refusal::Window, &["01 06 01 01 00 >91 01"]);
}

#[test]
fn records_that_do_not_rise_are_at_the_kind_of_the_second() {
    assert_refused_behind_head(
        Refusal::Rising,
        &[
            "02 00 01 01 00 >00 01 01 00",
            "02 00 02 01 00 >00 01 02 00",
            "02 01 01 01 00 >00 02 02 00",
            // with values of three groups before it and in it
            "02 00 01 01 80 89 7A >00 01 01 80 89 7A",
            // the third record, and what follows it does not matter
            "03 00 01 01 00 00 01 02 00 >00 01 01 00 FF",
        ],
    );
    let of_second_mode = "01 01 02 01 00 01 03 01 01 00 02 03 01 01 00 >02 01 01 00";
    assert_refused(Refusal::Rising, &[of_second_mode]);
}

#[test]
fn what_is_wrong_in_a_record_comes_before_that_it_does_not_rise() {
    let before = "02 01 01 01 00";
    let falling = |rest: &str| format!("{HEAD} {before} 00 {rest}");
    assert_refused(Refusal::Window, &[&falling(">03 01 00")]);
    assert_refused(Refusal::Window, &[&falling("01 >00 00")]);
    assert_refused(Refusal::Window, &[&falling("01 01 >81 89 7A")]);
    assert_refused(Refusal::NumberForm, &[&falling("01 01 >80 00")]);
    assert_refused(Refusal::FileStops, &[&falling("01 01 >80")]);
    assert_refused(Refusal::FileStops, &[&falling("01 01 >")]);
}

#[test]
fn surplus_is_at_its_first_byte() {
    let files = [
        "01 01 01 01 00 00 >00",
        "01 01 01 01 00 00 >80",
        "01 01 01 01 00 00 >FF FF FF FF FF",
        "01 01 01 01 00 01 00 01 01 80 89 7A >01 00 01 01 00",
    ];
    assert_refused(Refusal::Surplus, &files);
    let many = " 01".repeat(30_000);
    assert_refused(Refusal::Surplus, &[&format!("01 01 01 01 00 00 >{many}")]);
}

#[test]
fn too_little_room_is_at_0_and_comes_after_the_file() {
    let sheet = published("hoist-ba");
    let no_room = Err(Refusal::Room.at(0));
    assert_eq!(calls::read(&sheet, 4 * 2 * 12 * 12 - 1, 2), no_room);
    assert_eq!(calls::read(&sheet, 4 * 2 * 12 * 12, 1), no_room);
    let with_surplus = [&sheet[..], &[0]].concat();
    let surplus = Err(Refusal::Surplus.at(sheet.len()));
    assert_eq!(calls::read(&with_surplus, 0, 0), surplus);
    let cut = Err(Refusal::FileStops.at(100));
    assert_eq!(calls::read(&sheet[..100], 0, 0), cut);
}

/// Where the longest sheet ends, where its last number begins, the value of the last
/// record, and where that record does.
const END: usize = 27_684;
const LAST_NUMBER: usize = END - 3;
const LAST_RECORD: usize = LAST_NUMBER - 3;

/// Asserts that a file is refused so, whatever number of bytes follows.
fn assert_refused_however_long(file: &[u8], refused: PlacedRefusal) {
    for more in [0, 1, 2, 10_000] {
        for filler in [0x00, 0x01, 0x80, 0xff] {
            let mut longer = file.to_vec();
            longer.resize(file.len() + more, filler);
            assert_eq!(file::read(&longer), Err(refused));
            assert_eq!(file::read(judged(&longer)), Err(refused));
            assert_reported(&longer, refused);
        }
    }
}

#[test]
fn the_greatest_place_is_that_of_the_last_byte_judged() {
    let mut file = file::write(&longest());
    assert_eq!(file.len(), END);
    file.push(0);
    assert_eq!(file.len(), MOST_JUDGED);
    assert_refused_however_long(&file, Refusal::Surplus.at(END));
}

#[test]
fn no_number_is_cut_where_judging_ends() {
    // The last number of the longest sheet, drawn out to four groups: the fourth is the
    // last byte that is judged, and it is enough.
    let mut file = file::write(&longest());
    file[END - 1] |= 0x80;
    for (fourth, refusal) in [
        (0x00, Refusal::NumberForm),
        (0x80, Refusal::NumberForm),
        (0xff, Refusal::NumberForm),
        (0x01, Refusal::Window),
        (0x7f, Refusal::Window),
    ] {
        file.truncate(END);
        assert_eq!(file::read(&file), Err(Refusal::FileStops.at(LAST_NUMBER)));
        file.push(fourth);
        assert_refused_however_long(&file, refusal.at(LAST_NUMBER));
    }
}

#[test]
fn the_longest_sheet_is_refused_near_its_end() {
    let file = file::write(&longest());
    for length in LAST_NUMBER..END {
        let cut = file::read(&file[..length]);
        assert_eq!(cut, Err(Refusal::FileStops.at(LAST_NUMBER)));
    }
    let mut past_limit = file.clone();
    past_limit[END - 1] = 0x7f;
    assert_refused_however_long(&past_limit, Refusal::Window.at(LAST_NUMBER));
    let mut twice = file;
    twice.copy_within(LAST_RECORD - 6..LAST_RECORD, LAST_RECORD);
    assert_refused_however_long(&twice, Refusal::Rising.at(LAST_RECORD));
}

#[test]
fn generated_files_are_refused_where_judging_ends() {
    let files = (0..600).map(|index| generate::damaged(4, index));
    let longer = files.filter(|file| file.len() > MOST_JUDGED);
    let refused: Vec<_> = longer.filter_map(|file| file::read(&file).err()).collect();
    for near_end in [
        Refusal::Surplus.at(END),
        Refusal::NumberForm.at(LAST_NUMBER),
        Refusal::Window.at(LAST_NUMBER),
    ] {
        assert!(refused.contains(&near_end), "{near_end}");
    }
}

/// Where the numbers of a file begin, by the mark on every group but a number's last.
fn starts(file: &[u8]) -> Vec<usize> {
    let is_last = |&place: &usize| file[place] < 0x80;
    let behind = (0..file.len()).filter(is_last).map(|place| place + 1);
    let mut starts: Vec<usize> = [0].into_iter().chain(behind).collect();
    starts.pop();
    starts
}

#[test]
fn published_sheets_that_are_cut_stop_at_the_number_that_is_cut() {
    for sheet in PUBLISHED.map(published) {
        let starts = starts(&sheet);
        for length in 0..sheet.len() {
            let last = starts.iter().rev().find(|&&start| start <= length);
            let refused = Refusal::FileStops.at(*last.unwrap());
            assert_eq!(file::read(&sheet[..length]), Err(refused), "{length} bytes");
        }
    }
}

#[test]
fn each_number_of_published_sheets_is_refused_at_its_own_place() {
    for sheet in PUBLISHED.map(published) {
        let starts = starts(&sheet);
        let ends = starts.iter().skip(1).copied().chain([sheet.len()]);
        let positions = usize::from(sheet[3]);
        for (index, (&start, end)) in starts.iter().zip(ends).enumerate() {
            let with = |number: &[u8]| [&sheet[..start], number, &sheet[end..]].concat();
            let not_shortest = file::read(&with(&[0x81, 0x00]));
            assert_eq!(not_shortest, Err(Refusal::NumberForm.at(start)));
            // past every limit, whatever number it stands for
            let greatest = file::read(&with(&[0xff, 0xff, 0xff, 0x7f]));
            let refusal = match index {
                0 => Refusal::Format,
                1..=3 => Refusal::Size,
                _ if index < 4 + positions => Refusal::Schedule,
                _ => Refusal::Window,
            };
            assert_eq!(greatest, Err(refusal.at(start)));
        }
    }
}

/// Files that are refused, with what the reader says: the generator's damaged ones, and
/// the published sheets with any byte another.
fn refused_files() -> Vec<(Vec<u8>, PlacedRefusal)> {
    let damaged = (0..3000).map(|index| generate::damaged(6, index));
    let changed = PUBLISHED.map(published).into_iter().flat_map(changed);
    damaged
        .chain(changed)
        .filter_map(|file| {
            let refused = file::read(&file).err()?;
            Some((file, refused))
        })
        .collect()
}

/// A sheet with each byte as every other.
fn changed(sheet: Vec<u8>) -> impl Iterator<Item = Vec<u8>> {
    let places = (0..sheet.len()).flat_map(|place| (1..=255).map(move |other| (place, other)));
    places.map(move |(place, other)| {
        let mut file = sheet.clone();
        file[place] ^= other;
        file
    })
}

#[test]
fn up_to_its_place_nothing_of_a_file_is_refused() {
    let mut counts = [0; 9];
    for (file, refused) in refused_files() {
        let before = file::read(&file[..refused.place]);
        if refused.refusal == Refusal::Surplus {
            assert!(before.is_ok(), "{file:?}");
        } else {
            let missing = Refusal::FileStops.at(refused.place);
            assert_eq!(before, Err(missing), "{file:?}");
        }
        counts[refused.refusal.number() as usize] += 1;
    }
    assert!(counts[1..].iter().all(|&count| count > 100), "{counts:?}");
}

/// How many bytes from its place on settle a refusal: a number's groups; the four numbers
/// of a record; one byte too many.
fn settling(refusal: Refusal) -> std::ops::RangeInclusive<usize> {
    match refusal {
        Refusal::NumberForm => 2..=4,
        Refusal::Rising => 4..=6,
        Refusal::Surplus => 1..=1,
        _ => 1..=4,
    }
}

#[test]
fn behind_what_is_refused_nothing_matters() {
    let mut random = Random::new(7, 0);
    for (file, refused) in refused_files() {
        let PlacedRefusal { refusal, place } = refused;
        if refusal == Refusal::FileStops {
            continue;
        }
        let mut lengths = place..=file.len();
        let settled = lengths.find(|&length| file::read(&file[..length]) == Err(refused));
        let settled = settled.expect("the whole file is refused so");
        assert!(settling(refusal).contains(&(settled - place)), "{file:?}");
        for more in [0, 1, 3, 20] {
            let mut other = file[..settled].to_vec();
            other.extend((0..more).map(|_| random.bits() as u8));
            assert_eq!(file::read(&other), Err(refused), "{file:?}");
        }
    }
}

#[test]
fn a_file_that_stops_is_refused_no_earlier_when_it_goes_on() {
    let mut random = Random::new(8, 0);
    for (file, refused) in refused_files() {
        if refused.refusal != Refusal::FileStops {
            continue;
        }
        for more in [1, 3, 20] {
            let mut longer = file.clone();
            longer.extend((0..more).map(|_| random.bits() as u8));
            if let Err(later) = file::read(&longer) {
                // a record may turn out not to rise whose value is what was missing
                let is_record = later.refusal == Refusal::Rising;
                let back = if is_record { 3 } else { 0 };
                assert!(later.place + back >= refused.place, "{longer:?}");
            }
        }
    }
}

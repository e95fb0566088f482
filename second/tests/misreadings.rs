//! "Misreadings to shut out": each is carried out and gives another answer.

mod common;

use common::{sheet, single};
use second::arc::{Arc, Net};
use second::ask::{self, Answer};
use second::calls;
use second::cycle_time::CycleTime;
use second::ends::{self, Span};
use second::file;
use second::fraction::Fraction;
use second::generate;
use second::rounds;
use second::sheet::Sheet;

fn span(net: &Net) -> Option<Span> {
    ends::find(net).span()
}

fn whole(number: i64) -> Fraction {
    Fraction::lowest(number, 1)
}

/// "Taking kinds 2 and 3 from the mode at h+1."
fn with_kinds_2_and_3_of_the_next_mode(sheet: &Sheet) -> Net {
    let mut net = Net::new(sheet);
    net.arcs.clear();
    for position in 1..=sheet.v() {
        let here = sheet.mode_at(position);
        let next = sheet.mode_at(sheet.next_position(position));
        let here = sheet.windows(here).filter(|w| !w.kind.reaches_next());
        let next = sheet.windows(next).filter(|w| w.kind.reaches_next());
        let arcs = here.chain(next).map(|w| Arc::new(sheet, position, w));
        net.arcs.extend(arcs);
    }
    net
}

#[test]
fn kinds_2_and_3_belong_to_the_mode_at_h() {
    let sheet = sheet(1, "0 1", &["2:1,1=3", "2:1,1=4 3:1,1=6"]);
    let time = CycleTime { p: 7, q: 1 };
    let plan = |net: &Net| ask::earliest_plan(net, time).unwrap();
    assert_eq!(plan(&Net::new(&sheet)), [0, 3]);
    assert_eq!(plan(&with_kinds_2_and_3_of_the_next_mode(&sheet)), [0, 4]);
}

#[test]
fn kinds_2_and_3_of_the_next_mode_would_move_an_end() {
    let sheet = sheet(2, "0 1", &["2:1,1=0 2:2,1=3", "0:2,1=9 2:1,2=4"]);
    assert_eq!(span(&Net::new(&sheet)).unwrap().low, whole(9 + 4));
    let misread = with_kinds_2_and_3_of_the_next_mode(&sheet);
    assert_eq!(span(&misread).unwrap().low, whole(4 + 3));
}

/// "Dropping kinds 1 and 3."
fn without_upper_limits(sheet: &Sheet) -> Net {
    let mut net = Net::new(sheet);
    net.arcs.retain(|arc| arc.name.kind % 2 == 0);
    net
}

#[test]
fn without_upper_limits_high_would_be_open() {
    let sheet = single(1, "2:1,1=5 3:1,1=8");
    assert_eq!(span(&Net::new(&sheet)).unwrap().high, Some(whole(8)));
    assert_eq!(span(&without_upper_limits(&sheet)).unwrap().high, None);
}

#[test]
fn wherever_there_are_ends_high_would_be_open() {
    let sheets = (0..400).map(|index| generate::sheet(11, index));
    for sheet in sheets.filter(|sheet| sheet.nodes() <= 30) {
        if span(&Net::new(&sheet)).is_some() {
            assert_eq!(span(&without_upper_limits(&sheet)).unwrap().high, None);
        }
    }
}

#[test]
fn an_end_is_not_rounded_up() {
    // "5/2 is not 3": there is a plan at 5/2, and none at 3 if 5/2 is high.
    let low = single(2, "2:1,2=2 2:2,1=3");
    let high = single(2, "3:1,2=2 3:2,1=3");
    let five_halves = Fraction { top: 5, bottom: 2 };
    assert_eq!(span(&Net::new(&low)).unwrap().low, five_halves);
    assert_eq!(span(&Net::new(&high)).unwrap().high, Some(five_halves));
    let works = |sheet: &Sheet, p, q| {
        let answer = calls::ask(sheet.lend(), p, q, 2, 8);
        matches!(answer, Ok(Answer::Accepted { .. }))
    };
    assert!(works(&low, 5, 2) && works(&low, 3, 1));
    assert!(works(&high, 5, 2) && !works(&high, 3, 1));
}

#[test]
fn a_lower_limit_above_its_upper_limit_is_no_bad_sheet() {
    let sheet = single(2, "0:2,1=6 1:2,1=5");
    let bytes = file::write(&sheet);
    assert_eq!(file::read(&bytes), Ok(sheet.clone()));
    assert_eq!(calls::write(sheet.lend(), bytes.len()), Ok(bytes));
    assert_eq!(span(&Net::new(&sheet)), None);
}

/// "Updating the table while a round still reads it."
fn settle_in_place(net: &Net, time: CycleTime) -> Option<(usize, Vec<i64>)> {
    let mut table = vec![0; net.nodes];
    for round in 0..net.nodes {
        let before = table.clone();
        for arc in &net.arcs {
            table[arc.arrives] = table[arc.arrives].max(table[arc.leaves] + arc.weight(time));
        }
        if table == before {
            return Some((round, table));
        }
    }
    None
}

#[test]
fn every_round_reads_only_the_table_before_it() {
    let net = Net::new(&single(3, "0:2,1=1 0:3,2=1"));
    let time = CycleTime { p: 0, q: 1 };
    let plan = vec![0, 1, 2];
    assert_eq!(rounds::settle(&net, time), Some((2, plan.clone())));
    assert_eq!(settle_in_place(&net, time), Some((1, plan)));
}

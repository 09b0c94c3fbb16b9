//! R9: record S with other line ends, under the usual rules and under the strict line end.

mod common;

use common::{cells_of_s, counts_of_s, placed, replaced, s};
use seambeacon::{Characteristic, Placing, Refusal, Rewritten, Rules};

const CELL: i64 = -987_654_321;

/// The text without those carriage returns that stand at or behind a place.
fn without_returns(text: &[u8], from: usize) -> Vec<u8> {
    (0..text.len()).filter(|&i| i < from || text[i] != b'\r').map(|i| text[i]).collect()
}

/// The text with another carriage return beside the one at a place.
fn doubled(text: &[u8], at: usize) -> Vec<u8> {
    assert_eq!(text[at], b'\r');
    [&text[..at], b"\r", &text[at..]].concat()
}

/// Every question about the record that a text begins with is answered as about S, but for the place behind it.
fn answered_as_s(rules: Rules, text: &[u8]) {
    let (next, cells) = (text.len(), cells_of_s());
    assert_eq!(placed(rules, text, 0), Ok((Placing::Placed { next }, counts_of_s())));
    for (group, want) in [(1, &cells[..4]), (2, &[]), (3, &cells[4..23]), (4, &cells[23..]), (60, &[])] {
        let mut table = vec![CELL; want.len() + 1];
        assert_eq!(seambeacon::read_group(rules, text, 0, group, &mut table), Ok(want.len()));
        assert_eq!((&table[..want.len()], table[want.len()]), (want, CELL));
    }
    assert_eq!(seambeacon::characteristic(rules, text, 0, 1), Ok(Characteristic::Value(7250)));
    assert_eq!(seambeacon::characteristic(rules, text, 0, 2), Ok(Characteristic::NotReported));
    let listed = format!("1 0 {next} 0 0 3 5\nend 1 {next} 1 0\n");
    let mut out = [0; 100];
    assert_eq!(seambeacon::list(rules, text, &mut out), Ok(listed.len()));
    assert_eq!(&out[..listed.len()], listed.as_bytes());
    let (mut table, mut out) = ([0; 24], [0; 305]);
    assert_eq!(seambeacon::rewrite_record(rules, text, 0, &mut table, &mut out), Ok(Rewritten { bytes: 305, next }));
    assert_eq!((&table[..], &out[..]), (&cells[..], &s()[..]));
    let mut table = [CELL; 25];
    assert_eq!(seambeacon::read_record(rules, text, 0, &mut table), Ok(24));
    assert_eq!((&table[..24], table[24]), (&cells[..], CELL));
}

/// No record is placed, for this reason; the listing tells it by its number.
fn not_placed(rules: Rules, text: &[u8], why: Refusal) {
    let (mut table, mut out) = ([CELL; 30], [1; 400]);
    assert_eq!(seambeacon::place(rules, text, 0), Err(why));
    assert_eq!(seambeacon::read_group(rules, text, 0, 4, &mut table), Err(why));
    assert_eq!(seambeacon::group_lines(rules, text, 0, 4), Err(why));
    assert_eq!(seambeacon::characteristic(rules, text, 0, 1), Err(why));
    assert_eq!(seambeacon::rewrite_record(rules, text, 0, &mut table, &mut out), Err(why));
    assert_eq!(seambeacon::read_record(rules, text, 0, &mut table), Err(why));
    assert_eq!((table, out), ([CELL; 30], [1; 400]));
    let listed = format!("end 0 0 {} 0\n", why.number());
    assert_eq!(seambeacon::list(rules, text, &mut out), Ok(listed.len()));
    assert_eq!(&out[..listed.len()], listed.as_bytes());
}

/// S is placed; group 4 is refused for its first line, the others are read.
fn refused_in_group_4(rules: Rules, text: &[u8]) {
    let why = Refusal::BadLine { group: 4, line: 1 };
    let mut table = [CELL; 30];
    assert_eq!(placed(rules, text, 0), Ok((Placing::Placed { next: text.len() }, counts_of_s())));
    assert_eq!(seambeacon::read_group(rules, text, 0, 4, &mut table), Err(why));
    assert_eq!(seambeacon::read_record(rules, text, 0, &mut table), Err(why));
    assert_eq!(table, [CELL; 30]);
    assert_eq!(seambeacon::characteristic(rules, text, 0, 1), Err(why));
    assert_eq!(seambeacon::group_lines(rules, text, 0, 4), Ok(&text[295..]));
    assert_eq!(seambeacon::read_group(rules, text, 0, 3, &mut table), Ok(19));
}

#[test]
fn with_carriage_returns() {
    answered_as_s(Rules::default(), &s());
    answered_as_s(Rules::strict(), &s());
}

/// Five lines, so five bytes fewer.
#[test]
fn without_carriage_returns() {
    let text = without_returns(&s(), 0);
    assert_eq!(text.len(), 300);
    answered_as_s(Rules::default(), &text);
    not_placed(Rules::strict(), &text, Refusal::Misformed);
    assert_eq!(seambeacon::group_lines(Rules::default(), &text, 0, 4), Ok(&b"   7.250\n"[..]));
}

#[test]
fn with_the_carriage_returns_of_the_index_alone() {
    let text = without_returns(&s(), 244);
    assert_eq!(text.len(), 302);
    answered_as_s(Rules::default(), &text);
    assert_eq!(placed(Rules::strict(), &text, 0), Ok((Placing::Placed { next: 302 }, counts_of_s())));
    for group in [1, 3, 4] {
        let mut table = [CELL; 30];
        assert_eq!(seambeacon::read_group(Rules::strict(), &text, 0, group, &mut table), Err(Refusal::BadLine { group, line: 1 }));
        assert_eq!(table, [CELL; 30]);
    }
}

#[test]
fn without_the_last_carriage_return() {
    let text = without_returns(&s(), 303);
    assert_eq!(text.len(), 304);
    answered_as_s(Rules::default(), &text);
    refused_in_group_4(Rules::strict(), &text);
}

/// R414: under the usual rules the blank stands behind the fields.
#[test]
fn with_a_blank_for_the_last_carriage_return() {
    let text = replaced(&s(), "   7.250\r\n", "   7.250 \n");
    answered_as_s(Rules::default(), &text);
    refused_in_group_4(Rules::strict(), &text);
}

/// One carriage return belongs to the line end, a second one to the content.
#[test]
fn with_two_carriage_returns() {
    for rules in [Rules::default(), Rules::strict()] {
        not_placed(rules, &doubled(&s(), 120), Refusal::Misformed);
        not_placed(rules, &doubled(&s(), 242), Refusal::Misformed);
        refused_in_group_4(rules, &doubled(&s(), 303));
    }
}

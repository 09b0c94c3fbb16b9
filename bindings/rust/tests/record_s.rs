//! Every question on record S and on S twice, at the limits of what may be asked. Expected values are the rules' own numbers for S.

mod common;

use common::{cells_of_s, counts_of_s, placed, replaced, s};
use seambeacon::{Characteristic, Placing, Refusal, Rewritten, Rules};

/// A cell and a byte that are in none of the answers, to see what is kept.
const CELL: i64 = -987_654_321;
const BYTE: u8 = 0xa5;

const NO_NUMBERS: [usize; 4] = [0, 61, 62, usize::MAX];

#[test]
fn a_walk_over_s_twice() {
    let text = s().repeat(2);
    let counts = counts_of_s();
    assert_eq!(placed(Rules::default(), &text, 0), Ok((Placing::Placed { next: 305 }, counts)));
    assert_eq!(placed(Rules::default(), &text, 305), Ok((Placing::Placed { next: 610 }, counts)));
    assert_eq!(seambeacon::place(Rules::default(), &text, 610), Err(Refusal::End));
    for beyond in [611, 612, usize::MAX] {
        assert_eq!(seambeacon::place(Rules::default(), &text, beyond), Err(Refusal::Beyond));
    }
}

#[test]
fn no_text_at_all() {
    assert_eq!(seambeacon::place(Rules::default(), &[], 0), Err(Refusal::End));
    assert_eq!(seambeacon::place(Rules::default(), &[], 1), Err(Refusal::Beyond));
    assert_eq!(seambeacon::read_group(Rules::default(), &[], 0, 1, &mut []), Err(Refusal::End));
    assert_eq!(seambeacon::read_record(Rules::default(), &[], 0, &mut []), Err(Refusal::End));
    assert_eq!(seambeacon::group_lines(Rules::default(), &[], 0, 1), Err(Refusal::End));
    assert_eq!(seambeacon::characteristic(Rules::default(), &[], 0, 1), Err(Refusal::End));
    assert_eq!(seambeacon::write_record(Rules::default(), &[], &[], &mut []), Err(Refusal::Misformed));
    assert_eq!(seambeacon::list(Rules::default(), &[], &mut []), Err(Refusal::NoRoom));
    assert_eq!(seambeacon::rewrite_record(Rules::default(), &[], 0, &mut [], &mut []), Err(Refusal::End));
}

/// The cells of each group, into tables exact, longer and one short, in both records of S twice.
#[test]
fn groups_into_tables_of_each_length() {
    let text = s().repeat(2);
    let cells = cells_of_s();
    let mut asked = 0;
    for at in [0, 305] {
        for (group, want) in [(1, &cells[..4]), (2, &[]), (3, &cells[4..23]), (4, &cells[23..]), (60, &[])] {
            for more in 0..3 {
                let mut table = vec![CELL; want.len() + more];
                assert_eq!(seambeacon::read_group(Rules::default(), &text, at, group, &mut table), Ok(want.len()));
                assert_eq!(&table[..want.len()], want);
                assert!(table[want.len()..].iter().all(|&cell| cell == CELL));
                asked += 1;
            }
            if !want.is_empty() {
                let mut short = vec![CELL; want.len() - 1];
                assert_eq!(seambeacon::read_group(Rules::default(), &text, at, group, &mut short), Err(Refusal::NoRoom));
                assert!(short.iter().all(|&cell| cell == CELL));
                asked += 1;
            }
        }
    }
    assert_eq!(asked, 2 * (5 * 3 + 3));
}

/// All cells of S, into tables exact, longer, short and empty, in both records of S twice.
#[test]
fn the_whole_record_into_tables_of_each_length() {
    let text = s().repeat(2);
    let cells = cells_of_s();
    for at in [0, 305] {
        for more in 0..3 {
            let mut table = vec![CELL; 24 + more];
            assert_eq!(seambeacon::read_record(Rules::default(), &text, at, &mut table), Ok(24));
            assert_eq!(&table[..24], &cells[..]);
            assert!(table[24..].iter().all(|&cell| cell == CELL));
        }
        for length in [0, 1, 23] {
            let mut short = vec![CELL; length];
            assert_eq!(seambeacon::read_record(Rules::default(), &text, at, &mut short), Err(Refusal::NoRoom));
            assert!(short.iter().all(|&cell| cell == CELL));
        }
    }
    for (at, why) in [(610, Refusal::End), (611, Refusal::Beyond), (usize::MAX, Refusal::Beyond), (1, Refusal::Misformed)] {
        let mut table = [CELL; 30];
        assert_eq!(seambeacon::read_record(Rules::default(), &text, at, &mut table), Err(why));
        assert_eq!(seambeacon::read_record(Rules::default(), &text, at, &mut []), Err(why));
        assert_eq!(table, [CELL; 30]);
    }
}

#[test]
fn numbers_that_are_no_group() {
    let text = s();
    for group in NO_NUMBERS {
        let mut table = [CELL; 30];
        assert_eq!(seambeacon::read_group(Rules::default(), &text, 0, group, &mut table), Err(Refusal::NoSuchNumber));
        assert_eq!(table, [CELL; 30]);
        assert_eq!(seambeacon::group_lines(Rules::default(), &text, 0, group), Err(Refusal::NoSuchNumber));
        // 12 comes before any placing reply
        assert_eq!(seambeacon::read_group(Rules::default(), &text, 1000, group, &mut table), Err(Refusal::NoSuchNumber));
    }
}

/// Two index lines of 122 bytes, then lines of 30, 21 and 10 bytes with their ends.
#[test]
fn lines_are_the_callers_own_text() {
    let text = s().repeat(2);
    let mut asked = 0;
    for at in [0, 305] {
        for (group, start, end) in [(1, 244, 274), (2, 274, 274), (3, 274, 295), (4, 295, 305), (5, 305, 305), (60, 305, 305)] {
            let lines =
                seambeacon::group_lines(Rules::default(), &text, at, group).unwrap_or_else(|why| panic!("group {group} at {at}: {why}"));
            assert_eq!(lines, &text[at + start..at + end]);
            assert_eq!(lines.as_ptr() as usize - text.as_ptr() as usize, at + start);
            asked += 1;
        }
    }
    assert_eq!(asked, 12);
    assert_eq!(seambeacon::group_lines(Rules::default(), &text, 610, 1), Err(Refusal::End));
    assert_eq!(seambeacon::group_lines(Rules::default(), &text, usize::MAX, 1), Err(Refusal::Beyond));
}

#[test]
fn characteristics() {
    let text = s().repeat(2);
    for at in [0, 305] {
        assert_eq!(seambeacon::characteristic(Rules::default(), &text, at, 1), Ok(Characteristic::Value(7250)));
        for number in 2..=49 {
            assert_eq!(seambeacon::characteristic(Rules::default(), &text, at, number), Ok(Characteristic::NotReported));
        }
        for number in [0, 50, usize::MAX] {
            assert_eq!(seambeacon::characteristic(Rules::default(), &text, at, number), Err(Refusal::NoSuchNumber));
        }
    }
    assert_eq!(seambeacon::characteristic(Rules::default(), &text, 610, 1), Err(Refusal::End));
    assert_eq!(seambeacon::characteristic(Rules::default(), &text, 610, 50), Err(Refusal::NoSuchNumber));
}

/// R291: 9999.000 is no reading, nor is 999.900, since characteristic 1 is a frequency.
#[test]
fn no_reading() {
    for (field, want) in [
        ("9999.000", Characteristic::NoReading),
        ("9998.999", Characteristic::Value(9_998_999)),
        ("9999.001", Characteristic::Value(9_999_001)),
        (" 999.900", Characteristic::NoReading),
        (" 999.899", Characteristic::Value(999_899)),
        (" 999.901", Characteristic::Value(999_901)),
        ("-999.900", Characteristic::Value(-999_900)),
        ("   -.500", Characteristic::Value(-500)),
    ] {
        let text = replaced(&s(), "   7.250", field);
        assert_eq!(seambeacon::characteristic(Rules::default(), &text, 0, 1), Ok(want), "{field}");
    }
}

#[test]
fn writing_s_into_outputs_of_each_length() {
    let (text, counts, cells) = (s(), counts_of_s(), cells_of_s());
    for more in 0..3 {
        let mut out = vec![BYTE; text.len() + more];
        assert_eq!(seambeacon::write_record(Rules::default(), &counts, &cells, &mut out), Ok(305));
        assert_eq!(&out[..305], &text[..]);
        assert!(out[305..].iter().all(|&byte| byte == BYTE));
    }
    for length in [0, 1, 304] {
        let mut out = vec![BYTE; length];
        assert_eq!(seambeacon::write_record(Rules::default(), &counts, &cells, &mut out), Err(Refusal::NoRoom));
        assert!(out.iter().all(|&byte| byte == BYTE));
    }
}

/// R382.
const LISTED: &str = "1 0 305 0 0 3 5\n2 305 610 0 0 3 5\nend 2 610 1 0\n";

#[test]
fn listing_s_twice() {
    let text = s().repeat(2);
    for more in 0..3 {
        let mut out = vec![BYTE; LISTED.len() + more];
        assert_eq!(seambeacon::list(Rules::default(), &text, &mut out), Ok(LISTED.len()));
        assert_eq!(&out[..LISTED.len()], LISTED.as_bytes());
        assert!(out[LISTED.len()..].iter().all(|&byte| byte == BYTE));
    }
    let mut out = vec![BYTE; LISTED.len() - 1];
    assert_eq!(seambeacon::list(Rules::default(), &text, &mut out), Err(Refusal::NoRoom));
    assert!(out.iter().all(|&byte| byte == BYTE));
}

/// S has 24 cells and 305 bytes; a field may be spelled otherwise and is written canonically.
#[test]
fn rewriting_s() {
    for (spelled, canonical) in [("   7.250", "   7.250"), ("   -.500", "  -0.500"), ("  -0.000", "   0.000"), ("0007.250", "   7.250")] {
        let text = [s(), replaced(&s(), "   7.250", spelled)].concat();
        let want = replaced(&s(), "   7.250", canonical);
        let mut table = [CELL; 25];
        let mut out = [BYTE; 306];
        let answer = seambeacon::rewrite_record(Rules::default(), &text, 305, &mut table, &mut out);
        assert_eq!(answer, Ok(Rewritten { bytes: 305, next: 610 }));
        assert_eq!(&out[..305], &want[..]);
        assert_eq!((out[305], table[24]), (BYTE, CELL));
        assert_eq!(&table[..23], &cells_of_s()[..23]);
    }
    let mut table = [CELL; 24];
    let mut out = [BYTE; 304];
    assert_eq!(seambeacon::rewrite_record(Rules::default(), &s(), 0, &mut table, &mut out), Err(Refusal::NoRoom));
    assert_eq!((out, table), ([BYTE; 304], [CELL; 24]));
    let mut short = [CELL; 23];
    let mut out = [BYTE; 305];
    assert_eq!(seambeacon::rewrite_record(Rules::default(), &s(), 0, &mut short, &mut out), Err(Refusal::NoRoom));
    assert_eq!((out, short), ([BYTE; 305], [CELL; 23]));
    assert_eq!(seambeacon::rewrite_record(Rules::default(), &s(), 306, &mut table, &mut out), Err(Refusal::Beyond));
}

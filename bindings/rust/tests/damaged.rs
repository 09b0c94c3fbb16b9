//! Record S with damage of each kind: the reply that the rules give, what it leaves, and that other groups and records are as they were.

mod common;

use common::{cells_of_s, counts_of_s, placed, replaced, s};
use seambeacon::{Characteristic, Placing, Refusal, Rules};

const CELL: i64 = -987_654_321;

fn read(text: &[u8], group: usize) -> (Result<usize, Refusal>, Vec<i64>) {
    read_under(Rules::default(), text, group)
}

fn read_under(rules: Rules, text: &[u8], group: usize) -> (Result<usize, Refusal>, Vec<i64>) {
    let mut table = vec![CELL; 30];
    let answer = seambeacon::read_group(rules, text, 0, group, &mut table);
    (answer, table)
}

/// S with `index` in place of the entries of groups 1 to 4, followed by S.
fn with_index(index: &str) -> Vec<u8> {
    [replaced(&s(), "  4  0 19  1", index), s()].concat()
}

#[test]
fn records_that_are_not_placed() {
    let short = &s()[..304];
    let cases = [
        ("S without its last byte", short.to_vec(), Refusal::TooFewLines),
        ("one line feed", b"\r\n".to_vec(), Refusal::TooFewLines),
        ("a letter in the index", with_index("  4  0 1x  1"), Refusal::Misformed),
        ("a minus in the index", with_index("  4 -0 19  1"), Refusal::Misformed),
        ("another release", replaced(&s(), "  5\r\n", "  4\r\n"), Refusal::OtherRelease),
    ];
    for (case, text, why) in cases {
        assert_eq!(seambeacon::place(Rules::default(), &text, 0), Err(why), "{case}");
        assert_eq!(read(&text, 1), (Err(why), vec![CELL; 30]), "{case}");
        assert_eq!(seambeacon::group_lines(Rules::default(), &text, 0, 1), Err(why), "{case}");
        assert_eq!(seambeacon::characteristic(Rules::default(), &text, 0, 1), Err(why), "{case}");
        let (mut table, mut out) = ([CELL; 30], [1; 400]);
        assert_eq!(seambeacon::rewrite_record(Rules::default(), &text, 0, &mut table, &mut out), Err(why), "{case}");
        assert_eq!(seambeacon::read_record(Rules::default(), &text, 0, &mut table), Err(why), "{case}");
        assert_eq!((table, out), ([CELL; 30], [1; 400]), "{case}");
    }
}

/// Number g stands in the columns from 3 * (g - 1), 40 numbers and a line end of two bytes to a line.
#[test]
fn a_vacant_group_with_a_count() {
    for group in [61, 70, 79] {
        let mut text = s();
        text[122 + 3 * (group - 41) + 2] = b'1';
        assert_eq!(seambeacon::place(Rules::default(), &text, 0), Err(Refusal::FilledVacant { group }));
        assert_eq!(read(&text, 1).0, Err(Refusal::FilledVacant { group }));
        assert_eq!(seambeacon::read_record(Rules::default(), &text, 0, &mut [CELL; 30]), Err(Refusal::FilledVacant { group }));
    }
}

/// R415: group 11 alone of its trace is 7, blamed on group 7; the walk goes on.
#[test]
fn a_broken_rule_on_counts() {
    let mut broken = s();
    broken[3 * 10 + 2] = b'3';
    broken.extend_from_slice(b"   1.000   2.000   3.000\r\n");
    let next = broken.len();
    broken.extend(s());
    let mut counts = counts_of_s();
    counts[10] = 3;
    assert_eq!(placed(Rules::default(), &broken, 0), Ok((Placing::Broken { next, group: 7 }, counts)));
    assert_eq!(placed(Rules::default(), &broken, next), Ok((Placing::Placed { next: next + 305 }, counts_of_s())));
    let why = Refusal::BrokenRule { group: 7 };
    for group in [1, 7, 11, 60] {
        assert_eq!(read(&broken, group), (Err(why), vec![CELL; 30]));
        assert_eq!(seambeacon::group_lines(Rules::default(), &broken, 0, group), Err(why));
    }
    assert_eq!(seambeacon::characteristic(Rules::default(), &broken, 0, 1), Err(why));
    let mut table = [CELL; 30];
    assert_eq!(seambeacon::read_record(Rules::default(), &broken, 0, &mut table), Err(why));
    assert_eq!(table, [CELL; 30]);
}

/// Damage in group 4's line: that group is refused, and the characteristics with it; the other groups and S behind it are as they were.
#[test]
fn damage_in_group_4() {
    let blanks = |count: usize| replaced(&s(), "   7.250", &format!("   7.250{}", " ".repeat(count)));
    let blank_for_return = || replaced(&s(), "   7.250\r\n", "   7.250 \n");
    let usual = Rules::default();
    let cases = [
        (usual, blanks(112), Ok(1)),
        (usual, blanks(113), Err(Refusal::BadLine { group: 4, line: 1 })),
        (usual, blank_for_return(), Ok(1)),
        (Rules::strict(), blank_for_return(), Err(Refusal::BadLine { group: 4, line: 1 })),
        (usual, replaced(&s(), "   7.250", "  123456"), Err(Refusal::BadField { group: 4, line: 1, element: 1 })),
        (usual, replaced(&s(), "   7.250", "   7.2:0"), Err(Refusal::BadField { group: 4, line: 1, element: 1 })),
        (usual, replaced(&s(), "   7.250", "        "), Err(Refusal::BadField { group: 4, line: 1, element: 1 })),
    ];
    for (rules, text, want) in cases {
        let next = text.len();
        let text = [text, s()].concat();
        assert_eq!(placed(rules, &text, 0), Ok((Placing::Placed { next }, counts_of_s())));
        assert_eq!(placed(rules, &text, next), Ok((Placing::Placed { next: next + 305 }, counts_of_s())));
        let (answer, table) = read_under(rules, &text, 4);
        assert_eq!(answer, want);
        let fof2 = seambeacon::characteristic(rules, &text, 0, 1);
        match want {
            Ok(_) => assert_eq!((table[0], fof2), (7250, Ok(Characteristic::Value(7250)))),
            Err(why) => assert_eq!((table[0], fof2), (CELL, Err(why))),
        }
        assert!(table[1..].iter().all(|&cell| cell == CELL));
        let (answer, table) = read_under(rules, &text, 1);
        assert_eq!((answer, &table[..4]), (Ok(4), &cells_of_s()[..4]));
        assert_eq!(read_under(rules, &text, 3).0, Ok(19));
        assert_eq!(seambeacon::characteristic(rules, &text, next, 1), Ok(Characteristic::Value(7250)));
    }
}

/// The element counts through the group, from the first misformed one.
#[test]
fn the_first_misformed_field() {
    for (old, new, element) in [("  1.200", "  1.2 0", 1), (" 67.000", "+67.000", 2), ("-23.500", "--3.500", 3), ("143.000", "143,000", 4)] {
        let text = replaced(&s(), old, new);
        assert_eq!(read(&text, 1), (Err(Refusal::BadField { group: 1, line: 1, element }), vec![CELL; 30]), "{new}");
    }
}

/// R140, the positions of the date's fields: 3 year, 7 day of year, 10 month, 12 day, 14 hour, 16 minute, 18 second; a mismatch is blamed at 7.
#[test]
fn a_wrong_date() {
    for (stamp, position) in [
        ("AA2x062650922142530", 3),
        ("AA20063670922142530", 7),
        ("AA20062651322142530", 10),
        ("AA20062650932142530", 12),
        ("AA20062650922242530", 14),
        ("AA20062650922146030", 16),
        ("AA20062650922142560", 18),
        ("AA20062650923142530", 7),
        ("AA20060600229142530", 7),
    ] {
        let text = replaced(&s(), "AA20062650922142530", stamp);
        assert_eq!(read(&text, 3), (Err(Refusal::BadDate { position }), vec![CELL; 30]), "{stamp}");
    }
}

/// A refused group, also behind others that can be read: whole and to be rewritten the record is refused for it, and neither table nor output is
/// altered (R276, R325, R326). A table that is too short comes first.
#[test]
fn a_whole_record_with_a_refused_group() {
    let usual = Rules::default();
    for (rules, old, new, refusal) in [
        (usual, "   7.250", "   7.2:0", Refusal::BadField { group: 4, line: 1, element: 1 }),
        (Rules::strict(), "   7.250\r\n", "   7.250 \n", Refusal::BadLine { group: 4, line: 1 }),
        (usual, "0922", "0923", Refusal::BadDate { position: 7 }),
        (usual, "  1.200", "  1:200", Refusal::BadField { group: 1, line: 1, element: 1 }),
    ] {
        let text = replaced(&s(), old, new);
        for (room, why) in [(24, refusal), (30, refusal), (23, Refusal::NoRoom), (0, Refusal::NoRoom)] {
            let (mut table, mut out) = (vec![CELL; room], [1; 400]);
            assert_eq!(seambeacon::read_record(rules, &text, 0, &mut table), Err(why));
            assert_eq!(table, vec![CELL; room]);
            assert_eq!(seambeacon::rewrite_record(rules, &text, 0, &mut table, &mut out), Err(why));
            assert_eq!((table, out), (vec![CELL; room], [1; 400]));
        }
    }
}

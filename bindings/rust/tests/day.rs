//! The example day of 24 records and its copy with one bad character: every record and every other group is as it was.

mod common;

use common::{bytes, placed, rewritten};
use seambeacon::{Characteristic, Placing, Refusal, Rules};

/// The places of the records, and the place where the walk stopped.
fn places(text: &[u8]) -> Vec<usize> {
    let mut all = vec![0];
    while let Ok((Placing::Placed { next }, _)) = placed(Rules::default(), text, all[all.len() - 1]) {
        assert!(next > all[all.len() - 1], "a walk goes forward");
        all.push(next);
    }
    assert_eq!(seambeacon::place(Rules::default(), text, all[all.len() - 1]), Err(Refusal::End));
    all
}

/// foF2 in thousandths, cut out of the text: in these records the first eight columns of the line behind the time stamp.
fn fof2_in_columns(text: &[u8]) -> Vec<i64> {
    let lines: Vec<&str> = std::str::from_utf8(text).expect("ASCII").split("\r\n").collect();
    let stamps = (0..lines.len()).filter(|&i| lines[i].starts_with("AA20040600229"));
    stamps.map(|i| lines[i + 1][..8].replace([' ', '.'], "").parse().expect("digits")).collect()
}

#[test]
fn fof2_of_each_hour() {
    for name in ["examples/day.sao", "examples/damaged.sao"] {
        let text = bytes(name);
        let want = fof2_in_columns(&text);
        assert_eq!(want.len(), 24);
        let places = places(&text);
        assert_eq!((places.len(), places[24]), (25, text.len()));
        // R291: at 03:00 it was not scaled
        assert_eq!(want.iter().filter(|&&cell| cell == 999_900).count(), 1);
        assert_eq!(want[3], 999_900);
        for (&at, cell) in places.iter().zip(want) {
            let fof2 = if cell == 999_900 { Characteristic::NoReading } else { Characteristic::Value(cell) };
            assert_eq!(seambeacon::characteristic(Rules::default(), &text, at, 1), Ok(fof2));
            assert_eq!(seambeacon::characteristic(Rules::default(), &text, at, 41), Ok(Characteristic::NotReported));
        }
        // no F1 layer by night
        assert_eq!(seambeacon::characteristic(Rules::default(), &text, 0, 2), Ok(Characteristic::NoReading));
    }
}

#[test]
fn the_day_is_rewritten_byte_for_byte() {
    let text = bytes("examples/day.sao");
    let (all, at) = rewritten(Rules::default(), &text);
    assert_eq!(at, text.len());
    assert!(all == text);
}

/// One byte is replaced, in group 7 of the 14th record. F8.3 has 15 elements of 8 columns in a line of 122 bytes with its end.
#[test]
fn one_bad_character_is_seen_in_its_group_alone() {
    let (day, damaged) = (bytes("examples/day.sao"), bytes("examples/damaged.sao"));
    let altered: Vec<usize> = (0..day.len()).filter(|&i| day[i] != damaged[i]).collect();
    assert_eq!((altered.len(), day.len()), (1, damaged.len()));
    let places = places(&day);
    let (mut same, mut refused) = (0, 0);
    for (hour, &at) in places[..24].iter().enumerate() {
        assert_eq!(seambeacon::place(Rules::default(), &day, at), seambeacon::place(Rules::default(), &damaged, at));
        for number in 1..=49 {
            assert_eq!(
                seambeacon::characteristic(Rules::default(), &day, at, number),
                seambeacon::characteristic(Rules::default(), &damaged, at, number)
            );
        }
        for group in 1..=60 {
            let (mut old, mut new) = ([-1; 2000], [-1; 2000]);
            let before = seambeacon::read_group(Rules::default(), &day, at, group, &mut old);
            let after = seambeacon::read_group(Rules::default(), &damaged, at, group, &mut new);
            assert!(before.is_ok());
            if (hour, group) == (13, 7) {
                let lines = seambeacon::group_lines(Rules::default(), &damaged, at, group).expect("lines");
                let column = altered[0] - (lines.as_ptr() as usize - damaged.as_ptr() as usize);
                assert!(column < lines.len());
                let (line, element) = (column / 122 + 1, column / 122 * 15 + column % 122 / 8 + 1);
                assert_eq!(after, Err(Refusal::BadField { group, line, element }));
                assert!(new.iter().all(|&cell| cell == -1));
                refused += 1;
            } else {
                assert_eq!((before, old), (after, new));
                same += 1;
            }
        }
    }
    assert_eq!((same, refused), (24 * 60 - 1, 1));
}

/// Nothing is shared but the text, so what several threads are answered at the same time is what each would be answered alone.
#[test]
fn several_threads_ask_at_the_same_time() {
    let day = bytes("examples/day.sao");
    let want = rewritten(Rules::default(), &day);
    std::thread::scope(|scope| {
        let asked: Vec<_> = (0..8).map(|_| scope.spawn(|| rewritten(Rules::default(), &day))).collect();
        for answer in asked {
            assert!(answer.join().expect("an answer") == want);
        }
    });
}

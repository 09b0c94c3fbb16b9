//! R330 to R336: the first record from a date on. The questions of tests/vectors/W8, with the answers of an independent implementation; and every
//! text, which answers as a walk over all its records does.

mod common;

use common::{all_rules, all_texts, bytes, numbers, rules_named};
use seambeacon::{Date, First, Placing, Refusal, Rules};

fn date_of([year, day_of_year, month, day, hour, minute, second]: [usize; 7]) -> Date {
    Date { year, day_of_year, month, day, hour, minute, second }
}

// ---- The questions of the vectors.

/// The answer to a question; none if one of its numbers is below 0, so that it can't be asked.
fn answer(question: &str) -> Option<String> {
    let words: Vec<&str> = question.split(' ').collect();
    let text = bytes(&format!("tests/vectors/W8/{}.sao", words[1]));
    let seven: Vec<usize> = words[2..].iter().map(|word| word.parse().ok()).collect::<Option<_>>()?;
    let First { place, passed } = seambeacon::first_from(rules_named(words[0]), &text, date_of(seven.try_into().expect("seven numbers")));
    let [reply, beside, _] = place.err().map_or([0; 3], numbers);
    Some(format!("{reply} {} {passed} {beside}", place.unwrap_or(0)))
}

#[test]
fn questions_for_the_first_record() {
    let file = String::from_utf8(bytes("tests/vectors/W8/first.txt")).expect("ASCII");
    let mut asked = 0;
    for row in file.lines() {
        let (question, want) = row.split_once(" = ").expect("an answer");
        if let Some(given) = answer(question) {
            assert_eq!(given, want, "{question}");
            asked += 1;
        }
    }
    assert_eq!(asked, 378);
}

// ---- As the whole walk.

type Seven = [usize; 7];

/// The seven numbers of a record's date, if group 3 is read with 0 (R333).
fn seven_of(rules: Rules, text: &[u8], at: usize) -> Option<Seven> {
    let mut cells = [0; 999];
    seambeacon::read_group(rules, text, at, 3, &mut cells).ok()?;
    let number = |from: usize, to: usize| cells[from..to].iter().fold(0, |n, &digit| n * 10 + usize::try_from(digit - 48).expect("a digit"));
    Some([number(2, 6), number(6, 9), number(9, 11), number(11, 13), number(13, 15), number(15, 17), number(17, 19)])
}

/// The places and dates of all records, and why the walk stops behind them.
fn walk(rules: Rules, text: &[u8]) -> (Vec<(usize, Option<Seven>)>, Refusal) {
    let (mut all, mut at) = (Vec::new(), 0);
    loop {
        let record = match seambeacon::place(rules, text, at) {
            Ok(record) => record,
            Err(why) => return (all, why),
        };
        all.push((at, seven_of(rules, text, at)));
        let (Placing::Placed { next } | Placing::Broken { next, .. }) = record.placing;
        at = next;
    }
}

#[test]
fn answers_are_those_of_the_whole_walk() {
    let (least, greatest) = ([0, 1, 1, 1, 0, 0, 0], [9999, 365, 12, 31, 23, 59, 59]);
    let mut found = 0;
    for text in all_texts() {
        for rules in all_rules() {
            let (all, why) = walk(rules, &text);
            for seven in all.iter().filter_map(|entry| entry.1).chain([least, greatest]) {
                let due = all.iter().position(|entry| entry.1.is_some_and(|date| date >= seven));
                let want = First { place: due.map(|k| all[k].0).ok_or(why), passed: due.unwrap_or(all.len()) };
                assert_eq!(seambeacon::first_from(rules, &text, date_of(seven)), want, "{seven:?}");
                found += usize::from(due.is_some());
            }
        }
    }
    assert!(found >= 2000, "{found} found");
}

#[test]
fn a_wrong_date_comes_before_the_text() {
    let noon = Date { year: 2006, day_of_year: 265, month: 9, day: 22, hour: 12, minute: 0, second: 0 };
    let wrong = |position| First { place: Err(Refusal::BadDate { position }), passed: 0 };
    for text in [&b""[..], &common::s()[..]] {
        for (date, position) in [
            (Date { year: usize::MAX, ..noon }, 3),
            (Date { day_of_year: 264, ..noon }, 7),
            (Date { month: 13, ..noon }, 10),
            (Date { day: 0, ..noon }, 12),
            (Date { day_of_year: 264, hour: 24, ..noon }, 14),
            (Date { minute: 60, ..noon }, 16),
            (Date { second: 60, ..noon }, 18),
        ] {
            assert_eq!(seambeacon::first_from(Rules::default(), text, date), wrong(position), "{date:?}");
        }
    }
    assert_eq!(seambeacon::first_from(Rules::default(), b"", noon), First { place: Err(Refusal::End), passed: 0 });
}

//! The questions of tests/vectors/W12, a whole record each, with the answers of an independent implementation; or those of the folder that the
//! variable SEAMBEACON_VECTORS names.

use plain::{read_record, Refusal, Rules};
use std::collections::HashMap;
use std::env;
use std::fs;
use std::path::PathBuf;

/// The folder, and whether it is the project's own.
fn folder() -> (PathBuf, bool) {
    match env::var_os("SEAMBEACON_VECTORS") {
        Some(named) => (PathBuf::from(named), false),
        None => (PathBuf::from(env!("CARGO_MANIFEST_DIR")).join("../../tests/vectors/W12"), true),
    }
}

/// The reply, the group that was read, and the two numbers beside the reply.
fn numbers(why: Refusal) -> [usize; 4] {
    match why {
        Refusal::End => [1, 0, 0, 0],
        Refusal::Beyond => [2, 0, 0, 0],
        Refusal::TooFewLines => [3, 0, 0, 0],
        Refusal::Misformed => [4, 0, 0, 0],
        Refusal::OtherRelease => [5, 0, 0, 0],
        Refusal::FilledVacant { group } => [6, 0, group, 0],
        Refusal::BrokenRule { group } => [7, 0, group, 0],
        Refusal::BadLine { group, line } => [8, group, line, 0],
        Refusal::BadField { group, line, element } => [9, group, line, element],
        Refusal::BadDate { position } => [10, 3, position, 0],
        Refusal::NoRoom => [11, 0, 0, 0],
    }
}

/// `RULES TEXT M p b p b .. PLACE ROOM = REPLY GROUP A B CELL ..`, where of the text's bytes M are replaced, at the places p by the bytes b.
#[test]
fn every_question() {
    let (folder, own) = folder();
    let questions = fs::read_to_string(folder.join("whole.txt")).expect("whole.txt");
    let (mut texts, mut asked) = (HashMap::new(), [0; 12]);
    for question in questions.lines() {
        let (before, behind) = question.split_once(" = ").expect("an answer");
        let mut words = before.split(' ');
        let (ends, counting) = words.next().and_then(|rules| rules.split_once('-')).expect("rules");
        let rules = Rules { strict: ends == "strict", entries: counting == "entries" };
        let name = words.next().expect("a text");
        let text = texts.entry(name).or_insert_with(|| fs::read(folder.join(name).with_extension("sao")).expect("a text"));
        let mut text = text.clone();
        let mut number = || words.next().expect("a number").parse::<usize>().expect("a number");
        for _ in 0..number() {
            let at = number();
            text[at] = u8::try_from(number()).expect("a byte");
        }
        let (at, room) = (number(), number());

        let want: Vec<i64> = behind.split(' ').map(|word| word.parse().expect("a number")).collect();
        let mut table = vec![-77; room];
        let got = match read_record(rules, &text, at, &mut table) {
            Ok(cells) => [0, 0, cells, 0],
            Err(why) => numbers(why),
        };
        assert_eq!(got.map(|number| number as i64), want[..4], "{question}");
        asked[got[0]] += 1;
        if got[0] == 0 {
            assert_eq!(table[..got[2]], want[4..], "{question}");
            assert!(table[got[2]..].iter().all(|&cell| cell == -77), "{question}");
        }
    }
    let all = asked.iter().sum::<usize>();
    println!("{all} questions, by reply {asked:?}");
    assert!(all >= if own { 567 } else { 1 });
    assert!(!own || asked.iter().all(|&many| many > 0), "{asked:?}");
}

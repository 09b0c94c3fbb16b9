//! R285 to R288, R297: questions with a record. Those of tests/vectors/W7, with the answers of an independent implementation; records that are made
//! up over S; and every placed record of every text, which answers as its place does.

mod common;

use common::{all_rules, all_texts, bytes, cells_of_s, counts_of_s, numbers, rules_named, s};
use seambeacon::{Characteristic, Placing, Record, Refusal, Rules, View};
use std::fmt::Write;

/// A cell that is in none of the answers, to see what is kept.
const CELL: i64 = -987_654_321;

// ---- The questions of the vectors.

fn text_numbered(number: &str) -> Vec<u8> {
    bytes(&format!("tests/vectors/W7/{number}.sao"))
}

/// A record without elements, of which all places are the same; its placing is one that no text has.
fn empty(place: usize) -> Record {
    Record { counts: [0; 80], starts: [place; 60], ends: [place; 60], placing: Placing::Broken { next: usize::MAX, group: 61 } }
}

/// The record of a question, if it has 80 counts. Where it is made up, also the part that is named for the group asked for. A refused placing gives no
/// record here; the one of zeros, which the library leaves then, stands for it.
fn record<'a>(mut word: impl FnMut() -> &'a str) -> Option<(Record, Option<(usize, usize)>)> {
    if word() == "placed" {
        let (text, at, rules) = (text_numbered(word()), word().parse().expect("a place"), rules_named(word()));
        return Some((seambeacon::place(rules, &text, at).unwrap_or_else(|_| empty(0)), None));
    }
    let mut number = || word().parse::<usize>().expect("a number");
    let (start, end, rest, many, filled) = (number(), number(), number(), number(), number());
    let mut made = empty(rest);
    for _ in 0..filled {
        let (group, count) = (number(), number());
        if let Some(of_group) = made.counts.get_mut(group - 1) {
            *of_group = u16::try_from(count).expect("a count");
        }
    }
    (many == 80).then_some((made, Some((start, end))))
}

fn name_part(record: &mut Record, part: Option<(usize, usize)>, group: usize) {
    if let (Some((start, end)), 1..=60) = (part, group) {
        (record.starts[group - 1], record.ends[group - 1]) = (start, end);
    }
}

fn read(rules: Rules, text: &[u8], record: &Record, group: usize, room: usize) -> String {
    let mut table = vec![CELL; room];
    let ([reply, a, b], cells) = match record.group(rules, text, group, &mut table) {
        Ok(cells) => ([0, cells, 0], cells),
        Err(why) => (numbers(why), 0),
    };
    assert!(table[cells..].iter().all(|&cell| cell == CELL));
    table[..cells].iter().fold(format!("{reply} {a} {b}"), |row, cell| row + &format!(" {cell}"))
}

fn lines(rules: Rules, view: View<'_>, group: usize) -> String {
    let answer = view.record.lines(rules, view.text, group);
    assert_eq!(view.lines(rules, group), answer);
    match answer {
        Ok(lines) => {
            let start = lines.as_ptr() as usize - view.text.as_ptr() as usize;
            format!("0 0 0 {start} {}", start + lines.len())
        }
        Err(why) => {
            let [reply, a, b] = numbers(why);
            format!("{reply} {a} {b} 0 0")
        }
    }
}

fn characteristic(rules: Rules, view: View<'_>, number: usize) -> String {
    let answer = view.record.characteristic(rules, view.text, number);
    assert_eq!(view.characteristic(rules, number), answer);
    let (kind, value, [reply, a, b]) = match answer {
        Ok(Characteristic::Value(value)) => (0, value, [0; 3]),
        Ok(Characteristic::NoReading) => (1, 0, [0; 3]),
        Ok(Characteristic::NotReported) => (2, 0, [0; 3]),
        Err(why) => (3, 0, numbers(why)),
    };
    format!("{kind} {value} {reply} {a} {b}")
}

fn counts(view: View<'_>) -> String {
    let filled = (1..).zip(view.counts()).filter(|(_, &count)| count != 0);
    let mut row = filled.clone().count().to_string();
    for (group, count) in filled {
        write!(row, " {group} {count}").expect("a string");
    }
    row
}

/// The answer to a question; none where its record has not 80 counts, which each has here.
fn answer(question: &str) -> Option<String> {
    let mut words = question.split(' ');
    let mut word = || words.next().expect("a word");
    let (kind, rules, text) = (word(), rules_named(word()), text_numbered(word()));
    let (mut record, part) = record(&mut word)?;
    let mut number = || word().parse().expect("a number");
    let asked = if kind == "counts" { 0 } else { number() };
    name_part(&mut record, part, if kind == "char" { 4 } else { asked });
    let view = View { text: &text, record };
    Some(match kind {
        "read" => read(rules, &text, &record, asked, number()),
        "lines" => lines(rules, view, asked),
        "char" => characteristic(rules, view, asked),
        "counts" => counts(view),
        other => panic!("{other}: no question of the format"),
    })
}

#[test]
fn questions_with_a_record() {
    let file = String::from_utf8(bytes("tests/vectors/W7/parts.txt")).expect("ASCII");
    let (mut asked, mut left_out) = (0, 0);
    for (line, row) in (1..).zip(file.lines()) {
        let (question, want) = row.split_once(" = ").expect("an answer");
        match answer(question) {
            Some(got) => {
                assert_eq!(got, want, "line {line}: {question}");
                asked += 1;
            }
            None => left_out += 1,
        }
    }
    assert_eq!((asked, left_out), (1604, 3), "asked, and left out");
}

// ---- Made up over S, in which group 4 stands from 295 to 305.

fn made_up(group: usize, start: usize, end: usize) -> Record {
    let mut record = Record { counts: counts_of_s(), ..empty(usize::MAX) };
    name_part(&mut record, Some((start, end)), group);
    record
}

#[test]
fn records_that_are_made_up() {
    let (rules, text, cells) = (Rules::default(), s(), cells_of_s());
    let mut table = [CELL; 20];
    assert_eq!(made_up(3, 274, 295).group(rules, &text, 3, &mut table), Ok(19));
    assert_eq!((&table[..19], table[19]), (&cells[4..23], CELL));
    assert_eq!(made_up(4, 295, 305).characteristic(rules, &text, 1), Ok(Characteristic::Value(7250)));
    assert_eq!(made_up(2, 244, 244).lines(rules, &text, 2), Ok(&b""[..]));
    // the line of group 3, which has exactly the line feeds that group 4 needs
    let why = Refusal::BadLine { group: 4, line: 1 };
    assert_eq!(made_up(4, 274, 295).characteristic(rules, &text, 1), Err(why));
    for (start, end) in [(305, 295), (294, 305), (295, 304), (274, 305), (295, 295), (295, 306), (usize::MAX, usize::MAX)] {
        let (record, mut table) = (made_up(4, start, end), [CELL; 20]);
        assert_eq!(record.group(rules, &text, 4, &mut table), Err(Refusal::BadPart), "{start} to {end}");
        assert_eq!(record.group(rules, &text, 4, &mut []), Err(Refusal::BadPart));
        assert_eq!(table, [CELL; 20]);
        assert_eq!(record.lines(rules, &text, 4), Err(Refusal::BadPart));
        assert_eq!(record.characteristic(rules, &text, 49), Err(Refusal::BadPart));
        assert_eq!(record.group(rules, &text, 61, &mut table), Err(Refusal::NoSuchNumber));
        assert_eq!(record.characteristic(rules, &text, 50), Err(Refusal::NoSuchNumber));
    }
}

/// What a view gives of the text lives as long as the text.
#[test]
fn lines_outlive_the_view() {
    let text = s();
    let lines = |group| {
        let view = View { text: &text, record: seambeacon::place(Rules::default(), &text, 0).expect("S") };
        view.lines(Rules::default(), group)
    };
    assert_eq!(lines(4), Ok(&text[295..305]));
    assert_eq!(lines(0), Err(Refusal::NoSuchNumber));
}

// ---- As by place.

fn answers_as_its_place(rules: Rules, text: &[u8], at: usize, record: Record) {
    for group in 1..=60 {
        let room = if group == 40 { 12000 } else { 2000 };
        let (mut got, mut want) = (vec![CELL; room], vec![CELL; room]);
        let by_place = seambeacon::read_group(rules, text, at, group, &mut want);
        assert_eq!(record.group(rules, text, group, &mut got), by_place, "group {group} at {at}");
        assert!(got == want, "group {group} at {at}");
        let (got, want) = (record.lines(rules, text, group), seambeacon::group_lines(rules, text, at, group));
        assert_eq!(got.map(<[u8]>::as_ptr_range), want.map(<[u8]>::as_ptr_range), "lines of group {group} at {at}");
    }
    for number in 1..=49 {
        let by_place = seambeacon::characteristic(rules, text, at, number);
        assert_eq!(record.characteristic(rules, text, number), by_place, "characteristic {number} at {at}");
        assert_ne!(by_place, Err(Refusal::BadPart));
    }
}

#[test]
fn placed_records_answer_as_their_places() {
    let mut records = 0;
    for text in all_texts() {
        for rules in all_rules() {
            let mut at = 0;
            while let Ok(record) = seambeacon::place(rules, &text, at) {
                answers_as_its_place(rules, &text, at, record);
                let (Placing::Placed { next } | Placing::Broken { next, .. }) = record.placing;
                assert!(next > at, "a walk goes forward");
                at = next;
                records += 1;
            }
        }
    }
    assert!(records >= 1523, "{records} records");
}

//! The texts and write questions of tests/vectors, with the answers of an independent implementation, under the usual rules, the strict line end,
//! counts of entries, and both: lists, rewritten records, every answer about every placed record, and everything that is written.

mod common;

use common::{bytes, numbers, placed, project, rewritten};
use seambeacon::{Characteristic, Counting, Placing, Refusal, Rules};
use std::cell::Cell;
use std::fmt::Write;
use std::fs;

/// The vectors' texts, each with the path of its answers. None is longer than 65,536 bytes, which the programs' answers would depend on.
fn texts() -> Vec<(String, Vec<u8>)> {
    let mut all = Vec::new();
    for file in fs::read_dir(project("tests/vectors")).expect("tests/vectors") {
        let name = file.expect("a file").file_name().into_string().expect("a name");
        if let Some(stem) = name.strip_suffix(".sao") {
            let text = bytes(&format!("tests/vectors/{name}"));
            assert!(text.len() <= 65536);
            all.push((format!("tests/vectors/{stem}"), text));
        }
    }
    assert!(all.len() >= 231, "{} texts", all.len());
    all
}

/// A file of the vectors, if it is there.
fn there(name: String) -> Option<String> {
    project(&name).exists().then_some(name)
}

/// Each line of a text ends with both bytes, so that the strict line end is the usual one (R9).
fn with_returns(text: &[u8]) -> bool {
    (0..text.len()).all(|at| text[at] != b'\n' || at > 0 && text[at - 1] == b'\r')
}

/// No record of a walk has a count of group 40 above 1, so that entries are elements (R13). Where the walk stops it does so by either rule: entries
/// have never fewer lines, so 3 stays 3, and the other replies are given before lines are counted (R251).
fn few(dump: &str) -> bool {
    let rows = String::from_utf8(bytes(dump)).expect("ASCII");
    let mut counts = rows.lines().filter(|row| row.starts_with("record ")).map(|row| row.split(' ').nth(44).expect("80 counts"));
    counts.all(|count| matches!(count, "0" | "1"))
}

/// The file that has the answer of a text under rules with an own name; where there is none, that of other rules which are the same to this text.
/// Texts without files for entries have one for strict wherever strict answers otherwise.
fn answer(path: &str, text: &[u8], rules: &str, kind: &str) -> Option<String> {
    let (usual, of) = (format!("{path}.{kind}"), |rules: &str| there(format!("{path}.{rules}.{kind}")));
    of(rules).or_else(|| match (rules, of("entries"), of("strict")) {
        ("strict", None, _) => Some(usual),
        ("strict", ..) => with_returns(text).then_some(usual),
        ("entries", ..) => few(&format!("{path}.dump")).then_some(usual),
        (_, Some(entries), _) => with_returns(text).then_some(entries),
        (_, None, strict) => strict.filter(|_| few(&there(format!("{path}.strict.dump")).unwrap_or(format!("{path}.dump")))),
    })
}

/// Under each of the rules: what is asked of a text, and what it has to answer.
fn compared(kind: &str, asked: impl Fn(Rules, &[u8]) -> Vec<u8>) {
    let entries = |rules: Rules| rules.counting(Counting::Entries);
    let others = [("strict", Rules::strict()), ("entries", entries(Rules::default())), ("strict-entries", entries(Rules::strict()))];
    let (mut many, mut own) = ([0; 3], [0; 3]);
    for (path, text) in texts() {
        let usual = format!("{path}.{kind}");
        assert!(asked(Rules::default(), &text) == bytes(&usual), "{usual}");
        for (i, (name, rules)) in others.into_iter().enumerate() {
            let Some(answer) = answer(&path, &text, name, kind) else { continue };
            assert!(asked(rules, &text) == bytes(&answer), "{answer}, {name}");
            many[i] += 1;
            own[i] += usize::from(answer != usual);
        }
    }
    assert!(many[0] >= 223 && many[1] >= 194 && many[2] >= 72, "{many:?} answers");
    assert!(own[0] >= 50 && own[1] >= 34 && own[2] >= 72, "{own:?} answers that are no usual ones");
}

#[test]
fn listings() {
    compared("list", |rules, text| {
        let mut out = [0; 8192];
        let length = seambeacon::list(rules, text, &mut out).expect("a listing");
        out[..length].to_vec()
    });
}

#[test]
fn rewritten_records() {
    compared("rewrite", |rules, text| rewritten(rules, text).0);
}

/// A dump's `group` row: the group, the reply with its two numbers, where its lines start and end, its cells.
fn group_row(rules: Rules, text: &[u8], at: usize, group: usize) -> String {
    let mut table = [0; 12000];
    let ([reply, a, b], cells) = match seambeacon::read_group(rules, text, at, group, &mut table) {
        Ok(cells) => ([0, cells, 0], cells),
        Err(why) => (numbers(why), 0),
    };
    let start_end = match seambeacon::group_lines(rules, text, at, group) {
        Ok(lines) => {
            let start = lines.as_ptr() as usize - text.as_ptr() as usize;
            [start, start + lines.len()]
        }
        Err(_) => [0, 0],
    };
    let mut row = format!("group {group} {reply} {a} {b} {} {}", start_end[0], start_end[1]);
    for cell in &table[..cells] {
        write!(row, " {cell}").expect("a string");
    }
    row
}

/// A dump's `char` row: the characteristic, its kind and value, the reply with its two numbers.
fn characteristic_row(rules: Rules, text: &[u8], at: usize, number: usize) -> String {
    let (kind, value, [reply, a, b]) = match seambeacon::characteristic(rules, text, at, number) {
        Ok(Characteristic::Value(value)) => (0, value, [0; 3]),
        Ok(Characteristic::NoReading) => (1, 0, [0; 3]),
        Ok(Characteristic::NotReported) => (2, 0, [0; 3]),
        Err(why) => (3, 0, numbers(why)),
    };
    format!("char {number} {kind} {value} {reply} {a} {b}")
}

/// Every answer about every record, as the rows of a dump.
fn dumped(rules: Rules, text: &[u8]) -> String {
    let (mut at, mut rows) = (0, String::new());
    let mut push = |row: String| rows.push_str(&(row + "\n"));
    loop {
        let (reply, next, group, counts) = match placed(rules, text, at) {
            Ok((Placing::Placed { next }, counts)) => (0, next, 0, counts),
            Ok((Placing::Broken { next, group }, counts)) => (7, next, group, counts),
            Err(why) => {
                let [reply, group, _] = numbers(why);
                push(format!("stop {at} {reply} 0 {group}"));
                return rows;
            }
        };
        let counts: Vec<String> = counts.iter().map(u16::to_string).collect();
        push(format!("record {at} {reply} {next} {group} {}", counts.join(" ")));
        (1..=60).for_each(|group| push(group_row(rules, text, at, group)));
        (1..=49).for_each(|number| push(characteristic_row(rules, text, at, number)));
        assert!(next > at, "a walk goes forward");
        at = next;
    }
}

#[test]
fn every_answer_about_every_record() {
    let records = Cell::new(0);
    compared("dump", |rules, text| {
        let rows = dumped(rules, text);
        records.set(records.get() + rows.matches("record ").count());
        rows.into_bytes()
    });
    assert!(records.get() >= 200, "{} records", records.get());
}

/// A line is a question to write: the output's room, the counts, the cells; and its answer: the reply, two numbers (bytes, group or position;
/// element), the text in hexadecimal. Told is how many questions there are, and how many are answered with 0. The word `entries` or `elements` may stand before it, and is `elements` where there is none; entries are asked too where
/// they are elements.
fn written(name: &str) -> [usize; 2] {
    let entries = Rules::default().counting(Counting::Entries);
    let file = String::from_utf8(bytes(name)).expect("ASCII");
    let (mut asked, mut done) = (0, 0);
    for line in file.lines() {
        let question = line.strip_prefix("entries ").or(line.strip_prefix("elements ")).unwrap_or(line);
        let mut words = question.split(' ');
        let mut number = || words.next().expect("a number").parse::<i64>().expect("a number");
        let (room, many) = (number() as usize, number());
        let counts: Vec<u16> = (0..many).map(|_| u16::try_from(number()).expect("a count")).collect();
        let many = number();
        let cells: Vec<i64> = (0..many).map(|_| number()).collect();
        let want = [number() as usize, number() as usize, number() as usize];
        let hex = words.next().expect("hexadecimal").trim_end_matches('-');
        let mut output: Vec<u8> = (0..hex.len()).step_by(2).map(|i| u8::from_str_radix(&hex[i..i + 2], 16).expect("a byte")).collect();
        output.resize(room, 0xa5);
        assert_eq!(words.next(), None);

        asked += 1;
        done += usize::from(want[0] == 0);
        let told = if line.starts_with("entries ") { entries } else { Rules::default() };
        let alike = counts.get(39).is_some_and(|&count| count <= 1);
        for rules in [told, if alike { entries } else { told }] {
            let mut out = vec![0xa5; room];
            let got = match seambeacon::write_record(rules, &counts, &cells, &mut out) {
                Ok(bytes) => [0, bytes, 0],
                Err(Refusal::NoField { group, element }) => [13, group, element],
                Err(why) => numbers(why),
            };
            assert_eq!(got, want, "{name}, question {asked}");
            assert!(out == output, "{name}, question {asked}");
        }
    }
    [asked, done]
}

#[test]
fn write_questions() {
    let [asked, done] = written("tests/vectors/writes.txt");
    assert!(asked == 136 && done >= 20, "{asked} asked, {done} written");
}

#[test]
fn write_questions_by_elements_and_by_entries() {
    let [asked, done] = written("tests/vectors/W10/writes.txt");
    assert!(asked == 133 && done >= 20, "{asked} asked, {done} written");
}

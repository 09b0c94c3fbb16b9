//! R271 to R276: a whole record in one call. The questions of tests/vectors/W12, with the answers of an independent implementation; and every text,
//! whose records answer as their sixty groups do in turn.

mod common;

use common::{all_rules, all_texts, bytes, numbers, rules_named};
use seambeacon::{Placing, Refusal, Rewritten, Rules};

/// A table and an output with room for every record here, of a cell and of a byte that are in none of the answers, to see what is kept.
static TABLE: [i64; 20_000] = [-987_654_321; 20_000];
static OUTPUT: [u8; 130_000] = [0xa5; 130_000];

/// The answer of one call into a table of so many cells, with the cells; a refusal leaves the table as it was.
fn whole(rules: Rules, text: &[u8], at: usize, room: usize) -> Result<Vec<i64>, Refusal> {
    let mut table = TABLE[..room].to_vec();
    let answer = seambeacon::read_record(rules, text, at, &mut table);
    let behind = table.split_off(answer.unwrap_or(0));
    assert!(TABLE.starts_with(&behind), "at {at}, into {room} cells");
    answer.map(|_| table)
}

// ---- The questions of the vectors.

/// Of the replies with a group that was being read, 10 has always group 3.
fn group_of(why: Refusal) -> usize {
    match why {
        Refusal::BadLine { group, .. } | Refusal::BadField { group, .. } => group,
        Refusal::BadDate { .. } => 3,
        _ => 0,
    }
}

fn answer(question: &str) -> String {
    let mut words = question.split(' ');
    let (rules, text) = (rules_named(words.next().expect("rules")), words.next().expect("a text"));
    let mut number = || words.next().expect("a number").parse::<usize>().expect("a number");
    let mut text = bytes(&format!("tests/vectors/W12/{text}.sao"));
    for _ in 0..number() {
        let (at, byte) = (number(), number());
        text[at] = u8::try_from(byte).expect("a byte");
    }
    let (at, room) = (number(), number());
    match whole(rules, &text, at, room) {
        Ok(cells) => cells.iter().fold(format!("0 0 {} 0", cells.len()), |row, cell| row + &format!(" {cell}")),
        Err(why) => {
            let [reply, a, b] = numbers(why);
            format!("{reply} {} {a} {b}", group_of(why))
        }
    }
}

#[test]
fn questions_for_a_whole_record() {
    let file = String::from_utf8(bytes("tests/vectors/W12/whole.txt")).expect("ASCII");
    let mut asked = 0;
    for row in file.lines() {
        let (question, want) = row.split_once(" = ").expect("an answer");
        assert_eq!(answer(question), want, "{question}");
        asked += 1;
    }
    assert_eq!(asked, 567);
}

// ---- As its groups.

/// R274, R275: the first refusal of groups 1 to 60, each read with room (R13), or all their cells, joined.
fn in_turn(rules: Rules, text: &[u8], at: usize) -> Result<Vec<i64>, Refusal> {
    let (mut all, mut table) = (Vec::new(), [0; 12_000]);
    for group in 1..=60 {
        let many = seambeacon::read_group(rules, text, at, group, &mut table)?;
        all.extend_from_slice(&table[..many]);
    }
    Ok(all)
}

/// One call and a rewriting, with room: both are refused alike, and then no memory is altered (R325, R326).
fn answers_as_its_groups(rules: Rules, text: &[u8], at: usize) -> Result<Vec<i64>, Refusal> {
    let want = in_turn(rules, text, at);
    assert_eq!(whole(rules, text, at, TABLE.len()), want);
    let (mut table, mut out) = (TABLE.to_vec(), OUTPUT.to_vec());
    let rewritten = seambeacon::rewrite_record(rules, text, at, &mut table, &mut out);
    let (cells, bytes) = match (&want, rewritten) {
        (Ok(cells), Ok(Rewritten { bytes, .. })) => (&cells[..], bytes),
        (&Err(why), refused) => {
            assert_eq!(refused, Err(why));
            (&[][..], 0)
        }
        (Ok(_), refused) => panic!("{refused:?} at {at}"),
    };
    assert_eq!(&table[..cells.len()], cells);
    assert!(TABLE.starts_with(&table[cells.len()..]) && OUTPUT.starts_with(&out[bytes..]), "at {at}");
    want
}

/// R273: 11 of a record that is placed with 0, by the cells that it has; of what is not placed its own refusal.
fn has_no_room(rules: Rules, text: &[u8], at: usize, cells: Option<usize>) {
    let placed = matches!(seambeacon::place(rules, text, at), Ok(record) if matches!(record.placing, Placing::Placed { .. }));
    let why = if placed { Refusal::NoRoom } else { in_turn(rules, text, at).expect_err("a refusal") };
    assert_eq!(whole(rules, text, at, 0), Err(why));
    if let Some(cells) = cells {
        assert_eq!(whole(rules, text, at, cells - 1), Err(Refusal::NoRoom));
        assert_eq!(whole(rules, text, at, cells).map(|all| all.len()), Ok(cells));
    }
}

#[test]
fn records_answer_as_their_groups_in_turn() {
    let (mut read, mut refused) = (0, 0);
    for text in all_texts() {
        for rules in all_rules() {
            let mut places = vec![0];
            while let Ok(record) = seambeacon::place(rules, &text, *places.last().expect("a place")) {
                let (Placing::Placed { next } | Placing::Broken { next, .. }) = record.placing;
                places.push(next);
            }
            places.extend([text.len(), text.len() + 1, usize::MAX]);
            for at in places {
                let answer = answers_as_its_groups(rules, &text, at);
                has_no_room(rules, &text, at, answer.as_ref().ok().map(Vec::len));
                *(if answer.is_ok() { &mut read } else { &mut refused }) += 1;
            }
        }
    }
    assert!(read >= 961 && refused >= 562 + 283 * 4 * 4, "{read} read, {refused} refused");
}

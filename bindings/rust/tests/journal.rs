//! The edit journal on record S, and on the scripts of tests/vectors/W5 and tests/vectors/W10 with the answers of an independent implementation.
//! Fields are put together here byte by byte: a tag, a length of two bytes that counts what follows it, and what the call has, high byte first.

mod common;

use common::{bytes, cells_of_s, counts_of_s};
use seambeacon::{Counting, Journal, Refusal, Rules};

/// A byte that is in no field, to see what is kept.
const BYTE: u8 = 0xa5;

fn set_field(group: u8, cell: u16, old: i64, new: i64) -> Vec<u8> {
    [&[1, 0, 19, group][..], &cell.to_be_bytes(), &old.to_be_bytes(), &new.to_be_bytes()].concat()
}

fn savepoint_field(tag: u8, savepoint: u8) -> Vec<u8> {
    vec![tag, 0, 1, savepoint]
}

/// foF2 is the last of S's cells, element 1 of group 4.
fn with_fof2(value: i64) -> Vec<i64> {
    let mut cells = cells_of_s();
    cells[23] = value;
    cells
}

#[test]
fn sets_savepoints_and_their_fields() {
    let (counts, mut cells, mut buffer) = (counts_of_s(), cells_of_s(), [BYTE; 200]);
    let mut journal = Journal::new(Rules::default(), &counts, &mut cells, &mut buffer);
    assert_eq!((journal.used(), journal.bytes().len()), (0, 0));
    assert_eq!(journal.set(4, 1, 7300), Ok(()));
    assert_eq!(journal.open(), Ok(1));
    assert_eq!(journal.set(4, 1, -7400), Ok(()));
    assert_eq!(journal.open(), Ok(2));
    assert_eq!(journal.set(1, 3, i64::MIN), Ok(()));
    assert_eq!(journal.cells()[2], i64::MIN);
    assert_eq!(journal.undo(1), Ok(()));
    assert_eq!(journal.cells(), with_fof2(7300));
    assert_eq!(journal.open(), Ok(2));
    assert_eq!(journal.set(4, 1, 7500), Ok(()));
    assert_eq!(journal.release(2), Ok(()));
    assert_eq!(journal.cells(), with_fof2(7500));
    let want = [
        set_field(4, 1, 7250, 7300),
        savepoint_field(2, 1),
        set_field(4, 1, 7300, -7400),
        savepoint_field(2, 2),
        set_field(1, 3, -23500, i64::MIN),
        savepoint_field(4, 1),
        savepoint_field(2, 2),
        set_field(4, 1, 7300, 7500),
        savepoint_field(3, 2),
    ]
    .concat();
    assert_eq!(journal.used(), want.len());
    assert_eq!(journal.bytes(), want);
    assert_eq!(journal.undo(1), Ok(()));
    assert_eq!(journal.cells(), with_fof2(7300));
    assert_eq!(journal.release(1), Ok(()));
    assert_eq!(journal.release(1), Err(Refusal::NotOpen));
    let used = journal.used();
    assert_eq!(used, want.len() + 8);
    assert!(buffer[used..].iter().all(|&byte| byte == BYTE));
}

/// The four calls on a journal, each refused with this; neither cells nor journal nor used bytes are altered.
fn refused_all(counts: &[u16], cells: &[i64], journal: &[u8], used: usize, want: [Refusal; 4]) {
    let (mut cells_now, mut buffer) = (cells.to_vec(), journal.to_vec());
    let mut edited = Journal::resume(Rules::default(), counts, &mut cells_now, &mut buffer, used);
    assert_eq!(edited.set(4, 1, 1), Err(want[0]));
    assert_eq!(edited.open(), Err(want[1]));
    assert_eq!(edited.release(1), Err(want[2]));
    assert_eq!(edited.undo(1), Err(want[3]));
    assert_eq!(edited.used(), used);
    assert_eq!((&cells_now[..], &buffer[..]), (cells, journal));
}

/// The calls and the replay are refused alike.
fn refused_with_replay(counts: &[u16], cells: &[i64], journal: &[u8], used: usize, want: Refusal) {
    refused_all(counts, cells, journal, used, [want; 4]);
    let (mut cells_now, mut buffer) = (cells.to_vec(), journal.to_vec());
    assert_eq!(Journal::replay(Rules::default(), counts, &mut cells_now, &mut buffer, used).err(), Some(want));
    assert_eq!((&cells_now[..], &buffer[..]), (cells, journal));
}

#[test]
fn replies_about_counts_and_cells() {
    let (counts, cells) = (counts_of_s(), cells_of_s());
    let altered = |group: usize, count: u16| {
        let mut counts = counts;
        counts[group - 1] = count;
        counts
    };
    // a wrong journal too, since these come first
    for (journal, used) in [(vec![BYTE; 50], 0), (vec![9; 50], 50)] {
        refused_with_replay(&counts[..79], &cells, &journal, used, Refusal::Misformed);
        refused_with_replay(&[], &[], &journal, used, Refusal::Misformed);
        refused_with_replay(&altered(5, 1000), &cells, &journal, used, Refusal::Misformed);
        refused_with_replay(&altered(80, 4), &cells, &journal, used, Refusal::OtherRelease);
        refused_with_replay(&altered(63, 1), &cells, &journal, used, Refusal::FilledVacant { group: 63 });
        refused_with_replay(&altered(1, 3), &cells, &journal, used, Refusal::BrokenRule { group: 1 });
        refused_with_replay(&counts, &cells[1..], &journal, used, Refusal::OtherLength);
        refused_with_replay(&counts, &[], &journal, used, Refusal::OtherLength);
    }
}

#[test]
fn replies_about_the_journal() {
    let (counts, cells) = (counts_of_s(), cells_of_s());
    let right = [savepoint_field(2, 1), set_field(4, 1, 7250, 7300)].concat();
    for behind in [vec![0], vec![1, 0, 19], savepoint_field(2, 1), savepoint_field(3, 2), savepoint_field(4, 2), set_field(5, 1, 0, 1)] {
        let journal = [right.clone(), behind].concat();
        refused_with_replay(&counts, &cells, &journal, journal.len(), Refusal::BadEntry { place: 26 });
    }
    // more is said to be used than there is
    refused_with_replay(&counts, &cells, &right, usize::MAX, Refusal::BadEntry { place: 26 });
    refused_with_replay(&counts, &cells, &[], 1, Refusal::BadEntry { place: 0 });
    // no room, and nothing open
    refused_all(&counts, &cells, &[], 0, [Refusal::NoRoom, Refusal::NoRoom, Refusal::NotOpen, Refusal::NotOpen]);
    // no room, and one open; what is open already has its number
    refused_all(&counts, &cells, &savepoint_field(2, 1), 4, [Refusal::NoRoom; 4]);
}

#[test]
fn cells_that_are_not_there() {
    let (counts, mut cells, mut buffer) = (counts_of_s(), cells_of_s(), [BYTE; 100]);
    let mut journal = Journal::new(Rules::default(), &counts, &mut cells, &mut buffer);
    for (group, cell) in [(0, 1), (61, 1), (2, 1), (4, 0), (4, 2), (1, 5), (3, 20), (4, 65537), (260, 1), (usize::MAX, 1), (4, usize::MAX)] {
        assert_eq!(journal.set(group, cell, 1), Err(Refusal::NoSuchNumber), "{group} {cell}");
    }
    assert_eq!(journal.used(), 0);
    assert_eq!((cells, buffer), (cells_of_s(), [BYTE; 100]));
}

#[test]
fn sixteen_savepoints() {
    let (counts, mut cells, mut buffer) = (counts_of_s(), cells_of_s(), [BYTE; 100]);
    let mut journal = Journal::new(Rules::default(), &counts, &mut cells, &mut buffer);
    for savepoint in 1..=16 {
        assert_eq!(journal.open(), Ok(savepoint));
    }
    assert_eq!(journal.open(), Err(Refusal::AllOpen));
    for savepoint in [0, 17, 257, usize::MAX] {
        assert_eq!(journal.release(savepoint), Err(Refusal::NotOpen));
        assert_eq!(journal.undo(savepoint), Err(Refusal::NotOpen));
    }
    assert_eq!(journal.release(15), Err(Refusal::NotOpen));
    assert_eq!(journal.used(), 64);
    assert_eq!(journal.undo(3), Ok(()));
    assert_eq!(journal.open(), Ok(4));
}

/// What there is after a call.
struct After {
    used: usize,
    cells: Vec<i64>,
    open: usize,
}

/// A journal of calls, with what there was before the first and after each.
fn session() -> (Vec<u8>, Vec<After>) {
    let (counts, mut cells, mut buffer) = (counts_of_s(), cells_of_s(), [0; 200]);
    let mut after = vec![After { used: 0, cells: cells.clone(), open: 0 }];
    let mut journal = Journal::new(Rules::default(), &counts, &mut cells, &mut buffer);
    for (step, open) in [0, 1, 1, 2, 2, 1, 0].into_iter().enumerate() {
        match step {
            0 => journal.set(4, 1, 7300),
            1 | 3 => journal.open().map(|_| ()),
            2 => journal.set(4, 1, -1),
            4 => journal.set(1, 1, 1300),
            5 => journal.undo(1),
            _ => journal.release(1),
        }
        .expect("accepted");
        after.push(After { used: journal.used(), cells: journal.cells().to_vec(), open });
    }
    (journal.bytes().to_vec(), after)
}

/// Cut at any byte: all that was whole is there, and calls go on.
#[test]
fn a_torn_journal() {
    let (counts, (whole, after)) = (counts_of_s(), session());
    assert_eq!(after.len(), 8);
    for length in 0..=whole.len() {
        let After { used, cells: want, open } = after.iter().rev().find(|after| after.used <= length).expect("the start");
        let (mut cells, mut buffer) = (cells_of_s(), [BYTE; 200]);
        buffer[..length].copy_from_slice(&whole[..length]);
        if *used < length {
            assert_eq!(
                Journal::replay(Rules::default(), &counts, &mut cells, &mut buffer, length).err(),
                Some(Refusal::BadEntry { place: *used })
            );
            assert_eq!(cells, cells_of_s());
        }
        let (mut journal, found) =
            Journal::replay(Rules::default(), &counts, &mut cells, &mut buffer, *used).expect("the fields before the cut");
        assert_eq!((found, journal.used(), journal.cells()), (*open, *used, &want[..]));
        assert_eq!(journal.open(), Ok(open + 1));
        assert_eq!(journal.set(4, 1, 5), Ok(()));
        assert_eq!(journal.undo(open + 1), Ok(()));
        assert_eq!(journal.cells(), &want[..]);
    }
}

/// Over another table than it began with.
#[test]
fn an_old_value_that_differs() {
    let (counts, (whole, _)) = (counts_of_s(), session());
    let (mut cells, mut buffer) = (with_fof2(7251), whole.clone());
    assert_eq!(Journal::replay(Rules::default(), &counts, &mut cells, &mut buffer, whole.len()).err(), Some(Refusal::BadEntry { place: 0 }));
    assert_eq!((cells, buffer), (with_fof2(7251), whole));
}

/// Words of a script's line; a number may be any of 64 bits.
struct Words<'a>(std::str::Split<'a, char>);

impl<'a> Words<'a> {
    fn word(&mut self) -> &'a str {
        self.0.next().expect("a word")
    }

    fn size(&mut self) -> usize {
        self.word().parse().expect("a number")
    }

    fn cells(&mut self) -> Vec<i64> {
        self.0.by_ref().map(|word| word.parse().expect("a cell")).collect()
    }

    fn counts_and_cells(&mut self) -> (Vec<u16>, Vec<i64>) {
        let many = self.size();
        let counts = (0..many).map(|_| self.word().parse().expect("a count")).collect();
        let many = self.size();
        (counts, (0..many).map(|_| self.word().parse().expect("a cell")).collect())
    }

    fn hexadecimal(&mut self) -> Vec<u8> {
        let hex = self.word().trim_end_matches('-');
        (0..hex.len()).step_by(2).map(|i| u8::from_str_radix(&hex[i..i + 2], 16).expect("a byte")).collect()
    }

    /// `-> REPLY A B LAST`
    fn answer(&mut self) -> [usize; 4] {
        assert_eq!(self.word(), "->");
        let answer = [self.size(), self.size(), self.size(), self.size()];
        assert_eq!(self.0.next(), None);
        answer
    }
}

/// A reply with its two numbers; `last` is what stands behind them.
fn answered(answer: Result<usize, Refusal>, last: usize) -> [usize; 4] {
    match answer {
        Ok(first) => [0, first, 0, last],
        Err(Refusal::FilledVacant { group } | Refusal::BrokenRule { group }) => [answer.unwrap_err().number() as usize, group, 0, last],
        Err(Refusal::BadEntry { place }) => [17, place, 0, last],
        Err(why) => [why.number() as usize, 0, 0, last],
    }
}

/// A call of a script, on what the ones before left; what is used afterwards.
fn call(words: &mut Words, verb: &str, mut journal: Journal) -> usize {
    let answer = match verb {
        "set" => journal.set(words.size(), words.size(), words.word().parse().expect("a value")).map(|()| 0),
        "open" => journal.open(),
        "release" => journal.release(words.size()).map(|()| 0),
        _ => journal.undo(words.size()).map(|()| 0),
    };
    assert_eq!(answered(answer, journal.used()), words.answer());
    journal.used()
}

/// The word before a script or a replay, if there is one, says what a count of group 40 counts; else it counts elements.
fn counted(line: &str) -> (Rules, &str) {
    let entries = Rules::default().counting(Counting::Entries);
    match (line.strip_prefix("entries "), line.strip_prefix("elements ")) {
        (Some(rest), _) => (entries, rest),
        (_, Some(rest)) => (Rules::default(), rest),
        _ => (Rules::default(), line),
    }
}

/// Every line of a file of scripts: how many calls and replays there were.
fn scripts(name: &str) -> (usize, usize) {
    let file = String::from_utf8(bytes(name)).expect("ASCII");
    let (mut rules, mut counts, mut cells, mut buffer, mut used) = (Rules::default(), Vec::new(), Vec::new(), Vec::new(), 0);
    let (mut replayed, mut calls, mut replays) = (None, 0, 0);
    for line in file.lines() {
        let (told, rest) = counted(line);
        let mut words = Words(rest.split(' '));
        match words.word() {
            "#" => (),
            start @ ("start" | "begin") => {
                rules = told;
                (counts, cells) = words.counts_and_cells();
                let room = words.size();
                (used, buffer) = if start == "begin" { (words.size(), words.hexadecimal()) } else { (0, Vec::new()) };
                buffer.resize(room, BYTE);
                replayed = None;
            }
            verb @ ("set" | "open" | "release" | "undo") => {
                used = call(&mut words, verb, Journal::resume(rules, &counts, &mut cells, &mut buffer, used));
                assert!(buffer.iter().skip(used).all(|&byte| byte == BYTE), "{line}");
                calls += 1;
            }
            "replay" => {
                let (counts, mut cells) = words.counts_and_cells();
                let (used, mut journal) = (words.size(), words.hexadecimal());
                let answer = Journal::replay(told, &counts, &mut cells, &mut journal, used);
                let open = answer.as_ref().map_or(0, |(_, open)| *open);
                assert_eq!(answered(answer.map(|_| 0), open), words.answer());
                replayed = Some(cells);
                replays += 1;
            }
            "cells" => assert_eq!(&words.cells(), replayed.as_ref().unwrap_or(&cells)),
            "journal" => assert_eq!(words.hexadecimal(), buffer[..used]),
            other => panic!("{other}"),
        }
    }
    (calls, replays)
}

#[test]
fn scripts_by_elements() {
    assert_eq!(scripts("tests/vectors/W5/journal.txt"), (1717, 210));
}

#[test]
fn scripts_by_elements_and_by_entries() {
    assert_eq!(scripts("tests/vectors/W10/journal.txt"), (208, 18));
}

//! Times the library against a plain reader and other plain code, over the day and copies of it, and prints a table. `bench/run` builds and starts
//! it, with two words that tell what was linked: one for each row of the table, and a longer one. The exit status is 1 if the library takes more
//! than twice the plain reader's time for the records of the day.
#![deny(unsafe_code)]

mod edits;
mod feeds;

use race::{day, library};
use seambeacon::{place, read_group, write_record, Journal, Placing, Record, Rules};
use std::env;
use std::fs;
use std::hint::black_box;
use std::process::ExitCode;
use std::time::{Duration, Instant};

/// How many times the plain reader's time the library may take.
const ACCEPTED: f64 = 2.0;

/// How long the contestants of a row take turns, and how often at least.
const TIME: Duration = Duration::from_millis(400);
const TURNS: usize = 12;

/// A journal of this length goes with each copy of the day.
const JOURNAL: usize = 1 << 16;

/// The best time of each, in nanoseconds. They take turns, so that whatever else the machine does slows all of them.
fn best<const N: usize>(mut contestants: [&mut dyn FnMut(); N]) -> [f64; N] {
    let (start, mut turns, mut best) = (Instant::now(), 0, [Duration::MAX; N]);
    while turns < TURNS || start.elapsed() < TIME {
        for (contestant, best) in contestants.iter_mut().zip(&mut best) {
            let before = Instant::now();
            contestant();
            *best = before.elapsed().min(*best);
        }
        turns += 1;
    }
    best.map(|time| time.as_secs_f64() * 1e9)
}

/// The table; each of its rows says what was linked, and the machine's kind.
struct Table {
    machine: String,
}

impl Table {
    /// Its head, and a sentence before it.
    fn begun() -> Table {
        let mut words = env::args().skip(1);
        let mut word = || words.next().unwrap_or_else(|| String::from("unknown"));
        let (linked, made) = (word(), word());
        let told = fs::read_to_string("/proc/cpuinfo").unwrap_or_default();
        let model = told.lines().find_map(|line| line.strip_prefix("model name")?.split_once(": "));
        println!("The library is {made}. A time is the best of many turns, taken in one run.\n");
        println!("| Asked | Copies | Bytes | Library, ns a byte | Against | Its ns a byte | Ratio | Machine |");
        println!("|---|---|---|---|---|---|---|---|");
        Table { machine: format!("{}, {}, {linked}", env::consts::ARCH, model.map_or("unknown model", |(_, name)| name.trim())) }
    }

    /// A row; and its ratio.
    fn row(&self, asked: &str, copies: usize, bytes: usize, library: f64, against: &str, other: f64) -> f64 {
        let (each, of) = (library / bytes as f64, other / bytes as f64);
        println!("| {asked} | {copies} | {bytes} | {each:.3} | {against} | {of:.3} | {:.2} | {} |", library / other, self.machine);
        library / other
    }
}

/// The records of a text, all of which are placed with 0, each with its place.
fn records(text: &[u8]) -> Vec<(usize, Record)> {
    let (mut at, mut records) = (0, Vec::new());
    while let Ok(record @ Record { placing: Placing::Placed { next }, .. }) = place(Rules::default(), text, at) {
        records.push((at, record));
        at = next;
    }
    assert_eq!(at, text.len());
    records
}

/// Reading; the ratio of whole records.
fn reading(table: &Table, copies: usize, text: &[u8]) -> f64 {
    let (rules, records) = (Rules::default(), records(text));
    let [mut first, mut second, mut third, mut fourth] = [const { [0; 4096] }; 4];
    let [whole, with_record, by_place, plain] = best([
        &mut || {
            for &(at, _) in &records {
                black_box(library::read_record(rules, text, at, &mut first)).expect("a record");
            }
        },
        &mut || {
            for (_, record) in &records {
                for group in 1..=60 {
                    black_box(record.group(rules, text, group, &mut second)).expect("a group");
                }
            }
        },
        &mut || {
            for &(at, _) in &records {
                for group in 1..=60 {
                    black_box(read_group(rules, text, at, group, &mut third)).expect("a group");
                }
            }
        },
        &mut || {
            for &(at, _) in &records {
                black_box(plain::read_record(plain::Rules::default(), text, at, &mut fourth)).expect("a record");
            }
        },
    ]);
    assert!(first == fourth, "the same cells");
    let against = "plain reader of whole records";
    let ratio = table.row("whole records", copies, text.len(), whole, against, plain);
    table.row("sixty groups with a record", copies, text.len(), with_record, against, plain);
    table.row("sixty groups by place", copies, text.len(), by_place, against, plain);
    ratio
}

/// The walk.
fn placing(table: &Table, copies: usize, text: &[u8]) {
    let [walk, counted, sought] = best([
        &mut || {
            let mut at = 0;
            while let Ok(Record { placing: Placing::Placed { next }, .. }) = place(Rules::default(), black_box(text), at) {
                at = next;
            }
            assert_eq!(at, text.len());
        },
        &mut || assert!(black_box(feeds::counted(black_box(text))) > 0),
        &mut || assert!(black_box(feeds::sought(black_box(text))) > 0),
    ]);
    let asked = "the walk";
    table.row(asked, copies, text.len(), walk, "line feeds, counted in a byte loop", counted);
    table.row(asked, copies, text.len(), walk, "line feeds, by memchr", sought);
}

/// Writing the records of the day.
fn writing(table: &Table, copies: usize, text: &[u8]) {
    let (records, mut out, mut copy) = (day::records(), [0; 8192], vec![0; text.len()]);
    let [written, copied] = best([
        &mut || {
            for day::Record { counts, cells, .. } in records.iter().cycle().take(copies * records.len()) {
                black_box(write_record(Rules::default(), counts, black_box(cells), &mut out)).expect("a record");
            }
        },
        &mut || black_box(&mut copy).copy_from_slice(black_box(text)),
    ]);
    table.row("writing", copies, text.len(), written, "copying these bytes", copied);
}

/// The journal: a set and an undo of all behind so many bytes, and a replay of them.
fn editing(table: &Table, copies: usize) {
    let record = &day::records()[6];
    let (parts, counts) = (&record.parts, &record.counts);
    let (bytes, edited) = edits::journal(record, copies * JOURNAL);
    let (used, value) = (bytes.len(), 7_777);
    let buffer = || [&bytes[..], &[0; 22]].concat();

    let (mut cells, mut journal, mut plain_cells, mut plain_journal) = (edited.clone(), buffer(), edited.clone(), buffer());
    let [set, plain_set] =
        best([&mut || Journal::resume(Rules::default(), counts, &mut cells, &mut journal, used).set(7, 1, value).expect("a set"), &mut || {
            edits::set(parts, &mut plain_cells, &mut plain_journal, used, 7, 1, value).expect("a set")
        }]);
    assert!(cells == plain_cells && journal == plain_journal, "the same set");
    table.row("a set behind a journal", copies, used, set, "plain pass over its fields", plain_set);

    let mut sets = Vec::new();
    let [undo, plain_undo] = best([
        &mut || {
            cells.copy_from_slice(&edited);
            Journal::resume(Rules::default(), counts, &mut cells, &mut journal, used).undo(1).expect("an undo");
        },
        &mut || {
            plain_cells.copy_from_slice(&edited);
            edits::undo(parts, &mut plain_cells, &mut plain_journal, used, 1, &mut sets).expect("an undo");
        },
    ]);
    assert!(cells == record.cells && plain_cells == record.cells && journal == plain_journal, "the same undo");
    table.row("an undo of all of it", copies, used, undo, "plain undo", plain_undo);

    let [replay, plain_replay] = best([
        &mut || {
            cells.copy_from_slice(&record.cells);
            assert_eq!(Journal::replay(Rules::default(), counts, &mut cells, &mut journal, used).expect("a replay").1, 1);
        },
        &mut || {
            plain_cells.copy_from_slice(&record.cells);
            assert_eq!(edits::replay(parts, &mut plain_cells, &plain_journal[..used]), Some(1));
        },
    ]);
    assert!(cells == edited && plain_cells == edited, "the same replay");
    table.row("a replay of it", copies, used, replay, "plain replay", plain_replay);
}

fn main() -> ExitCode {
    let (day, table) = (day::text(), Table::begun());
    let texts = [1, 4, 16].map(|copies| (copies, day.repeat(copies)));
    let ratios = [0, 1, 2].map(|i| reading(&table, texts[i].0, &texts[i].1));
    texts.iter().for_each(|(copies, text)| placing(&table, *copies, text));
    texts.iter().for_each(|(copies, text)| writing(&table, *copies, text));
    texts.iter().for_each(|(copies, _)| editing(&table, *copies));

    let ratio = ratios[0];
    println!("\nwhole records of {} bytes: {ratio:.2} times the plain reader's time, {ACCEPTED:.1} accepted", day.len());
    if ratio > ACCEPTED {
        ExitCode::FAILURE
    } else {
        ExitCode::SUCCESS
    }
}

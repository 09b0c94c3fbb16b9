//! The plain reader answers as the library does: the same reply with the same numbers and, under 0, the same cells. Texts are those of
//! tests/vectors and examples, or of the folder that the variable SEAMBEACON_VECTORS names.

use plain::Refusal as Plain;
use race::{day, library};
use seambeacon::{place, rewrite_record, Counting, Placing, Record, Refusal, Rewritten, Rules};
use std::env;
use std::fs;
use std::path::{Path, PathBuf};

/// More cells than any record has: 74,303 with counts of entries.
const LONG: usize = 75_000;

/// What no field of these texts reads as.
const KEPT: i64 = i64::MIN;

/// The four rules, as each of the two takes them.
fn all_rules() -> [(plain::Rules, Rules); 4] {
    [(false, false), (true, false), (false, true), (true, true)].map(|(strict, entries)| {
        let ended = if strict { Rules::strict() } else { Rules::default() };
        (plain::Rules { strict, entries }, ended.counting(if entries { Counting::Entries } else { Counting::Elements }))
    })
}

/// The library's refusal as the plain reader's; any other is none that reading a record has.
fn as_plain(why: Refusal) -> Plain {
    match why {
        Refusal::End => Plain::End,
        Refusal::Beyond => Plain::Beyond,
        Refusal::TooFewLines => Plain::TooFewLines,
        Refusal::Misformed => Plain::Misformed,
        Refusal::OtherRelease => Plain::OtherRelease,
        Refusal::FilledVacant { group } => Plain::FilledVacant { group },
        Refusal::BrokenRule { group } => Plain::BrokenRule { group },
        Refusal::BadLine { group, line } => Plain::BadLine { group, line },
        Refusal::BadField { group, line, element } => Plain::BadField { group, line, element },
        Refusal::BadDate { position } => Plain::BadDate { position },
        Refusal::NoRoom => Plain::NoRoom,
        other => panic!("{other}"),
    }
}

/// The texts below a folder.
fn texts_in(folder: &Path, texts: &mut Vec<(PathBuf, Vec<u8>)>) {
    for entry in fs::read_dir(folder).expect("a folder") {
        let path = entry.expect("an entry").path();
        if path.is_dir() {
            texts_in(&path, texts);
        } else if path.extension().is_some_and(|kind| kind == "sao") {
            let text = fs::read(&path).expect("a text");
            texts.push((path, text));
        }
    }
}

/// The folder that is named, if it is not for the project's own texts.
fn named() -> Option<PathBuf> {
    env::var_os("SEAMBEACON_VECTORS").map(PathBuf::from)
}

fn texts() -> Vec<(PathBuf, Vec<u8>)> {
    let project = PathBuf::from(env!("CARGO_MANIFEST_DIR")).join("../..");
    let folders = named().map_or_else(|| vec![project.join("tests/vectors"), project.join("examples")], |folder| vec![folder]);
    let mut texts = Vec::new();
    folders.iter().for_each(|folder| texts_in(folder, &mut texts));
    assert!(texts.len() >= if named().is_some() { 1 } else { 280 }, "{} texts", texts.len());
    texts.sort();
    texts
}

/// The places of a walk, and where it stops.
fn walk(rules: Rules, text: &[u8]) -> Vec<usize> {
    let (mut at, mut places) = (0, vec![0]);
    while let Ok(Record { placing: Placing::Placed { next } | Placing::Broken { next, .. }, .. }) = place(rules, text, at) {
        at = next;
        places.push(at);
    }
    places
}

/// What both have been asked, by the number of the reply.
#[derive(Default)]
struct Asked {
    replies: [usize; 12],
    plain: Vec<i64>,
    library: Vec<i64>,
}

impl Asked {
    /// Both read the record at a place into a table of so many cells.
    fn same(&mut self, rules: (plain::Rules, Rules), text: &[u8], at: usize, room: usize, what: &str) -> Result<usize, Plain> {
        for table in [&mut self.plain, &mut self.library] {
            table.clear();
            table.resize(room, KEPT);
        }
        let got = plain::read_record(rules.0, text, at, &mut self.plain);
        let want = library::read_record(rules.1, text, at, &mut self.library);
        assert_eq!(got, want.map_err(as_plain), "{what}, at {at}, {room} cells, {:?}", rules.0);
        if got.is_ok() {
            assert!(self.plain == self.library, "{what}, at {at}, {room} cells, {:?}", rules.0);
        }
        self.replies[want.map_or_else(|why| why.number() as usize, |_| 0)] += 1;
        got
    }

    /// The same with tables that have as many cells as the record, one fewer, some more, and none. Where a group is refused the record's cells are
    /// not told, but from them on 11 is no longer due.
    fn same_with_tables(&mut self, rules: (plain::Rules, Rules), text: &[u8], at: usize, what: &str) {
        let cells = match self.same(rules, text, at, LONG, what) {
            Ok(cells) => cells,
            Err(Plain::BadLine { .. } | Plain::BadField { .. } | Plain::BadDate { .. }) => {
                let (mut low, mut high) = (0, LONG);
                while low < high {
                    let middle = (low + high) / 2;
                    match self.same(rules, text, at, middle, what) {
                        Err(Plain::NoRoom) => low = middle + 1,
                        _ => high = middle,
                    }
                }
                low
            }
            Err(_) => 0,
        };
        for room in [cells, cells.saturating_sub(1), cells + 3, 0] {
            self.same(rules, text, at, room, what).ok();
        }
    }

    /// Of the project's own texts there were so many questions at least, and none of these replies is rare.
    fn enough(&self, least: usize, replies: impl IntoIterator<Item = usize>) {
        let all = self.replies.iter().sum::<usize>();
        println!("{all} questions, by reply {:?}", self.replies);
        assert!(named().is_some() || all >= least, "{:?}", self.replies);
        assert!(named().is_some() || replies.into_iter().all(|reply| self.replies[reply] >= 30), "{:?}", self.replies);
    }
}

#[test]
fn every_record_of_every_text() {
    let mut asked = Asked::default();
    for (path, text) in texts() {
        let what = path.display().to_string();
        for rules in all_rules() {
            for at in walk(rules.1, &text) {
                asked.same_with_tables(rules, &text, at, &what);
            }
            for at in [1, text.len() / 2, text.len(), text.len() + 1, usize::MAX] {
                asked.same(rules, &text, at, LONG, &what).ok();
            }
        }
    }
    asked.enough(27_000, 0..=11);
}

/// Numbers that are drawn, the same in every run.
struct Drawn(u64);

impl Drawn {
    fn below(&mut self, limit: usize) -> usize {
        self.0 = self.0.wrapping_mul(6_364_136_223_846_793_005).wrapping_add(1_442_695_040_888_963_407);
        (self.0 >> 33) as usize % limit
    }
}

/// Every text with up to four bytes exchanged, mostly for such as have a meaning somewhere.
#[test]
fn altered_texts() {
    const BYTES: &[u8] = b"0159 -+.E/A~\r\n\x00\x1f\x7f\xff";
    let (mut asked, mut drawn) = (Asked::default(), Drawn(14));
    let mut texts = texts();
    texts.push((PathBuf::from("the day"), day::text()));
    for (path, original) in texts.iter().filter(|(_, text)| !text.is_empty()) {
        let what = path.display().to_string();
        for _ in 0..24 {
            let mut text = original.clone();
            let places = walk(Rules::default(), &text);
            let at = places[drawn.below((places.len() - 1).max(1))];
            for _ in 0..drawn.below(5) {
                // near a place of the walk, where the index and the first groups are, or anywhere
                let from = if drawn.below(2) == 0 { at } else { 0 };
                let within = if drawn.below(2) == 0 { 700 } else { text.len() };
                let k = (from + drawn.below(within)).min(text.len() - 1);
                text[k] = BYTES[drawn.below(BYTES.len())];
            }
            let rules = all_rules()[drawn.below(4)];
            asked.same(rules, &text, at, LONG, &what).ok();
            asked.same(rules, &text, at, drawn.below(500), &what).ok();
        }
    }
    asked.enough(13_000, [0].into_iter().chain(3..=11));
}

/// R380: S's counts.
fn counts_of_s() -> [u16; 80] {
    let mut counts = [0; 80];
    (counts[0], counts[2], counts[3], counts[79]) = (4, 19, 1, 5);
    counts
}

/// An index of these counts, as it is written.
fn index(counts: &[u16; 80]) -> String {
    let entries: Vec<String> = counts.iter().map(|count| format!("{count:3}")).collect();
    format!("{}\r\n{}\r\n", entries[..40].concat(), entries[40..].concat())
}

/// R121 to R128: S's counts with another in a single group, and with drawn ones in all groups of a set, before more empty lines than any of these
/// has. Each group that can be blamed is.
#[test]
fn counts() {
    const SETS: [(usize, usize); 10] = [(7, 11), (12, 16), (17, 21), (22, 25), (26, 29), (30, 33), (43, 46), (47, 50), (51, 53), (58, 60)];
    let (mut asked, mut drawn, mut blamed) = (Asked::default(), Drawn(7), [0; 61]);
    let mut all: Vec<[u16; 80]> = Vec::new();
    let mut with = |changes: &[(usize, u16)]| {
        let mut counts = counts_of_s();
        changes.iter().for_each(|&(group, count)| counts[group - 1] = count);
        all.push(counts);
    };
    for group in 1..=80 {
        [0, 1, 2, 3, 4, 5, 18, 19, 49, 50].into_iter().for_each(|count| with(&[(group, count)]));
    }
    for (first, last) in SETS.repeat(100) {
        with(&(first..=last).map(|group| (group, drawn.below(3) as u16)).collect::<Vec<_>>());
    }
    for counts in all {
        let text = index(&counts) + &"\r\n".repeat(60);
        for rules in all_rules() {
            if let Err(Plain::BrokenRule { group }) = asked.same(rules, text.as_bytes(), 0, LONG, "counts") {
                blamed[group] += 1;
            }
        }
    }
    asked.enough(7200, 5..=8);
    let groups: Vec<usize> = (1..=60).filter(|&group| blamed[group] > 0).collect();
    assert_eq!(groups, [1, 2, 3, 4, 7, 12, 17, 22, 26, 30, 43, 47, 51, 54, 55, 58]);
}

/// R140 to R148: S with every month and day of four years, each as the days of the year around the one that it might be.
#[test]
fn dates() {
    let mut asked = Asked::default();
    let index = index(&counts_of_s());
    for year in [1900, 2000, 2004, 2006] {
        for (month, day) in (0..=13).flat_map(|month| (0..=32).map(move |day| (month, day))) {
            let near = 30 * (month - 1) + day;
            for day_of_year in (near - 3..=near + 9).filter(|number| (0..=999).contains(number)) {
                let date = format!("AA{year:04}{day_of_year:03}{month:02}{day:02}142530");
                let text = format!("{index}  1.200 67.000-23.500143.000\r\n{date}\r\n   7.250\r\n");
                asked.same(all_rules()[0], text.as_bytes(), 0, 24, &date).ok();
            }
        }
    }
    asked.enough(20_000, [0, 10]);
    assert_eq!(asked.replies[0], 365 + 366 + 366 + 365);
}

/// The day has about 60,000 bytes, is canonical, and reads as the cells that it was made from.
#[test]
fn the_day() {
    let (text, rules, mut at) = (day::text(), Rules::default(), 0);
    assert!((58_000..=62_000).contains(&text.len()), "{} bytes", text.len());
    let (mut asked, mut table, mut out) = (Asked::default(), [0; 8192], [0; 8192]);
    for record in day::records() {
        for rules in all_rules() {
            assert_eq!(asked.same(rules, &text, at, LONG, "the day"), Ok(record.cells.len()));
            assert_eq!(asked.plain[..record.cells.len()], record.cells);
        }
        let Rewritten { bytes, next } = rewrite_record(rules, &text, at, &mut table, &mut out).expect("a canonical record");
        assert!(out[..bytes] == text[at..next]);
        at = next;
    }
    assert_eq!(at, text.len());
}

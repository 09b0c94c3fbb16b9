//! What the tests share: the project's example texts, and record S with its numbers as the rules state them.
#![allow(dead_code)]

use seambeacon::{Counting, Placing, Refusal, Rewritten, Rules};
use std::fs;
use std::path::PathBuf;

/// A file or folder of the project.
pub fn project(name: &str) -> PathBuf {
    PathBuf::from(env!("CARGO_MANIFEST_DIR")).join("../..").join(name)
}

/// A file's bytes; a file that is not there fails the test.
pub fn bytes(name: &str) -> Vec<u8> {
    fs::read(project(name)).unwrap_or_else(|why| panic!("{name}: {why}"))
}

/// Every text of the vectors and of the examples.
pub fn all_texts() -> Vec<Vec<u8>> {
    let mut all = Vec::new();
    for folder in ["tests/vectors", "tests/vectors/W7", "tests/vectors/W8", "tests/vectors/W9", "tests/vectors/W12", "examples"] {
        let files = fs::read_dir(project(folder)).expect("a folder").map(|file| file.expect("a file").path());
        all.extend(files.filter(|path| path.extension().is_some_and(|kind| kind == "sao")).map(|path| fs::read(path).expect("a text")));
    }
    assert!(all.len() >= 283, "{} texts", all.len());
    all
}

/// Both rules for line ends, each with both for counts of group 40.
pub fn all_rules() -> [Rules; 4] {
    let entries = |rules: Rules| rules.counting(Counting::Entries);
    [Rules::default(), Rules::strict(), entries(Rules::default()), entries(Rules::strict())]
}

/// The rules by the names that questions of the vectors have for them.
pub fn rules_named(name: &str) -> Rules {
    let names = ["either-elements", "strict-elements", "either-entries", "strict-entries"];
    all_rules()[names.iter().position(|&known| known == name).expect("a name of rules")]
}

/// Record S, of 305 bytes.
pub fn s() -> Vec<u8> {
    let text = bytes("examples/s.sao");
    assert_eq!(text.len(), 305);
    text
}

/// S's counts: 4, 0, 19, 1, zeros, release 5.
pub fn counts_of_s() -> [u16; 80] {
    let mut counts = [0; 80];
    (counts[0], counts[2], counts[3], counts[79]) = (4, 19, 1, 5);
    counts
}

/// S's cells in group order: the data lines are `  1.200 67.000-23.500143.000`, `AA20062650922142530`, `   7.250`.
pub fn cells_of_s() -> Vec<i64> {
    let mut cells = vec![1200, 67000, -23500, 143000];
    cells.extend(b"AA20062650922142530".iter().map(|&letter| i64::from(letter)));
    cells.push(7250);
    cells
}

/// The text with the one place where `old` stands replaced by `new`.
pub fn replaced(text: &[u8], old: &str, new: &str) -> Vec<u8> {
    let places: Vec<usize> = (0..text.len()).filter(|&at| text[at..].starts_with(old.as_bytes())).collect();
    assert_eq!(places.len(), 1, "`{old}` stands in the text once");
    [&text[..places[0]], new.as_bytes(), &text[places[0] + old.len()..]].concat()
}

/// How a record stands at a place, with its counts.
pub fn placed(rules: Rules, text: &[u8], at: usize) -> Result<(Placing, [u16; 80]), Refusal> {
    seambeacon::place(rules, text, at).map(|record| (record.placing, record.counts))
}

/// A refusal's number, and the two numbers beside it in the vectors: group, line or position, and element.
pub fn numbers(why: Refusal) -> [usize; 3] {
    let (first, second) = match why {
        Refusal::FilledVacant { group } | Refusal::BrokenRule { group } => (group, 0),
        Refusal::BadLine { line, .. } => (line, 0),
        Refusal::BadField { line, element, .. } => (line, element),
        Refusal::BadDate { position } => (position, 0),
        _ => (0, 0),
    };
    [why.number() as usize, first, second]
}

/// R346: what the rewriting program prints of a text, up to the first record that is refused or has more than 8,192 canonical bytes.
/// Also the place where it stops.
pub fn rewritten(rules: Rules, text: &[u8]) -> (Vec<u8>, usize) {
    let (mut table, mut out) = ([0; 8192], [0; 8192]);
    let (mut at, mut all) = (0, Vec::new());
    while let Ok(Rewritten { bytes, next }) = seambeacon::rewrite_record(rules, text, at, &mut table, &mut out) {
        assert!(next > at, "a walk goes forward");
        all.extend_from_slice(&out[..bytes]);
        at = next;
    }
    (all, at)
}

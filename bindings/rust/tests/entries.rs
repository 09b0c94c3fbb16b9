//! R13: record S with a group 40, its count taken for elements and for entries. Every field is that of R407, whose cells are 100,000,000,000 and 1; a
//! full line has six of them, in 122 bytes.

mod common;

use common::{cells_of_s, counts_of_s, placed, s};
use seambeacon::{Counting, Journal, Placing, Refusal, Rewritten, Rules};

const FIELD: &str = "  0.100000000000E+01";

fn entries() -> Rules {
    Rules::default().counting(Counting::Entries)
}

/// A record's counts, cells and canonical text.
struct Made {
    counts: [u16; 80],
    cells: Vec<i64>,
    text: Vec<u8>,
}

/// S with that count of group 40, and so many elements.
fn made(count: u16, elements: usize) -> Made {
    let (mut counts, mut cells, mut text) = (counts_of_s(), cells_of_s(), s());
    counts[39] = count;
    text[3 * 39..3 * 40].copy_from_slice(format!("{count:3}").as_bytes());
    for line in vec![FIELD; elements].chunks(6) {
        text.extend(line.concat().bytes().chain(*b"\r\n"));
    }
    cells.extend([100_000_000_000, 1].repeat(elements));
    Made { counts, cells, text }
}

/// Every question about the record made; group 40 stands in these lines.
fn answered(rules: Rules, made: &Made, lines: usize) {
    let Made { counts, cells, text } = made;
    let (next, of_40) = (text.len(), &cells[24..]);
    assert_eq!(placed(rules, text, 0), Ok((Placing::Placed { next }, *counts)));
    let mut table = vec![-1; of_40.len()];
    assert_eq!(seambeacon::read_group(rules, text, 0, 40, &mut table), Ok(of_40.len()));
    assert_eq!(table, of_40);
    assert_eq!(seambeacon::group_lines(rules, text, 0, 40), Ok(&text[305..]));
    let (mut table, mut out) = (vec![0; cells.len()], vec![0; next]);
    assert_eq!(seambeacon::rewrite_record(rules, text, 0, &mut table, &mut out), Ok(Rewritten { bytes: next, next }));
    assert!(&table == cells && &out == text);
    let mut table = vec![0; cells.len()];
    assert_eq!(seambeacon::read_record(rules, text, 0, &mut table), Ok(cells.len()));
    assert!(&table == cells);
    let listed = format!("1 0 {next} 0 0 {} {}\nend 1 {next} 1 0\n", 3 + usize::from(lines > 0), 5 + lines);
    let mut out = [0; 100];
    assert_eq!(seambeacon::list(rules, text, &mut out), Ok(listed.len()));
    assert_eq!(&out[..listed.len()], listed.as_bytes());
}

/// Its cells are written, and not one fewer or one more.
fn written(rules: Rules, made: &Made) {
    let Made { counts, cells, text } = made;
    let (mut out, mut more) = (vec![1; text.len()], cells.clone());
    more.push(1);
    for other in [&cells[1..], &more[..]] {
        assert_eq!(seambeacon::write_record(rules, counts, other, &mut out), Err(Refusal::OtherLength));
        assert!(out.iter().all(|&byte| byte == 1));
    }
    assert_eq!(seambeacon::write_record(rules, counts, cells, &mut out), Ok(text.len()));
    assert!(&out == text);
}

/// The last cell of group 40 can be set, and no further one; the journal is replayed by the same rules.
fn edited(rules: Rules, made: &Made) {
    let Made { counts, cells, .. } = made;
    let (last, mut now, mut buffer) = (cells.len() - 24, cells.clone(), [0; 44]);
    let mut journal = Journal::new(rules, counts, &mut now, &mut buffer);
    assert_eq!(journal.set(40, last + 1, 7), Err(Refusal::NoSuchNumber));
    if last == 0 {
        return;
    }
    assert_eq!(journal.set(40, last, 7), Ok(()));
    assert_eq!(journal.cells()[cells.len() - 1], 7);
    let mut began = cells.clone();
    let (replayed, open) = Journal::replay(rules, counts, &mut began, &mut buffer, 22).expect("a replay");
    assert!((open, replayed.cells()) == (0, &now[..]));
}

#[test]
fn counts_by_each_rule() {
    for (count, by_elements, by_entries) in
        [(0, (0, 0), (0, 0)), (1, (1, 1), (1, 1)), (2, (2, 1), (7, 2)), (7, (7, 2), (37, 7)), (999, (999, 167), (5989, 999))]
    {
        for (rules, (elements, lines)) in [(Rules::default(), by_elements), (entries(), by_entries)] {
            let made = made(count, elements);
            assert_eq!(made.text.len(), 305 + 20 * elements + 2 * lines);
            answered(rules, &made, lines);
            written(rules, &made);
            edited(rules, &made);
        }
    }
}

/// A count of 2 is one line of two elements, or a line of six and one of one.
#[test]
fn the_other_rule() {
    let (elements, by_entries, mut table) = (made(2, 2), made(2, 7), [-1; 20]);
    assert_eq!(seambeacon::place(entries(), &elements.text, 0), Err(Refusal::TooFewLines));
    assert_eq!(seambeacon::read_group(entries(), &elements.text, 0, 1, &mut table), Err(Refusal::TooFewLines));
    assert_eq!(placed(Rules::default(), &by_entries.text, 0), Ok((Placing::Placed { next: 305 + 122 }, by_entries.counts)));
    let answer = seambeacon::read_group(Rules::default(), &by_entries.text, 0, 40, &mut table);
    assert_eq!((answer, table), (Err(Refusal::BadLine { group: 40, line: 1 }), [-1; 20]));
}

/// What was read by one rule is neither written nor edited by the other.
#[test]
fn cells_of_the_other_rule() {
    for (rules, made) in [(entries(), made(2, 2)), (Rules::default(), made(2, 7))] {
        let (mut cells, mut buffer, mut out) = (made.cells.clone(), [0; 44], [0; 500]);
        assert_eq!(seambeacon::write_record(rules, &made.counts, &cells, &mut out), Err(Refusal::OtherLength));
        let mut journal = Journal::new(rules, &made.counts, &mut cells, &mut buffer);
        assert_eq!(journal.set(40, 1, 7), Err(Refusal::OtherLength));
        assert_eq!(journal.open(), Err(Refusal::OtherLength));
        assert_eq!(journal.release(1), Err(Refusal::OtherLength));
        assert_eq!(journal.undo(1), Err(Refusal::OtherLength));
        assert_eq!(Journal::replay(rules, &made.counts, &mut cells, &mut buffer, 0).err(), Some(Refusal::OtherLength));
    }
}

/// The line end is a rule of its own: strict refuses a line of group 40 without its carriage return, whatever the count counts.
#[test]
fn with_the_strict_line_end() {
    let strict = Rules::strict().counting(Counting::Entries);
    let made = made(2, 7);
    answered(strict, &made, 2);
    written(strict, &made);
    edited(strict, &made);
    let mut text = made.text.clone();
    text.remove(text.len() - 2);
    let mut table = [-1; 14];
    assert_eq!(seambeacon::read_group(strict, &text, 0, 40, &mut table), Err(Refusal::BadLine { group: 40, line: 2 }));
    assert_eq!(table, [-1; 14]);
    assert_eq!(seambeacon::read_group(entries(), &text, 0, 40, &mut table), Ok(14));
    assert_eq!(table, made.cells[24..]);
}

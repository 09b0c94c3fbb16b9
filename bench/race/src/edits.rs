//! A journal of edits (R520 to R524), and a plain way through it: what the library's calls are held against.

use race::day::Record;
use std::ops::Range;

/// A journal of at most so many bytes, in which a savepoint is opened and cells of the record are set, one after the other; and the record's cells
/// behind all of them.
pub fn journal(record: &Record, most: usize) -> (Vec<u8>, Vec<i64>) {
    let (mut journal, mut cells) = (vec![2, 0, 1, 1], record.cells.clone());
    let edited: Vec<(u8, Range<usize>)> = (1..).zip(&record.parts).map(|(group, part)| (group, part.clone())).collect();
    let mut turns = edited.iter().filter(|(_, part)| !part.is_empty()).cycle();
    let mut number = 0;
    while journal.len() + 22 <= most {
        let (group, part) = turns.next().expect("a group");
        let k = number % part.len();
        let cell = &mut cells[part.start + k];
        journal.extend_from_slice(&[1, 0, 19, *group]);
        journal.extend_from_slice(&(k as u16 + 1).to_be_bytes());
        journal.extend_from_slice(&cell.to_be_bytes());
        *cell += 1;
        journal.extend_from_slice(&cell.to_be_bytes());
        number += 7;
    }
    (journal, cells)
}

/// A set in a journal: which of all cells, and its values before and after.
#[derive(Clone, Copy)]
struct Set {
    cell: usize,
    old: i64,
    new: i64,
}

/// R530, R531: goes through a journal's fields with what each set is to do; how many savepoints are open behind them, and the place behind the
/// opening of each. Nothing, where a field is at fault.
fn pass(parts: &[Range<usize>; 60], journal: &[u8], mut set: impl FnMut(usize, Set) -> bool) -> Option<(usize, [usize; 16])> {
    let (mut open, mut opened, mut at) = (0, [0; 16], 0);
    while let [tag, high, low, content @ ..] = &journal[at..] {
        let length = usize::from(u16::from_be_bytes([*high, *low]));
        match (tag, content.get(..length)?) {
            (1, [group, high, low, values @ ..]) if length == 19 => {
                let part = parts.get(usize::from(*group).checked_sub(1)?)?;
                let k = usize::from(u16::from_be_bytes([*high, *low])).checked_sub(1)?;
                let (old, new) = values.split_at(8);
                let value = |bytes: &[u8]| bytes.try_into().map(i64::from_be_bytes).ok();
                let made = Set { cell: part.start + k, old: value(old)?, new: value(new)? };
                if k >= part.len() || !set(at, made) {
                    return None;
                }
            }
            (2, [number]) if usize::from(*number) == open + 1 && open < 16 => {
                opened[open] = at + 4;
                open += 1;
            }
            (3, [number]) if usize::from(*number) == open && open > 0 => open -= 1,
            (4, [number]) if (1..=open).contains(&usize::from(*number)) => open = usize::from(*number),
            _ => return None,
        }
        at += 3 + length;
    }
    (at == journal.len()).then_some((open, opened))
}

/// R512: sets a cell, by its group's number and its own; the journal has room behind the bytes used.
pub fn set(parts: &[Range<usize>; 60], cells: &mut [i64], journal: &mut [u8], used: usize, group: u8, number: u16, value: i64) -> Option<()> {
    pass(parts, journal.get(..used)?, |_, _| true)?;
    let part = parts.get(usize::from(group).checked_sub(1)?)?;
    let cell = cells.get_mut(part.clone())?.get_mut(usize::from(number).checked_sub(1)?)?;
    let field = journal.get_mut(used..used + 22)?;
    field[..4].copy_from_slice(&[1, 0, 19, group]);
    field[4..6].copy_from_slice(&number.to_be_bytes());
    field[6..14].copy_from_slice(&cell.to_be_bytes());
    field[14..].copy_from_slice(&value.to_be_bytes());
    *cell = value;
    Some(())
}

/// R515: undoes to a savepoint; `sets` is room for the sets of the journal.
pub fn undo(
    parts: &[Range<usize>; 60],
    cells: &mut [i64],
    journal: &mut [u8],
    used: usize,
    savepoint: usize,
    sets: &mut Vec<(usize, usize, i64)>,
) -> Option<()> {
    sets.clear();
    let (open, opened) = pass(parts, journal.get(..used)?, |at, set| {
        sets.push((at, set.cell, set.old));
        true
    })?;
    let from = *opened[..open].get(savepoint.checked_sub(1)?)?;
    let field = journal.get_mut(used..used + 4)?;
    field.copy_from_slice(&[4, 0, 1, savepoint as u8]);
    for &(_, cell, old) in sets.iter().rev().take_while(|&&(at, ..)| at >= from) {
        cells[cell] = old;
    }
    Some(())
}

/// R540, R541: makes the sets of a journal again, of which none was undone.
pub fn replay(parts: &[Range<usize>; 60], cells: &mut [i64], journal: &[u8]) -> Option<usize> {
    let (open, _) = pass(parts, journal, |_, set| {
        let right = cells[set.cell] == set.old;
        cells[set.cell] = set.new;
        right
    })?;
    Some(open)
}

//! A plain reader of SAO 4.3 records, by the rules of the project's docs/FORMAT.md (R with a number): the measure for the proved library's speed.
//!
//! It answers what the library answers when it is asked for a whole record: every rule that reading has is tried, and of several refusals the one
//! due first is given. What it does not do is what makes the difference: cells are stored while lines are read, in one pass, so a refusal leaves
//! the table altered; and nothing is proved.
#![forbid(unsafe_code)]
#![deny(missing_docs)]

mod date;
mod field;
mod form;
mod index;
mod lines;

use form::Form;

/// R12: the rules under which a text is read. The default is the usual ones.
#[derive(Clone, Copy, Debug, Default, PartialEq, Eq)]
pub struct Rules {
    /// R9: a line end needs its carriage return.
    pub strict: bool,
    /// R13: a count of group 40 counts entries.
    pub entries: bool,
}

/// Why a record was not read: R201 to R211.
#[derive(Clone, Copy, Debug, PartialEq, Eq)]
pub enum Refusal {
    /// 1: the place is the text's end.
    End,
    /// 2: the place lies behind the text's end.
    Beyond,
    /// 3: there are fewer line feeds than the record has lines.
    TooFewLines,
    /// 4: an index line or an entry is misformed.
    Misformed,
    /// 5: the release is not 5.
    OtherRelease,
    /// 6: this is the lowest of 61 to 79 that has a count.
    FilledVacant {
        /// It.
        group: usize,
    },
    /// 7: a rule on counts is broken.
    BrokenRule {
        /// The group blamed.
        group: usize,
    },
    /// 8: a data line is wrong.
    BadLine {
        /// The group that was read.
        group: usize,
        /// The line in the group.
        line: usize,
    },
    /// 9: a field is misformed.
    BadField {
        /// The group that was read.
        group: usize,
        /// The line in the group.
        line: usize,
        /// The element in the group.
        element: usize,
    },
    /// 10: the date in group 3 is wrong.
    BadDate {
        /// The position blamed.
        position: usize,
    },
    /// 11: the table is too short for all groups' cells together.
    NoRoom,
}

/// Reads all groups of the record at a place of a text: how many cells they have, which stand in the table from its first cell on, group 1's
/// first. What stands behind them is kept.
///
/// # Errors
///
/// What placing refuses with, 1 to 7; 11, if the table has no room for all groups; then the first refusal, 8, 9 or 10, of the groups 1 to 60 in
/// turn. The table may be altered.
pub fn read_record(rules: Rules, text: &[u8], at: usize, table: &mut [i64]) -> Result<usize, Refusal> {
    let rest = text.get(at..).ok_or(Refusal::Beyond)?;
    if rest.is_empty() {
        return Err(Refusal::End);
    }
    let (counts, data) = index::read(rules, rest)?;
    let read = index::keep_rules(&counts).and_then(|()| read_groups(rules, &counts, data, table));
    // R251: 3 is due before all that stands behind the index. Who has read all groups has seen all lines.
    read.map_err(|why| if lines::are_there(data, lines_of_all(rules, &counts)) { why } else { Refusal::TooFewLines })
}

/// R20, R47: the groups' lines follow one another in the text, and their cells in the table.
fn read_groups(rules: Rules, counts: &[u16; 80], data: &[u8], table: &mut [i64]) -> Result<usize, Refusal> {
    let all = (1..=60).map(|group| form::elements(rules, group, counts[group - 1]) * form::of(group).cells()).sum();
    let mut room = table.get_mut(..all).ok_or(Refusal::NoRoom)?;
    let mut rest = data;
    for group in 1..=60 {
        // R26: most groups of most records are absent
        if counts[group - 1] == 0 {
            continue;
        }
        let form = form::of(group);
        let (cells, behind) = room.split_at_mut(form::elements(rules, group, counts[group - 1]) * form.cells());
        rest = read_group(lines::Group { rules, number: group, per_line: form.per_line() }, form, rest, cells)?;
        if group == 3 {
            date::check(cells)?;
        }
        room = behind;
    }
    Ok(all)
}

/// R70 to R80: the fields of each form; and what stands behind the group's lines.
fn read_group<'a>(group: lines::Group, form: Form, rest: &'a [u8], cells: &mut [i64]) -> Result<&'a [u8], Refusal> {
    match form {
        Form::F7 => lines::read(group, rest, cells, field::fixed::<7>),
        Form::A120 => lines::read(group, rest, cells, field::letters::<120>),
        Form::A1 => lines::read(group, rest, cells, field::letters::<1>),
        Form::F8 => lines::read(group, rest, cells, field::fixed::<8>),
        Form::I2 => lines::read(group, rest, cells, field::whole::<2>),
        Form::I3 => lines::read(group, rest, cells, field::whole::<3>),
        Form::I1 => lines::read(group, rest, cells, field::whole::<1>),
        Form::E11 => lines::read(group, rest, cells, field::power::<11, 1, 6>),
        Form::E20 => lines::read(group, rest, cells, field::power::<20, 3, 12>),
        Form::E8 => lines::read(group, rest, cells, field::power::<8, 1, 3>),
    }
}

/// R28: the data lines of a record.
fn lines_of_all(rules: Rules, counts: &[u16; 80]) -> usize {
    (1..=60).map(|group| form::elements(rules, group, counts[group - 1]).div_ceil(form::of(group).per_line())).sum()
}

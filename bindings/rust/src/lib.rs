//! Seambeacon: places, reads and writes SAO 4.3 ionogram records, and keeps a journal of edits. The questions are answered by a library in
//! which every function is proved to meet its contract; this crate gives each of them a safe function, and the journal a [`Journal`].
//!
//! Whatever rules, text, place, record, number, table, output and journal it is given, a question is answered: with `Ok`, or with the one [`Refusal`]
//! due. Nothing has to be checked before a call, and no call panics. The library keeps nothing between two calls, so they may come from several
//! threads; what a [`Journal`] keeps, the memory lent to it and how many bytes of it are used, is its own. A text is its bytes, with line ends; a
//! place is a number of bytes from the text's start, or from the journal's. Groups, cells of a group, lines, elements, positions, characteristics
//! and savepoints count from 1. Every question takes [`Rules`] first. R with a number is a rule of the project's docs/FORMAT.md.
//!
//! ```
//! // Record S: four constants, a date and one characteristic, foF2.
//! let index = format!("{:3}{:3}{:3}{:3}{}\r\n{}  5\r\n", 4, 0, 19, 1, "  0".repeat(36), "  0".repeat(39));
//! let text = index + "  1.200 67.000-23.500143.000\r\nAA20062650922142530\r\n   7.250\r\n";
//! let text = text.as_bytes();
//!
//! let rules = seambeacon::Rules::default();
//! let record = seambeacon::place(rules, text, 0)?;
//! assert_eq!(record.placing, seambeacon::Placing::Placed { next: 305 });
//! assert_eq!((record.counts[0], record.counts[2], record.counts[3]), (4, 19, 1));
//! assert_eq!(record.characteristic(rules, text, 1)?, seambeacon::Characteristic::Value(7250));
//! assert_eq!(seambeacon::place(rules, text, 305), Err(seambeacon::Refusal::End));
//! # Ok::<(), seambeacon::Refusal>(())
//! ```
#![deny(missing_docs, unsafe_code, unsafe_op_in_unsafe_fn)]

use std::error::Error;
use std::fmt;

#[allow(unsafe_code)]
mod raw;

/// The rules (R12): how the lines of a text end, and what a count of group 40 counts. [`Rules::default`] gives the usual ones: a line ends with a
/// line feed, and a carriage return that stands directly before it belongs to the line end too; lines of both kinds may stand in one text. Any
/// other carriage return is a byte of the line like others. A count of group 40 is the number of its elements. [`Rules::strict`] and
/// [`Rules::counting`] choose otherwise, also together: `Rules::strict().counting(Counting::Entries)`.
#[derive(Clone, Copy, Debug, Default, PartialEq, Eq, Hash)]
pub struct Rules {
    strict: bool,
    counting: Counting,
}

/// What a count of group 40 counts. Counts of 0 and 1 mean the same under both.
#[derive(Clone, Copy, Debug, Default, PartialEq, Eq, Hash)]
pub enum Counting {
    /// Its elements, as in every other group.
    #[default]
    Elements,
    /// R13: entries, which are parabolic segments and one more. n above 0 are n lines, the last with one element and each other one with six: so
    /// 6 (n - 1) + 1 elements of two cells each, up to 5,989 and 11,978 cells.
    Entries,
}

impl Rules {
    /// The strict line end: the carriage return before the line feed has to be there. A line without it is refused, with
    /// [`Refusal::Misformed`] in the index and with [`Refusal::BadLine`] in a group. All else is as in the usual rules.
    #[must_use]
    pub const fn strict() -> Rules {
        Rules { strict: true, counting: Counting::Elements }
    }

    /// These rules, but for what a count of group 40 counts.
    #[must_use]
    pub const fn counting(self, counting: Counting) -> Rules {
        Rules { counting, ..self }
    }

    /// R365: as the library takes them.
    fn flags(self) -> u32 {
        u32::from(self.strict) | (u32::from(self.counting == Counting::Entries) << 1)
    }
}

/// Why a question was refused: the replies 1 to 17 and 22 (R201 to R217, R222), with the numbers that are given beside them.
#[derive(Clone, Copy, Debug, PartialEq, Eq, Hash)]
pub enum Refusal {
    /// 1: the place is the text's end.
    End,
    /// 2: the place lies behind the text's end.
    Beyond,
    /// 3: from the place on there are fewer line feeds than the record has lines.
    TooFewLines,
    /// 4: an index line or an entry is misformed or, under [`Rules::strict`], an index line lacks its carriage return; where counts are given,
    /// they are not 80, or one is above 999.
    Misformed,
    /// 5: the release, number 80 of the index, is not 5.
    OtherRelease,
    /// 6: a group of 61 to 79 has a count.
    FilledVacant {
        /// The lowest such group.
        group: usize,
    },
    /// 7: a rule on counts is broken.
    BrokenRule {
        /// The blamed group.
        group: usize,
    },
    /// 8: a data line has a wrong length, something else than blanks behind its fields or, under [`Rules::strict`], no carriage return at its
    /// end.
    BadLine {
        /// The group that was read.
        group: usize,
        /// The line in the group.
        line: usize,
    },
    /// 9: a field is misformed.
    BadField {
        /// The group that was read.
        group: usize,
        /// The line in the group.
        line: usize,
        /// The element in the group, counted through all its lines.
        element: usize,
    },
    /// 10: group 3 has no right date, or a date that is asked for is wrong.
    BadDate {
        /// The position in group 3 that is blamed.
        position: usize,
    },
    /// 11: the table, the output or the journal is too short for what 0 would put there.
    NoRoom,
    /// 12: the number is no group (1 to 60), or no characteristic (1 to 49); in setting a cell, the group has no such cell either.
    NoSuchNumber,
    /// 13: in writing, no field of its form reads as an element's cells.
    NoField {
        /// The element's group.
        group: usize,
        /// The element in the group.
        element: usize,
    },
    /// 14: in writing and in a journal, there are more or fewer cells than the counts ask for under the rules.
    OtherLength,
    /// 15: the savepoint is not open or, in releasing, not the innermost.
    NotOpen,
    /// 16: 16 savepoints are open already.
    AllOpen,
    /// 17: a field of the journal is misformed, its call would not be accepted there, an open does not have the next number or, in replay, an
    /// old value differs.
    BadEntry {
        /// The place of the field, in bytes from the journal's start.
        place: usize,
    },
    /// 22: the part of the text that a [`Record`] names for a group is not exactly as many whole lines as the group's count needs.
    BadPart,
    /// Something that the library is proved never to answer, so another archive than its own has been linked. It is a refusal and no panic,
    /// since an editor that holds unsaved work must survive it.
    Unknown {
        /// The number that was answered.
        number: u32,
    },
}

impl Refusal {
    /// The reply's number in the table of replies.
    #[must_use]
    pub fn number(self) -> u32 {
        match self {
            Refusal::End => 1,
            Refusal::Beyond => 2,
            Refusal::TooFewLines => 3,
            Refusal::Misformed => 4,
            Refusal::OtherRelease => 5,
            Refusal::FilledVacant { .. } => 6,
            Refusal::BrokenRule { .. } => 7,
            Refusal::BadLine { .. } => 8,
            Refusal::BadField { .. } => 9,
            Refusal::BadDate { .. } => 10,
            Refusal::NoRoom => 11,
            Refusal::NoSuchNumber => 12,
            Refusal::NoField { .. } => 13,
            Refusal::OtherLength => 14,
            Refusal::NotOpen => 15,
            Refusal::AllOpen => 16,
            Refusal::BadEntry { .. } => 17,
            Refusal::BadPart => 22,
            Refusal::Unknown { number } => number,
        }
    }
}

impl fmt::Display for Refusal {
    fn fmt(&self, to: &mut fmt::Formatter<'_>) -> fmt::Result {
        match *self {
            Refusal::End => write!(to, "the place is the text's end"),
            Refusal::Beyond => write!(to, "the place lies beyond the text's end"),
            Refusal::TooFewLines => write!(to, "the text has fewer lines than the record needs"),
            Refusal::Misformed => write!(to, "the index is misformed"),
            Refusal::OtherRelease => write!(to, "the release is not SAO 4.3"),
            Refusal::FilledVacant { group } => write!(to, "group {group}, which has no format, has a count"),
            Refusal::BrokenRule { group } => write!(to, "the count of group {group} breaks a rule"),
            Refusal::BadLine { group, line } => write!(to, "line {line} of group {group} has a wrong length or line end"),
            Refusal::BadField { group, line, element } => write!(to, "element {element} of group {group}, in line {line}, is misformed"),
            Refusal::BadDate { position } => write!(to, "the date is wrong at position {position} of group 3"),
            Refusal::NoRoom => write!(to, "the table, the output or the journal is too short"),
            Refusal::NoSuchNumber => write!(to, "there is no group, cell or characteristic of that number"),
            Refusal::NoField { group, element } => write!(to, "element {element} of group {group} fits no field"),
            Refusal::OtherLength => write!(to, "the number of cells is not what the counts need"),
            Refusal::NotOpen => write!(to, "the savepoint is not open or, to be released, not the innermost"),
            Refusal::AllOpen => write!(to, "16 savepoints are open already"),
            Refusal::BadEntry { place } => write!(to, "the journal's field at place {place} is wrong"),
            Refusal::BadPart => write!(to, "the part that is named for the group is not as many whole lines as its count needs"),
            Refusal::Unknown { number } => write!(to, "an answer that the library does not give ({number})"),
        }
    }
}

impl Error for Refusal {}

/// How a record stands at its place of a text.
#[derive(Clone, Copy, Debug, PartialEq, Eq, Hash)]
#[must_use]
pub enum Placing {
    /// 0: its groups can be read.
    Placed {
        /// The place behind it, from which a walk goes on.
        next: usize,
    },
    /// 7: its counts break a rule. No group of it can be read, but a walk goes on behind it.
    Broken {
        /// The place behind it.
        next: usize,
        /// The blamed group.
        group: usize,
    },
}

/// A record as [`place`] gives it: its counts, and where in the text the lines of each of its groups are. It is placed once, and asked as often as
/// one likes.
///
/// ```
/// # let (rules, day) = (seambeacon::Rules::default(), concat!(env!("CARGO_MANIFEST_DIR"), "/../../examples/day.sao"));
/// # let text = std::fs::read(day).expect("the example day");
/// let record = seambeacon::place(rules, &text, 0)?;
/// let (mut heights, mut frequencies, mut densities) = ([0; 999], [0; 999], [0; 1998]);
/// let many = record.group(rules, &text, 51, &mut heights)?;
/// record.group(rules, &text, 52, &mut frequencies)?;
/// record.group(rules, &text, 53, &mut densities)?; // digits and exponent of each
/// assert_eq!((many, heights[many - 1], frequencies[many - 1]), (19, 325_000, 3650)); // up to 325 km and foF2
/// # Ok::<(), seambeacon::Refusal>(())
/// ```
///
/// The record doesn't hold the text; [`View`] does. It may be asked in any text and under any rules, and may be made up: so each question looks
/// first whether the part that the record names for the group is as many whole lines as its count needs. No byte of it may be beyond the text; it
/// has to begin at place 0 or next behind a line feed, and to have the line feeds that the count needs, one of them as its last byte; for count 0
/// it has to be empty, where a line may begin. Else the refusal is [`Refusal::BadPart`] (R286). A record that [`place`] gave in this very text, by
/// these rules, is answered as [`read_group`], [`group_lines`] and [`characteristic`] answer at its place, and never with that refusal (R288).
#[derive(Clone, Copy, Debug, PartialEq, Eq, Hash)]
#[must_use]
pub struct Record {
    /// Group g's count is `counts[g - 1]`.
    pub counts: [u16; 80],
    /// The place where the lines of group g begin is `starts[g - 1]`. Of all places a question looks at those of its group alone.
    pub starts: [usize; 60],
    /// The place behind them is `ends[g - 1]`.
    pub ends: [usize; 60],
    /// How it stands at its place. No question looks at it, so a made-up record may have any.
    pub placing: Placing,
}

/// A text and a record, lent and asked together.
///
/// ```
/// # let (rules, day) = (seambeacon::Rules::default(), concat!(env!("CARGO_MANIFEST_DIR"), "/../../examples/day.sao"));
/// # let text = std::fs::read(day).expect("the example day");
/// let view = seambeacon::View { text: &text, record: seambeacon::place(rules, &text, 0)? };
/// assert_eq!((view.counts()[2], view.lines(rules, 3)?), (19, &b"AA20040600229000000\r\n"[..]));
/// assert_eq!(view.characteristic(rules, 1)?, seambeacon::Characteristic::Value(3650));
/// # Ok::<(), seambeacon::Refusal>(())
/// ```
#[derive(Clone, Copy, Debug, PartialEq, Eq, Hash)]
#[must_use]
pub struct View<'a> {
    /// The text.
    pub text: &'a [u8],
    /// The record, placed in this text or elsewhere, or made up.
    pub record: Record,
}

/// What is known of a characteristic.
#[derive(Clone, Copy, Debug, PartialEq, Eq, Hash)]
#[must_use]
pub enum Characteristic {
    /// Its value in thousandths.
    Value(i64),
    /// There is no reading: 9999.000 in the text or, where it is a frequency, 999.900. Frequencies are 1, 2, 4 to 10, 22, 23, 25, 27 to 31, 35,
    /// 36, 44, 46 and 48 (R295).
    NoReading,
    /// The record has fewer characteristics.
    NotReported,
}

/// A date with the time of day, by the seven numbers of group 3 (R140, R367). Whatever they are, it may be asked for: one that is wrong is refused.
#[derive(Clone, Copy, Debug, PartialEq, Eq, Hash)]
pub struct Date {
    /// 0 to 9999.
    pub year: usize,
    /// 1 to 366, which names the same day as month and day.
    pub day_of_year: usize,
    /// 1 to 12.
    pub month: usize,
    /// 1 to 31.
    pub day: usize,
    /// 0 to 23.
    pub hour: usize,
    /// 0 to 59.
    pub minute: usize,
    /// 0 to 59.
    pub second: usize,
}

/// How a search for the first record from a date on ended.
#[derive(Clone, Copy, Debug, PartialEq, Eq, Hash)]
#[must_use]
pub struct First {
    /// The place of the record that was found, or the refusal: 10 for a date that is wrong, or where no record was found, the refusal at which the
    /// walk stopped, which is 1, 3, 4, 5 or 6.
    pub place: Result<usize, Refusal>,
    /// How many records were passed: those that stand before the one that was found, all if none was, and none if the date is wrong.
    pub passed: usize,
}

/// A record as canonical text.
#[derive(Clone, Copy, Debug, PartialEq, Eq, Hash)]
#[must_use]
pub struct Rewritten {
    /// How many bytes it has, which stand in the output from its first byte on.
    pub bytes: usize,
    /// The place behind the record in the text that was asked.
    pub next: usize,
}

impl raw::Reply {
    /// Done, or the refusal of this number with its numbers. `read` is the group whose lines were read.
    fn done(self, read: usize) -> Result<raw::Beside, Refusal> {
        let raw::Beside { group, line, element, position, place, .. } = self.beside;
        Err(match self.number {
            0 => return Ok(self.beside),
            1 => Refusal::End,
            2 => Refusal::Beyond,
            3 => Refusal::TooFewLines,
            4 => Refusal::Misformed,
            5 => Refusal::OtherRelease,
            6 => Refusal::FilledVacant { group },
            7 => Refusal::BrokenRule { group },
            8 => Refusal::BadLine { group: read, line },
            9 => Refusal::BadField { group: read, line, element },
            10 => Refusal::BadDate { position },
            11 => Refusal::NoRoom,
            12 => Refusal::NoSuchNumber,
            13 => Refusal::NoField { group, element },
            14 => Refusal::OtherLength,
            15 => Refusal::NotOpen,
            16 => Refusal::AllOpen,
            17 => Refusal::BadEntry { place },
            22 => Refusal::BadPart,
            number => Refusal::Unknown { number },
        })
    }
}

impl raw::Part {
    /// That part of the text.
    fn of(self, text: &[u8]) -> Result<&[u8], Refusal> {
        text.get(self.start..).and_then(|rest| rest.get(..self.length)).ok_or(Refusal::Unknown { number: 0 })
    }
}

impl Characteristic {
    /// R361: what a kind and a value under reply 0 stand for.
    fn of(kind: u32, value: i64) -> Result<Characteristic, Refusal> {
        match kind {
            0 => Ok(Characteristic::Value(value)),
            1 => Ok(Characteristic::NoReading),
            2 => Ok(Characteristic::NotReported),
            _ => Err(Refusal::Unknown { number: 0 }),
        }
    }
}

/// Which record stands at a place of a text.
///
/// # Errors
///
/// 1 to 6: no record, and a walk stops here. 7 is an answer, [`Placing::Broken`], since a walk goes on behind such a record.
/// When bytes are added at the text's end, 1, 2 and 3 may become other replies; no other answer about this place does.
pub fn place(rules: Rules, text: &[u8], at: usize) -> Result<Record, Refusal> {
    let (mut counts, mut starts, mut ends) = ([0; 80], [0; 60], [0; 60]);
    let reply = raw::place(rules.flags(), text, at, &mut counts, &mut starts, &mut ends);
    let raw::Beside { next, group, .. } = reply.beside;
    let placing = match reply.number {
        7 => Placing::Broken { next, group },
        _ => reply.done(0).map(|_| Placing::Placed { next })?,
    };
    Ok(Record { counts, starts, ends, placing })
}

impl Record {
    /// The cells of a group, 1 to 60, of the record in this text: how many there are. They stand in the table as by [`read_group`].
    ///
    /// # Errors
    ///
    /// 12, 4, 5, 6 or 7 by the record's counts, 22, 11, 8, 9 or 10, whichever is due first. The table is as it was.
    pub fn group(&self, rules: Rules, text: &[u8], group: usize, table: &mut [i64]) -> Result<usize, Refusal> {
        Ok(raw::record_group(rules.flags(), text, self.members(), group, table).done(group)?.written)
    }

    /// The lines of a group, 1 to 60, of the record in this text: the part of the lent text in which they stand, with their line ends.
    ///
    /// # Errors
    ///
    /// 12, 4, 5, 6 or 7 by the record's counts, or 22, whichever is due first.
    pub fn lines<'t>(&self, rules: Rules, text: &'t [u8], group: usize) -> Result<&'t [u8], Refusal> {
        let mut part = raw::Part::default();
        raw::record_lines(rules.flags(), text, self.members(), group, &mut part).done(group)?;
        part.of(text)
    }

    /// A characteristic, 1 to 49, of the record in this text.
    ///
    /// # Errors
    ///
    /// 12, or the refusal of [`Record::group`] for group 4 and a table with room.
    pub fn characteristic(&self, rules: Rules, text: &[u8], number: usize) -> Result<Characteristic, Refusal> {
        let (mut kind, mut value) = (0, 0);
        raw::record_characteristic(rules.flags(), text, self.members(), number, &mut kind, &mut value).done(4)?;
        Characteristic::of(kind, value)
    }

    fn members(&self) -> raw::Members<'_> {
        raw::Members { counts: &self.counts, starts: &self.starts, ends: &self.ends }
    }
}

impl<'a> View<'a> {
    /// The record's counts, as they stand.
    #[must_use]
    pub fn counts(&self) -> &[u16; 80] {
        &self.record.counts
    }

    /// The lines of a group of the record, as by [`Record::lines`].
    ///
    /// # Errors
    ///
    /// Those of [`Record::lines`].
    pub fn lines(&self, rules: Rules, group: usize) -> Result<&'a [u8], Refusal> {
        self.record.lines(rules, self.text, group)
    }

    /// A characteristic of the record, as by [`Record::characteristic`].
    ///
    /// # Errors
    ///
    /// Those of [`Record::characteristic`].
    pub fn characteristic(&self, rules: Rules, number: usize) -> Result<Characteristic, Refusal> {
        self.record.characteristic(rules, self.text, number)
    }
}

/// The cells of a group, 1 to 60, of the record at a place: how many there are. They stand in the table from its first cell on, and what
/// stands behind them is kept.
///
/// I fields are whole numbers, F fields thousandths, A fields a cell for each byte; an E field has two cells, its digits and its exponent. No
/// group has more than 1,998 cells but, under [`Counting::Entries`], group 40, which has up to 11,978.
///
/// # Errors
///
/// 12, a placing reply but 0, 11, 8, 9 or 10, whichever is due first. The table is as it was.
pub fn read_group(rules: Rules, text: &[u8], at: usize, group: usize, table: &mut [i64]) -> Result<usize, Refusal> {
    Ok(raw::read_group(rules.flags(), text, at, group, table).done(group)?.written)
}

/// The cells of all groups of the record at a place, in one call: how many there are. Those of group 1 stand in the table from its first cell on,
/// behind them those of group 2, and so on up to group 60, each as by [`read_group`]; what stands behind them is kept. In this order
/// [`write_record`] and a [`Journal`] take them.
///
/// No record has more than 64,323 cells or, under [`Counting::Entries`], 74,303.
///
/// ```
/// # let (rules, day) = (seambeacon::Rules::default(), concat!(env!("CARGO_MANIFEST_DIR"), "/../../examples/day.sao"));
/// # let text = std::fs::read(day).expect("the example day");
/// let (mut table, mut out) = (vec![0; 64_323], [0; 2020]);
/// let many = seambeacon::read_record(rules, &text, 0, &mut table)?;
/// let counts = seambeacon::place(rules, &text, 0)?.counts;
/// assert_eq!(seambeacon::write_record(rules, &counts, &table[..many], &mut out)?, 2020);
/// assert_eq!(out, text[..2020]); // the first record of the day, as it stands there
/// # Ok::<(), seambeacon::Refusal>(())
/// ```
///
/// # Errors
///
/// A placing reply but 0; 11, which the counts decide before any line is looked at; or the first refusal of reading groups 1 to 60, which is 8, 9 or
/// 10. The group beside 8 and 9 is the one that could not be read. The table is as it was.
pub fn read_record(rules: Rules, text: &[u8], at: usize, table: &mut [i64]) -> Result<usize, Refusal> {
    let mut unread = 0;
    let reply = raw::read_record(rules.flags(), text, at, table, &mut unread);
    Ok(reply.done(unread)?.written)
}

/// The first record of a text, in the order in which they stand in it, that is not earlier than a given date, to the second (R330). A record
/// has a date if it is placed with 0 and its group 3 is read with 0; all others are passed. The walk ends at the record that is found, and what
/// stands behind it has no part in the answer (R336).
///
/// ```
/// # let (rules, day) = (seambeacon::Rules::default(), concat!(env!("CARGO_MANIFEST_DIR"), "/../../examples/day.sao"));
/// # let text = std::fs::read(day).expect("the example day");
/// let noon = seambeacon::Date { year: 2004, day_of_year: 60, month: 2, day: 29, hour: 12, minute: 0, second: 0 };
/// let first = seambeacon::first_from(rules, &text, noon);
/// assert_eq!((first.place, first.passed), (Ok(25_092), 12)); // the day has a record an hour
/// ```
pub fn first_from(rules: Rules, text: &[u8], from: Date) -> First {
    let Date { year, day_of_year, month, day, hour, minute, second } = from;
    let (mut place, mut passed) = (0, 0);
    let seven = [year, day_of_year, month, day, hour, minute, second];
    let reply = raw::first_from(rules.flags(), text, &seven, &mut place, &mut passed);
    First { place: reply.done(0).map(|_| place), passed }
}

/// Where the stretch ends that begins at a place of a text, whatever stands there (R350): the first later place, just behind a line feed, at which a
/// record is placed with 0 and its groups 1, 3 and 4 are read with 0; the text's length if there is none. So a walk that stops may go on.
///
/// ```
/// # let (rules, day) = (seambeacon::Rules::default(), concat!(env!("CARGO_MANIFEST_DIR"), "/../../examples/day.sao"));
/// # let mut text = std::fs::read(day).expect("the example day");
/// text[18_348] = b'x'; // in the index of 09:00
/// assert_eq!(seambeacon::place(rules, &text, 18_346), Err(seambeacon::Refusal::Misformed));
/// assert_eq!(seambeacon::stretch_end(rules, &text, 18_346), Ok(20_478)); // 10:00
/// ```
///
/// # Errors
///
/// 2 beyond the text's end, 1 where it ends.
pub fn stretch_end(rules: Rules, text: &[u8], at: usize) -> Result<usize, Refusal> {
    Ok(raw::stretch_end(rules.flags(), text, at).done(0)?.next)
}

/// The lines of a group, 1 to 60, of the record at a place: the part of the lent text in which they stand, with their line ends (R280). With
/// count 0 it is empty, where the lines would be (R282).
///
/// # Errors
///
/// 12, or a placing reply but 0.
pub fn group_lines(rules: Rules, text: &[u8], at: usize, group: usize) -> Result<&[u8], Refusal> {
    let mut part = raw::Part::default();
    raw::group_lines(rules.flags(), text, at, group, &mut part).done(group)?;
    part.of(text)
}

/// A characteristic, 1 to 49, of the record at a place. Characteristic 1 is foF2.
///
/// # Errors
///
/// 12, or the refusal of reading group 4.
pub fn characteristic(rules: Rules, text: &[u8], at: usize, number: usize) -> Result<Characteristic, Refusal> {
    let (mut kind, mut value) = (0, 0);
    raw::characteristic(rules.flags(), text, at, number, &mut kind, &mut value).done(4)?;
    Characteristic::of(kind, value)
}

/// The canonical text of a record of these counts, which are 80, and of all its cells in group order: how many bytes it has. They stand in the
/// output from its first byte on, and what stands behind them is kept.
///
/// Under [`Counting::Entries`] group 40 has 2 (6 (n - 1) + 1) cells for its count n above 0. Lines end with carriage return and line feed, whether
/// the rules are strict or not.
///
/// # Errors
///
/// 4, 5, 6, 7, 14, 13, 10 or 11, whichever is due first. The output is as it was.
pub fn write_record(rules: Rules, counts: &[u16], cells: &[i64], out: &mut [u8]) -> Result<usize, Refusal> {
    Ok(raw::write_record(rules.flags(), counts, cells, out).done(0)?.written)
}

/// The listing of a text, a line for each placed record and last a line that begins with `end`: how many bytes it has. They stand in the output
/// from its first byte on, and what stands behind them is kept.
///
/// A record's line has seven numbers (R342); the last line has four, which tell how many records there are and where and why the walk stopped
/// (R343).
///
/// # Errors
///
/// 11. The output is as it was.
pub fn list(rules: Rules, text: &[u8], out: &mut [u8]) -> Result<usize, Refusal> {
    Ok(raw::list(rules.flags(), text, out).done(0)?.written)
}

/// The record at a place as canonical text. The table is room for its cells, which stand in it afterwards; as many cells as the output has
/// bytes are always enough. What stands in the output and in the table behind what was written is kept.
///
/// # Errors
///
/// A placing reply but 0, 11, or the first refusal of reading groups 1 to 60. The output and the table are as they were.
pub fn rewrite_record(rules: Rules, text: &[u8], at: usize, table: &mut [i64], out: &mut [u8]) -> Result<Rewritten, Refusal> {
    let mut unread = 0;
    let reply = raw::rewrite_record(rules.flags(), text, at, table, out, &mut unread);
    let raw::Beside { written, next, .. } = reply.done(unread)?;
    Ok(Rewritten { bytes: written, next })
}

/// A record's cells with the journal of their edits, over memory that the caller lends: the record's counts, which are 80, all its cells in
/// group order, and a buffer of which so many bytes are used. The rules are those by which the cells were read. Those of another [`Counting`] are
/// refused with [`Refusal::OtherLength`] where group 40 has a count above 1; the line end makes no difference here.
///
/// Each accepted call adds one field to the used bytes, 22 for a set and 4 for the others. A caller who writes these to a file before going on
/// loses nothing when the program is killed: [`Journal::replay`] makes the calls again. A refused call leaves cells, journal and used bytes as
/// they were. Nothing else is kept, so a journal may be let go of and taken up again ([`Journal::resume`]).
///
/// ```
/// # let (rules, mut counts, mut cells, mut began) = (seambeacon::Rules::default(), [0; 80], [0; 24], [0; 24]);
/// # (counts[0], counts[2], counts[3], counts[79]) = (4, 19, 1, 5);
/// let mut buffer = [0; 4096];
/// let mut journal = seambeacon::Journal::new(rules, &counts, &mut cells, &mut buffer);
/// journal.set(4, 1, 7300)?; // foF2, in thousandths
/// let savepoint = journal.open()?;
/// journal.set(4, 1, 7400)?;
/// journal.undo(savepoint)?;
/// assert_eq!((journal.cells()[23], journal.used()), (7300, 52));
///
/// let mut file = journal.bytes().to_vec();
/// let (replayed, savepoints) = seambeacon::Journal::replay(rules, &counts, &mut began, &mut file, 52)?;
/// assert_eq!((replayed.cells()[23], savepoints), (7300, 1));
/// # Ok::<(), seambeacon::Refusal>(())
/// ```
#[derive(Debug)]
#[must_use]
pub struct Journal<'a> {
    lent: raw::Edited<'a>,
}

impl<'a> Journal<'a> {
    /// A fresh journal, of which no byte is used, over the cells that edits begin with.
    pub fn new(rules: Rules, counts: &'a [u16], cells: &'a mut [i64], journal: &'a mut [u8]) -> Self {
        Self::resume(rules, counts, cells, journal, 0)
    }

    /// A journal that is taken up again: the cells are what its calls made of them. Its used bytes are looked at by the first call, field by
    /// field; old values are compared in replay alone.
    pub fn resume(rules: Rules, counts: &'a [u16], cells: &'a mut [i64], journal: &'a mut [u8], used: usize) -> Self {
        Journal { lent: raw::Edited { rules: rules.flags(), counts, cells, journal, used } }
    }

    /// A journal whose calls are made again, over the cells that they began with: the journal, on which calls can go on, and how many
    /// savepoints are open.
    ///
    /// # Errors
    ///
    /// 4, 5, 6, 7, 14 or 17, whichever is due first. The cells are as they were. Where the last field was cut short, 17 has its place, and so
    /// many bytes of the journal can be replayed.
    pub fn replay(rules: Rules, counts: &'a [u16], cells: &'a mut [i64], journal: &'a mut [u8], used: usize) -> Result<(Self, usize), Refusal> {
        let mut replayed = Self::resume(rules, counts, cells, journal, used);
        let mut open = 0;
        raw::replay(&mut replayed.lent, &mut open).done(0)?;
        Ok((replayed, open))
    }

    /// Gives a cell of a group the value. Every value can be set; whether it has a field, [`write_record`] says.
    ///
    /// # Errors
    ///
    /// 4, 5, 6, 7, 14, 17, 12 or 11, whichever is due first.
    pub fn set(&mut self, group: usize, cell: usize, value: i64) -> Result<(), Refusal> {
        raw::set_cell(&mut self.lent, group, cell, value).done(0).map(|_| ())
    }

    /// Opens a savepoint inside those that are open: its number, 1 to 16.
    ///
    /// # Errors
    ///
    /// 4, 5, 6, 7, 14, 17, 16 or 11, whichever is due first.
    pub fn open(&mut self) -> Result<usize, Refusal> {
        Ok(raw::open_savepoint(&mut self.lent).done(0)?.savepoint)
    }

    /// Closes the innermost savepoint, named by its number. What was set since it was opened belongs to the one outside.
    ///
    /// # Errors
    ///
    /// 4, 5, 6, 7, 14, 17, 15 or 11, whichever is due first.
    pub fn release(&mut self, savepoint: usize) -> Result<(), Refusal> {
        raw::release_savepoint(&mut self.lent, savepoint).done(0).map(|_| ())
    }

    /// Brings every cell to what it was when a savepoint, any that is open, was opened. It stays open, and those inside it are closed.
    ///
    /// # Errors
    ///
    /// 4, 5, 6, 7, 14, 17, 15 or 11, whichever is due first.
    pub fn undo(&mut self, savepoint: usize) -> Result<(), Refusal> {
        raw::undo_to_savepoint(&mut self.lent, savepoint).done(0).map(|_| ())
    }

    /// The cells as they are now, in group order.
    #[must_use]
    pub fn cells(&self) -> &[i64] {
        self.lent.cells
    }

    /// How many bytes of the journal are used.
    #[must_use]
    pub fn used(&self) -> usize {
        self.lent.used
    }

    /// The used bytes of the journal; the whole buffer, where it has fewer than are said to be used.
    #[must_use]
    pub fn bytes(&self) -> &[u8] {
        self.lent.journal.get(..self.lent.used).unwrap_or(self.lent.journal)
    }
}

#[cfg(test)]
mod tests {
    use super::raw::{Beside, Reply};
    use super::{Counting, Refusal, Rules};

    /// Numbers that differ from each other, so that one in another's place is seen.
    const BESIDE: Beside = Beside { next: 101, written: 102, group: 103, line: 104, element: 105, position: 106, savepoint: 108, place: 109 };

    fn refusal(number: u32) -> Refusal {
        Reply { number, beside: BESIDE }.done(107).expect_err("a refusal")
    }

    #[test]
    fn done_has_the_numbers_beside_it() {
        let beside = Reply { number: 0, beside: BESIDE }.done(107).expect("done");
        assert_eq!((beside.next, beside.written, beside.savepoint), (101, 102, 108));
    }

    /// The rows of the table of replies that give a number beside the reply; 8 and 9 have the group that was read, too.
    #[test]
    fn each_refusal_takes_the_numbers_of_its_row() {
        assert_eq!(refusal(6), Refusal::FilledVacant { group: 103 });
        assert_eq!(refusal(7), Refusal::BrokenRule { group: 103 });
        assert_eq!(refusal(8), Refusal::BadLine { group: 107, line: 104 });
        assert_eq!(refusal(9), Refusal::BadField { group: 107, line: 104, element: 105 });
        assert_eq!(refusal(10), Refusal::BadDate { position: 106 });
        assert_eq!(refusal(13), Refusal::NoField { group: 103, element: 105 });
        assert_eq!(refusal(17), Refusal::BadEntry { place: 109 });
    }

    #[test]
    fn each_number_is_its_own_refusal() {
        for number in (1..=17).chain([22]) {
            assert_eq!(refusal(number).number(), number);
            assert!(!matches!(refusal(number), Refusal::Unknown { .. }), "{number}");
            assert!(!refusal(number).to_string().is_empty());
        }
    }

    #[test]
    fn a_number_outside_the_table_is_kept() {
        for number in [18, 21, 23, u32::MAX] {
            assert_eq!(refusal(number), Refusal::Unknown { number });
            assert_eq!(refusal(number).number(), number);
        }
    }

    /// R365.
    #[test]
    fn rules_are_a_sum_of_flags() {
        for (ended, ends) in [(Rules::default(), 0), (Rules::strict(), 1)] {
            for (counting, counts) in [(Counting::Elements, 0), (Counting::Entries, 2)] {
                assert_eq!(ended.counting(counting).flags(), ends + counts);
                assert_eq!(ended.counting(Counting::Entries).counting(counting).flags(), ends + counts);
            }
            assert_eq!(ended.counting(Counting::Elements), ended);
        }
        assert_eq!(Rules::default(), Rules { strict: false, counting: Counting::Elements });
    }

    #[test]
    fn a_refusal_is_an_error() {
        let why: Box<dyn std::error::Error> = refusal(9).into();
        assert_eq!(why.to_string(), "element 105 of group 107, in line 104, is misformed");
    }
}

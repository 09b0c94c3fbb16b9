//! The functions of `include/seambeacon.h`, and a safe call of each; of those that take a record's members apart, since these are the library's
//! own. All unsafe code is here.
//!
//! What the header asks of a caller holds of every call below, whatever is given. A pointer comes from a slice, with that slice's length, or
//! from a reference to a value of the type that the header names; its enums, of which a reply is one, are 32 bits and never negative. What is
//! lent to be altered is `&mut`, so it overlaps nothing else and nobody else looks at it during the call; what is lent to be read is `&`, so
//! nobody writes it. All of it has values beforehand. Nothing is kept by the library when a call has ended.

/// The numbers beside a reply, 0 where the reply does not give them.
#[repr(C)]
#[derive(Clone, Copy, Debug, Default)]
pub struct Beside {
    pub next: usize,
    pub written: usize,
    pub group: usize,
    pub line: usize,
    pub element: usize,
    pub position: usize,
    pub savepoint: usize,
    pub place: usize,
}

/// A part of the text, by its first byte and its length.
#[repr(C)]
#[derive(Clone, Copy, Default)]
pub struct Part {
    pub start: usize,
    pub length: usize,
}

/// A reply's number with the numbers beside it.
#[derive(Clone, Copy)]
pub struct Reply {
    pub number: u32,
    pub beside: Beside,
}

extern "C" {
    fn seambeacon_place_apart(
        rules: u32,
        text: *const u8,
        text_length: usize,
        at: usize,
        counts: *mut [u16; 80],
        starts: *mut [usize; 60],
        ends: *mut [usize; 60],
        beside: *mut Beside,
    ) -> u32;
    fn seambeacon_record_group_apart(
        rules: u32,
        text: *const u8,
        text_length: usize,
        counts: *const [u16; 80],
        starts: *const [usize; 60],
        ends: *const [usize; 60],
        group: usize,
        table: *mut i64,
        table_length: usize,
        beside: *mut Beside,
    ) -> u32;
    fn seambeacon_record_lines_apart(
        rules: u32,
        text: *const u8,
        text_length: usize,
        counts: *const [u16; 80],
        starts: *const [usize; 60],
        ends: *const [usize; 60],
        group: usize,
        part: *mut Part,
        beside: *mut Beside,
    ) -> u32;
    fn seambeacon_record_characteristic_apart(
        rules: u32,
        text: *const u8,
        text_length: usize,
        counts: *const [u16; 80],
        starts: *const [usize; 60],
        ends: *const [usize; 60],
        number: usize,
        kind: *mut u32,
        value: *mut i64,
        beside: *mut Beside,
    ) -> u32;
    fn seambeacon_read_group(
        rules: u32,
        text: *const u8,
        text_length: usize,
        at: usize,
        group: usize,
        table: *mut i64,
        table_length: usize,
        beside: *mut Beside,
    ) -> u32;
    fn seambeacon_read_record(
        rules: u32,
        text: *const u8,
        text_length: usize,
        at: usize,
        table: *mut i64,
        table_length: usize,
        unread: *mut usize,
        beside: *mut Beside,
    ) -> u32;
    fn seambeacon_first_from(
        rules: u32,
        text: *const u8,
        text_length: usize,
        from: *const [usize; 7],
        place: *mut usize,
        passed: *mut usize,
        beside: *mut Beside,
    ) -> u32;
    fn seambeacon_stretch_end(rules: u32, text: *const u8, text_length: usize, at: usize, beside: *mut Beside) -> u32;
    fn seambeacon_group_lines(
        rules: u32,
        text: *const u8,
        text_length: usize,
        at: usize,
        group: usize,
        part: *mut Part,
        beside: *mut Beside,
    ) -> u32;
    fn seambeacon_characteristic(
        rules: u32,
        text: *const u8,
        text_length: usize,
        at: usize,
        number: usize,
        kind: *mut u32,
        value: *mut i64,
        beside: *mut Beside,
    ) -> u32;
    fn seambeacon_write_record(
        rules: u32,
        counts: *const u16,
        counts_length: usize,
        cells: *const i64,
        cells_length: usize,
        out: *mut u8,
        out_length: usize,
        beside: *mut Beside,
    ) -> u32;
    fn seambeacon_list(rules: u32, text: *const u8, text_length: usize, out: *mut u8, out_length: usize, beside: *mut Beside) -> u32;
    fn seambeacon_rewrite_record(
        rules: u32,
        text: *const u8,
        text_length: usize,
        at: usize,
        table: *mut i64,
        table_length: usize,
        out: *mut u8,
        out_length: usize,
        unread: *mut usize,
        beside: *mut Beside,
    ) -> u32;
    fn seambeacon_set_cell(
        rules: u32,
        counts: *const u16,
        counts_length: usize,
        cells: *mut i64,
        cells_length: usize,
        journal: *mut u8,
        journal_length: usize,
        used: *mut usize,
        group: usize,
        cell: usize,
        value: i64,
        beside: *mut Beside,
    ) -> u32;
    fn seambeacon_open_savepoint(
        rules: u32,
        counts: *const u16,
        counts_length: usize,
        cells: *const i64,
        cells_length: usize,
        journal: *mut u8,
        journal_length: usize,
        used: *mut usize,
        beside: *mut Beside,
    ) -> u32;
    fn seambeacon_release_savepoint(
        rules: u32,
        counts: *const u16,
        counts_length: usize,
        cells: *const i64,
        cells_length: usize,
        journal: *mut u8,
        journal_length: usize,
        used: *mut usize,
        savepoint: usize,
        beside: *mut Beside,
    ) -> u32;
    fn seambeacon_undo_to_savepoint(
        rules: u32,
        counts: *const u16,
        counts_length: usize,
        cells: *mut i64,
        cells_length: usize,
        journal: *mut u8,
        journal_length: usize,
        used: *mut usize,
        savepoint: usize,
        beside: *mut Beside,
    ) -> u32;
    fn seambeacon_replay(
        rules: u32,
        counts: *const u16,
        counts_length: usize,
        cells: *mut i64,
        cells_length: usize,
        journal: *const u8,
        journal_length: usize,
        used: usize,
        open: *mut usize,
        beside: *mut Beside,
    ) -> u32;
}

/// The reply of a call that writes the numbers beside it.
fn reply(call: impl FnOnce(&mut Beside) -> u32) -> Reply {
    let mut beside = Beside::default();
    let number = call(&mut beside);
    Reply { number, beside }
}

/// What is looked at of a record.
#[derive(Clone, Copy)]
pub struct Members<'a> {
    pub counts: &'a [u16; 80],
    pub starts: &'a [usize; 60],
    pub ends: &'a [usize; 60],
}

pub fn place(rules: u32, text: &[u8], at: usize, counts: &mut [u16; 80], starts: &mut [usize; 60], ends: &mut [usize; 60]) -> Reply {
    // SAFETY: as the head of this file says.
    reply(|beside| unsafe { seambeacon_place_apart(rules, text.as_ptr(), text.len(), at, counts, starts, ends, beside) })
}

pub fn record_group(rules: u32, text: &[u8], of: Members<'_>, group: usize, table: &mut [i64]) -> Reply {
    let Members { counts, starts, ends } = of;
    // SAFETY: as the head of this file says.
    reply(|beside| unsafe {
        seambeacon_record_group_apart(rules, text.as_ptr(), text.len(), counts, starts, ends, group, table.as_mut_ptr(), table.len(), beside)
    })
}

pub fn record_lines(rules: u32, text: &[u8], of: Members<'_>, group: usize, part: &mut Part) -> Reply {
    let Members { counts, starts, ends } = of;
    // SAFETY: as the head of this file says.
    reply(|beside| unsafe { seambeacon_record_lines_apart(rules, text.as_ptr(), text.len(), counts, starts, ends, group, part, beside) })
}

pub fn record_characteristic(rules: u32, text: &[u8], of: Members<'_>, number: usize, kind: &mut u32, value: &mut i64) -> Reply {
    let Members { counts, starts, ends } = of;
    // SAFETY: as the head of this file says.
    reply(|beside| unsafe {
        seambeacon_record_characteristic_apart(rules, text.as_ptr(), text.len(), counts, starts, ends, number, kind, value, beside)
    })
}

pub fn read_group(rules: u32, text: &[u8], at: usize, group: usize, table: &mut [i64]) -> Reply {
    // SAFETY: as the head of this file says.
    reply(|beside| unsafe { seambeacon_read_group(rules, text.as_ptr(), text.len(), at, group, table.as_mut_ptr(), table.len(), beside) })
}

pub fn read_record(rules: u32, text: &[u8], at: usize, table: &mut [i64], unread: &mut usize) -> Reply {
    // SAFETY: as the head of this file says.
    reply(|beside| unsafe { seambeacon_read_record(rules, text.as_ptr(), text.len(), at, table.as_mut_ptr(), table.len(), unread, beside) })
}

pub fn first_from(rules: u32, text: &[u8], from: &[usize; 7], place: &mut usize, passed: &mut usize) -> Reply {
    // SAFETY: as the head of this file says.
    reply(|beside| unsafe { seambeacon_first_from(rules, text.as_ptr(), text.len(), from, place, passed, beside) })
}

pub fn stretch_end(rules: u32, text: &[u8], at: usize) -> Reply {
    // SAFETY: as the head of this file says.
    reply(|beside| unsafe { seambeacon_stretch_end(rules, text.as_ptr(), text.len(), at, beside) })
}

pub fn group_lines(rules: u32, text: &[u8], at: usize, group: usize, part: &mut Part) -> Reply {
    // SAFETY: as the head of this file says.
    reply(|beside| unsafe { seambeacon_group_lines(rules, text.as_ptr(), text.len(), at, group, part, beside) })
}

pub fn characteristic(rules: u32, text: &[u8], at: usize, number: usize, kind: &mut u32, value: &mut i64) -> Reply {
    // SAFETY: as the head of this file says.
    reply(|beside| unsafe { seambeacon_characteristic(rules, text.as_ptr(), text.len(), at, number, kind, value, beside) })
}

pub fn write_record(rules: u32, counts: &[u16], cells: &[i64], out: &mut [u8]) -> Reply {
    // SAFETY: as the head of this file says.
    reply(|beside| unsafe {
        seambeacon_write_record(rules, counts.as_ptr(), counts.len(), cells.as_ptr(), cells.len(), out.as_mut_ptr(), out.len(), beside)
    })
}

pub fn list(rules: u32, text: &[u8], out: &mut [u8]) -> Reply {
    // SAFETY: as the head of this file says.
    reply(|beside| unsafe { seambeacon_list(rules, text.as_ptr(), text.len(), out.as_mut_ptr(), out.len(), beside) })
}

pub fn rewrite_record(rules: u32, text: &[u8], at: usize, table: &mut [i64], out: &mut [u8], unread: &mut usize) -> Reply {
    // SAFETY: as the head of this file says.
    reply(|beside| unsafe {
        seambeacon_rewrite_record(
            rules,
            text.as_ptr(),
            text.len(),
            at,
            table.as_mut_ptr(),
            table.len(),
            out.as_mut_ptr(),
            out.len(),
            unread,
            beside,
        )
    })
}

/// What the calls of a journal are lent.
#[derive(Debug)]
pub struct Edited<'a> {
    pub rules: u32,
    pub counts: &'a [u16],
    pub cells: &'a mut [i64],
    pub journal: &'a mut [u8],
    pub used: usize,
}

/// Asks a function of the journal, with what all of them are lent and, behind that, what is its own.
macro_rules! call {
    ($function:ident, $lent:ident, $($own:expr),+) => {
        // SAFETY: as the head of this file says.
        reply(|beside| unsafe {
            $function(
                $lent.rules,
                $lent.counts.as_ptr(),
                $lent.counts.len(),
                $lent.cells.as_mut_ptr(),
                $lent.cells.len(),
                $lent.journal.as_mut_ptr(),
                $lent.journal.len(),
                $($own,)+
                beside,
            )
        })
    };
}

pub fn set_cell(lent: &mut Edited<'_>, group: usize, cell: usize, value: i64) -> Reply {
    call!(seambeacon_set_cell, lent, &mut lent.used, group, cell, value)
}

pub fn open_savepoint(lent: &mut Edited<'_>) -> Reply {
    call!(seambeacon_open_savepoint, lent, &mut lent.used)
}

pub fn release_savepoint(lent: &mut Edited<'_>, savepoint: usize) -> Reply {
    call!(seambeacon_release_savepoint, lent, &mut lent.used, savepoint)
}

pub fn undo_to_savepoint(lent: &mut Edited<'_>, savepoint: usize) -> Reply {
    call!(seambeacon_undo_to_savepoint, lent, &mut lent.used, savepoint)
}

pub fn replay(lent: &mut Edited<'_>, open: &mut usize) -> Reply {
    call!(seambeacon_replay, lent, lent.used, open)
}

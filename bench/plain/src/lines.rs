//! R2 to R9, R60 to R66: lines, their contents, and the lines of a group.

use crate::field::is_letter;
use crate::{Refusal, Rules};

/// R2: the line with which a text begins, with its line feed, and what stands behind it.
pub fn first(text: &[u8]) -> Result<(&[u8], &[u8]), Refusal> {
    let feed = text.iter().position(|&byte| byte == b'\n').ok_or(Refusal::TooFewLines)?;
    Ok(text.split_at(feed + 1))
}

/// R203: whether a text has so many lines.
pub fn are_there(text: &[u8], lines: usize) -> bool {
    text.iter().filter(|&&byte| byte == b'\n').take(lines).count() == lines
}

/// R4, R5, R9: the content of a line, if its end is one that the rules allow.
pub fn content(rules: Rules, line: &[u8]) -> Option<&[u8]> {
    let before = line.strip_suffix(b"\n")?;
    match before.strip_suffix(b"\r") {
        None if rules.strict => None,
        None => Some(before),
        content => content,
    }
}

/// A group that is read.
#[derive(Clone, Copy)]
pub struct Group {
    pub rules: Rules,
    pub number: usize,
    pub per_line: usize,
}

/// R262: reads the lines of a group, with which a text begins, into the cells of its elements, each field by `read`; and gives what stands behind
/// these lines.
///
/// No line feed stands in a field that is formed. So a line's end is looked for behind its fields, and mostly stands right there.
pub fn read<'a, const W: usize, const C: usize>(
    group: Group,
    text: &'a [u8],
    cells: &mut [i64],
    read: impl Fn(&[u8; W], &mut [i64; C]) -> bool,
) -> Result<&'a [u8], Refusal> {
    let mut rest = text;
    for (before, cells) in cells.chunks_mut(group.per_line * C).enumerate() {
        let many = cells.len() / C;
        let formed = formed(rest, cells, &read);
        let full = if formed == many { behind_fields(group.rules, many * W, &rest[many * W..]) } else { None };
        rest = match full {
            Some(behind) => behind,
            None => other_line::<W>(group, before, formed, many * W, rest, cells)?,
        };
    }
    Ok(rest)
}

/// R61: stores the cells of the fields with which a text begins, up to the first that is not formed or, if all are, up to the last cell; and tells
/// how many were stored.
fn formed<const W: usize, const C: usize>(text: &[u8], cells: &mut [i64], read: impl Fn(&[u8; W], &mut [i64; C]) -> bool) -> usize {
    let mut formed = 0;
    for (field, cells) in text.chunks_exact(W).zip(cells.chunks_exact_mut(C)) {
        let (Ok(field), Ok(cells)) = (field.try_into(), cells.try_into()) else { break };
        if !read(field, cells) {
            break;
        }
        formed += 1;
    }
    formed
}

/// R63: what stands behind a line whose fields take so many columns, if the text goes on with blanks alone, up to column 120, and a line end.
fn behind_fields(rules: Rules, columns: usize, text: &[u8]) -> Option<&[u8]> {
    if let [b'\r', b'\n', behind @ ..] = text {
        return Some(behind);
    }
    let (end, behind) = first(text).ok()?;
    let blanks = content(rules, end)?;
    (columns + blanks.len() <= 120 && blanks.iter().all(|&byte| byte == b' ')).then_some(behind)
}

/// A line, with so many lines of the group before it, that has not all of its fields formed with a right end behind them: a short one of letters
/// (R64, R65), or one to be refused, and then with 8 before 9 (R262).
#[cold]
fn other_line<'a, const W: usize>(
    group: Group,
    before: usize,
    formed: usize,
    columns: usize,
    text: &'a [u8],
    cells: &mut [i64],
) -> Result<&'a [u8], Refusal> {
    let (line, behind) = first(text)?;
    let bad_line = Refusal::BadLine { group: group.number, line: before + 1 };
    let bad_field = |i| Refusal::BadField { group: group.number, line: before + 1, element: before * group.per_line + i + 1 };
    let content = content(group.rules, line).ok_or(bad_line)?;
    if content.len() > 120 || content.iter().skip(columns).any(|&byte| byte != b' ') {
        return Err(bad_line);
    }
    if content.len() >= columns {
        return Err(bad_field(formed));
    }
    if !matches!(group.number, 2 | 54 | 55) {
        return Err(bad_line);
    }
    if let Some(i) = content.iter().position(|&byte| !is_letter(byte)) {
        return Err(bad_field(i / W));
    }
    cells.fill(i64::from(b' '));
    for (cell, &byte) in cells.iter_mut().zip(content) {
        *cell = i64::from(byte);
    }
    Ok(behind)
}

//! R20 to R25, R120 to R128: the two index lines, and the rules on their counts.

use crate::{field, lines, Refusal, Rules};

/// R251, R252: the 80 numbers of the index with which a text begins, and what stands behind its two lines: 3, 4, 5 and 6 in this order.
pub fn read(rules: Rules, text: &[u8]) -> Result<([u16; 80], &[u8]), Refusal> {
    let (first, rest) = lines::first(text)?;
    let (second, data) = lines::first(rest)?;
    let mut counts = [0; 80];
    for (line, counts) in [first, second].into_iter().zip(counts.chunks_exact_mut(40)) {
        store(rules, line, counts).ok_or(Refusal::Misformed)?;
    }
    if counts[79] != 5 {
        return Err(Refusal::OtherRelease);
    }
    match (61..=79).find(|&group| counts[group - 1] != 0) {
        Some(group) => Err(Refusal::FilledVacant { group }),
        None => Ok((counts, data)),
    }
}

/// R21, R23: the entries of an index line, if it has the right length and all of them are formed.
fn store(rules: Rules, line: &[u8], counts: &mut [u16]) -> Option<()> {
    let content = lines::content(rules, line).filter(|content| content.len() == 120)?;
    for (entry, count) in content.chunks_exact(3).zip(counts) {
        let mut cell = [0];
        if !field::whole::<3>(entry.try_into().ok()?, &mut cell) || entry.contains(&b'-') {
            return None;
        }
        *count = u16::try_from(cell[0]).ok()?;
    }
    Some(())
}

/// R125: a set of groups, from the first to the last, and whether these two have to be there if any is (R127).
struct Set {
    first: usize,
    last: usize,
    ends: bool,
}

/// The sets below the letters of groups 54 and 55, and the one above.
const LOWER: [Set; 9] = [
    Set { first: 7, last: 11, ends: true },
    Set { first: 12, last: 16, ends: true },
    Set { first: 17, last: 21, ends: true },
    Set { first: 22, last: 25, ends: false },
    Set { first: 26, last: 29, ends: false },
    Set { first: 30, last: 33, ends: false },
    Set { first: 43, last: 46, ends: false },
    Set { first: 47, last: 50, ends: false },
    Set { first: 51, last: 53, ends: false },
];
const UPPER: Set = Set { first: 58, last: 60, ends: false };

impl Set {
    /// R126, R127.
    fn keeps(&self, counts: &[u16; 80]) -> bool {
        let own = &counts[self.first - 1..self.last];
        let most = own.iter().copied().max().unwrap_or(0);
        let alike = own.iter().all(|&count| count == 0 || count == most);
        alike && (!self.ends || most == 0 || counts[self.first - 1] != 0 && counts[self.last - 1] != 0)
    }
}

/// R120 to R128: the rules are tried in the order of the groups that they blame, so that the first that is broken blames the lowest.
pub fn keep_rules(counts: &[u16; 80]) -> Result<(), Refusal> {
    let of = |group: usize| counts[group - 1];
    let rule = |group, kept| if kept { Ok(()) } else { Err(Refusal::BrokenRule { group }) };
    rule(1, of(1) >= 4)?;
    rule(2, of(2) <= 2)?;
    rule(3, of(3) >= 19)?;
    rule(4, (1..=49).contains(&of(4)))?;
    LOWER.iter().try_for_each(|set| rule(set.first, set.keeps(counts)))?;
    rule(54, of(54) == 0 || of(54) == of(4))?;
    rule(55, of(55) == 0 || of(55) == of(4))?;
    rule(UPPER.first, UPPER.keeps(counts))
}

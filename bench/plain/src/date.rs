//! R140 to R148: the date in group 3.

use crate::Refusal;

/// R140: first position, length, least and greatest value of each digit field.
const FIELDS: [(usize, usize, i64, i64); 7] =
    [(3, 4, 0, 9999), (7, 3, 1, 366), (10, 2, 1, 12), (12, 2, 1, 31), (14, 2, 0, 23), (16, 2, 0, 59), (18, 2, 0, 59)];

/// R147, R148: whether the letters of group 3, of which there are 19 at least (R123), hold a date.
pub fn check(letters: &[i64]) -> Result<(), Refusal> {
    let mut values = [0; 7];
    for (value, (position, length, least, greatest)) in values.iter_mut().zip(FIELDS) {
        let digits = &letters[position - 1..position - 1 + length];
        *value = number(digits).filter(|number| (least..=greatest).contains(number)).ok_or(Refusal::BadDate { position })?;
    }
    let [year, day_of_year, month, day, ..] = values;
    if agree(year, day_of_year, month, day) {
        Ok(())
    } else {
        Err(Refusal::BadDate { position: 7 })
    }
}

/// R142: the number that letters make, if all are digits.
fn number(letters: &[i64]) -> Option<i64> {
    letters.iter().try_fold(0, |number, letter| {
        let digit = letter - i64::from(b'0');
        (0..=9).contains(&digit).then_some(number * 10 + digit)
    })
}

/// R144 to R146: whether the month has such a day, and whether that is this day of the year.
fn agree(year: i64, day_of_year: i64, month: i64, day: i64) -> bool {
    let leap = year % 4 == 0 && (year % 100 != 0 || year % 400 == 0);
    let days = |month| match month {
        2 => 28 + i64::from(leap),
        4 | 6 | 9 | 11 => 30,
        _ => 31,
    };
    day <= days(month) && day_of_year == (1..month).map(days).sum::<i64>() + day
}

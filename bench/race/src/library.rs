//! The library's side of the race.

use seambeacon::{Refusal, Rules};

/// A whole record, as the library reads it (R271): all its cells in the table, and how many there are. This is the one place of the benchmark
/// that says how the library is asked for that.
///
/// # Errors
///
/// The first due of placing's reply if it is not 0, 11 for all groups together, and the groups' replies in turn (R272).
pub fn read_record(rules: Rules, text: &[u8], at: usize, table: &mut [i64]) -> Result<usize, Refusal> {
    seambeacon::read_record(rules, text, at, table)
}

//! A made-up day: twelve records, one every two hours, with the groups that sounders fill. By day the F2, F1 and E layers have a trace, by night F2
//! and Es. Nothing is measured, and only whole numbers are used, so it is the same day on every machine. The library writes it, so it is canonical
//! (R100).

use seambeacon::{write_record, Rules};
use std::ops::Range;

/// A record as its counts and cells.
pub struct Record {
    /// Group g's count is `counts[g - 1]`; the last is the release.
    pub counts: [u16; 80],
    /// R47: the cells of all groups, group 1's first.
    pub cells: Vec<i64>,
    /// Those of group g are `cells[parts[g - 1]]`.
    pub parts: [Range<usize>; 60],
}

/// The day's records.
#[must_use]
pub fn records() -> Vec<Record> {
    (0..12).map(|i| record(2 * i)).collect()
}

/// The day's text.
///
/// # Panics
///
/// If the library refuses to write a record.
#[must_use]
pub fn text() -> Vec<u8> {
    let (mut out, mut text) = ([0; 8192], Vec::new());
    for Record { counts, cells, .. } in records() {
        let length = write_record(Rules::default(), &counts, &cells, &mut out).expect("a record of the day");
        text.extend_from_slice(&out[..length]);
    }
    text
}

impl Record {
    /// Puts a group behind those that are there, each of its elements as `C` cells.
    fn put<const C: usize>(&mut self, group: usize, elements: impl IntoIterator<Item = [i64; C]>) {
        let before = self.cells.len();
        self.cells.extend(elements.into_iter().flatten());
        self.counts[group - 1] = u16::try_from((self.cells.len() - before) / C).expect("a count");
        self.parts[group - 1] = before..self.cells.len();
    }

    fn put_numbers(&mut self, group: usize, numbers: impl IntoIterator<Item = i64>) {
        self.put(group, numbers.into_iter().map(|number| [number]));
    }

    fn put_letters(&mut self, group: usize, letters: &str) {
        self.put_numbers(group, letters.bytes().map(i64::from));
    }

    /// R125: the groups of a trace from `first` on: virtual heights, true heights if it has them, amplitudes, Doppler numbers, frequencies.
    fn put_trace(&mut self, first: usize, layer: Layer, true_heights: bool, drawn: &mut Drawn) {
        let frequencies = || (layer.lowest..layer.critical).step_by(layer.step);
        self.put_numbers(first, frequencies().map(|frequency| layer.virtual_height(frequency) + drawn.below(900)));
        if true_heights {
            self.put_numbers(first + 1, frequencies().map(|frequency| layer.true_height(frequency) + drawn.below(900)));
        }
        let amplitudes = first + 1 + usize::from(true_heights);
        self.put_numbers(amplitudes, frequencies().map(|_| 28 + drawn.below(40)));
        self.put_numbers(amplitudes + 1, frequencies().map(|_| drawn.below(8)));
        self.put_numbers(amplitudes + 2, frequencies());
    }
}

/// Digits that look measured, and are the same in every run.
struct Drawn(u64);

impl Drawn {
    fn below(&mut self, limit: i64) -> i64 {
        self.0 = self.0.wrapping_mul(6_364_136_223_846_793_005).wrapping_add(1_442_695_040_888_963_407);
        (self.0 >> 33) as i64 % limit
    }

    /// An element of form E11.6E1.
    fn coefficient(&mut self) -> [i64; 2] {
        let digits = 100_000 + self.below(900_000);
        [if self.below(3) == 0 { -digits } else { digits }, self.below(6) - 2]
    }
}

/// A layer of the ionosphere: its critical frequency, the lowest that it echoes, and the step between two, in kHz; where it begins and half its
/// thickness, in metres.
#[derive(Clone, Copy)]
struct Layer {
    critical: i64,
    lowest: i64,
    step: usize,
    base: i64,
    half: i64,
}

impl Layer {
    /// An echo seems to come from the higher up the nearer its frequency is to the critical one.
    fn virtual_height(self, frequency: i64) -> i64 {
        self.base + self.half * frequency / (2 * (self.critical - frequency).max(frequency / 6))
    }

    /// Where the wave is turned back.
    fn true_height(self, frequency: i64) -> i64 {
        self.base + self.half * frequency / self.critical * frequency / self.critical
    }
}

/// 12,400 times the square of a frequency in MHz, electrons in the cm³, as an element of form E8.3E1.
fn density(frequency: i64) -> [i64; 2] {
    let electrons = 12_400 * frequency * frequency / 1_000_000;
    let digits = electrons.ilog10() + 1;
    [electrons / 10_i64.pow(digits - 3), i64::from(digits)]
}

/// Group 2.
const SOUNDER: [u8; 120] =
    *b"DPS-4 999/XX999, NAME Made-up Station, ADEP 2.19                                                                        ";

fn record(hour: i64) -> Record {
    let mut drawn = Drawn(hour as u64);
    let mut record = Record { counts: [0; 80], cells: Vec::new(), parts: [const { 0..0 }; 60] };
    record.counts[79] = 5;

    // by how many hundredths the sun is as high as at noon
    let light = (100 - 2 * (hour - 12) * (hour - 12)).max(0);
    let step = if light > 0 { 100 } else { 50 };
    let e = Layer { critical: 2000 + 14 * light, lowest: 1400, step, base: 95_000, half: 20_000 };
    let f1 = Layer { critical: 3800 + 9 * light, lowest: e.critical, step, base: 140_000, half: 45_000 };
    let below_f2 = if light > 0 { f1.critical } else { 1500 };
    let f2 = Layer { critical: 4000 + 62 * light, lowest: below_f2, step, base: 230_000 - 400 * light, half: 80_000 };
    let es = Layer { critical: 3100, lowest: 2000, step, base: 100_000, half: 5000 };

    record.put_numbers(1, [1250, 63_000, 48_000, 15_000, 75_000]);
    record.put(2, [SOUNDER.map(i64::from)]);
    record.put_letters(3, &format!("FF20040600229{hour:02}0000{:058}", 1_402_010_000_300_i64));
    record.put_numbers(4, characteristics(f2, &mut drawn));
    record.put_numbers(5, (0..10).map(|_| drawn.below(100)));
    record.put_numbers(6, [-2734, -1953, -1172, -391, 391, 1172, 1953, 2734]);
    record.put_trace(7, f2, true, &mut drawn);
    if light > 0 {
        record.put_trace(12, f1, true, &mut drawn);
        record.put_trace(17, e, true, &mut drawn);
    }
    record.put_numbers(34, (0..f2.critical / 1000).map(|_| 30 + drawn.below(30)));
    record.put(37, (0..10).map(|_| drawn.coefficient()));
    if light > 0 {
        record.put(38, (0..9).map(|_| drawn.coefficient()));
        record.put(39, (0..7).map(|_| drawn.coefficient()));
    }
    record.put_numbers(41, (0..49).map(|_| drawn.below(3) * 2));
    if light == 0 {
        record.put_trace(43, es, false, &mut drawn);
    }
    // the profile: the F2 layer in steps of its plasma frequency
    let points = 70;
    let plasma = |i: i64| 1000 + (f2.critical - 1000) * i / points;
    record.put_numbers(51, (1..=points).map(|i| f2.true_height(plasma(i)) + drawn.below(900)));
    record.put_numbers(52, (1..=points).map(plasma));
    record.put(53, (1..=points).map(|i| density(plasma(i))));
    record.put_letters(54, &"/".repeat(49));
    record.put_letters(55, &" ".repeat(49));
    record.put_numbers(56, [0; 5]);
    record
}

/// All 49; of a third there is no reading.
fn characteristics(f2: Layer, drawn: &mut Drawn) -> Vec<i64> {
    let mut values: Vec<i64> = (1..=49).map(|_| if drawn.below(3) == 0 { 9_999_000 } else { 1000 + drawn.below(400_000) }).collect();
    values[0] = f2.critical;
    values
}

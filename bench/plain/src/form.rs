//! R40 to R44: the ten forms, which group has which, and the elements of a count.

use crate::Rules;

/// A form, by its letter and its width.
#[derive(Clone, Copy)]
pub enum Form {
    F7,
    A120,
    A1,
    F8,
    I2,
    I3,
    I1,
    E11,
    E20,
    E8,
}

impl Form {
    /// R41: how many elements a full line has.
    pub fn per_line(self) -> usize {
        match self {
            Form::A120 => 1,
            Form::E20 => 6,
            Form::E11 => 10,
            Form::F8 | Form::E8 => 15,
            Form::F7 => 16,
            Form::I3 => 40,
            Form::I2 => 60,
            Form::A1 | Form::I1 => 120,
        }
    }

    /// R41: how many cells an element has.
    pub fn cells(self) -> usize {
        match self {
            Form::A120 => 120,
            Form::E11 | Form::E20 | Form::E8 => 2,
            _ => 1,
        }
    }
}

/// R40: the form of a group, 1 to 60.
pub fn of(group: usize) -> Form {
    FORMS[group - 1]
}

const FORMS: [Form; 60] = {
    use Form::*;
    [
        F7, A120, A1, F8, I2, F7, F8, F8, I3, I1, // 1 to 10
        F8, F8, F8, I3, I1, F8, F8, F8, I3, I1, // 11 to 20
        F8, F8, I3, I1, F8, F8, I3, I1, F8, F8, // 21 to 30
        I3, I1, F8, I3, I3, I3, E11, E11, E11, E20, // 31 to 40
        I1, E11, F8, I3, I1, F8, F8, I3, I1, F8, // 41 to 50
        F8, F8, E8, A1, A1, I1, E11, F8, F8, E8, // 51 to 60
    ]
};

/// R13, R42: how many elements a count of a group stands for.
pub fn elements(rules: Rules, group: usize, count: u16) -> usize {
    let count = usize::from(count);
    if group == 40 && rules.entries && count > 0 {
        return 6 * (count - 1) + 1;
    }
    count
}

//! R70 to R86: the fields of the ten forms. Each of these stores the cells of a field that is formed and says so; `W` is the width of its form.

/// R70: blanks, perhaps a minus, digits to the end, one at least.
pub fn whole<const W: usize>(field: &[u8; W], cells: &mut [i64; 1]) -> bool {
    let (negative, digits) = sign(field);
    let Some(size) = number(digits) else { return false };
    cells[0] = signed(negative, size);
    !digits.is_empty()
}

/// R72: blanks, perhaps a minus, digits or none, a point and three digits.
pub fn fixed<const W: usize>(field: &[u8; W], cells: &mut [i64; 1]) -> bool {
    if field[W - 4] != b'.' {
        return false;
    }
    let (negative, digits) = sign(&field[..W - 4]);
    let (Some(units), Some(thousandths)) = (number(digits), number(&field[W - 3..])) else { return false };
    cells[0] = signed(negative, units * 1000 + thousandths);
    true
}

/// R74 to R76: `B` columns, a point, `D` digits, `E`, a sign, and the exponent's digits.
pub fn power<const W: usize, const B: usize, const D: usize>(field: &[u8; W], cells: &mut [i64; 2]) -> bool {
    let negative = match &field[..B] {
        b"0" | b" " | b"  0" | b"   " => false,
        b"-" | b" -0" | b"  -" => true,
        _ => return false,
    };
    let behind = B + 1 + D;
    let sinking = match field[behind + 1] {
        b'+' => false,
        b'-' => true,
        _ => return false,
    };
    if field[B] != b'.' || field[behind] != b'E' {
        return false;
    }
    let (Some(digits), Some(exponent)) = (number(&field[B + 1..behind]), number(&field[behind + 2..])) else { return false };
    *cells = [signed(negative, digits), signed(sinking, exponent)];
    true
}

/// R80: bytes from 32 to 126, each of them a cell.
pub fn letters<const W: usize>(field: &[u8; W], cells: &mut [i64; W]) -> bool {
    *cells = field.map(i64::from);
    field.iter().fold(true, |all, &byte| all & is_letter(byte))
}

/// R80: whether a byte may be a letter.
pub fn is_letter(byte: u8) -> bool {
    (b' '..=b'~').contains(&byte)
}

/// Whether a minus stands behind the blanks, and what stands behind both.
fn sign(columns: &[u8]) -> (bool, &[u8]) {
    let mut rest = columns;
    while let [b' ', behind @ ..] = rest {
        rest = behind;
    }
    match rest {
        [b'-', behind @ ..] => (true, behind),
        _ => (false, rest),
    }
}

/// The number that digits make, 0 for none of them; nothing where another byte is among them.
fn number(digits: &[u8]) -> Option<i64> {
    let mut number = 0;
    for byte in digits {
        let digit = byte.wrapping_sub(b'0');
        if digit > 9 {
            return None;
        }
        number = number * 10 + i64::from(digit);
    }
    Some(number)
}

fn signed(negative: bool, size: i64) -> i64 {
    if negative {
        -size
    } else {
        size
    }
}

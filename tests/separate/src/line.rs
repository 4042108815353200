//! Lines: six fields of ten columns and an LF ("Numbers by place of check",
//! place "line").

/// Six numbers: a table line, an event or an answer.
pub type Six = [i64; FIELDS];

pub const FIELDS: usize = 6;
pub const COLUMNS: usize = 10;
/// Bytes of a good line, its LF included.
pub const LENGTH: usize = FIELDS * COLUMNS + 1;
/// The numbers that a line can hold.
pub const LEAST: i64 = -1;
pub const GREATEST: i64 = 999_999_999;
/// The most digits that a number up to `GREATEST` has.
const DIGITS: usize = 9;

/// What a line of the input turned out to be.
#[derive(Clone, Copy, Debug, PartialEq, Eq)]
pub enum Line {
    Six(Six),
    Bad,
}

/// Reads a line; `Bad` is code 11.
pub fn read(bytes: &[u8]) -> Line {
    let Some((&b'\n', columns)) = bytes.split_last() else {
        return Line::Bad;
    };
    if columns.len() != FIELDS * COLUMNS {
        return Line::Bad;
    }
    let mut six = [0; FIELDS];
    for (number, field) in six.iter_mut().zip(columns.chunks_exact(COLUMNS)) {
        match read_field(field) {
            Some(value) => *number = value,
            None => return Line::Bad,
        }
    }
    Line::Six(six)
}

/// Reads one field: spaces, then -1, 0, or a number without leading zero.
fn read_field(field: &[u8]) -> Option<i64> {
    let blanks = field.iter().take_while(|&&byte| byte == b' ').count();
    match &field[blanks..] {
        b"0" => Some(0),
        b"-1" => Some(-1),
        digits @ [b'1'..=b'9', ..] if digits.len() <= DIGITS => read_digits(digits),
        _ => None,
    }
}

fn read_digits(digits: &[u8]) -> Option<i64> {
    digits.iter().try_fold(0, |number, byte| match byte {
        b'0'..=b'9' => Some(number * 10 + i64::from(byte - b'0')),
        _ => None,
    })
}

/// The writer's refusal, code 11.
#[derive(Clone, Copy, Debug, PartialEq, Eq)]
pub struct Unwritable;

/// Writes a line to the front of `out`. A refusal leaves `out` as it was.
pub fn write(six: &Six, out: &mut [u8]) -> Result<(), Unwritable> {
    let Some(line) = out.get_mut(..LENGTH) else {
        return Err(Unwritable);
    };
    if !six.iter().all(|number| (LEAST..=GREATEST).contains(number)) {
        return Err(Unwritable);
    }
    line.fill(b' ');
    for (field, &number) in line.chunks_exact_mut(COLUMNS).zip(six) {
        write_field(number, field);
    }
    line[LENGTH - 1] = b'\n';
    Ok(())
}

/// Puts the digits right-justified into a field of spaces.
fn write_field(number: i64, field: &mut [u8]) {
    if number == -1 {
        field[COLUMNS - 2..].copy_from_slice(b"-1");
        return;
    }
    let mut rest = number as u32;
    for column in field.iter_mut().rev() {
        *column = b'0' + (rest % 10) as u8;
        rest /= 10;
        if rest == 0 {
            break;
        }
    }
}

/// The line of six numbers that are known to fit.
pub fn text(six: &Six) -> [u8; LENGTH] {
    let mut line = [0; LENGTH];
    write(six, &mut line).expect("six numbers within a line's range");
    line
}

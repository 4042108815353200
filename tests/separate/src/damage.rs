//! Damaged lines: every reason for 11.

use crate::line::{COLUMNS, FIELDS, LENGTH};
use crate::rng::Rng;

/// Fields that no good line has.
pub const BAD_FIELDS: [(&str, &[u8; COLUMNS]); 32] = [
    ("ten spaces", b"          "),
    ("a tab before the number", b"        \t1"),
    ("a tab alone", b"         \t"),
    ("a minus alone", b"         -"),
    ("a minus, a space, a digit", b"       - 1"),
    ("minus zero one", b"       -01"),
    ("minus zero", b"        -0"),
    ("two zeros", b"        00"),
    ("a leading zero", b"        07"),
    ("leading zeros to the full width", b"0000000001"),
    ("a plus", b"        +1"),
    ("a plus and zero", b"        +0"),
    ("minus two", b"        -2"),
    ("minus ten", b"       -10"),
    ("two minus signs", b"       --1"),
    ("a minus behind", b"        1-"),
    ("CR", b"        1\r"),
    ("NUL", b"        1\0"),
    ("NUL before the number", b"\0\0\0\0\0\0\0\0\x001"),
    ("a byte of 128 and above", b"        1\xB2"),
    ("two bytes of one character", b"       \xC3\xA91"),
    ("a byte of 255", b"         \xFF"),
    ("ten digits", b"1000000000"),
    ("ten digits, the greatest", b"9999999999"),
    ("nine digits behind a minus", b"-999999999"),
    ("a space behind", b"        1 "),
    ("left-justified", b"1         "),
    ("a space inside", b"      1  2"),
    ("a letter", b"        1a"),
    ("a letter alone", b"         O"),
    ("hexadecimal", b"       0x1"),
    ("a point", b"       1.0"),
];

/// A change of a good line's bytes after which it is no good line.
pub type LineDamage = fn(&mut Rng, &mut Vec<u8>);

/// Damages of the line as a whole. Each leaves whole lines, LF included; only
/// the last makes two lines of one.
pub const LINE_DAMAGES: [(&str, LineDamage); 14] = [
    ("a bad field", |rng, line| {
        let (_, field) = rng.pick(&BAD_FIELDS);
        put_field(line, rng.below(FIELDS), field);
    }),
    ("the first field bad", |rng, line| {
        let (_, field) = rng.pick(&BAD_FIELDS);
        put_field(line, 0, field);
    }),
    ("the last field bad", |rng, line| {
        let (_, field) = rng.pick(&BAD_FIELDS);
        put_field(line, FIELDS - 1, field);
    }),
    ("one column short", |_, line| {
        line.remove(0);
    }),
    ("short", |rng, line| {
        let columns = rng.below(LENGTH - 1);
        line.truncate(columns);
        line.push(b'\n');
    }),
    ("five fields", |_, line| {
        line.truncate((FIELDS - 1) * COLUMNS);
        line.push(b'\n');
    }),
    ("LF alone", |_, line| *line = vec![b'\n']),
    ("one column long", |_, line| line.insert(0, b' ')),
    ("seven fields", |_, line| {
        line.pop();
        line.extend_from_slice(b"         0\n");
    }),
    ("much too long", |rng, line| {
        line.pop();
        let more = rng.pick(&[LENGTH, 1000, 70_000]);
        line.resize(LENGTH - 1 + more, b' ');
        line.push(b'\n');
    }),
    ("CR before LF", |_, line| line.insert(LENGTH - 1, b'\r')),
    ("two lines without LF between", |_, line| {
        line.pop();
        let twice = line.clone();
        line.extend_from_slice(&twice);
        line.push(b'\n');
    }),
    ("CR in place of LF", |_, line| {
        line[LENGTH - 1] = b'\r';
        let twice = line.clone();
        line.extend_from_slice(&twice);
        line.push(b'\n');
    }),
    ("an LF inside", |rng, line| {
        line[rng.below(LENGTH - 1)] = b'\n'
    }),
];

/// The damages after which a line is still one line.
pub const ONE_LINE_DAMAGES: &[(&str, LineDamage)] = LINE_DAMAGES.split_at(LINE_DAMAGES.len() - 1).0;

/// Puts ten columns into a field of a line.
pub fn put_field(line: &mut [u8], field: usize, columns: &[u8; COLUMNS]) {
    line[field * COLUMNS..][..COLUMNS].copy_from_slice(columns);
}

//! Reading and writing lines.

use separate::damage::{put_field, BAD_FIELDS, LINE_DAMAGES};
use separate::line::{self, Line, Unwritable, LENGTH};
use separate::rng::Rng;

fn with_field(columns: &[u8; 10], place: usize) -> Vec<u8> {
    let mut line = line::text(&[0; 6]).to_vec();
    put_field(&mut line, place, columns);
    line
}

#[test]
fn a_line_is_six_fields_of_ten_columns_right_justified() {
    let text = b"         1        -1       255         0 999999999     32767\n";
    assert_eq!(
        line::read(text),
        Line::Six([1, -1, 255, 0, 999_999_999, 32_767])
    );
}

#[test]
fn good_fields_are_minus_one_and_numbers_without_leading_zero() {
    let good: [(&[u8; 10], i64); 7] = [
        (b"         0", 0),
        (b"        -1", -1),
        (b"         7", 7),
        (b"        10", 10),
        (b"       100", 100),
        (b" 123456789", 123_456_789),
        (b" 999999999", 999_999_999),
    ];
    for (columns, number) in good {
        for place in 0..6 {
            let mut six = [0; 6];
            six[place] = number;
            assert_eq!(line::read(&with_field(columns, place)), Line::Six(six));
        }
    }
}

#[test]
fn every_bad_field_is_11_in_every_place() {
    for (name, columns) in BAD_FIELDS {
        for place in 0..6 {
            assert_eq!(
                line::read(&with_field(columns, place)),
                Line::Bad,
                "{name} in {place}"
            );
        }
    }
}

#[test]
fn any_byte_but_a_digit_is_bad_as_the_last_column() {
    for byte in 0..=255u8 {
        let mut line = line::text(&[0; 6]);
        line[59] = byte;
        let good = matches!(line::read(&line), Line::Six(_));
        assert_eq!(good, byte.is_ascii_digit(), "byte {byte}");
    }
}

#[test]
fn any_byte_but_lf_is_bad_as_the_61st() {
    for byte in 0..=255u8 {
        let mut line = line::text(&[0; 6]);
        line[60] = byte;
        let good = matches!(line::read(&line), Line::Six(_));
        assert_eq!(good, byte == b'\n', "byte {byte}");
    }
}

#[test]
fn any_length_but_61_bytes_is_bad() {
    let good = line::text(&[0; 6]);
    for length in 0..LENGTH {
        assert_eq!(line::read(&good[..length]), Line::Bad, "{length} bytes");
        let mut cut = good[..length].to_vec();
        cut.push(b'\n');
        let expected = if length == 60 {
            Line::Six([0; 6])
        } else {
            Line::Bad
        };
        assert_eq!(line::read(&cut), expected, "{length} columns and LF");
    }
    let mut long = good.to_vec();
    long.push(b'\n');
    assert_eq!(line::read(&long), Line::Bad);
}

#[test]
fn every_line_damage_leaves_no_good_line() {
    for (name, damage) in LINE_DAMAGES {
        for seed in 0..50 {
            let mut rng = Rng::new(seed);
            let mut bytes = line::text(&[1, 2, 7, 50, -1, 999_999_999]).to_vec();
            damage(&mut rng, &mut bytes);
            assert_eq!(bytes.last(), Some(&b'\n'), "{name}");
            let mut lines = separate::replay::Lines::new(bytes.as_slice());
            while let Some(line) = lines.next_line() {
                assert_eq!(line, Line::Bad, "{name} with seed {seed}");
            }
        }
    }
}

#[test]
fn reading_what_was_written_gives_the_same_numbers() {
    let mut rng = Rng::new(1);
    let edges = [
        -1,
        0,
        1,
        9,
        10,
        99,
        100,
        99_999_999,
        100_000_000,
        999_999_998,
        999_999_999,
    ];
    for _ in 0..20_000 {
        let mut six = [0; 6];
        for number in &mut six {
            let digits = rng.below(9) as u32 + 1;
            let random = rng.range(-1, 10i64.pow(digits) - 1);
            *number = if rng.percent(30) {
                rng.pick(&edges)
            } else {
                random
            };
        }
        assert_eq!(line::read(&line::text(&six)), Line::Six(six));
    }
}

#[test]
fn writing_what_was_read_gives_the_same_bytes() {
    let text = *b"         8         0       -10         0         1         0\n";
    assert_eq!(line::read(&text), Line::Bad);
    let text = *b"         8         0        -1 120019996         1        16\n";
    let Line::Six(six) = line::read(&text) else {
        panic!("a good line");
    };
    assert_eq!(line::text(&six), text);
}

#[test]
fn the_writer_refuses_a_number_out_of_range_and_leaves_the_output() {
    for place in 0..6 {
        for number in [-2, 1_000_000_000, i64::MIN, i64::MAX] {
            let mut six = [0; 6];
            six[place] = number;
            let mut out = [b'x'; LENGTH];
            assert_eq!(line::write(&six, &mut out), Err(Unwritable));
            assert_eq!(out, [b'x'; LENGTH]);
        }
    }
}

#[test]
fn the_writer_refuses_under_61_bytes_and_leaves_the_output() {
    for length in 0..LENGTH {
        let mut out = vec![b'x'; length];
        assert_eq!(line::write(&[0; 6], &mut out), Err(Unwritable));
        assert_eq!(out, vec![b'x'; length]);
    }
}

#[test]
fn an_answer_line_goes_into_the_middle_of_the_output() {
    let mut out = [b'x'; 10 + LENGTH + 5];
    assert_eq!(line::write(&[7, -1, 0, 12, 1, 0], &mut out[10..]), Ok(()));
    assert_eq!(&out[..10], b"xxxxxxxxxx");
    assert_eq!(
        &out[10..71],
        b"         7        -1         0        12         1         0\n"
    );
    assert_eq!(&out[71..], b"xxxxx");
}

/// What the program `written_lines` prints of one write: the code, then every
/// byte of the output, which had dots before.
fn shown(length: usize, at: usize, six: &line::Six) -> Vec<u8> {
    let mut out = vec![b'.'; length];
    let code = match out.get_mut(at..).map(|part| line::write(six, part)) {
        Some(Ok(())) => 0,
        Some(Err(Unwritable)) | None => 11,
    };
    [format!("{code} ").as_bytes(), &out, b"\n"].concat()
}

/// The stored output of `written_lines`, which the gate compares with what the
/// program writes: each number in each field, in the middle of an output; in
/// the first field also in outputs of 61 and of 60 bytes, at the end of an
/// output, and past it.
#[test]
fn the_stored_lines_are_those_that_are_written() {
    let mut tried = vec![-1, 0, 1, 9, 10, 11];
    for power in 2..=6 {
        let ten = 10i64.pow(power);
        tried.extend([ten - 1, ten, ten + 1]);
    }
    tried.extend([9_999_999, 10_000_000, 99_999_999, 100_000_000]);
    tried.extend([123_456_789, 987_654_321, 999_999_999]);
    tried.extend([-2, -9, -10, -999_999_999, 1_000_000_000]);
    tried.extend([i64::from(u32::MAX), i64::MAX, i64::MIN]);
    let mut expected = Vec::new();
    for number in tried {
        let with_number = |place: usize| {
            let mut six = [7, 0, -1, 999_999_999, 12, 345];
            six[place] = number;
            six
        };
        for place in 0..6 {
            expected.extend(shown(65, 2, &with_number(place)));
        }
        for (length, at) in [(61, 0), (60, 0), (61, 61), (61, 62)] {
            expected.extend(shown(length, at, &with_number(0)));
        }
    }
    let path = concat!(
        env!("CARGO_MANIFEST_DIR"),
        "/../../crates/written_lines/stdout"
    );
    let stored = std::fs::read(path).expect("the stored output");
    assert!(stored == expected, "the stored lines differ");
}

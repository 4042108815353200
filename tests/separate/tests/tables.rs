//! Table reading: 11 and 12 with their line numbers, and the final check.

mod common;

use common::{text, CHANNELS, ONE, TWO};
use separate::damage::LINE_DAMAGES;
use separate::record::{Mode, Module};
use separate::replay::{read_table, Lines};
use separate::rng::Rng;
use separate::table::Refusal;
use separate::tables::{self, NUMBER_DAMAGES};
use separate::{line, Six};

fn read(bytes: &[u8]) -> Result<Module, Refusal> {
    read_table(&mut Lines::new(bytes))
}

fn refusal(bytes: &[u8]) -> (i64, i64) {
    match read(bytes) {
        Ok(_) => panic!("the table was accepted"),
        Err(Refusal { code, line }) => (code, line),
    }
}

/// The table with one number changed; line and field count from 0.
fn changed(table: &[Six], at: usize, field: usize, value: i64) -> Vec<u8> {
    let mut table = table.to_vec();
    table[at][field] = value;
    text(&table)
}

#[test]
fn an_accepted_table_gives_the_fresh_record() {
    let module = read(&text(&CHANNELS)).expect("an accepted table");
    assert_eq!((module.t(), module.frame(), module.current()), (0, 10, 1));
    assert_eq!(module.partitions().len(), 3);
    for partition in module.partitions() {
        assert_eq!(partition.mode, Mode::ColdStart);
        assert!(partition.processes.is_empty() && partition.arrival.is_empty());
        assert!(partition.semaphores.is_empty() && partition.events.is_empty());
    }
    let windows: Vec<_> = module
        .windows()
        .iter()
        .map(|window| (window.start, window.duration, window.partition, window.flag))
        .collect();
    assert_eq!(windows, [(0, 4, 1, true), (4, 3, 2, true), (7, 1, 3, true)]);
    let channels: Vec<_> = module
        .channels()
        .iter()
        .map(|channel| {
            (
                channel.source,
                channel.destination,
                channel.refresh,
                channel.message(),
            )
        })
        .collect();
    assert_eq!(
        channels,
        [(1, 2, 5, None), (2, 1, 5, None), (2, 3, 5, None)]
    );
}

#[test]
fn line_1_ranges() {
    for (field, value) in [
        (0, 0),
        (0, -1),
        (0, 10_001),
        (1, 0),
        (1, -1),
        (1, 9),
        (2, 0),
        (2, -1),
        (2, 33),
        (3, -1),
        (3, 17),
        (4, 1),
        (4, -1),
        (5, 1),
        (5, -1),
    ] {
        assert_eq!(
            refusal(&changed(&CHANNELS, 0, field, value)),
            (12, 1),
            "{field} {value}"
        );
    }
}

#[test]
fn window_line_ranges() {
    // The first start, a start below the previous end, a duration below 1, an
    // end past M, the partition, the flag, the two zeros.
    for (at, field, value) in [
        (1, 0, -1),
        (2, 0, 3),
        (2, 0, 0),
        (3, 0, 6),
        (3, 0, -1),
        (1, 1, 0),
        (2, 1, 0),
        (3, 1, -1),
        (3, 1, 4),
        (1, 1, 11),
        (1, 2, 0),
        (1, 2, -1),
        (2, 2, 4),
        (1, 3, -1),
        (3, 3, 2),
        (1, 4, 1),
        (2, 5, -1),
    ] {
        let line = at as i64 + 1;
        assert_eq!(
            refusal(&changed(&CHANNELS, at, field, value)),
            (12, line),
            "line {line} field {field} value {value}"
        );
    }
}

#[test]
fn channel_line_ranges() {
    for (at, field, value) in [
        (4, 0, 0),
        (5, 0, -1),
        (6, 0, 4),
        (4, 1, 0),
        (5, 1, -1),
        (6, 1, 4),
        (4, 1, 1),
        (5, 0, 1),
        (4, 2, 0),
        (5, 2, -1),
        (6, 2, 10_000_000),
        (4, 3, 1),
        (5, 4, -1),
        (6, 5, 1),
    ] {
        let line = at as i64 + 1;
        assert_eq!(
            refusal(&changed(&CHANNELS, at, field, value)),
            (12, line),
            "line {line} field {field} value {value}"
        );
    }
}

#[test]
fn a_channel_line_has_kind_0_and_size_0_or_kind_1_and_a_size_of_1_to_8() {
    let read = |kind, size, refresh| {
        let mut table = CHANNELS;
        table[5] = [2, 1, refresh, kind, size, 0];
        read(&text(&table)).map(|module| module.channels()[1].clone())
    };
    for size in 1..=8 {
        for refresh in [1, 9_999_999] {
            let channel = read(1, size, refresh).expect("an accepted table");
            let queue = channel.queue().expect("a queuing channel");
            assert_eq!((queue.limit as i64, queue.messages.len()), (size, 0));
            assert_eq!((channel.refresh, channel.message()), (refresh, None));
        }
    }
    let sampling = read(0, 0, 5).expect("an accepted table");
    assert!(sampling.queue().is_none());
    for (kind, size, refresh) in [
        (1, 0, 5),
        (1, -1, 5),
        (1, 9, 5),
        (1, 999_999_999, 5),
        (0, 1, 5),
        (0, 8, 5),
        (0, -1, 5),
        (2, 0, 5),
        (2, 1, 5),
        (-1, 0, 5),
        (-1, 1, 5),
        (1, 1, 0),
        (1, 1, -1),
        (1, 1, 10_000_000),
    ] {
        let refused = Err(Refusal { code: 12, line: 6 });
        assert_eq!(read(kind, size, refresh), refused, "{kind} {size}");
    }
}

#[test]
fn the_sixth_field_and_the_ends_of_a_queuing_channel() {
    let mut table = CHANNELS;
    table[4] = [1, 2, 5, 1, 8, 0];
    assert!(read(&text(&table)).is_ok());
    for (field, value) in [
        (0, 0),
        (0, 2),
        (0, 4),
        (1, 0),
        (1, 1),
        (1, 4),
        (5, 1),
        (5, -1),
        (5, 999_999_999),
    ] {
        assert_eq!(refusal(&changed(&table, 4, field, value)), (12, 5));
    }
}

#[test]
fn the_edges_of_every_range_are_accepted() {
    let accepted = [
        changed(&ONE, 0, 0, 10),
        changed(&ONE, 0, 0, 10_000),
        text(&[[1, 1, 1, 0, 0, 0], [0, 1, 1, 1, 0, 0]]),
        changed(&ONE, 1, 0, 0),
        changed(&ONE, 1, 1, 1),
        text(&[[10, 1, 1, 0, 0, 0], [9, 1, 1, 1, 0, 0]]),
        changed(&CHANNELS, 4, 2, 1),
        changed(&CHANNELS, 4, 2, 9_999_999),
        changed(&CHANNELS, 3, 1, 3),
    ];
    for table in accepted {
        assert!(read(&table).is_ok(), "{}", String::from_utf8_lossy(&table));
    }
}

#[test]
fn the_greatest_table_is_accepted() {
    let mut table = vec![[10_000, 8, 32, 16, 0, 0]];
    table.extend((0..32).map(|n| [n * 300, 300, n % 8 + 1, 1, 0, 0]));
    table.extend((0..16).map(|n| [n % 8 + 1, (n + 1) % 8 + 1, 9_999_999, 0, 0, 0]));
    let module = read(&text(&table)).expect("an accepted table");
    assert_eq!(module.partitions().len(), 8);
    assert_eq!(module.windows().len(), 32);
    assert_eq!(module.channels().len(), 16);
}

#[test]
fn channels_may_share_both_ends() {
    let mut table = CHANNELS.to_vec();
    table[5] = table[4];
    assert!(read(&text(&table)).is_ok());
}

#[test]
fn windows_may_touch_and_leave_gaps() {
    let table = [
        [10, 1, 3, 0, 0, 0],
        [1, 2, 1, 0, 0, 0],
        [3, 1, 1, 1, 0, 0],
        [8, 1, 1, 0, 0, 0],
    ];
    assert!(read(&text(&table)).is_ok());
}

#[test]
fn the_final_check_wants_a_flag_for_the_first_a_middle_and_the_last_partition() {
    for line in 1..=3 {
        assert_eq!(
            refusal(&changed(&CHANNELS, line, 3, 0)),
            (12, 0),
            "window line {line}"
        );
    }
}

#[test]
fn a_partition_without_any_window_fails_the_final_check() {
    assert_eq!(refusal(&changed(&ONE, 0, 1, 2)), (12, 0));
}

#[test]
fn a_second_window_with_a_flag_is_enough() {
    let table = [[10, 1, 2, 0, 0, 0], [0, 2, 1, 0, 0, 0], [5, 2, 1, 1, 0, 0]];
    assert!(read(&text(&table)).is_ok());
}

#[test]
fn the_final_check_comes_after_every_channel_line() {
    let mut table = CHANNELS;
    table[1][3] = 0;
    table[6][2] = 0;
    assert_eq!(refusal(&text(&table)), (12, 7));
    let bytes = text(&table);
    assert_eq!(refusal(&bytes[..6 * 61]), (11, 7));
}

#[test]
fn a_missing_line_is_11_with_the_number_it_would_have_had() {
    let bytes = text(&CHANNELS);
    for lines in 0..CHANNELS.len() {
        assert_eq!(refusal(&bytes[..lines * 61]), (11, lines as i64 + 1));
    }
}

#[test]
fn a_last_table_line_without_lf_is_11() {
    let bytes = text(&TWO);
    assert_eq!(refusal(&bytes[..3 * 61 - 1]), (11, 3));
}

#[test]
fn a_12_on_an_earlier_line_comes_before_an_11_on_a_later_one() {
    let mut bytes = changed(&TWO, 1, 1, 0);
    bytes[2 * 61] = b'+';
    assert_eq!(refusal(&bytes), (12, 2));
}

#[test]
fn an_11_on_an_earlier_line_comes_before_a_12_on_a_later_one() {
    let mut bytes = changed(&TWO, 2, 1, 0);
    bytes[61] = b'+';
    assert_eq!(refusal(&bytes), (11, 2));
}

#[test]
fn on_one_line_11_comes_before_12() {
    // Line 1 with M 0 (12) and a leading zero in its last field (11).
    let mut bytes = changed(&TWO, 0, 0, 0);
    bytes[58] = b'0';
    assert_eq!(refusal(&bytes), (11, 1));
}

#[test]
fn every_line_damage_on_every_table_line_is_11_there() {
    for (name, damage) in LINE_DAMAGES {
        for at in 0..CHANNELS.len() {
            let mut lines = tables::text(&CHANNELS);
            damage(&mut Rng::new(at as u64), &mut lines[at]);
            assert_eq!(refusal(&lines.concat()), (11, at as i64 + 1), "{name}");
        }
    }
}

#[test]
fn every_number_damage_breaks_an_accepted_table_with_12() {
    for (name, damage) in NUMBER_DAMAGES {
        let mut applied = 0;
        for seed in 0..200 {
            let mut rng = Rng::new(seed);
            let mut table = tables::accepted(&mut rng);
            if damage(&mut rng, &mut table) {
                applied += 1;
                let refusal = tables::module(&table).expect_err(name);
                assert_eq!(refusal.code, 12, "{name} with seed {seed}");
            }
        }
        assert!(applied >= 50, "{name} applied {applied} times");
    }
}

#[test]
fn made_up_tables_are_accepted_and_varied() {
    let (mut gaps, mut single, mut flags, mut largest) = (0, 0, 0, 0);
    let (mut both, mut eight) = (0, 0);
    for seed in 0..2000 {
        let table = tables::accepted(&mut Rng::new(seed));
        let module = tables::module(&table).expect("an accepted table");
        let sizes: Vec<_> = module
            .channels()
            .iter()
            .map(|channel| channel.queue().map_or(0, |queue| queue.limit))
            .collect();
        both += usize::from(sizes.contains(&0) && sizes.iter().any(|&size| size > 0));
        eight += usize::from(sizes.contains(&8));
        let windows = module.windows();
        let owned: i64 = windows.iter().map(|window| window.duration).sum();
        gaps += usize::from(owned < module.frame());
        single += usize::from(module.frame() == 1);
        let flagged = windows.iter().filter(|window| window.flag).count();
        flags += usize::from(flagged > module.partitions().len());
        largest += usize::from(module.frame() == 10_000);
        for six in &table {
            assert!(six
                .iter()
                .all(|n| (line::LEAST..=line::GREATEST).contains(n)));
        }
    }
    assert!(gaps > 100 && single > 5 && flags > 100 && largest > 10);
    assert!(both > 400 && eight > 100, "{both} {eight}");
}

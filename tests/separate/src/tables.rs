//! Made-up tables: accepted ones, and number damages that break one rule
//! each (code 12).

use crate::line::{self, Line, Six};
use crate::record::Module;
use crate::rng::Rng;
use crate::table::{self, MOST_CHANNELS, MOST_FRAME, MOST_PARTITIONS, MOST_REFRESH};
use crate::table::{MOST_WINDOWS, SIZES};

/// The numbers of an accepted table, line by line.
pub fn accepted(rng: &mut Rng) -> Vec<Six> {
    let partitions = rng.pick(&[1, 1, 2, 2, 2, 2, 3, 3, 3, 3, 4, 4, 5, 6, 7, 8]);
    let most_more = MOST_WINDOWS - partitions;
    let more = match rng.below(8) {
        0..=3 => rng.range(0, 2),
        4..=6 => rng.range(0, most_more.min(8)),
        _ => rng.range(0, most_more),
    };
    let windows = partitions + more;
    let frame = pick_frame(rng, windows);
    let channels = match partitions {
        1 => 0,
        _ => rng.pick(&[0, 1, 2, 3, 4, 6, 8, 12, MOST_CHANNELS]),
    };
    table_lines(rng, frame, partitions, windows, channels)
}

/// An accepted table without channels in which partitions have several
/// windows, with and without flag 1.
pub fn several_windows(rng: &mut Rng) -> Vec<Six> {
    let (partitions, windows) = (rng.range(1, 3), rng.range(2, 5));
    few_partitions(rng, partitions, windows, 0)
}

/// An accepted table of few partitions, each soon current again, most of them
/// with channels.
pub fn close_partitions(rng: &mut Rng) -> Vec<Six> {
    let (partitions, windows) = (rng.pick(&[1, 2, 2, 3, 3, 3]), rng.range(1, 3));
    let channels = match partitions {
        1 => 0,
        _ => rng.pick(&[0, 1, 2, 4, 6, 8]),
    };
    few_partitions(rng, partitions, windows, channels)
}

/// An accepted table without channels in which windows follow one another at
/// once and after gaps, often up to the frame's end; in some a single window
/// fills the frame.
pub fn windows_and_gaps(rng: &mut Rng) -> Vec<Six> {
    let partitions = rng.pick(&[1, 1, 2, 2, 3]);
    let windows = match partitions {
        1 => rng.pick(&[1, 1, 2, 4]),
        _ => rng.range(2, 4),
    };
    let mut lines = few_partitions(rng, partitions, windows, 0);
    fill_up(rng, &mut lines);
    lines
}

/// An accepted table in which partitions have one window each, or several in
/// the mean, in short and long major frames; in some there is one window alone,
/// in some M is 1 or 10,000, in some there are channels.
pub fn near_and_far_starts(rng: &mut Rng) -> Vec<Six> {
    let (partitions, windows) = match rng.below(20) {
        0 => return table_lines(rng, 1, 1, 1, 0),
        1..=2 => (1, 1),
        _ => (
            rng.pick(&[1, 1, 2, 2, 2, 3, 4, MOST_PARTITIONS]),
            rng.pick(&[1, 2, 2, 3, 4]),
        ),
    };
    let windows = partitions * windows;
    let frame = match rng.below(8) {
        0 => windows,
        1 => MOST_FRAME,
        2 => rng.range(windows, MOST_FRAME),
        // A frame starts at 99,999,999.
        3 => rng.pick(&[33, 73, 99, 101]),
        _ => windows + rng.range(0, 20),
    };
    let channels = match partitions {
        1 => 0,
        _ => rng.pick(&[0, 0, 0, 1, 3]),
    };
    let mut lines = table_lines(rng, frame, partitions, windows, channels);
    fill_up(rng, &mut lines);
    lines
}

/// Lets the last window end with the frame, in some tables.
fn fill_up(rng: &mut Rng, lines: &mut [Six]) {
    let [frame, _, windows, ..] = lines[0];
    if rng.percent(40) {
        let last = &mut lines[windows as usize];
        last[1] = frame - last[0];
    }
}

/// Partitions with so many windows each in the mean, a short major frame, and
/// channels.
fn few_partitions(rng: &mut Rng, partitions: i64, windows: i64, channels: i64) -> Vec<Six> {
    let windows = partitions * windows;
    let frame = windows + rng.range(0, 20);
    table_lines(rng, frame, partitions, windows, channels)
}

/// The lines of a table with these numbers in line 1.
fn table_lines(
    rng: &mut Rng,
    frame: i64,
    partitions: i64,
    windows: i64,
    channels: i64,
) -> Vec<Six> {
    let mut lines = vec![[frame, partitions, windows, channels, 0, 0]];
    lines.extend(window_lines(rng, frame, partitions, windows));
    lines.extend(channel_lines(rng, frame, partitions, channels));
    lines
}

/// Small and large major frames, the greatest one too.
fn pick_frame(rng: &mut Rng, windows: i64) -> i64 {
    match rng.below(16) {
        0..=1 => windows,
        2..=7 => windows + rng.range(0, 12),
        8..=12 => windows + rng.range(0, 60),
        13..=14 => windows + rng.range(0, 600),
        _ => rng.pick(&[
            rng.clone().range(windows, MOST_FRAME),
            MOST_FRAME,
            MOST_FRAME - 1,
        ]),
    }
}

fn window_lines(rng: &mut Rng, frame: i64, partitions: i64, windows: i64) -> Vec<Six> {
    let mut owners: Vec<(i64, i64)> = (1..=partitions).map(|partition| (partition, 1)).collect();
    while owners.len() < windows as usize {
        owners.push((rng.range(1, partitions), i64::from(rng.percent(40))));
    }
    rng.shuffle(&mut owners);
    let places = spread(rng, frame, windows);
    owners
        .iter()
        .zip(places)
        .map(|(&(partition, flag), (start, duration))| [start, duration, partition, flag, 0, 0])
        .collect()
}

/// Windows that do not overlap, with or without gaps.
fn spread(rng: &mut Rng, frame: i64, windows: i64) -> Vec<(i64, i64)> {
    let gaps = rng.percent(60);
    let slack = frame - windows;
    // Weight of the gap before each window and of its own further ticks.
    let weights: Vec<(i64, i64)> = (0..windows)
        .map(|_| {
            let gap = if gaps && rng.percent(50) {
                rng.range(0, 5)
            } else {
                0
            };
            (gap, rng.range(1, 8))
        })
        .collect();
    let behind = if gaps { rng.range(0, 5) } else { 0 };
    let total: i64 = weights.iter().map(|(gap, more)| gap + more).sum::<i64>() + behind;
    let mut places = Vec::new();
    let mut end = 0;
    for (gap, more) in weights {
        let start = end + slack * gap / total;
        let duration = 1 + slack * more / total;
        places.push((start, duration));
        end = start + duration;
    }
    if !gaps {
        if let Some((start, duration)) = places.last_mut() {
            *duration = frame - *start;
        }
    }
    places
}

/// Channels of both kinds for the most part, else of one.
fn channel_lines(rng: &mut Rng, frame: i64, partitions: i64, channels: i64) -> Vec<Six> {
    let queuing = rng.pick(&[0, 20, 50, 80, 100, 100]);
    let ends = ends(rng, partitions, channels);
    ends.iter()
        .map(|&(source, destination)| {
            let near = rng.range(1, 2 * frame);
            let refresh = rng.pick(&[1, 2, 3, 5, 8, near, near, MOST_REFRESH]);
            let size = rng.pick(&[1, 1, 1, 2, 2, 3, 4, *SIZES.end()]);
            if rng.percent(queuing) {
                [source, destination, refresh, 1, size, 0]
            } else {
                [source, destination, refresh, 0, 0, 0]
            }
        })
        .collect()
}

/// Sources and destinations: a ring, a star out of one partition or into one,
/// all between the same two, or any.
fn ends(rng: &mut Rng, partitions: i64, channels: i64) -> Vec<(i64, i64)> {
    let shape = rng.below(10);
    let one = rng.range(1, partitions);
    let another = other(rng, partitions, one);
    (0..channels)
        .map(|n| match shape {
            0..=1 => (n % partitions + 1, (n + 1) % partitions + 1),
            2 => (one, other(rng, partitions, one)),
            3..=4 => (other(rng, partitions, one), one),
            5 => (one, another),
            6 if rng.percent(50) => (one, another),
            6 => (another, one),
            _ => {
                let source = rng.range(1, partitions);
                (source, other(rng, partitions, source))
            }
        })
        .collect()
}

/// Any partition but this one; this one where there is no other.
fn other(rng: &mut Rng, partitions: i64, than: i64) -> i64 {
    match partitions {
        1 => than,
        _ => (than + rng.range(0, partitions - 2)) % partitions + 1,
    }
}

/// The text of a table.
pub fn text(lines: &[Six]) -> Vec<Vec<u8>> {
    lines.iter().map(|six| line::text(six).to_vec()).collect()
}

/// The module of a table given as numbers.
pub fn module(lines: &[Six]) -> Result<Module, table::Refusal> {
    let mut lines = lines.iter();
    table::read(|| lines.next().map(|&six| Line::Six(six)))
}

/// A change of an accepted table's numbers that breaks one rule. It tells
/// whether the table had a place for it.
pub type NumberDamage = fn(&mut Rng, &mut [Six]) -> bool;

/// Every reason for 12 with a line number, and the final check.
pub const NUMBER_DAMAGES: [(&str, NumberDamage); 27] = [
    ("line 1: M below 1", |rng, table| {
        set(table, 0, 0, rng.pick(&[0, -1]))
    }),
    ("line 1: M above 10,000", |rng, table| {
        set(table, 0, 0, rng.pick(&[10_001, 20_000, 999_999_999]))
    }),
    ("line 1: P below 1", |rng, table| {
        set(table, 0, 1, rng.pick(&[0, -1]))
    }),
    ("line 1: P above 8", |rng, table| {
        set(table, 0, 1, rng.pick(&[9, 10, 999_999_999]))
    }),
    ("line 1: windows below 1", |rng, table| {
        set(table, 0, 2, rng.pick(&[0, -1]))
    }),
    ("line 1: windows above 32", |rng, table| {
        set(table, 0, 2, rng.pick(&[33, 999_999_999]))
    }),
    ("line 1: channels below 0", |_, table| set(table, 0, 3, -1)),
    ("line 1: channels above 16", |rng, table| {
        set(table, 0, 3, rng.pick(&[17, 999_999_999]))
    }),
    ("line 1: a last field not 0", |rng, table| {
        let field = 4 + rng.below(2);
        set(table, 0, field, rng.pick(&[1, -1, 999_999_999]))
    }),
    ("window: first start below 0", |_, table| {
        set(table, 1, 0, -1)
    }),
    ("window: start below previous end", start_below_previous_end),
    ("window: duration below 1", |rng, table| {
        let at = any_window(rng, table);
        set(table, at, 1, rng.pick(&[0, -1]))
    }),
    ("window: end past M", |rng, table| {
        let at = any_window(rng, table);
        let duration = table[0][0] - table[at][0] + rng.pick(&[1, 2, 900_000_000]);
        set(table, at, 1, duration)
    }),
    ("window: partition not 1..P", |rng, table| {
        let (at, above) = (any_window(rng, table), table[0][1] + 1);
        set(table, at, 2, rng.pick(&[0, -1, above, 999_999_999]))
    }),
    ("window: flag not 0 or 1", |rng, table| {
        let at = any_window(rng, table);
        set(table, at, 3, rng.pick(&[-1, 2, 999_999_999]))
    }),
    ("window: a last field not 0", |rng, table| {
        let (at, field) = (any_window(rng, table), 4 + rng.below(2));
        set(table, at, field, rng.pick(&[1, -1, 999_999_999]))
    }),
    ("channel: source not 1..P", |rng, table| {
        let above = table[0][1] + 1;
        let value = rng.pick(&[0, -1, above, 999_999_999]);
        set_channel(rng, table, 0, value)
    }),
    ("channel: destination not 1..P", |rng, table| {
        let above = table[0][1] + 1;
        let value = rng.pick(&[0, -1, above, 999_999_999]);
        set_channel(rng, table, 1, value)
    }),
    (
        "channel: destination is the source",
        |rng, table| match any_channel(rng, table) {
            Some(at) => {
                let source = table[at][0];
                set(table, at, 1, source)
            }
            None => false,
        },
    ),
    ("channel: refresh below 1", |rng, table| {
        let value = rng.pick(&[0, -1]);
        set_channel(rng, table, 2, value)
    }),
    ("channel: refresh above 9,999,999", |rng, table| {
        let value = rng.pick(&[10_000_000, 999_999_999]);
        set_channel(rng, table, 2, value)
    }),
    ("channel: kind not 0 or 1", |rng, table| {
        let value = rng.pick(&[2, -1, 999_999_999]);
        set_channel(rng, table, 3, value)
    }),
    ("channel: sampling with a size", |rng, table| {
        let value = rng.pick(&[1, 8, -1, 999_999_999]);
        set_channel_of(rng, table, 0, 4, value)
    }),
    ("channel: queuing with a size below 1", |rng, table| {
        let value = rng.pick(&[0, -1]);
        set_channel_of(rng, table, 1, 4, value)
    }),
    ("channel: queuing with a size above 8", |rng, table| {
        let value = rng.pick(&[9, 10, 999_999_999]);
        set_channel_of(rng, table, 1, 4, value)
    }),
    ("channel: the last field not 0", |rng, table| {
        let value = rng.pick(&[1, -1, 999_999_999]);
        set_channel(rng, table, 5, value)
    }),
    ("final check: a partition without flag", take_flags),
];

/// Sets a number and tells that there was a place for it.
fn set(table: &mut [Six], line: usize, field: usize, value: i64) -> bool {
    table[line][field] = value;
    true
}

fn set_channel(rng: &mut Rng, table: &mut [Six], field: usize, value: i64) -> bool {
    any_channel(rng, table).is_some_and(|at| set(table, at, field, value))
}

/// Makes a channel one of the kind, of size 1 if it becomes queuing, and sets
/// a number of it.
fn set_channel_of(rng: &mut Rng, table: &mut [Six], kind: i64, field: usize, value: i64) -> bool {
    any_channel(rng, table).is_some_and(|at| {
        table[at][3..5].copy_from_slice(&[kind, kind]);
        set(table, at, field, value)
    })
}

fn any_window(rng: &mut Rng, table: &[Six]) -> usize {
    1 + rng.below(table[0][2] as usize)
}

fn any_channel(rng: &mut Rng, table: &[Six]) -> Option<usize> {
    let (windows, channels) = (table[0][2] as usize, table[0][3] as usize);
    (channels > 0).then(|| 1 + windows + rng.below(channels))
}

/// A later window starts inside or before an earlier one.
fn start_below_previous_end(rng: &mut Rng, table: &mut [Six]) -> bool {
    let windows = table[0][2];
    if windows < 2 {
        return false;
    }
    let at = rng.range(2, windows) as usize;
    let end = table[at - 1][0] + table[at - 1][1];
    let start = rng.pick(&[end - 1, 0, -1]);
    set(table, at, 0, start)
}

/// Takes every flag from one partition, be it the first, a middle or the
/// last one.
fn take_flags(rng: &mut Rng, table: &mut [Six]) -> bool {
    let (partitions, windows) = (table[0][1], table[0][2] as usize);
    let partition = rng.range(1, partitions);
    for line in &mut table[1..=windows] {
        if line[2] == partition {
            line[3] = 0;
        }
    }
    true
}

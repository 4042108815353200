//! Table reading ("Tables and lines").

use crate::line::{Line, Six};
use crate::record::{Channel, Id, Kind, MessageQueue, Module, Window};
use std::ops::RangeInclusive;

pub const MOST_FRAME: i64 = 10_000;
pub const MOST_PARTITIONS: i64 = 8;
pub const MOST_WINDOWS: i64 = 32;
pub const MOST_CHANNELS: i64 = 16;
pub const MOST_REFRESH: i64 = 9_999_999;
/// How many messages a queuing channel may hold.
pub const SIZES: RangeInclusive<i64> = 1..=8;

/// Why a table was refused: 11 or 12, with the line number (0 for the final
/// check).
#[derive(Clone, Copy, Debug, PartialEq, Eq)]
pub struct Refusal {
    pub code: i64,
    pub line: i64,
}

impl Refusal {
    /// The one line that the replay program prints for a bad table.
    pub fn numbers(self) -> Six {
        [self.code, self.line, 0, 0, 0, 0]
    }
}

/// Line 1, once checked.
struct Head {
    frame: i64,
    partitions: i64,
    windows: i64,
    channels: i64,
}

/// Hands out table lines and counts them.
struct Counted<F> {
    next: F,
    line: i64,
}

impl<F: FnMut() -> Option<Line>> Counted<F> {
    /// The next line's six numbers; a bad or missing line is 11.
    fn six(&mut self) -> Result<Six, Refusal> {
        self.line += 1;
        match (self.next)() {
            Some(Line::Six(six)) => Ok(six),
            Some(Line::Bad) | None => Err(self.refusal(11)),
        }
    }

    fn refusal(&self, code: i64) -> Refusal {
        Refusal {
            code,
            line: self.line,
        }
    }

    /// 12 for the line just read unless the rule holds.
    fn rule(&self, holds: bool) -> Result<(), Refusal> {
        if holds {
            Ok(())
        } else {
            Err(self.refusal(12))
        }
    }
}

/// Reads a table line by line, 11 before 12 on each; then the final check.
/// `next` gives the next line of the input, `None` at its end.
pub fn read(next: impl FnMut() -> Option<Line>) -> Result<Module, Refusal> {
    let mut lines = Counted { next, line: 0 };
    let head = read_head(&mut lines)?;
    let windows = read_windows(&mut lines, &head)?;
    let channels = read_channels(&mut lines, &head)?;
    let every = (1..=head.partitions as Id).all(|partition| has_flag(&windows, partition));
    if !every {
        return Err(Refusal { code: 12, line: 0 });
    }
    Ok(Module::fresh(
        head.frame,
        head.partitions as usize,
        windows,
        channels,
    ))
}

/// Line 1: M 1..10,000, P 1..8, windows 1..32, channels 0..16, 0, 0.
fn read_head<F: FnMut() -> Option<Line>>(lines: &mut Counted<F>) -> Result<Head, Refusal> {
    let [frame, partitions, windows, channels, zero, other_zero] = lines.six()?;
    lines.rule((1..=MOST_FRAME).contains(&frame))?;
    lines.rule((1..=MOST_PARTITIONS).contains(&partitions))?;
    lines.rule((1..=MOST_WINDOWS).contains(&windows))?;
    lines.rule((0..=MOST_CHANNELS).contains(&channels))?;
    lines.rule(zero == 0 && other_zero == 0)?;
    Ok(Head {
        frame,
        partitions,
        windows,
        channels,
    })
}

/// Window: start >= previous end (first >= 0), duration >= 1,
/// start + duration <= M, partition 1..P, flag 0 or 1, 0, 0.
fn read_windows<F: FnMut() -> Option<Line>>(
    lines: &mut Counted<F>,
    head: &Head,
) -> Result<Vec<Window>, Refusal> {
    let mut windows = Vec::with_capacity(head.windows as usize);
    let mut previous_end = 0;
    for _ in 0..head.windows {
        let [start, duration, partition, flag, zero, other_zero] = lines.six()?;
        lines.rule(start >= previous_end)?;
        lines.rule(duration >= 1)?;
        lines.rule(start + duration <= head.frame)?;
        lines.rule((1..=head.partitions).contains(&partition))?;
        lines.rule(flag == 0 || flag == 1)?;
        lines.rule(zero == 0 && other_zero == 0)?;
        previous_end = start + duration;
        windows.push(Window {
            start,
            duration,
            partition: partition as Id,
            flag: flag == 1,
        });
    }
    Ok(windows)
}

/// Channel: source, other destination (both 1..P), refresh 1..9,999,999, kind
/// 0 (sampling) or 1 (queuing), how many messages (1..8, 0 for sampling), 0.
fn read_channels<F: FnMut() -> Option<Line>>(
    lines: &mut Counted<F>,
    head: &Head,
) -> Result<Vec<Channel>, Refusal> {
    let mut channels = Vec::with_capacity(head.channels as usize);
    for _ in 0..head.channels {
        let [source, destination, refresh, kind, size, zero] = lines.six()?;
        lines.rule((1..=head.partitions).contains(&source))?;
        lines.rule((1..=head.partitions).contains(&destination))?;
        lines.rule(destination != source)?;
        lines.rule((1..=MOST_REFRESH).contains(&refresh))?;
        lines.rule(kind == 0 && size == 0 || kind == 1 && SIZES.contains(&size))?;
        lines.rule(zero == 0)?;
        channels.push(Channel {
            source: source as Id,
            destination: destination as Id,
            refresh,
            kind: match kind {
                0 => Kind::Sampling(None),
                _ => Kind::Queuing(MessageQueue::empty(size as usize)),
            },
        });
    }
    Ok(channels)
}

fn has_flag(windows: &[Window], partition: Id) -> bool {
    windows
        .iter()
        .any(|window| window.partition == partition && window.flag)
}

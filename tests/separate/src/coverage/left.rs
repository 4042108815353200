//! What GET_TICKS_LEFT gets (document 02, f).

use super::{place, Coverage};
use crate::machine::{Answer, Event};
use crate::record::{Id, Module, Window};
use std::io::{self, Write};

/// The modes of a partition that asks, by number.
pub const MODES: [&str; 4] = ["IDLE", "COLD_START", "WARM_START", "NORMAL"];

/// What a value and its window can be like, then the refusals.
pub const ASKED: [&str; 16] = [
    "1, at the window's last tick",
    "the duration, at the window's start",
    "M, of a window that fills the frame",
    "in between",
    "of a window with flag 1",
    "of a window without it",
    "then at once a window of the same partition",
    "then at once a window of another partition",
    "then a gap",
    "then the frame's end, and at once a window of the same partition",
    "then the frame's end, and at once a window of another partition",
    "then the frame's end, and a gap",
    "8, another partition is current",
    "8, no partition is current",
    "9",
    "13, a field not 0",
];

/// How many of the list are of values.
const VALUES: usize = 12;

/// True if the rules let a partition in this mode get this.
fn may_get(mode: &str, name: &str) -> bool {
    match name {
        "9" => ["IDLE", "NORMAL"].contains(&mode),
        _ => mode != "IDLE" || !ASKED[..VALUES].contains(&name),
    }
}

/// Which of the list hold of a value that was given.
fn holds(module: &Module, value: i64) -> [bool; VALUES] {
    let frame = module.frame();
    let at = module.t() % frame;
    let mut windows = module.windows().iter();
    let covers = |window: &&Window| (window.start..window.end()).contains(&at);
    let window = windows.clone().find(covers).expect("the caller's window");
    let next = windows.find(|next| next.start == window.end() % frame);
    let same = next.is_some_and(|next| next.partition == window.partition);
    let another = next.is_some() && !same;
    let gap = next.is_none();
    let last = window.end() == frame;
    [
        value == 1,
        value == window.duration,
        value == frame,
        1 < value && value < window.duration,
        window.flag,
        !window.flag,
        !last && same,
        !last && another,
        !last && gap,
        last && same,
        last && another,
        last && gap,
    ]
}

impl Coverage {
    /// Counts what a partition got that asked for the ticks left.
    pub(super) fn take_asked(&mut self, before: &Module, event: &Event, answer: &Answer) {
        let partitions = 1..=before.partitions().len() as i64;
        if event.call != 34 || !partitions.contains(&event.partition) {
            return;
        }
        let mode = before.partition(event.partition as Id).mode;
        let counts = &mut self.asked[mode.number() as usize];
        let refusal = match answer.code {
            0 => {
                for (count, holds) in counts.iter_mut().zip(holds(before, answer.value)) {
                    *count += u64::from(holds);
                }
                return;
            }
            8 if before.current() == 0 => "8, no partition is current",
            8 => "8, another partition is current",
            9 => "9",
            _ => "13, a field not 0",
        };
        counts[place(&ASKED, refusal)] += 1;
    }

    /// What the rules let GET_TICKS_LEFT get and what was not met, by mode.
    pub fn missing_asked(&self) -> Vec<(&'static str, &'static str)> {
        self.asked_where(|may_get, met| may_get && !met)
    }

    /// What it got though the rules do not have it.
    pub fn unforeseen_asked(&self) -> Vec<(&'static str, &'static str)> {
        self.asked_where(|may_get, met| !may_get && met)
    }

    fn asked_where(&self, wanted: fn(bool, bool) -> bool) -> Vec<(&'static str, &'static str)> {
        let mut found = Vec::new();
        for (mode, counts) in MODES.into_iter().zip(self.asked) {
            for (name, count) in ASKED.into_iter().zip(counts) {
                if wanted(may_get(mode, name), count > 0) {
                    found.push((mode, name));
                }
            }
        }
        found
    }

    pub(super) fn print_asked(&self, out: &mut impl Write) -> io::Result<()> {
        writeln!(out, "\nticks left")?;
        for (mode, counts) in MODES.into_iter().zip(self.asked) {
            for (name, count) in ASKED.into_iter().zip(counts) {
                if may_get(mode, name) {
                    writeln!(out, "  {mode}: {name}: {count}")?;
                }
            }
        }
        Ok(())
    }
}

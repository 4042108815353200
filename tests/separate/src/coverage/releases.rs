//! Releases of periodic processes that take the start rule (document 02, d).

use super::{place, Coverage};
use crate::machine::Event;
use crate::record::{Id, Module, Window};
use std::io::{self, Write};

/// The ways in which a periodic process takes the start rule.
pub const STARTS: [&str; 3] = ["START", "DELAYED_START", "entering NORMAL"];

/// What a start and its release, before the delay is added, can be like. "One"
/// and "more" are the windows with flag 1 that the partition has.
pub const RELEASES: [&str; 16] = [
    "one: in this frame",
    "one: in this frame, an unflagged window passed over",
    "one: in the next frame",
    "one: in the next frame, started at the flagged start",
    "one: in the next frame, an unflagged window passed over",
    "more: in this frame, at the first flagged start",
    "more: in this frame, at a later flagged start",
    "more: in this frame, started at a flagged start",
    "more: in this frame, an unflagged window passed over",
    "more: in the next frame",
    "more: in the next frame, started at the last flagged start",
    "more: in the next frame, an unflagged window passed over",
    "in this frame, a flagged window of another partition passed over",
    "in the next frame, a flagged window of another partition passed over",
    "in this frame, with a delay",
    "in the next frame, with a delay",
];

/// A start and its release in ticks from the frame's start on.
struct Release<'a> {
    windows: &'a [Window],
    frame: i64,
    own: Id,
    /// When the start was called.
    called: i64,
    /// The release before the delay is added.
    at: i64,
    /// A delay above 0 is added.
    delayed: bool,
}

impl Release<'_> {
    /// A release that a start at the module's t gave.
    fn of(module: &Module, own: Id, release: i64, delay: i64) -> Release<'_> {
        let frame = module.frame();
        let called = module.t() % frame;
        Release {
            windows: module.windows(),
            frame,
            own,
            called,
            at: release - delay - module.t() + called,
            delayed: delay > 0,
        }
    }

    /// The partition's starts of windows with flag 1.
    fn flagged(&self) -> Vec<i64> {
        let windows = self.windows.iter();
        let flagged = windows.filter(|window| window.partition == self.own && window.flag);
        flagged.map(|window| window.start).collect()
    }

    /// True if a window of this sort starts after the call and before the
    /// release.
    fn passes(&self, wanted: impl Fn(&Window) -> bool) -> bool {
        let between = |start: i64| self.called < start && start < self.at;
        let starts = |window: &Window| between(window.start) || between(window.start + self.frame);
        self.windows
            .iter()
            .any(|window| wanted(window) && starts(window))
    }

    /// Which of the list hold of it.
    fn holds(&self) -> [bool; RELEASES.len()] {
        let flagged = self.flagged();
        let (one, more) = (flagged.len() == 1, flagged.len() > 1);
        let here = self.at < self.frame;
        let next = !here;
        let first = flagged.first() == Some(&self.at);
        let at_flagged = flagged.contains(&self.called);
        let unflagged = self.passes(|window| window.partition == self.own && !window.flag);
        let foreign = self.passes(|window| window.partition != self.own && window.flag);
        [
            one && here,
            one && here && unflagged,
            one && next,
            one && next && at_flagged,
            one && next && unflagged,
            more && here && first,
            more && here && !first,
            more && here && at_flagged,
            more && here && unflagged,
            more && next,
            more && next && at_flagged,
            more && next && unflagged,
            here && foreign,
            next && foreign,
            here && self.delayed,
            next && self.delayed,
        ]
    }
}

impl Coverage {
    /// Counts the releases that an accepted call set by the start rule.
    pub(super) fn take_releases(&mut self, before: &Module, event: &Event, after: &Module) {
        let start = match event.call {
            3 => "START",
            4 => "DELAYED_START",
            1 => "entering NORMAL",
            _ => return,
        };
        let own = event.partition as Id;
        let (old, new) = (before.partition(own), after.partition(own));
        for (process, later) in old.processes.iter().zip(&new.processes) {
            let (None, Some(release)) = (process.release, later.release) else {
                continue;
            };
            let delay = match event.call {
                1 => later.delay,
                4 => event.fields[1],
                _ => 0,
            };
            self.count_release(start, &Release::of(after, own, release, delay));
        }
    }

    fn count_release(&mut self, start: &str, release: &Release) {
        let counts = &mut self.releases[place(&STARTS, start)];
        for (count, holds) in counts.iter_mut().zip(release.holds()) {
            *count += u64::from(holds);
        }
    }

    /// The sorts of release that were not met, by the way to start.
    pub fn missing_releases(&self) -> Vec<(&'static str, &'static str)> {
        let mut missing = Vec::new();
        for (start, counts) in STARTS.iter().zip(&self.releases) {
            for (release, &count) in RELEASES.iter().zip(counts) {
                // START has no delay.
                let possible = *start != "START" || !release.ends_with("with a delay");
                if possible && count == 0 {
                    missing.push((*start, *release));
                }
            }
        }
        missing
    }

    pub(super) fn print_releases(&self, out: &mut impl Write) -> io::Result<()> {
        writeln!(out, "\nreleases")?;
        for (start, counts) in STARTS.iter().zip(&self.releases) {
            for (release, count) in RELEASES.iter().zip(counts) {
                writeln!(out, "  {start}: {release}: {count}")?;
            }
        }
        Ok(())
    }
}

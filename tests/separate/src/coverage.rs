//! Counts what made-up inputs reach: answers, waits, reasons, corners, locks,
//! ticks left; and what made-up questions reach.

mod left;
mod locks;
mod messages;
mod questions;
mod queuing;
mod releases;

pub use left::{ASKED, MODES};
pub use locks::{LOCKED, LOCKS};
pub use questions::{QuestionCoverage, PLACES, REFUSED, WAITED};
pub use releases::{RELEASES, STARTS};

use crate::calls::WAITING;
use crate::events::Events;
use crate::generate;
use crate::line::LENGTH;
use crate::machine::{Answer, Event, LAST_CALL, USED};
use crate::record::{Channel, Mode, Module, Partition, Process, QueueId, Wait};
use crate::replay::{read_table, Lines};
use std::io::{self, Write};

const CALLS: usize = 35;
const CODES: usize = 14;

/// The codes that the documents allow for a tick (0) and for each call, but
/// for 10, which only a tick at the end of time gets.
pub const ALLOWED: [&[usize]; CALLS] = [
    &[0, 13],
    &[0, 1, 3, 5, 8, 9, 13],
    &[0, 1, 3, 4, 5, 8, 9, 13],
    &[0, 1, 3, 8, 9, 13],
    &[0, 1, 3, 8, 9, 13],
    &[0, 1, 3, 8, 9, 13],
    &[0, 5, 8, 9, 13],
    &[0, 1, 3, 5, 8, 9, 13],
    &[0, 3, 5, 7, 8, 9, 13],
    &[0, 3, 5, 7, 8, 9, 13],
    &[5, 7, 8, 9, 13],
    &[0, 1, 3, 5, 8, 9, 13],
    &[0, 3, 5, 8, 9, 13],
    &[0, 3, 8, 9, 13],
    &[0, 1, 3, 4, 5, 8, 9, 13],
    &[0, 2, 3, 5, 7, 8, 9, 13],
    &[0, 1, 3, 8, 9, 13],
    &[0, 1, 3, 4, 5, 8, 9, 13],
    &[0, 3, 8, 9, 13],
    &[0, 3, 8, 9, 13],
    &[0, 2, 3, 5, 7, 8, 9, 13],
    &[0, 3, 5, 8, 9, 13],
    &[0, 1, 3, 5, 8, 9, 13],
    &[0, 1, 3, 4, 5, 8, 9, 13],
    &[0, 2, 3, 5, 7, 8, 9, 13],
    &[0, 2, 3, 5, 7, 8, 9, 13],
    &[0, 1, 3, 4, 5, 8, 9, 13],
    &[0, 3, 8, 9, 13],
    &[0, 2, 3, 5, 7, 8, 9, 13],
    &[0, 3, 8, 9, 13],
    &[0, 2, 3, 5, 7, 8, 9, 13],
    &[0, 2, 3, 5, 7, 8, 9, 13],
    &[0, 1, 4, 8, 9, 13],
    &[0, 1, 8, 9, 13],
    &[0, 8, 9, 13],
];

const NAMES: [&str; CALLS] = [
    "tick",
    "SET_PARTITION_MODE",
    "CREATE_PROCESS",
    "START",
    "DELAYED_START",
    "STOP",
    "STOP_SELF",
    "SUSPEND",
    "SUSPEND_SELF",
    "TIMED_WAIT",
    "PERIODIC_WAIT",
    "RESUME",
    "SET_PRIORITY",
    "GET_PROCESS_STATUS",
    "CREATE_SEMAPHORE",
    "WAIT_SEMAPHORE",
    "SIGNAL",
    "CREATE_EVENT",
    "SET_EVENT",
    "RESET_EVENT",
    "WAIT_EVENT",
    "WRITE",
    "READ",
    "CREATE_BUFFER",
    "SEND_BUFFER",
    "RECEIVE_BUFFER",
    "CREATE_BLACKBOARD",
    "SHOW",
    "READ_BLACKBOARD",
    "CLEAR",
    "SEND",
    "RECEIVE",
    "LOCK_PREEMPTION",
    "UNLOCK_PREEMPTION",
    "GET_TICKS_LEFT",
];

/// The kinds of wait, and the suspended mark of a process without wait.
pub const WAITS: [&str; 12] = [
    "normal",
    "delay",
    "timed",
    "period",
    "semaphore",
    "event",
    "sending",
    "receiving",
    "blackboard",
    "sending channel",
    "receiving channel",
    "suspended, no wait",
];

/// What can happen to a wait. SIGNAL and SET_EVENT end one by signal, and so
/// do the calls that send and receive, and SHOW. A restart of a channel's
/// destination ends waits of its senders; one of the waiter's own partition
/// erases.
pub const CHANGES: [&str; 15] = [
    "began",
    "suspended",
    "resumed",
    "by signal",
    "by time",
    "by stop",
    "by NORMAL",
    "by restart",
    "erased",
    "by signal, suspended",
    "by time, suspended",
    "by stop, suspended",
    "by NORMAL, suspended",
    "by restart, suspended",
    "erased, suspended",
];

/// True if the rules let this happen to a wait. A periodic process is never
/// suspended, and the mark without wait is no wait that could be suspended.
fn may_happen(wait: &str, change: &str) -> bool {
    let (way, suspended) = match change.strip_suffix(", suspended") {
        Some(way) => (way, true),
        None => (change, change == "suspended"),
    };
    match wait {
        "period" if suspended || way == "resumed" => return false,
        "suspended, no wait" if suspended => return false,
        _ => {}
    }
    match way {
        // Those in a queue: from "semaphore" to "receiving channel".
        "by signal" => WAITS[4..11].contains(&wait),
        "by time" => wait != "normal",
        "by NORMAL" => wait == "normal",
        "by restart" => wait == "sending channel",
        _ => true,
    }
}

/// The reasons for 13, in the order in which they are looked for.
pub const REASONS: [&str; 11] = [
    "record empty",
    "partition below 0",
    "partition above P",
    "call below 0",
    "call above 34",
    "partition 0 with a call",
    "a partition with call 0",
    "unused a not 0",
    "unused b not 0",
    "unused c not 0",
    "unused e not 0",
];

pub const CORNERS: [&str; 92] = [
    "no current partition",
    "deadline missed",
    "deadline missed while waiting or suspended",
    "READ at age refresh",
    "READ at age refresh + 1",
    "PERIODIC_WAIT with r <= t",
    "SIGNAL with two waiters or more",
    "SET_EVENT with two waiters or more",
    "TIMED_WAIT 0 with another READY",
    "SUSPEND_SELF 0",
    "SET_PRIORITY of a READY process",
    "SET_PRIORITY of the caller",
    "caller preempted by its own call",
    "NORMAL entered with a suspended process",
    "restart by a running process",
    "restart erases a message",
    "source's restart keeps a message",
    "16 processes in NORMAL",
    "priority 239 or name 255 taken",
    "STOP of a queued process",
    "name 255 of a buffer or blackboard taken",
    "name 256 of a buffer or blackboard refused",
    "limit 16 taken",
    "limit 17 refused",
    "message 9,999,999 sent",
    "message 9,999,999 shown",
    "message 10,000,000 not sent",
    "message 10,000,000 not shown",
    "message 0 sent",
    "message 0 received",
    "message 0 shown",
    "message 0 read",
    "message 0 over another in a waiter's record",
    "message over an earlier one in a waiter's record",
    "equal messages held",
    "16 messages held",
    "SEND_BUFFER to two waiting receivers or more",
    "RECEIVE_BUFFER with two waiting senders or more",
    "sender waits at limit 1",
    "sender waits at a limit above 1",
    "sender let in behind held messages",
    "sender stopped ahead of another",
    "sender timed out ahead of another",
    "receiver gone from ahead of another",
    "SHOW to two waiting readers or more",
    "SHOW over another message",
    "SHOW over an equal message",
    "SHOW in a start mode",
    "CLEAR of a message",
    "CLEAR in a start mode",
    "RECEIVE_BUFFER at once by a process with a message in its record",
    "START of a process with a message in its record",
    "restart erases held messages",
    "restart erases a shown message",
    "WRITE of a queuing channel",
    "READ of a queuing channel",
    "SEND to a sampling channel",
    "RECEIVE from a sampling channel",
    "SEND to a channel of others",
    "RECEIVE from a channel of others",
    "SEND by the destination",
    "RECEIVE by the source",
    "SEND in a start mode",
    "RECEIVE in a start mode",
    "message 0 sent to a channel",
    "message 9,999,999 sent to a channel",
    "message 10,000,000 not sent to a channel",
    "message 0 received from a channel",
    "equal messages held by a channel",
    "8 messages held by a channel",
    "SEND to a partition in a start mode",
    "SEND to two waiting receivers or more",
    "RECEIVE with two waiting senders or more",
    "sender to a channel waits at size 1",
    "sender to a channel waits at a size above 1",
    "sender to a channel let in behind held messages",
    "sender to a channel gone from ahead of another",
    "receiver from a channel gone from ahead of another",
    "destination's restart lets two senders or more in",
    "destination's restart leaves a sender waiting",
    "destination's restart lets senders in and leaves room",
    "destination's restart lets senders in on two channels or more",
    "destination's restart lets senders of two partitions or more in",
    "destination's restart lets senders in and was called by a process",
    "destination's restart removes receivers",
    "destination's restart after its source's erases messages",
    "source's restart with a full queue and senders waiting",
    "source's restart with messages held and none waiting",
    "source's restart with receivers waiting",
    "source's restart after its destination's keeps messages",
    "restart removes senders and receivers",
    "restart removes senders and lets others in",
];

/// Shapes that the channels of accepted tables have.
pub const SHAPES: [&str; 6] = [
    "channels of both kinds",
    "queuing channels in a ring through three partitions or more",
    "queuing channels from three partitions or more into one",
    "queuing channels out of one partition into three or more",
    "queuing channels with the same ends",
    "queuing channels there and back",
];

/// Where a table was refused, or that it was accepted.
pub const TABLES: [&str; 8] = [
    "accepted",
    "11 on line 1",
    "11 on a later line",
    "11 for a missing line",
    "12 on line 1",
    "12 on a window line",
    "12 on a channel line",
    "12 in the final check",
];

#[derive(Clone, Debug)]
pub struct Coverage {
    /// How often a call got a code; a call out of range counts nowhere here.
    pub answers: [[u64; CODES]; CALLS],
    pub waits: [[u64; CHANGES.len()]; WAITS.len()],
    pub reasons: [u64; REASONS.len()],
    pub corners: [u64; CORNERS.len()],
    /// By the way to start.
    pub releases: [[u64; RELEASES.len()]; STARTS.len()],
    /// What calls that can wait got from the holder of a lock.
    pub locked: [[u64; LOCKED.len()]; WAITING.len()],
    pub locks: [u64; LOCKS.len()],
    /// What GET_TICKS_LEFT got, by the mode of the partition that asked.
    pub asked: [[u64; ASKED.len()]; MODES.len()],
    pub shapes: [u64; SHAPES.len()],
    pub tables: [u64; TABLES.len()],
    pub events: u64,
}

impl Coverage {
    pub fn new() -> Coverage {
        Coverage {
            answers: [[0; CODES]; CALLS],
            waits: [[0; CHANGES.len()]; WAITS.len()],
            reasons: [0; REASONS.len()],
            corners: [0; CORNERS.len()],
            releases: [[0; RELEASES.len()]; STARTS.len()],
            locked: [[0; LOCKED.len()]; WAITING.len()],
            locks: [0; LOCKS.len()],
            asked: [[0; ASKED.len()]; MODES.len()],
            shapes: [0; SHAPES.len()],
            tables: [0; TABLES.len()],
            events: 0,
        }
    }

    /// Runs the generator over seeds from..=to with `count` events each.
    pub fn of_seeds(from: u64, to: u64, count: u64) -> Coverage {
        let mut coverage = Coverage::new();
        for seed in from..=to {
            coverage.take_table(seed);
            coverage.take_events(Events::with_table(seed).1, count);
        }
        coverage
    }

    /// The same for the events that mostly start and stop, without tables.
    pub fn of_starts(from: u64, to: u64, count: u64) -> Coverage {
        Coverage::of_events(from, to, count, |seed| Events::of_starts(seed).1)
    }

    /// The same for the events that mostly lock.
    pub fn of_locks(from: u64, to: u64, count: u64) -> Coverage {
        Coverage::of_events(from, to, count, |seed| Events::of_locks(seed).1)
    }

    /// The same for the events that mostly ask for the ticks left.
    pub fn of_ticks_left(from: u64, to: u64, count: u64) -> Coverage {
        Coverage::of_events(from, to, count, |seed| Events::of_ticks_left(seed).1)
    }

    fn of_events(from: u64, to: u64, count: u64, events: fn(u64) -> Events) -> Coverage {
        let mut coverage = Coverage::new();
        for seed in from..=to {
            coverage.take_events(events(seed), count);
        }
        coverage
    }

    fn take_events(&mut self, mut events: Events, count: u64) {
        self.take_shapes(&events.module);
        let mut before = events.module.clone();
        for _ in 0..count {
            let (event, answer) = events.next_event();
            self.take_event(&before, &event, &answer, &events.module);
            if answer.code == 0 || answer.code == 7 {
                before.clone_from(&events.module);
            }
        }
    }

    /// Counts one event with the record before and after it.
    pub fn take_event(&mut self, before: &Module, event: &Event, answer: &Answer, after: &Module) {
        self.events += 1;
        if (0..=LAST_CALL).contains(&event.call) {
            self.answers[event.call as usize][answer.code as usize] += 1;
        }
        if answer.code == 13 {
            self.reasons[reason(before, event)] += 1;
        }
        for (old, new) in before.partitions().iter().zip(after.partitions()) {
            self.take_partition(event, old, new);
        }
        self.take_corners(before, event, answer, after);
        self.take_locks(before, event, answer, after);
        self.take_asked(before, event, answer);
    }

    fn take_partition(&mut self, event: &Event, old: &Partition, new: &Partition) {
        for (place, process) in old.processes.iter().enumerate() {
            match new.processes.get(place) {
                Some(later) => self.take_process(event, process, later),
                None => self.count_wait(process, &of_wait(process, "erased")),
            }
        }
        self.take_queues(event, old, new);
    }

    fn take_process(&mut self, event: &Event, old: &Process, new: &Process) {
        if old.wait != new.wait && old.wait != Wait::None {
            self.count_wait(old, &of_wait(old, ending(event, new)));
        }
        if old.wait != new.wait && new.wait != Wait::None {
            self.count_wait(new, "began");
        }
        if !old.suspended && new.suspended {
            let change = if new.wait == Wait::None {
                "began"
            } else {
                "suspended"
            };
            self.count_wait(new, change);
        }
        if old.suspended && !new.suspended && new.started {
            let change = if event.call == 0 {
                "by time"
            } else {
                "resumed"
            };
            self.count_wait(old, change);
        }
        if old.suspended && !new.started && old.wait == Wait::None {
            self.count_wait(old, "by stop");
        }
        self.count_corner("deadline missed", !old.missed && new.missed);
        let held = !new.ready() && new.started;
        self.count_corner(
            "deadline missed while waiting or suspended",
            !old.missed && new.missed && held,
        );
    }

    fn count_wait(&mut self, process: &Process, change: &str) {
        let wait = match process.wait {
            Wait::Normal => "normal",
            Wait::Delay => "delay",
            Wait::Timed => "timed",
            Wait::Period => "period",
            Wait::Semaphore(_) => "semaphore",
            Wait::Event(_) => "event",
            Wait::Sending { to, .. } => of_queue(to, "sending", "sending channel"),
            Wait::Receiving(from) => of_queue(from, "receiving", "receiving channel"),
            Wait::Blackboard(_) => "blackboard",
            Wait::None if process.suspended => "suspended, no wait",
            Wait::None => return,
        };
        self.waits[place(&WAITS, wait)][place(&CHANGES, change)] += 1;
    }

    fn count_corner(&mut self, corner: &str, holds: bool) {
        if holds {
            self.corners[place(&CORNERS, corner)] += 1;
        }
    }

    fn take_corners(&mut self, before: &Module, event: &Event, answer: &Answer, after: &Module) {
        self.count_corner("no current partition", answer.current == 0);
        let accepted = answer.code == 0 || answer.code == 7;
        if !accepted {
            return self.take_refused_corners(before, event, answer);
        }
        if event.call == 0 {
            return;
        }
        self.take_releases(before, event, after);
        let own = event.partition as usize;
        let (old, new) = (before.partition(own), after.partition(own));
        match event.call {
            1 => self.take_mode_corners(before, own, event.fields[0], after),
            10 => {
                let release = new.process(old.running()).release;
                self.count_corner("PERIODIC_WAIT with r <= t", release <= Some(after.t()));
            }
            22 => {
                let channel = &before.channels()[event.fields[0] as usize - 1];
                self.take_read_corners(channel, after.t());
            }
            23..=29 => self.take_message_corners(event, answer, old, new),
            30 | 31 => self.take_queuing_corners(event, answer, before, after),
            _ => self.take_call_corners(event, old),
        }
        self.take_running_corners(answer, old, new);
    }

    /// Corners that the partition's record before the call tells.
    fn take_call_corners(&mut self, event: &Event, old: &Partition) {
        let [a, b, ..] = event.fields;
        let id = a as usize;
        let another_ready = old.arrival.len() > 1;
        match event.call {
            2 => self.count_corner("priority 239 or name 255 taken", a == 255 || b == 239),
            3 | 4 => {
                let holds = old.process(id).message != 0;
                self.count_corner("START of a process with a message in its record", holds);
            }
            5 => {
                let queued = old.process(id).wait.queued();
                self.count_corner("STOP of a queued process", queued);
            }
            8 => self.count_corner("SUSPEND_SELF 0", a == 0),
            9 => self.count_corner("TIMED_WAIT 0 with another READY", a == 0 && another_ready),
            12 => {
                self.count_corner("SET_PRIORITY of a READY process", old.process(id).ready());
                self.count_corner("SET_PRIORITY of the caller", old.running() == id);
            }
            16 => {
                let waiters = old.semaphores[id - 1].queue.len();
                self.count_corner("SIGNAL with two waiters or more", waiters > 1);
            }
            18 => {
                let waiters = old.events[id - 1].queue.len();
                self.count_corner("SET_EVENT with two waiters or more", waiters > 1);
            }
            _ => {}
        }
    }

    fn take_running_corners(&mut self, answer: &Answer, old: &Partition, new: &Partition) {
        let caller = old.running();
        let preempted = answer.code == 0
            && caller != 0
            && new.running() != caller
            && new.arrival.contains(&caller);
        self.count_corner("caller preempted by its own call", preempted);
        let many = new.mode == Mode::Normal && new.processes.len() == 16;
        self.count_corner("16 processes in NORMAL", many);
    }

    fn take_mode_corners(&mut self, before: &Module, own: usize, a: i64, after: &Module) {
        let old = before.partition(own);
        if a == 3 {
            let suspended = old.processes.iter().any(|process| process.suspended);
            self.count_corner("NORMAL entered with a suspended process", suspended);
            return;
        }
        self.count_corner("restart by a running process", old.mode == Mode::Normal);
        let held = old
            .buffers
            .iter()
            .any(|buffer| !buffer.queue.messages.is_empty());
        self.count_corner("restart erases held messages", held);
        let shown = old.blackboards.iter().any(|board| board.message.is_some());
        self.count_corner("restart erases a shown message", shown);
        for (channel, later) in before.channels().iter().zip(after.channels()) {
            let erased = channel.message().is_some() && later.message().is_none();
            self.count_corner("restart erases a message", erased);
            let kept = channel.source == own && later.message().is_some();
            self.count_corner("source's restart keeps a message", kept);
        }
        self.take_restart_corners(before, own, after);
    }

    fn take_read_corners(&mut self, channel: &Channel, t: i64) {
        let age = channel.message().map(|message| t - message.written);
        self.count_corner("READ at age refresh", age == Some(channel.refresh));
        self.count_corner("READ at age refresh + 1", age == Some(channel.refresh + 1));
    }

    /// Counts a made-up table; a refused one gives the empty record, which
    /// answers 13 to everything.
    fn take_table(&mut self, seed: u64) {
        let text = generate::table(seed);
        let outcome = match read_table(&mut Lines::new(text.as_slice())) {
            Ok(_) => "accepted",
            Err(refusal) => {
                let mut empty = Module::empty();
                let answer = empty.step(&Event::TICK);
                self.reasons[0] += u64::from(answer.code == 13);
                refused_at(&text, refusal.code, refusal.line)
            }
        };
        self.tables[place(&TABLES, outcome)] += 1;
    }

    /// The pairs (call, code) that the documents allow and that were not met.
    pub fn missing(&self) -> Vec<(usize, usize)> {
        let pairs = ALLOWED.iter().enumerate();
        let pairs = pairs.flat_map(|(call, codes)| codes.iter().map(move |&code| (call, code)));
        pairs
            .filter(|&(call, code)| self.answers[call][code] == 0)
            .collect()
    }

    /// The pairs that were met though the documents have no such answer.
    pub fn unforeseen(&self) -> Vec<(usize, usize)> {
        let pairs = (0..CALLS).flat_map(|call| (0..CODES).map(move |code| (call, code)));
        let met = |&(call, code): &(usize, usize)| self.answers[call][code] > 0;
        pairs
            .filter(met)
            .filter(|&(call, code)| !ALLOWED[call].contains(&code))
            .collect()
    }

    /// What the rules let happen to a wait and what was not met, by wait.
    pub fn missing_waits(&self) -> Vec<(&'static str, &'static str)> {
        self.waits_where(|may_happen, met| may_happen && !met)
    }

    /// What happened to a wait though the rules do not have it.
    pub fn unforeseen_waits(&self) -> Vec<(&'static str, &'static str)> {
        self.waits_where(|may_happen, met| !may_happen && met)
    }

    fn waits_where(&self, wanted: fn(bool, bool) -> bool) -> Vec<(&'static str, &'static str)> {
        let mut found = Vec::new();
        for (wait, counts) in WAITS.iter().zip(&self.waits) {
            for (change, &count) in CHANGES.iter().zip(counts) {
                if wanted(may_happen(wait, change), count > 0) {
                    found.push((*wait, *change));
                }
            }
        }
        found
    }

    pub fn print(&self, out: &mut impl Write) -> io::Result<()> {
        writeln!(out, "events {}", self.events)?;
        self.print_answers(out)?;
        self.print_waits(out)?;
        print_list(out, "reasons for 13", &REASONS, &self.reasons)?;
        print_list(out, "corners", &CORNERS, &self.corners)?;
        self.print_releases(out)?;
        self.print_locked(out)?;
        print_list(out, "locks", &LOCKS, &self.locks)?;
        self.print_asked(out)?;
        print_list(out, "channels", &SHAPES, &self.shapes)?;
        print_list(out, "tables", &TABLES, &self.tables)?;
        self.print_unreached(out)
    }

    /// What can be reached and was not, and what was reached and cannot be.
    fn print_unreached(&self, out: &mut impl Write) -> io::Result<()> {
        print_pairs(out, "allowed and not reached", &self.missing())?;
        print_pairs(out, "reached and not allowed", &self.unforeseen())?;
        let named = [
            ("waits: possible and not reached", self.missing_waits()),
            ("waits: reached and not possible", self.unforeseen_waits()),
            (
                "releases: possible and not reached",
                self.missing_releases(),
            ),
            ("locks: possible and not reached", self.missing_locks()),
            ("locks: reached and not possible", self.unforeseen_locks()),
            ("ticks left: possible and not reached", self.missing_asked()),
            (
                "ticks left: reached and not possible",
                self.unforeseen_asked(),
            ),
        ];
        named
            .iter()
            .try_for_each(|(title, pairs)| print_named(out, title, pairs))
    }

    fn print_answers(&self, out: &mut impl Write) -> io::Result<()> {
        write!(out, "\n{:<22}", "call")?;
        for code in 0..CODES {
            write!(out, "{code:>8}")?;
        }
        writeln!(out)?;
        for (call, counts) in self.answers.iter().enumerate() {
            write!(out, "{call:>2} {:<19}", NAMES[call])?;
            for (code, &count) in counts.iter().enumerate() {
                match count {
                    0 if !ALLOWED[call].contains(&code) => write!(out, "{:>8}", "-")?,
                    _ => write!(out, "{count:>8}")?,
                }
            }
            writeln!(out)?;
        }
        Ok(())
    }

    fn print_waits(&self, out: &mut impl Write) -> io::Result<()> {
        writeln!(out, "\nwaits")?;
        for (wait, counts) in WAITS.iter().zip(&self.waits) {
            let counts: Vec<String> = CHANGES
                .iter()
                .zip(counts)
                .filter(|(_, &count)| count > 0)
                .map(|(change, count)| format!("{change} {count}"))
                .collect();
            writeln!(out, "  {wait}: {}", counts.join("; "))?;
        }
        Ok(())
    }
}

impl Default for Coverage {
    fn default() -> Coverage {
        Coverage::new()
    }
}

/// How a wait ended.
fn ending(event: &Event, new: &Process) -> &'static str {
    match event.call {
        _ if !new.started => "by stop",
        0 => "by time",
        16 | 18 | 24 | 25 | 27 | 30 | 31 => "by signal",
        _ if event.fields[0] == 3 => "by NORMAL",
        _ => "by restart",
    }
}

/// The name of a wait for a buffer or for a channel.
fn of_queue<'a>(queue: QueueId, buffer: &'a str, channel: &'a str) -> &'a str {
    match queue {
        QueueId::Buffer(_) => buffer,
        QueueId::Channel(_) => channel,
    }
}

/// The way in which a process's wait ended, told apart by its suspended mark.
fn of_wait(process: &Process, way: &str) -> String {
    let mark = process.suspended && process.wait != Wait::None;
    let suffix = if mark { ", suspended" } else { "" };
    format!("{way}{suffix}")
}

/// Why an event gets 13.
fn reason(module: &Module, event: &Event) -> usize {
    let partitions = module.partitions().len() as i64;
    let reasons = [
        (module.is_empty(), "record empty"),
        (event.partition < 0, "partition below 0"),
        (event.partition > partitions, "partition above P"),
        (event.call < 0, "call below 0"),
        (event.call > LAST_CALL, "call above 34"),
        (
            event.partition == 0 && event.call != 0,
            "partition 0 with a call",
        ),
        (
            event.partition != 0 && event.call == 0,
            "a partition with call 0",
        ),
    ];
    if let Some((_, name)) = reasons.iter().find(|(holds, _)| *holds) {
        return place(&REASONS, name);
    }
    let used = USED[event.call as usize];
    let unused = (used..4)
        .find(|&field| event.fields[field] != 0)
        .unwrap_or(used);
    place(&REASONS, "unused a not 0") + unused
}

fn refused_at(text: &[u8], code: i64, line: i64) -> &'static str {
    // A table with a bad line has at least as many bytes as its good lines.
    let missing = text.len() < (line as usize).saturating_sub(1) * LENGTH + 1;
    let windows = text
        .get(20..30)
        .and_then(|field| std::str::from_utf8(field).ok());
    let windows = windows
        .and_then(|field| field.trim().parse().ok())
        .unwrap_or(0);
    match (code, line) {
        (11, _) if missing => "11 for a missing line",
        (11, 1) => "11 on line 1",
        (11, _) => "11 on a later line",
        (_, 0) => "12 in the final check",
        (_, 1) => "12 on line 1",
        (_, line) if line <= 1 + windows => "12 on a window line",
        _ => "12 on a channel line",
    }
}

fn place(names: &[&str], name: &str) -> usize {
    names
        .iter()
        .position(|&other| other == name)
        .expect("a name of the list")
}

fn print_list(out: &mut impl Write, title: &str, names: &[&str], counts: &[u64]) -> io::Result<()> {
    writeln!(out, "\n{title}")?;
    names
        .iter()
        .zip(counts)
        .try_for_each(|(name, count)| writeln!(out, "  {name}: {count}"))
}

fn print_pairs(out: &mut impl Write, title: &str, pairs: &[(usize, usize)]) -> io::Result<()> {
    writeln!(out, "\n{title}: {}", pairs.len())?;
    for &(call, code) in pairs {
        writeln!(out, "  call {call} {} code {code}", NAMES[call])?;
    }
    Ok(())
}

fn print_named(out: &mut impl Write, title: &str, pairs: &[(&str, &str)]) -> io::Result<()> {
    writeln!(out, "\n{title}: {}", pairs.len())?;
    for (of, name) in pairs {
        writeln!(out, "  {of}: {name}")?;
    }
    Ok(())
}

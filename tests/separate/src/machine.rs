//! Events: the places of check in their order, the tick and the answer
//! ("Events" and "Numbers by place of check").

use crate::line::Six;
use crate::record::{Id, Mode, Module, Partition, Process, Wait, LAST_TIME};

/// The last call; calls are numbered from 1.
pub const LAST_CALL: i64 = 34;

/// How many of a, b, c, e each call uses, the tick (0) first.
pub const USED: [usize; 35] = [
    0, 1, 4, 1, 2, 1, 0, 1, 1, 1, 0, 1, 2, 1, 3, 2, 1, 1, 1, 1, 2, 2, 1, 2, 3, 2, 1, 2, 2, 1, 3, 2,
    0, 0, 0,
];

/// Partition, call, a, b, c, e. Each is any number.
#[derive(Clone, Copy, Debug, PartialEq, Eq)]
pub struct Event {
    pub partition: i64,
    pub call: i64,
    /// a, b, c, e.
    pub fields: [i64; 4],
}

impl Event {
    pub const TICK: Event = Event {
        partition: 0,
        call: 0,
        fields: [0; 4],
    };

    pub fn from_six([partition, call, a, b, c, e]: Six) -> Event {
        Event {
            partition,
            call,
            fields: [a, b, c, e],
        }
    }

    pub fn six(&self) -> Six {
        let [a, b, c, e] = self.fields;
        [self.partition, self.call, a, b, c, e]
    }
}

/// Code, value, extra, then t, current partition, running process after the
/// event.
#[derive(Clone, Copy, Debug, PartialEq, Eq)]
pub struct Answer {
    pub code: i64,
    pub value: i64,
    pub extra: i64,
    pub t: i64,
    pub current: i64,
    pub running: i64,
}

impl Answer {
    pub fn six(&self) -> Six {
        [
            self.code,
            self.value,
            self.extra,
            self.t,
            self.current,
            self.running,
        ]
    }
}

/// An event with room for its answer, for a list run in one call.
#[derive(Clone, Copy, Debug, PartialEq, Eq)]
pub struct EventRecord {
    pub event: Event,
    pub answer: Option<Answer>,
}

/// Code, value and extra; 0 unless named.
#[derive(Clone, Copy, Debug, PartialEq, Eq)]
pub struct Outcome {
    pub code: i64,
    pub value: i64,
    pub extra: i64,
}

impl Outcome {
    pub const DONE: Outcome = Outcome::code(0);
    pub const WAITING: Outcome = Outcome::code(7);

    pub const fn code(code: i64) -> Outcome {
        Outcome {
            code,
            value: 0,
            extra: 0,
        }
    }

    pub const fn value(value: i64, extra: i64) -> Outcome {
        Outcome {
            code: 0,
            value,
            extra,
        }
    }
}

/// Who calls: the main program in start modes, else the running process.
#[derive(Clone, Copy, Debug, PartialEq, Eq)]
pub enum Caller {
    MainProgram,
    Process(Id),
}

impl Module {
    /// One event: its answer, and the record changed to the one after it.
    pub fn step(&mut self, event: &Event) -> Answer {
        let outcome = self.outcome(event);
        self.answer(event.partition, outcome)
    }

    /// A lent list of event records run in one call.
    pub fn run(&mut self, records: &mut [EventRecord]) {
        for record in records {
            record.answer = Some(self.step(&record.event));
        }
    }

    /// The answer to a line that is not six numbers: nothing is stepped.
    pub fn bad_line(&self) -> Answer {
        Answer {
            code: 11,
            value: 0,
            extra: 0,
            t: self.t,
            current: self.current as i64,
            running: 0,
        }
    }

    /// The places of check in order: 13; then 10 for a tick; 8, 9 and the
    /// body for a call.
    fn outcome(&mut self, event: &Event) -> Outcome {
        if !self.well_formed(event) {
            return Outcome::code(13);
        }
        if event.call == 0 {
            return self.tick();
        }
        if event.partition != self.current as i64 {
            return Outcome::code(8);
        }
        match self.partition(self.current).caller() {
            Some(caller) => self.body(self.current, caller, event),
            None => Outcome::code(9),
        }
    }

    /// False is 13: record empty, partition not 0..P, call not 0..34, just
    /// one of these two 0, an unused field not 0.
    fn well_formed(&self, event: &Event) -> bool {
        !self.is_empty()
            && (0..=self.partitions.len() as i64).contains(&event.partition)
            && (0..=LAST_CALL).contains(&event.call)
            && (event.partition == 0) == (event.call == 0)
            && event.fields[USED[event.call as usize]..]
                .iter()
                .all(|&field| field == 0)
    }

    /// The running process shows only where the event's partition is 0 or
    /// current.
    fn answer(&self, partition: i64, outcome: Outcome) -> Answer {
        let current = self.current as i64;
        let shown = partition == 0 || partition == current;
        Answer {
            code: outcome.code,
            value: outcome.value,
            extra: outcome.extra,
            t: self.t,
            current,
            running: if shown { self.running() as i64 } else { 0 },
        }
    }

    /// Tick: t rises by one, then every NORMAL partition's timers.
    fn tick(&mut self) -> Outcome {
        if self.t == LAST_TIME {
            return Outcome::code(10);
        }
        self.t += 1;
        (self.current, self.ticks_left) = self.window_lookup(self.t);
        for partition in &mut self.partitions {
            if partition.mode == Mode::Normal {
                partition.pass_time(self.t);
            }
        }
        Outcome::DONE
    }
}

impl Partition {
    /// The caller; `None` is 9: IDLE, or NORMAL and nothing runs.
    fn caller(&self) -> Option<Caller> {
        match self.mode {
            Mode::Idle => None,
            Mode::ColdStart | Mode::WarmStart => Some(Caller::MainProgram),
            Mode::Normal => match self.running() {
                0 => None,
                id => Some(Caller::Process(id)),
            },
        }
    }

    /// What a tick does to the processes, by ascending id; mostly nothing.
    fn pass_time(&mut self, t: i64) {
        let is_due = |it: &Process| has_come(it.wake, t) | has_come(it.deadline, t);
        let Some(first) = self.processes.iter().position(is_due) else {
            return;
        };
        for id in first + 1..=self.processes.len() {
            if has_come(self.process(id).wake, t) {
                self.wake_up(id);
            }
            let process = &mut self.processes[id - 1];
            if has_come(process.deadline, t) {
                process.missed = true;
                process.deadline = None;
            }
        }
    }

    /// The wake time has come: the wait ends and a suspended mark stays; a
    /// process that had no wait but the mark loses the mark instead.
    fn wake_up(&mut self, id: Id) {
        let wait = self.process(id).wait;
        self.leave_queue(id);
        self.change(id, |process| {
            process.wake = None;
            process.wait = Wait::None;
            if wait == Wait::None && process.suspended {
                process.suspended = false;
                process.wake_code = 6;
            } else {
                process.wake_code = if wait.queued() { 6 } else { 0 };
            }
        });
    }
}

/// True if a time is not never and has come by t.
fn has_come(time: Option<i64>, t: i64) -> bool {
    time.is_some_and(|time| time <= t)
}

//! The bodies of calls 1 to 34 ("Calls" of document 01; 23 to 34 of document
//! 02, a, b, e and f). Checks run in the order written.

mod channel;
mod lock;
mod message;
mod passing;
mod process;
mod queue;
mod start;

use crate::machine::{Caller, Event, Outcome};
use crate::record::{Id, Mode, Module, Partition, Wait};
use std::ops::RangeInclusive;

/// D: a delay, a capacity or a message.
pub const MOST_TIME: i64 = 9_999_999;
const D: RangeInclusive<i64> = 0..=MOST_TIME;
pub const NAMES: RangeInclusive<i64> = 1..=255;
pub const PRIORITIES: RangeInclusive<i64> = 1..=239;
pub const MOST_VALUE: i64 = 32_767;
/// How many messages a buffer may hold.
pub const LIMITS: RangeInclusive<i64> = 1..=16;

/// The calls that can give 7.
pub const WAITING: [i64; 10] = [8, 9, 10, 15, 20, 24, 25, 28, 30, 31];

/// What a body with shared checks answers; `Err` is a refusal by one of them.
type Checked = Result<Outcome, Outcome>;

/// The answer, whether its checks refused or not.
fn outcome(checked: Checked) -> Outcome {
    match checked {
        Ok(outcome) | Err(outcome) => outcome,
    }
}

/// The number's refusal, written like the paper's "n: ...".
fn refuse(code: i64) -> Outcome {
    Outcome::code(code)
}

/// T: -1 or D.
fn in_t(number: i64) -> bool {
    number == -1 || D.contains(&number)
}

/// A time-out a of T from t: t + a, or never.
fn after(t: i64, a: i64) -> Option<i64> {
    (a != -1).then_some(t + a)
}

/// The checks of a call that may wait in a queue. 3: id unknown. 5: start
/// mode. 3: a field not good. Gives what is known and the calling process.
fn may_wait<T>(known: Option<T>, caller: Caller, good: bool) -> Result<(T, Id), Outcome> {
    let of = known.ok_or(refuse(3))?;
    let Caller::Process(own) = caller else {
        return Err(refuse(5));
    };
    if !good {
        return Err(refuse(3));
    }
    Ok((of, own))
}

impl Partition {
    /// The checks of a call that creates. 4: as many exist as may. 1: name
    /// exists among them. 3: name not 1..255, or another field not good. 5:
    /// NORMAL.
    fn may_create(
        &self,
        mut names: impl ExactSizeIterator<Item = i64>,
        most: usize,
        name: i64,
        good: bool,
    ) -> Result<(), Outcome> {
        if names.len() == most {
            return Err(refuse(4));
        }
        if names.any(|other| other == name) {
            return Err(refuse(1));
        }
        if !NAMES.contains(&name) || !good {
            return Err(refuse(3));
        }
        if self.mode == Mode::Normal {
            return Err(refuse(5));
        }
        Ok(())
    }

    /// What a call does that finds nothing. 2: a = 0. 5: locked. Else queued
    /// last, w = t + a or -1, code 7.
    fn wait_in_queue(&mut self, id: Id, wait: Wait, t: i64, a: i64) -> Checked {
        if a == 0 {
            return Err(refuse(2));
        }
        if self.locked() {
            return Err(refuse(5));
        }
        self.change(id, |process| {
            process.wait = wait;
            process.wake = after(t, a);
        });
        self.join_queue(id);
        Ok(Outcome::WAITING)
    }

    /// The bodies of the calls for semaphores, events, buffers, blackboards,
    /// but for those that send and receive.
    fn object_body(&mut self, caller: Caller, t: i64, event: &Event) -> Checked {
        let [a, b, c, _] = event.fields;
        match event.call {
            14 => self.create_semaphore(a, b, c),
            15 => self.wait_semaphore(caller, t, a, b),
            16 => Ok(self.signal(a)),
            17 => self.create_event(a),
            18 => Ok(self.set_event(a)),
            19 => Ok(self.reset_event(a)),
            20 => self.wait_event(caller, t, a, b),
            23 => self.create_buffer(a, b),
            26 => self.create_blackboard(a),
            27 => Ok(self.show(a, b)),
            28 => self.read_blackboard(caller, t, a, b),
            _ => Ok(self.clear(a)),
        }
    }
}

impl Module {
    /// The body of a call that passed 13, 8 and 9.
    pub(crate) fn body(&mut self, own: Id, caller: Caller, event: &Event) -> Outcome {
        let [a, b, c, _] = event.fields;
        match event.call {
            1 => self.set_partition_mode(own, a),
            3 => self.start(own, a, 0),
            4 => self.start(own, a, b),
            21 => self.write(own, a, b),
            22 => self.read(own, a),
            24 => outcome(self.send_buffer(own, caller, a, b, c)),
            25 => outcome(self.receive_buffer(own, caller, a, b)),
            30 => outcome(self.send(own, caller, a, b, c)),
            31 => outcome(self.receive(own, caller, a, b)),
            34 => self.get_ticks_left(),
            _ => self.partition_body(own, caller, event),
        }
    }

    /// 34 GET_TICKS_LEFT. Who comes as far as its body has a window.
    fn get_ticks_left(&self) -> Outcome {
        Outcome::value(self.ticks_left, 0)
    }

    /// The bodies that see nothing but their partition, t and M.
    fn partition_body(&mut self, own: Id, caller: Caller, event: &Event) -> Outcome {
        let [a, b, c, e] = event.fields;
        let (t, frame) = (self.t, self.frame);
        let partition = &mut self.partitions[own - 1];
        match event.call {
            2 => partition.create_process(frame, a, b, c, e),
            5 => partition.stop(caller, a),
            6 => partition.stop_self(caller),
            7 => partition.suspend(caller, a),
            8 => partition.suspend_self(caller, t, a),
            9 => partition.timed_wait(caller, t, a),
            10 => partition.periodic_wait(caller),
            11 => partition.resume(caller, a),
            12 => partition.set_priority(a, b),
            13 => partition.get_process_status(caller, a),
            32 => partition.lock_preemption(caller),
            33 => partition.unlock_preemption(caller),
            _ => outcome(partition.object_body(caller, t, event)),
        }
    }
}

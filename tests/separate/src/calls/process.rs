//! Calls 2 and 5 to 13: processes.

use super::{after, in_t, refuse, D, MOST_TIME, PRIORITIES};
use crate::machine::{Caller, Outcome};
use crate::record::{Id, Lock, Partition, Process, Wait, PROCESSES};

impl Partition {
    /// 2 CREATE_PROCESS name, priority, period, capacity.
    pub(super) fn create_process(
        &mut self,
        frame: i64,
        name: i64,
        priority: i64,
        period: i64,
        capacity: i64,
    ) -> Outcome {
        let length = 1..=MOST_TIME;
        let good_period = period == -1 || length.contains(&period) && period % frame == 0;
        let good_capacity = capacity == -1 || length.contains(&capacity);
        let good = PRIORITIES.contains(&priority)
            && good_period
            && good_capacity
            && (period == -1 || capacity <= period);
        let names = self.processes.iter().map(|process| process.name);
        if let Err(refusal) = self.may_create(names, PROCESSES, name, good) {
            return refusal;
        }
        let or_never = |number| (number != -1).then_some(number);
        self.processes.push(Process::created(
            name,
            priority,
            or_never(period),
            or_never(capacity),
        ));
        Outcome::value(self.processes.len() as i64, 0)
    }

    /// 5 STOP id.
    pub(super) fn stop(&mut self, caller: Caller, id: i64) -> Outcome {
        let Some(id) = self.process_id(id) else {
            return refuse(3);
        };
        if caller == Caller::Process(id) {
            return refuse(3);
        }
        if self.process(id).dormant() {
            return refuse(1);
        }
        self.make_dormant(id);
        Outcome::DONE
    }

    /// 6 STOP_SELF. It opens the lock.
    pub(super) fn stop_self(&mut self, caller: Caller) -> Outcome {
        let Caller::Process(id) = caller else {
            return refuse(5);
        };
        self.make_dormant(id);
        self.lock = Lock::OPEN;
        Outcome::DONE
    }

    fn make_dormant(&mut self, id: Id) {
        self.leave_queue(id);
        self.change(id, Process::become_dormant);
    }

    /// 7 SUSPEND id.
    pub(super) fn suspend(&mut self, caller: Caller, id: i64) -> Outcome {
        let Some(id) = self.process_id(id) else {
            return refuse(3);
        };
        if caller == Caller::Process(id) {
            return refuse(3);
        }
        let process = self.process(id);
        if process.dormant() || process.periodic() {
            return refuse(5);
        }
        if process.suspended {
            return refuse(1);
        }
        self.change(id, |process| process.suspended = true);
        Outcome::DONE
    }

    /// 8 SUSPEND_SELF a. 5, last: locked.
    pub(super) fn suspend_self(&mut self, caller: Caller, t: i64, a: i64) -> Outcome {
        let Caller::Process(id) = caller else {
            return refuse(5);
        };
        if self.process(id).periodic() {
            return refuse(5);
        }
        if !in_t(a) {
            return refuse(3);
        }
        if self.locked() {
            return refuse(5);
        }
        if a == 0 {
            return Outcome::DONE;
        }
        self.change(id, |process| {
            process.suspended = true;
            process.wake = after(t, a);
        });
        Outcome::WAITING
    }

    /// 9 TIMED_WAIT a. 5, last: locked.
    pub(super) fn timed_wait(&mut self, caller: Caller, t: i64, a: i64) -> Outcome {
        let Caller::Process(id) = caller else {
            return refuse(5);
        };
        if !D.contains(&a) {
            return refuse(3);
        }
        if self.locked() {
            return refuse(5);
        }
        if a == 0 {
            self.move_to_end(id);
            return Outcome::DONE;
        }
        self.change(id, |process| {
            process.wait = Wait::Timed;
            process.wake = Some(t + a);
        });
        Outcome::WAITING
    }

    /// 10 PERIODIC_WAIT. 5, last: locked.
    pub(super) fn periodic_wait(&mut self, caller: Caller) -> Outcome {
        let Caller::Process(id) = caller else {
            return refuse(5);
        };
        let Some(period) = self.process(id).period else {
            return refuse(5);
        };
        if self.locked() {
            return refuse(5);
        }
        self.change(id, |process| {
            // A started periodic process has a release.
            let release = process.release.unwrap_or(-1) + period;
            process.release = Some(release);
            process.wake = Some(release);
            process.deadline = process.capacity.map(|capacity| release + capacity);
            process.wait = Wait::Period;
        });
        Outcome::WAITING
    }

    /// 11 RESUME id.
    pub(super) fn resume(&mut self, caller: Caller, id: i64) -> Outcome {
        let Some(id) = self.process_id(id) else {
            return refuse(3);
        };
        if caller == Caller::Process(id) {
            return refuse(3);
        }
        let process = self.process(id);
        if process.dormant() || process.periodic() {
            return refuse(5);
        }
        if !process.suspended {
            return refuse(1);
        }
        self.change(id, |process| {
            process.suspended = false;
            if process.wait == Wait::None {
                process.wake = None;
                process.wake_code = 0;
            }
        });
        Outcome::DONE
    }

    /// 12 SET_PRIORITY id, a.
    pub(super) fn set_priority(&mut self, id: i64, a: i64) -> Outcome {
        let Some(id) = self.process_id(id) else {
            return refuse(3);
        };
        if !PRIORITIES.contains(&a) {
            return refuse(3);
        }
        if self.process(id).dormant() {
            return refuse(5);
        }
        self.change(id, |process| process.current = a);
        self.move_to_end(id);
        Outcome::DONE
    }

    /// 13 GET_PROCESS_STATUS id.
    pub(super) fn get_process_status(&self, caller: Caller, id: i64) -> Outcome {
        let Some(id) = self.process_id(id) else {
            return refuse(3);
        };
        let process = self.process(id);
        let value = if process.dormant() {
            0
        } else if caller == Caller::Process(id) {
            2
        } else if process.ready() {
            1
        } else {
            3
        };
        Outcome::value(value, process.deadline.unwrap_or(-1))
    }
}

impl Process {
    /// STOP: DORMANT; wait, w, d, r, suspended mark cleared.
    fn become_dormant(&mut self) {
        self.started = false;
        self.wait = Wait::None;
        self.wake = None;
        self.deadline = None;
        self.release = None;
        self.suspended = false;
    }
}

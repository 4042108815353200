//! Calls 14 to 20: semaphores and events.

use super::{in_t, may_wait, refuse, Checked, MOST_VALUE};
use crate::machine::{Caller, Outcome};
use crate::record::{EventFlag, Partition, Semaphore, Wait, EVENTS, PROCESSES, SEMAPHORES};
use std::collections::VecDeque;

impl Partition {
    /// 14 CREATE_SEMAPHORE name, start, max.
    pub(super) fn create_semaphore(&mut self, name: i64, start: i64, max: i64) -> Checked {
        let names = self.semaphores.iter().map(|semaphore| semaphore.name);
        let good = (1..=MOST_VALUE).contains(&max) && (0..=max).contains(&start);
        self.may_create(names, SEMAPHORES, name, good)?;
        self.semaphores.push(Semaphore {
            name,
            value: start,
            max,
            queue: VecDeque::with_capacity(PROCESSES),
        });
        Ok(Outcome::value(self.semaphores.len() as i64, 0))
    }

    /// 17 CREATE_EVENT name (DOWN).
    pub(super) fn create_event(&mut self, name: i64) -> Checked {
        let names = self.events.iter().map(|event| event.name);
        self.may_create(names, EVENTS, name, true)?;
        self.events.push(EventFlag {
            name,
            up: false,
            queue: VecDeque::with_capacity(PROCESSES),
        });
        Ok(Outcome::value(self.events.len() as i64, 0))
    }

    /// 15 WAIT_SEMAPHORE id, a.
    pub(super) fn wait_semaphore(&mut self, caller: Caller, t: i64, id: i64, a: i64) -> Checked {
        let (of, own) = may_wait(self.semaphore_id(id), caller, in_t(a))?;
        let semaphore = &mut self.semaphores[of - 1];
        if semaphore.value > 0 {
            semaphore.value -= 1;
            return Ok(Outcome::DONE);
        }
        self.wait_in_queue(own, Wait::Semaphore(of), t, a)
    }

    /// 20 WAIT_EVENT id, a.
    pub(super) fn wait_event(&mut self, caller: Caller, t: i64, id: i64, a: i64) -> Checked {
        let (of, own) = may_wait(self.event_id(id), caller, in_t(a))?;
        if self.events[of - 1].up {
            return Ok(Outcome::DONE);
        }
        self.wait_in_queue(own, Wait::Event(of), t, a)
    }

    /// 16 SIGNAL id.
    pub(super) fn signal(&mut self, id: i64) -> Outcome {
        let Some(of) = self.semaphore_id(id) else {
            return refuse(3);
        };
        let semaphore = &mut self.semaphores[of - 1];
        if semaphore.value == semaphore.max {
            return refuse(1);
        }
        match semaphore.queue.pop_front() {
            Some(first) => self.end_wait_by_signal(first),
            None => semaphore.value += 1,
        }
        Outcome::DONE
    }

    /// 18 SET_EVENT id.
    pub(super) fn set_event(&mut self, id: i64) -> Outcome {
        let Some(of) = self.event_id(id) else {
            return refuse(3);
        };
        self.events[of - 1].up = true;
        while let Some(first) = self.events[of - 1].queue.pop_front() {
            self.end_wait_by_signal(first);
        }
        Outcome::DONE
    }

    /// 19 RESET_EVENT id.
    pub(super) fn reset_event(&mut self, id: i64) -> Outcome {
        let Some(of) = self.event_id(id) else {
            return refuse(3);
        };
        self.events[of - 1].up = false;
        Outcome::DONE
    }
}

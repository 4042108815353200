//! Calls 1, 3 and 4 with the start rule (its release: document 02, d).

use super::{refuse, D};
use crate::machine::Outcome;
use crate::record::{Id, Mode, Module, Partition, Process, Wait};

/// What the start rule takes from the module.
#[derive(Clone, Copy)]
struct Clock {
    t: i64,
    /// From where a release counts.
    next_flagged: i64,
}

impl Module {
    fn clock(&self, partition: Id) -> Clock {
        Clock {
            t: self.t,
            next_flagged: self.next_flagged_start(partition),
        }
    }

    /// 1 SET_PARTITION_MODE a.
    pub(super) fn set_partition_mode(&mut self, own: Id, a: i64) -> Outcome {
        let clock = self.clock(own);
        let partition = &mut self.partitions[own - 1];
        let Some(mode) = Mode::from_number(a) else {
            return refuse(3);
        };
        if mode == Mode::Normal && partition.mode == Mode::Normal {
            return refuse(1);
        }
        if mode == Mode::WarmStart && partition.mode == Mode::ColdStart {
            return refuse(5);
        }
        if mode == Mode::Normal && partition.processes.is_empty() {
            return refuse(5);
        }
        partition.mode = mode;
        if mode == Mode::Normal {
            partition.enter_normal(clock);
        } else {
            partition.erase();
            self.erase_messages_into(own);
        }
        Outcome::DONE
    }

    /// 3 START id; 4 DELAYED_START id, delay.
    pub(super) fn start(&mut self, own: Id, id: i64, delay: i64) -> Outcome {
        let clock = self.clock(own);
        let partition = &mut self.partitions[own - 1];
        let Some(id) = partition.process_id(id) else {
            return refuse(3);
        };
        let process = partition.process(id);
        if !D.contains(&delay) || process.period.is_some_and(|period| delay >= period) {
            return refuse(3);
        }
        if !process.dormant() {
            return refuse(1);
        }
        if partition.mode == Mode::Normal {
            partition.change(id, |process| process.start_rule(clock, delay));
        } else {
            partition.change(id, |process| process.wait_for_normal(delay));
        }
        Outcome::DONE
    }
}

impl Partition {
    /// Mode 3: every process waiting for NORMAL, by id, takes the start rule.
    fn enter_normal(&mut self, clock: Clock) {
        for id in 1..=self.processes.len() {
            if self.process(id).wait == Wait::Normal {
                self.change(id, |process| process.start_rule_on_normal(clock));
            }
        }
    }
}

impl Process {
    /// What the start rule and START in start modes share: started, current
    /// priority = base; marks, wake code cleared.
    fn begin(&mut self) {
        self.started = true;
        self.current = self.base;
        self.suspended = false;
        self.missed = false;
        self.wake_code = 0;
    }

    /// START in start modes. Only here the delay field is set.
    fn wait_for_normal(&mut self, delay: i64) {
        self.begin();
        self.delay = delay;
        self.wait = Wait::Normal;
    }

    /// Start rule(delay).
    fn start_rule(&mut self, clock: Clock, delay: i64) {
        self.begin();
        self.take_times(clock, delay);
    }

    /// Entering NORMAL: the start rule with its delay, keeping its suspended
    /// mark and current priority.
    fn start_rule_on_normal(&mut self, clock: Clock) {
        let (suspended, current) = (self.suspended, self.current);
        self.start_rule(clock, self.delay);
        self.suspended = suspended;
        self.current = current;
    }

    /// The start rule's wait, r, w and d.
    fn take_times(&mut self, clock: Clock, delay: i64) {
        if self.periodic() {
            let release = clock.next_flagged + delay;
            self.release = Some(release);
            self.wake = Some(release);
            self.deadline = self.capacity.map(|capacity| release + capacity);
            self.wait = Wait::Period;
            return;
        }
        self.deadline = self.capacity.map(|capacity| clock.t + delay + capacity);
        if delay == 0 {
            self.wait = Wait::None;
        } else {
            self.wait = Wait::Delay;
            self.wake = Some(clock.t + delay);
        }
    }
}

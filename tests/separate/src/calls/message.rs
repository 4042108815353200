//! Calls 23 to 29: buffers and blackboards (document 02, a).

use super::passing::Route;
use super::{in_t, may_wait, refuse, Checked, D, LIMITS};
use crate::machine::{Caller, Outcome};
use crate::record::{Blackboard, Buffer, Id, MessageQueue, Module, Partition, Wait};
use crate::record::{BLACKBOARDS, BUFFERS, PROCESSES};
use std::collections::VecDeque;

impl Module {
    /// 24 SEND_BUFFER id, message, a.
    pub(super) fn send_buffer(
        &mut self,
        own: Id,
        caller: Caller,
        id: i64,
        message: i64,
        a: i64,
    ) -> Checked {
        let good = D.contains(&message) && in_t(a);
        let (of, sender) = may_wait(self.partition(own).buffer_id(id), caller, good)?;
        self.pass_in(Route::of_buffer(own, of), sender, message, a)
    }

    /// 25 RECEIVE_BUFFER id, a.
    pub(super) fn receive_buffer(&mut self, own: Id, caller: Caller, id: i64, a: i64) -> Checked {
        let (of, receiver) = may_wait(self.partition(own).buffer_id(id), caller, in_t(a))?;
        self.pass_out(Route::of_buffer(own, of), receiver, a)
    }
}

impl Partition {
    /// 23 CREATE_BUFFER name, limit.
    pub(super) fn create_buffer(&mut self, name: i64, limit: i64) -> Checked {
        let names = self.buffers.iter().map(|buffer| buffer.name);
        self.may_create(names, BUFFERS, name, LIMITS.contains(&limit))?;
        self.buffers.push(Buffer {
            name,
            queue: MessageQueue::empty(limit as usize),
            senders: VecDeque::with_capacity(PROCESSES),
            receivers: VecDeque::with_capacity(PROCESSES),
        });
        Ok(Outcome::value(self.buffers.len() as i64, 0))
    }

    /// 26 CREATE_BLACKBOARD name (empty).
    pub(super) fn create_blackboard(&mut self, name: i64) -> Checked {
        let names = self.blackboards.iter().map(|blackboard| blackboard.name);
        self.may_create(names, BLACKBOARDS, name, true)?;
        self.blackboards.push(Blackboard {
            name,
            message: None,
            queue: VecDeque::with_capacity(PROCESSES),
        });
        Ok(Outcome::value(self.blackboards.len() as i64, 0))
    }

    /// 27 SHOW id, message. It ends all waits in queue order, the message
    /// kept in each waiter's record.
    pub(super) fn show(&mut self, id: i64, message: i64) -> Outcome {
        let Some(of) = self.blackboard_id(id) else {
            return refuse(3);
        };
        if !D.contains(&message) {
            return refuse(3);
        }
        self.blackboards[of - 1].message = Some(message);
        while let Some(first) = self.blackboards[of - 1].queue.pop_front() {
            self.hand_over(first, message);
        }
        Outcome::DONE
    }

    /// 28 READ_BLACKBOARD id, a. Reading takes nothing away.
    pub(super) fn read_blackboard(&mut self, caller: Caller, t: i64, id: i64, a: i64) -> Checked {
        let (of, own) = may_wait(self.blackboard_id(id), caller, in_t(a))?;
        match self.blackboards[of - 1].message {
            Some(message) => Ok(Outcome::value(message, 0)),
            None => self.wait_in_queue(own, Wait::Blackboard(of), t, a),
        }
    }

    /// 29 CLEAR id.
    pub(super) fn clear(&mut self, id: i64) -> Outcome {
        let Some(of) = self.blackboard_id(id) else {
            return refuse(3);
        };
        self.blackboards[of - 1].message = None;
        Outcome::DONE
    }
}

//! How messages pass through a queue, first in first out: buffers (24, 25) and
//! queuing channels (30, 31) alike.

use super::Checked;
use crate::machine::Outcome;
use crate::record::{Id, Kind, MessageQueue, Module, QueueId, Wait};

/// A message queue with the partitions of those who send and receive.
#[derive(Clone, Copy)]
pub(super) struct Route {
    pub through: QueueId,
    pub source: Id,
    pub destination: Id,
}

impl Route {
    /// A buffer has both ends in its partition.
    pub(super) fn of_buffer(own: Id, of: Id) -> Route {
        Route {
            through: QueueId::Buffer(of),
            source: own,
            destination: own,
        }
    }
}

impl Module {
    fn queue(&mut self, route: Route) -> &mut MessageQueue {
        match route.through {
            QueueId::Buffer(of) => &mut self.partitions[route.source - 1].buffers[of - 1].queue,
            QueueId::Channel(of) => match &mut self.channels[of - 1].kind {
                Kind::Queuing(queue) => queue,
                Kind::Sampling(_) => unreachable!("no route through a sampling channel"),
            },
        }
    }

    /// A message goes to the first waiting receiver, else in where there is
    /// room; else its sender waits.
    pub(super) fn pass_in(&mut self, route: Route, sender: Id, message: i64, a: i64) -> Checked {
        let destination = &mut self.partitions[route.destination - 1];
        if let Some(first) = destination.receivers(route.through).pop_front() {
            destination.hand_over(first, message);
            return Ok(Outcome::DONE);
        }
        let queue = self.queue(route);
        if !queue.full() {
            queue.messages.push_back(message);
            return Ok(Outcome::DONE);
        }
        let to = route.through;
        let wait = Wait::Sending { to, message };
        let t = self.t;
        self.partitions[route.source - 1].wait_in_queue(sender, wait, t, a)
    }

    /// The first message comes out and a waiting sender's goes in; where there
    /// is none the receiver waits.
    pub(super) fn pass_out(&mut self, route: Route, receiver: Id, a: i64) -> Checked {
        let Some(message) = self.queue(route).messages.pop_front() else {
            let wait = Wait::Receiving(route.through);
            let t = self.t;
            return self.partitions[route.destination - 1].wait_in_queue(receiver, wait, t, a);
        };
        self.let_senders_in(route);
        Ok(Outcome::value(message, 0))
    }

    /// Until the queue is full the first waiting sender's message goes in,
    /// last of those held, and its wait ends.
    pub(super) fn let_senders_in(&mut self, route: Route) {
        while !self.queue(route).full() {
            let source = &mut self.partitions[route.source - 1];
            let Some(first) = source.senders(route.through).pop_front() else {
                return;
            };
            let wait = source.process(first).wait;
            source.end_wait_by_signal(first);
            if let Wait::Sending { message, .. } = wait {
                self.queue(route).messages.push_back(message);
            }
        }
    }
}

//! Corners of buffers and blackboards.

use super::Coverage;
use crate::calls::{LIMITS, MOST_TIME, NAMES};
use crate::machine::{Answer, Event};
use crate::record::{Id, Mode, Module, Partition, Process, Wait};
use std::collections::VecDeque;

impl Coverage {
    /// Corners of an accepted call 23 to 29.
    pub(super) fn take_message_corners(
        &mut self,
        event: &Event,
        answer: &Answer,
        old: &Partition,
        new: &Partition,
    ) {
        let [a, b, ..] = event.fields;
        let greatest_name = a == *NAMES.end();
        let start_mode = old.mode != Mode::Normal;
        match event.call {
            23 => {
                self.count_corner("name 255 of a buffer or blackboard taken", greatest_name);
                self.count_corner("limit 16 taken", b == *LIMITS.end());
            }
            24 => self.take_send_corners(a as Id, b, answer, old),
            25 => self.take_receive_corners(a as Id, answer, old),
            26 => self.count_corner("name 255 of a buffer or blackboard taken", greatest_name),
            27 => {
                self.take_show_corners(a as Id, b, old);
                self.count_corner("SHOW in a start mode", start_mode);
            }
            28 => self.count_corner("message 0 read", answer.code == 0 && answer.value == 0),
            _ => {
                let shown = old.blackboards[a as usize - 1].message.is_some();
                self.count_corner("CLEAR of a message", shown);
                self.count_corner("CLEAR in a start mode", start_mode);
            }
        }
        for (process, later) in old.processes.iter().zip(&new.processes) {
            self.take_hand_over(event, process, later);
        }
    }

    fn take_send_corners(&mut self, id: Id, message: i64, answer: &Answer, old: &Partition) {
        let buffer = &old.buffers[id - 1];
        let taken = answer.code == 0;
        self.count_corner("message 0 sent", taken && message == 0);
        self.count_corner("message 9,999,999 sent", taken && message == MOST_TIME);
        let waiting = buffer.receivers.len();
        self.count_corner("SEND_BUFFER to two waiting receivers or more", waiting > 1);
        let equal = buffer.queue.messages.contains(&message);
        self.count_corner("equal messages held", taken && equal);
        let last_place = buffer.queue.messages.len() + 1 == *LIMITS.end() as usize;
        self.count_corner("16 messages held", taken && last_place);
        let limit_1 = buffer.queue.limit == 1;
        self.count_corner("sender waits at limit 1", !taken && limit_1);
        self.count_corner("sender waits at a limit above 1", !taken && !limit_1);
    }

    fn take_receive_corners(&mut self, id: Id, answer: &Answer, old: &Partition) {
        let buffer = &old.buffers[id - 1];
        if answer.code != 0 {
            return;
        }
        self.count_corner("message 0 received", answer.value == 0);
        let waiting = buffer.senders.len();
        self.count_corner(
            "RECEIVE_BUFFER with two waiting senders or more",
            waiting > 1,
        );
        let behind = waiting > 0 && buffer.queue.limit > 1;
        self.count_corner("sender let in behind held messages", behind);
        let holds = old.process(old.running()).message != 0;
        let corner = "RECEIVE_BUFFER at once by a process with a message in its record";
        self.count_corner(corner, holds);
    }

    fn take_show_corners(&mut self, id: Id, message: i64, old: &Partition) {
        let blackboard = &old.blackboards[id - 1];
        self.count_corner("message 0 shown", message == 0);
        self.count_corner("message 9,999,999 shown", message == MOST_TIME);
        let waiting = blackboard.queue.len();
        self.count_corner("SHOW to two waiting readers or more", waiting > 1);
        let equal = blackboard.message.map(|shown| shown == message);
        self.count_corner("SHOW over another message", equal == Some(false));
        self.count_corner("SHOW over an equal message", equal == Some(true));
    }

    /// A waiter that got a message and had one in its record before.
    pub(super) fn take_hand_over(&mut self, event: &Event, old: &Process, new: &Process) {
        let waited = matches!(old.wait, Wait::Receiving(_) | Wait::Blackboard(_));
        let given = waited && new.wait == Wait::None && [24, 27, 30].contains(&event.call);
        let over = given && old.message != 0 && old.message != new.message;
        self.count_corner("message over an earlier one in a waiter's record", over);
        let by_0 = over && new.message == 0;
        self.count_corner("message 0 over another in a waiter's record", by_0);
    }

    /// Edges that are refused with 3, all else being good.
    pub(super) fn take_refused_corners(&mut self, before: &Module, event: &Event, answer: &Answer) {
        self.take_refused_channels(before, event, answer);
        if answer.code != 3 {
            return;
        }
        let old = before.partition(event.partition as Id);
        let [a, b, ..] = event.fields;
        let next_name = a == *NAMES.end() + 1;
        let next_message = b == MOST_TIME + 1;
        let good_limit = LIMITS.contains(&b);
        match event.call {
            23 => {
                let corner = "name 256 of a buffer or blackboard refused";
                self.count_corner(corner, next_name && good_limit);
                let next_limit = b == *LIMITS.end() + 1;
                self.count_corner("limit 17 refused", next_limit && NAMES.contains(&a));
            }
            24 => {
                let sent = old.buffer_id(a).is_some() && next_message;
                self.count_corner("message 10,000,000 not sent", sent);
            }
            26 => self.count_corner("name 256 of a buffer or blackboard refused", next_name),
            27 => {
                let shown = old.blackboard_id(a).is_some() && next_message;
                self.count_corner("message 10,000,000 not shown", shown);
            }
            _ => {}
        }
    }

    /// Those that left a buffer's queue from ahead of another.
    pub(super) fn take_queues(&mut self, event: &Event, old: &Partition, new: &Partition) {
        for (buffer, later) in old.buffers.iter().zip(&new.buffers) {
            let sender = gone_from_ahead(&buffer.senders, &later.senders);
            let (stop, tick) = (event.call == 5, event.call == 0);
            self.count_corner("sender stopped ahead of another", sender && stop);
            self.count_corner("sender timed out ahead of another", sender && tick);
            let receiver = gone_from_ahead(&buffer.receivers, &later.receivers);
            let corner = "receiver gone from ahead of another";
            self.count_corner(corner, receiver && (stop || tick));
        }
        if event.call == 0 || event.call == 5 {
            self.take_ports(old, new);
        }
    }
}

/// True if one is no longer in the queue that stood ahead of one still there.
pub(super) fn gone_from_ahead(old: &VecDeque<Id>, new: &VecDeque<Id>) -> bool {
    let mut from_the_gone = old.iter().skip_while(|id| new.contains(id));
    from_the_gone.any(|id| new.contains(id))
}

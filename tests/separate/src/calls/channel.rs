//! Calls 21 and 22: sampling channels; 30 and 31: queuing channels (document
//! 02, b).

use super::passing::Route;
use super::{in_t, may_wait, refuse, Checked, D};
use crate::machine::{Caller, Outcome};
use crate::record::{Channel, Id, Kind, Message, Module, QueueId};

impl Module {
    /// The channel if it exists and the partition is at one of its ends.
    fn own_channel(&mut self, own: Id, number: i64) -> Option<&mut Channel> {
        let place = usize::try_from(number).ok()?.checked_sub(1)?;
        let channel = self.channels.get_mut(place)?;
        (channel.source == own || channel.destination == own).then_some(channel)
    }

    /// 21 WRITE channel, a.
    pub(super) fn write(&mut self, own: Id, channel: i64, a: i64) -> Outcome {
        let t = self.t;
        let Some(channel) = self.own_channel(own, channel) else {
            return refuse(3);
        };
        let Kind::Sampling(message) = &mut channel.kind else {
            return refuse(3);
        };
        if channel.source != own {
            return refuse(5);
        }
        if !D.contains(&a) {
            return refuse(3);
        }
        *message = Some(Message {
            value: a,
            written: t,
        });
        Outcome::DONE
    }

    /// 22 READ channel. Extra is 1 while the age is at most refresh.
    pub(super) fn read(&mut self, own: Id, channel: i64) -> Outcome {
        let t = self.t;
        let Some(channel) = self.own_channel(own, channel) else {
            return refuse(3);
        };
        let Kind::Sampling(message) = channel.kind else {
            return refuse(3);
        };
        if channel.destination != own {
            return refuse(5);
        }
        let Some(message) = message else {
            return refuse(1);
        };
        let fresh = t - message.written <= channel.refresh;
        Outcome::value(message.value, i64::from(fresh))
    }

    /// The route through a queuing channel that has the partition at one of
    /// its ends.
    fn own_route(&mut self, own: Id, number: i64) -> Option<Route> {
        let channel = self.own_channel(own, number)?;
        channel.queue()?;
        Some(Route {
            through: QueueId::Channel(number as Id),
            source: channel.source,
            destination: channel.destination,
        })
    }

    /// 30 SEND channel, message, a. 3: no such channel, or a sampling one. 5:
    /// not its source.
    pub(super) fn send(
        &mut self,
        own: Id,
        caller: Caller,
        channel: i64,
        message: i64,
        a: i64,
    ) -> Checked {
        let route = self.own_route(own, channel).ok_or(refuse(3))?;
        if route.source != own {
            return Err(refuse(5));
        }
        let good = D.contains(&message) && in_t(a);
        let (route, sender) = may_wait(Some(route), caller, good)?;
        self.pass_in(route, sender, message, a)
    }

    /// 31 RECEIVE channel, a. Same 3; 5: not its destination.
    pub(super) fn receive(&mut self, own: Id, caller: Caller, channel: i64, a: i64) -> Checked {
        let route = self.own_route(own, channel).ok_or(refuse(3))?;
        if route.destination != own {
            return Err(refuse(5));
        }
        let (route, receiver) = may_wait(Some(route), caller, in_t(a))?;
        self.pass_out(route, receiver, a)
    }

    /// What a restart of the destination does to its channels, by ascending
    /// number: messages go, and senders that wait are let in.
    pub(super) fn erase_messages_into(&mut self, destination: Id) {
        for number in 1..=self.channels.len() {
            let channel = &mut self.channels[number - 1];
            if channel.destination != destination {
                continue;
            }
            match &mut channel.kind {
                Kind::Sampling(message) => *message = None,
                Kind::Queuing(queue) => queue.messages.clear(),
            }
            if let Some(route) = self.own_route(destination, number as i64) {
                self.let_senders_in(route);
            }
        }
    }
}

//! Corners of queuing channels, and the shapes of a table's channels.

use super::messages::gone_from_ahead;
use super::{place, Coverage, SHAPES};
use crate::calls::MOST_TIME;
use crate::machine::{Answer, Event};
use crate::record::{Channel, Id, MessageQueue, Mode, Module, Partition, Wait};
use crate::table::SIZES;

/// A queuing channel, what it holds, and how many wait at its ends.
struct Queuing<'a> {
    channel: &'a Channel,
    queue: &'a MessageQueue,
    senders: usize,
    receivers: usize,
}

impl Queuing<'_> {
    fn of(module: &Module, n: Id) -> Option<Queuing<'_>> {
        let channel = &module.channels()[n - 1];
        let waiters = |end: Id| module.partition(end).ports[n - 1].len();
        Some(Queuing {
            channel,
            queue: channel.queue()?,
            senders: waiters(channel.source),
            receivers: waiters(channel.destination),
        })
    }

    /// All of them, by number.
    fn all(module: &Module) -> Vec<Queuing<'_>> {
        let numbers = 1..=module.channels().len();
        numbers.filter_map(|n| Queuing::of(module, n)).collect()
    }

    fn is_empty(&self) -> bool {
        self.queue.messages.is_empty()
    }
}

impl Coverage {
    /// Corners of an accepted SEND or RECEIVE.
    pub(super) fn take_queuing_corners(
        &mut self,
        event: &Event,
        answer: &Answer,
        before: &Module,
        after: &Module,
    ) {
        let [n, message, ..] = event.fields;
        let Some(it) = Queuing::of(before, n as Id) else {
            return;
        };
        let destination = it.channel.destination;
        let (old, new) = (before.partition(destination), after.partition(destination));
        if event.call == 30 {
            self.take_channel_send(&it, message, answer.code == 0);
            let start_mode = old.mode != Mode::Normal;
            self.count_corner("SEND to a partition in a start mode", start_mode);
            for (process, later) in old.processes.iter().zip(&new.processes) {
                self.take_hand_over(event, process, later);
            }
        } else if answer.code == 0 {
            self.count_corner("message 0 received from a channel", answer.value == 0);
            let many = it.senders > 1;
            self.count_corner("RECEIVE with two waiting senders or more", many);
            let behind = it.senders > 0 && it.queue.limit > 1;
            self.count_corner("sender to a channel let in behind held messages", behind);
        }
    }

    fn take_channel_send(&mut self, it: &Queuing, message: i64, taken: bool) {
        self.count_corner("message 0 sent to a channel", taken && message == 0);
        let greatest = taken && message == MOST_TIME;
        self.count_corner("message 9,999,999 sent to a channel", greatest);
        let equal = taken && it.queue.messages.contains(&message);
        self.count_corner("equal messages held by a channel", equal);
        let last_place = it.queue.messages.len() + 1 == *SIZES.end() as usize;
        self.count_corner("8 messages held by a channel", taken && last_place);
        let many = it.receivers > 1;
        self.count_corner("SEND to two waiting receivers or more", many);
        let size_1 = it.queue.limit == 1;
        self.count_corner("sender to a channel waits at size 1", !taken && size_1);
        let corner = "sender to a channel waits at a size above 1";
        self.count_corner(corner, !taken && !size_1);
    }

    /// Channels that are of the other kind, of others, or of the other end.
    pub(super) fn take_refused_channels(
        &mut self,
        before: &Module,
        event: &Event,
        answer: &Answer,
    ) {
        let mut numbered = before.channels().iter().zip(1..);
        let named = numbered.find(|&(_, n)| n == event.fields[0]);
        let (Some((channel, _)), 3 | 5) = (named, answer.code) else {
            return;
        };
        let own = event.partition as Id;
        let at_end = [channel.source, channel.destination].contains(&own);
        let start_mode = before.partition(own).mode != Mode::Normal;
        match (event.call, channel.queue()) {
            (21, Some(_)) => self.count_corner("WRITE of a queuing channel", at_end),
            (22, Some(_)) => self.count_corner("READ of a queuing channel", at_end),
            (30, None) => self.count_corner("SEND to a sampling channel", at_end),
            (31, None) => self.count_corner("RECEIVE from a sampling channel", at_end),
            (30, Some(_)) => {
                let of_source = channel.source == own;
                self.count_corner("SEND to a channel of others", !at_end);
                self.count_corner("SEND by the destination", at_end && !of_source);
                self.count_corner("SEND in a start mode", of_source && start_mode);
                let next = answer.code == 3 && event.fields[1] == MOST_TIME + 1;
                let corner = "message 10,000,000 not sent to a channel";
                self.count_corner(corner, of_source && next);
            }
            (31, Some(_)) => {
                let of_destination = channel.destination == own;
                self.count_corner("RECEIVE from a channel of others", !at_end);
                self.count_corner("RECEIVE by the source", at_end && !of_destination);
                self.count_corner("RECEIVE in a start mode", of_destination && start_mode);
            }
            _ => {}
        }
    }

    /// Those that left the queue at an end of a channel from ahead of another.
    pub(super) fn take_ports(&mut self, old: &Partition, new: &Partition) {
        for (port, later) in old.ports.iter().zip(&new.ports) {
            if gone_from_ahead(port, later) {
                let sends = matches!(old.process(port[0]).wait, Wait::Sending { .. });
                let sender = "sender to a channel gone from ahead of another";
                self.count_corner(sender, sends);
                let receiver = "receiver from a channel gone from ahead of another";
                self.count_corner(receiver, !sends);
            }
        }
    }

    /// Corners of a restart of a partition, as destination and as source.
    pub(super) fn take_restart_corners(&mut self, before: &Module, own: Id, after: &Module) {
        let (old, new) = (Queuing::all(before), Queuing::all(after));
        let mut let_in = Vec::new();
        for (it, later) in old.iter().zip(&new) {
            if it.channel.destination == own {
                self.take_destination_corners(before, it, later);
                if later.senders < it.senders {
                    let_in.push(it.channel.source);
                }
            } else if it.channel.source == own {
                self.take_source_corners(before, it);
            }
        }
        let many = "destination's restart lets senders in on two channels or more";
        self.count_corner(many, let_in.len() > 1);
        let partitions = "destination's restart lets senders of two partitions or more in";
        self.count_corner(partitions, let_in.iter().any(|&of| of != let_in[0]));
        let running = before.partition(own).mode == Mode::Normal;
        let by_process = "destination's restart lets senders in and was called by a process";
        self.count_corner(by_process, !let_in.is_empty() && running);
        let senders = old
            .iter()
            .any(|it| it.channel.source == own && it.senders > 0);
        let receivers = old
            .iter()
            .any(|it| it.channel.destination == own && it.receivers > 0);
        self.count_corner(
            "restart removes senders and receivers",
            senders && receivers,
        );
        let others = senders && !let_in.is_empty();
        self.count_corner("restart removes senders and lets others in", others);
    }

    fn take_destination_corners(&mut self, before: &Module, it: &Queuing, later: &Queuing) {
        let let_in = it.senders - later.senders;
        self.count_corner(
            "destination's restart lets two senders or more in",
            let_in > 1,
        );
        self.count_corner(
            "destination's restart leaves a sender waiting",
            later.senders > 0,
        );
        let room = let_in > 0 && !later.queue.full();
        let corner = "destination's restart lets senders in and leaves room";
        self.count_corner(corner, room);
        self.count_corner("destination's restart removes receivers", it.receivers > 0);
        // Only NORMAL sends, so a source in another mode has restarted since.
        let source = before.partition(it.channel.source).mode;
        let after_source = source != Mode::Normal && !it.is_empty();
        let corner = "destination's restart after its source's erases messages";
        self.count_corner(corner, after_source);
    }

    fn take_source_corners(&mut self, before: &Module, it: &Queuing) {
        let corner = "source's restart with a full queue and senders waiting";
        self.count_corner(corner, it.senders > 0);
        let corner = "source's restart with messages held and none waiting";
        self.count_corner(corner, it.senders == 0 && !it.is_empty());
        self.count_corner("source's restart with receivers waiting", it.receivers > 0);
        let destination = before.partition(it.channel.destination);
        let after_it = destination.mode == Mode::WarmStart && !it.is_empty();
        let corner = "source's restart after its destination's keeps messages";
        self.count_corner(corner, after_it);
    }

    /// The shapes of an accepted table's channels.
    pub(super) fn take_shapes(&mut self, module: &Module) {
        let all = Queuing::all(module);
        let ends = |it: &Queuing| (it.channel.source, it.channel.destination);
        let ends: Vec<(Id, Id)> = all.iter().map(ends).collect();
        let partitions = module.partitions().len();
        let mut every = 1..=partitions;
        let ring = every.all(|k| ends.contains(&(k, k % partitions + 1)));
        let met_by = |of: fn(&(Id, Id)) -> Id, other: fn(&(Id, Id)) -> Id| {
            (1..=partitions).any(|k| {
                let mut others: Vec<Id> = ends.iter().filter(|it| of(it) == k).map(other).collect();
                others.sort_unstable();
                others.dedup();
                others.len() > 2
            })
        };
        let shapes = [
            !all.is_empty() && all.len() < module.channels().len(),
            partitions > 2 && ring,
            met_by(|it| it.1, |it| it.0),
            met_by(|it| it.0, |it| it.1),
            (1..ends.len()).any(|n| ends[..n].contains(&ends[n])),
            ends.iter()
                .any(|&(one, other)| ends.contains(&(other, one))),
        ];
        for (shape, holds) in SHAPES.iter().zip(shapes) {
            self.shapes[place(&SHAPES, shape)] += u64::from(holds);
        }
    }
}

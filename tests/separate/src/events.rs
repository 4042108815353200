//! Events chosen by looking at the record, so that calls of the current
//! partition, known ids and the edges of every rule come up.

use crate::calls::{LIMITS, MOST_TIME, WAITING};
use crate::line::{self, Line};
use crate::machine::{Answer, Event, LAST_CALL, USED};
use crate::record::{Blackboard, Buffer, Channel, EventFlag, Id, Mode, Module, Process};
use crate::record::{MessageQueue, Semaphore, Wait, LEVELS};
use crate::replay::Lines;
use crate::rng::Rng;
use crate::tables;

/// A number that no rule takes, as far out as a line goes.
const FAR: i64 = line::GREATEST;

/// A module and the next event chosen by looking at it.
pub struct Events {
    pub module: Module,
    pub(crate) rng: Rng,
    /// An event that comes so many times more before the next choice.
    burst: (Event, usize),
    mostly: Mostly,
}

/// What a run mostly does.
#[derive(Clone, Copy, PartialEq, Eq)]
enum Mostly {
    Anything,
    /// Queues for objects and passes messages.
    Passing,
    /// Sends and receives over queuing channels.
    Queuing,
    /// Starts and stops periodic processes.
    Starting,
    /// Locks preemption, and calls with and without the lock.
    Locking,
    /// Asks for the ticks left in the window.
    Asking,
}

/// Tells of a message queue and of how many wait to send and to receive.
type WantedQueue = fn(&MessageQueue, (usize, usize)) -> bool;

/// How often the tick and each call is chosen.
type Weights = [usize; USED.len()];

/// How often each call is made by a partition's main program: tick, 1, 2, ...
const START_WEIGHTS: Weights = [
    8, 5, 26, 13, 11, 2, 1, 4, 1, 1, 1, 4, 3, 3, 11, 1, 4, 10, 2, 2, 1, 4, 4, 12, 1, 1, 10, 4, 1,
    2, 1, 1, 1, 1, 2,
];

/// How often each call is made by a running process.
const NORMAL_WEIGHTS: Weights = [
    24, 1, 2, 8, 7, 3, 1, 6, 4, 6, 4, 8, 6, 6, 2, 11, 8, 2, 5, 5, 8, 7, 7, 2, 14, 11, 2, 6, 9, 5,
    1, 1, 3, 1, 3,
];

impl Events {
    /// An accepted table and a source of events for its module.
    pub fn with_table(seed: u64) -> (Vec<line::Six>, Events) {
        let mut rng = Rng::new(seed);
        let numbers = tables::accepted(&mut rng);
        let module = tables::module(&numbers).expect("an accepted table");
        (numbers, Events::of(module, rng))
    }

    /// The same where partitions have several windows and mostly start and
    /// stop periodic processes.
    pub fn of_starts(seed: u64) -> (Vec<line::Six>, Events) {
        Events::mostly(seed, tables::several_windows, Mostly::Starting)
    }

    /// The same where few partitions, most of them with channels, lock
    /// preemption again and again.
    pub fn of_locks(seed: u64) -> (Vec<line::Six>, Events) {
        Events::mostly(seed, tables::close_partitions, Mostly::Locking)
    }

    /// The same where windows follow one another at once and after gaps, and
    /// partitions mostly ask for the ticks left.
    pub fn of_ticks_left(seed: u64) -> (Vec<line::Six>, Events) {
        Events::mostly(seed, tables::windows_and_gaps, Mostly::Asking)
    }

    /// A table of this sort and events that mostly do this.
    fn mostly(
        seed: u64,
        table: fn(&mut Rng) -> Vec<line::Six>,
        mostly: Mostly,
    ) -> (Vec<line::Six>, Events) {
        let mut rng = Rng::new(seed);
        let numbers = table(&mut rng);
        let module = tables::module(&numbers).expect("an accepted table");
        let mut events = Events::of(module, rng);
        events.mostly = mostly;
        (numbers, events)
    }

    /// A source of events for a module.
    pub fn of(module: Module, mut rng: Rng) -> Events {
        let queuing = module.channels.iter().any(|it| it.queue().is_some());
        let mostly = match rng.below(10) {
            0..=6 if queuing => Mostly::Queuing,
            4..=7 => Mostly::Passing,
            _ => Mostly::Anything,
        };
        Events {
            module,
            rng,
            burst: (Event::TICK, 0),
            mostly,
        }
    }

    /// Chooses an event and steps the module by it.
    pub fn next_event(&mut self) -> (Event, Answer) {
        let event = self.choose();
        let answer = self.module.step(&event);
        (event, answer)
    }

    /// Steps the module by the good lines among these bytes.
    pub(crate) fn take_lines(&mut self, bytes: &[u8]) {
        let mut lines = Lines::new(bytes);
        while let Some(line) = lines.next_line() {
            if let Line::Six(six) = line {
                self.module.step(&Event::from_six(six));
            }
        }
    }

    /// Chooses an event and leaves the module as it is.
    pub fn choose(&mut self) -> Event {
        if self.burst.1 > 0 {
            self.burst.1 -= 1;
            return self.burst.0;
        }
        if self.rng.percent(3) {
            return self.malformed();
        }
        let own = self.module.current();
        let asking = self.mostly == Mostly::Asking;
        if own == 0 || self.rng.percent(if asking { 10 } else { 2 }) {
            return if self.rng.percent(if asking { 60 } else { 30 }) {
                self.call_by_other(own)
            } else {
                self.ticks()
            };
        }
        if self.rng.percent(30) && self.near_refresh(own) {
            return self.call(own, 22);
        }
        if self.rng.percent(30) && self.fills(own) {
            return self.call(own, 24);
        }
        let partition = self.module.partition(own);
        let weights = match partition.mode {
            Mode::Normal if partition.running() != 0 => self.normal_weights(own),
            Mode::ColdStart | Mode::WarmStart => self.start_weights(own),
            _ => return self.call_that_gets_9(own),
        };
        match self.rng.weighted(&weights) {
            0 => self.ticks(),
            32 => self.locks(own),
            33 => self.unlocks(own),
            call => self.call(own, call as i64),
        }
    }

    /// A periodic caller mostly works for a while and waits for its release.
    /// One that waits in a queue is suspended more often, and a suspended one
    /// that waits stopped or erased.
    fn normal_weights(&self, own: Id) -> Weights {
        let partition = self.module.partition(own);
        let mut weights = NORMAL_WEIGHTS;
        if partition.process(partition.running()).periodic() {
            weights[10] = 22;
        }
        if partition.processes.iter().any(may_suspend_waiter) {
            weights[7] += 4;
        }
        if partition.processes.iter().any(suspended_waiter) {
            weights[1] += 2;
            weights[5] += 3;
        }
        match self.mostly {
            Mostly::Anything => {}
            Mostly::Passing => {
                weights[0] = 12;
                for call in [5, 15, 16, 18, 20, 24, 25, 27, 28] {
                    weights[call] *= 2;
                }
            }
            Mostly::Queuing => self.weigh_channels(own, &mut weights),
            Mostly::Starting => weigh_starts(&mut weights),
            Mostly::Locking => self.weigh_locking(own, &mut weights),
            Mostly::Asking => weigh_asking(&mut weights),
        }
        if partition.locked() {
            // One call in seven or so.
            weights[33] = weights.iter().sum::<usize>() / 6;
        }
        weights
    }

    /// Who holds no lock often takes one; who holds one makes the calls that
    /// can wait, and ends it in other ways than by unlocking too.
    fn weigh_locking(&self, own: Id, weights: &mut Weights) {
        if self.module.channels.iter().any(|it| it.queue().is_some()) {
            self.weigh_channels(own, weights);
            weights[1] += 8 * self.awaiting(own);
        }
        if !self.module.partition(own).locked() {
            weights[32] = 25;
            return;
        }
        for call in WAITING {
            weights[call as usize] *= 2;
        }
        for call in [3, 4, 11, 16, 18, 27] {
            weights[call] *= 2;
        }
        weights[1] += 3;
        weights[6] = 3;
        weights[32] = 10;
    }

    /// Who is at an end of queuing channels mostly sends and receives, where
    /// no other process is READY mostly at once, and restarts more often where
    /// somebody waits there.
    fn weigh_channels(&self, own: Id, weights: &mut Weights) {
        let alone = self.module.partition(own).arrival.len() < 2;
        weights[0] = 20;
        for call in [2, 3, 4, 6, 8, 9].into_iter().chain(12..30) {
            weights[call] = weights[call].div_ceil(4);
        }
        for (n, channel) in (1..).zip(&self.module.channels) {
            let Some(queue) = channel.queue() else {
                continue;
            };
            let room = !queue.full() || self.waiters(n).1 > 0;
            if channel.source == own && (room || !alone) {
                weights[30] = 60;
            }
            if channel.destination == own && !(alone && queue.messages.is_empty()) {
                weights[31] = 50;
            }
        }
        weights[1] += usize::from(self.channels_wait(own)) + 4 * self.awaiting(own).pow(2);
    }

    /// On how many channels somebody waits to send to the partition.
    fn awaiting(&self, own: Id) -> usize {
        let channels = (1..).zip(&self.module.channels);
        channels
            .filter(|&(n, channel)| channel.destination == own && self.waiters(n).0 > 0)
            .count()
    }

    /// True if a queuing channel of the partition is full, or somebody waits
    /// at one of its ends.
    fn channels_wait(&self, own: Id) -> bool {
        (1..=self.module.channels.len()).any(|n| {
            let channel = &self.module.channels[n - 1];
            let full = channel.queue().is_some_and(MessageQueue::full);
            (channel.source == own || channel.destination == own)
                && (full || self.waiters(n) != (0, 0))
        })
    }

    /// How many wait to send and to receive on a channel.
    fn waiters(&self, n: Id) -> (usize, usize) {
        let channel = &self.module.channels[n - 1];
        let at = |end: Id| self.module.partition(end).ports[n - 1].len();
        (at(channel.source), at(channel.destination))
    }

    /// Where messages are passed more processes are started before NORMAL.
    fn start_weights(&self, own: Id) -> Weights {
        let mut weights = START_WEIGHTS;
        if self.mostly != Mostly::Anything {
            weights[2] *= 2;
            weights[3] *= 2;
        }
        let processes = &self.module.partition(own).processes;
        let few = processes.iter().filter(|it| it.started).count() < 5;
        if matches!(self.mostly, Mostly::Locking | Mostly::Asking) {
            weights[1] = if few { 1 } else { 15 };
        }
        if self.mostly == Mostly::Queuing {
            weights[1] = if few { 1 } else { 25 };
            weights[1] += 6 * self.awaiting(own).pow(2);
            weights[0] /= 4;
            for weight in &mut weights[14..] {
                *weight = weight.div_ceil(4);
            }
        }
        if self.mostly == Mostly::Starting {
            weigh_starts(&mut weights);
            weights[1] = 12;
            weights[2] = 44;
        }
        if self.mostly == Mostly::Asking {
            weights[34] = 80;
        }
        weights
    }

    /// A tick, often with more behind it, now and then up to the next frame.
    fn ticks(&mut self) -> Event {
        let rest = (self.module.frame - self.module.t % self.module.frame) as usize;
        let more = match self.rng.below(20) {
            0..=10 => 0,
            11..=17 => self.rng.below(6),
            _ => rest.min(40),
        };
        self.burst = (Event::TICK, more);
        Event::TICK
    }

    /// LOCK_PREEMPTION, often once or twice more, now and then until it is
    /// refused.
    fn locks(&mut self, own: Id) -> Event {
        let up = LEVELS - self.module.partition(own).lock.level;
        let more = match self.rng.below(20) {
            0 => up as usize,
            1..=4 => 1 + self.rng.below(2),
            _ => 0,
        };
        let event = self.call(own, 32);
        self.burst = (event, more);
        event
    }

    /// UNLOCK_PREEMPTION, once or down to level 0.
    fn unlocks(&mut self, own: Id) -> Event {
        let level = self.module.partition(own).lock.level;
        let more = match self.rng.below(2) {
            0 => 0,
            _ => (level - 1).max(0) as usize,
        };
        let event = self.call(own, 33);
        self.burst = (event, more);
        event
    }

    fn call_by_other(&mut self, own: Id) -> Event {
        let other = 1 + self.rng.below(self.module.partitions.len());
        let call = self.any_call();
        if other == own {
            return self.ticks();
        }
        self.call(other, call)
    }

    /// Any call; mostly 34 where partitions mostly ask.
    fn any_call(&mut self) -> i64 {
        if self.mostly == Mostly::Asking && self.rng.percent(60) {
            return 34;
        }
        self.rng.range(1, LAST_CALL)
    }

    fn call_that_gets_9(&mut self, own: Id) -> Event {
        let asking = self.mostly == Mostly::Asking;
        if self.rng.percent(if asking { 60 } else { 85 }) {
            return self.ticks();
        }
        let call = self.any_call();
        self.call(own, call)
    }

    /// An event for 13, by each of its reasons.
    fn malformed(&mut self) -> Event {
        let call = self.any_call();
        let rng = &mut self.rng;
        let partitions = self.module.partitions.len() as i64;
        let own = self.module.current().max(1) as i64;
        let zeros = [0; 4];
        match rng.below(6) {
            0 => {
                let partition = rng.pick(&[-1, partitions + 1, 9, FAR]);
                let call = rng.range(0, LAST_CALL);
                let partition = if partition <= partitions {
                    -1
                } else {
                    partition
                };
                Event {
                    partition,
                    call,
                    fields: zeros,
                }
            }
            1 => {
                let partition = rng.pick(&[own, 0, -1]);
                Event {
                    partition,
                    call: rng.pick(&[-1, LAST_CALL + 1, FAR]),
                    fields: zeros,
                }
            }
            2 => Event {
                partition: 0,
                call,
                fields: zeros,
            },
            3 => Event {
                partition: own,
                call: 0,
                fields: zeros,
            },
            4 => Event {
                fields: self.one_field(0),
                ..Event::TICK
            },
            _ => {
                let used = USED[call as usize];
                let mut fields = self.fields(own as Id, call);
                for (field, further) in fields[used..].iter_mut().zip(self.one_field(used)) {
                    *field = further;
                }
                Event {
                    partition: own,
                    call,
                    fields,
                }
            }
        }
    }

    /// Zeros but for one number in the first `4 - used` places.
    fn one_field(&mut self, used: usize) -> [i64; 4] {
        let mut fields = [0; 4];
        if used < 4 {
            fields[self.rng.below(4 - used)] = self.rng.pick(&[1, 2, -1, FAR]);
        }
        fields
    }

    /// A call with fields that fit its partition's record for the most part.
    fn call(&mut self, own: Id, call: i64) -> Event {
        Event {
            partition: own as i64,
            call,
            fields: self.fields(own, call),
        }
    }

    fn fields(&mut self, own: Id, call: i64) -> [i64; 4] {
        match call {
            1 => [self.mode(own), 0, 0, 0],
            2 => self.new_process(own),
            3 => [self.process(own, Process::dormant), 0, 0, 0],
            4 => self.delayed_start(own),
            5 => [self.process_to_stop(own), 0, 0, 0],
            7 => [self.process_to_suspend(own), 0, 0, 0],
            8 | 9 => [self.time_out(own), 0, 0, 0],
            11 => [self.process(own, |process| process.suspended), 0, 0, 0],
            12 => [
                self.process(own, |process| process.started),
                self.priority(),
                0,
                0,
            ],
            13 => [self.process(own, |_| true), 0, 0, 0],
            14 => self.new_semaphore(own),
            15 => [self.semaphore_to_wait(own), self.time_out(own), 0, 0],
            16 => [self.semaphore(own, |it| !it.queue.is_empty()), 0, 0, 0],
            17 => [self.name(own, 17), 0, 0, 0],
            18 => [self.event(own, |it| !it.queue.is_empty()), 0, 0, 0],
            19 => [self.event(own, |it| it.up), 0, 0, 0],
            20 => [self.event_to_wait(own), self.time_out(own), 0, 0],
            21 => [self.source_channel(own), self.message(), 0, 0],
            22 => [self.destination_channel(own), 0, 0, 0],
            23..=31 => self.message_fields(own, call),
            _ => [0; 4],
        }
    }

    /// The fields of calls 23 to 31.
    fn message_fields(&mut self, own: Id, call: i64) -> [i64; 4] {
        match call {
            23 => [self.name(own, 23), self.limit(), 0, 0],
            24 => [
                self.buffer_to_send(own),
                self.passed_message(),
                self.time_out(own),
                0,
            ],
            25 => [self.buffer_to_receive(own), self.time_out(own), 0, 0],
            26 => [self.name(own, 26), 0, 0, 0],
            27 => [
                self.blackboard(own, |it| !it.queue.is_empty()),
                self.passed_message(),
                0,
                0,
            ],
            28 => [self.blackboard_to_read(own), self.time_out(own), 0, 0],
            29 => [self.blackboard(own, |it| it.message.is_some()), 0, 0, 0],
            30 => [
                self.channel_to_send(own),
                self.passed_message(),
                self.long_time_out(own),
                0,
            ],
            _ => [self.channel_to_receive(own), self.long_time_out(own), 0, 0],
        }
    }

    /// Mostly NORMAL once a process is started; restarts and IDLE are rare,
    /// less so where a suspended process waits, where a restart tells on a
    /// queuing channel, or where it ends a lock.
    fn mode(&mut self, own: Id) -> i64 {
        let partition = self.module.partition(own);
        let started = partition.processes.iter().any(|process| process.started);
        let waits = partition.processes.iter().any(suspended_waiter) || self.channels_wait(own);
        let weights = match partition.mode {
            // 0, 1, 2, 3, out of range
            Mode::Normal if partition.locked() => [6, 20, 24, 25, 25],
            Mode::Normal if self.mostly == Mostly::Asking => [2, 25, 40, 16, 17],
            Mode::Normal if waits || self.mostly == Mostly::Starting => [1, 25, 35, 20, 19],
            Mode::Normal => [1, 8, 10, 50, 31],
            _ if self.awaiting(own) > 0 => [3, 20, 25, 40, 12],
            _ if started && waits => [1, 5, 12, 72, 10],
            _ if started => [1, 2, 4, 83, 10],
            _ => [1, 5, 10, 14, 70],
        };
        match self.rng.weighted(&weights) {
            4 => self.rng.pick(&[-1, 4, 4, FAR]),
            mode => mode as i64,
        }
    }

    /// A name for a creating call: mostly a new one, sometimes a known one or
    /// one out of range.
    fn name(&mut self, own: Id, call: i64) -> i64 {
        if self.rng.percent(12) {
            if let Some(name) = self.known_name(own, call) {
                return name;
            }
        }
        match self.rng.below(20) {
            0 => self.rng.pick(&[0, -1, 256, FAR]),
            1 => self.rng.pick(&[1, 255]),
            _ => self.rng.range(1, 255),
        }
    }

    /// A name that exists among the kind that the call creates.
    fn known_name(&mut self, own: Id, call: i64) -> Option<i64> {
        let partition = self.module.partition(own);
        let names: Vec<i64> = match call {
            2 => partition.processes.iter().map(|it| it.name).collect(),
            14 => partition.semaphores.iter().map(|it| it.name).collect(),
            23 => partition.buffers.iter().map(|it| it.name).collect(),
            26 => partition.blackboards.iter().map(|it| it.name).collect(),
            _ => partition.events.iter().map(|it| it.name).collect(),
        };
        (!names.is_empty()).then(|| self.rng.pick(&names))
    }

    fn priority(&mut self) -> i64 {
        match self.rng.below(20) {
            0..=1 => self.rng.pick(&[0, -1, 240, FAR]),
            2 => self.rng.pick(&[1, 239]),
            _ => self.rng.range(1, 5),
        }
    }

    fn new_process(&mut self, own: Id) -> [i64; 4] {
        let priority = if self.rng.percent(40) {
            self.priority()
        } else {
            self.rng.range(1, 5)
        };
        let period = self.period();
        [self.name(own, 2), priority, period, self.capacity(period)]
    }

    /// Aperiodic, multiples of M, and the edges of both rules.
    fn period(&mut self) -> i64 {
        let frame = self.module.frame;
        let last_multiple = MOST_TIME / frame * frame;
        if self.mostly == Mostly::Starting && self.rng.percent(60) {
            return frame * self.rng.range(1, 3);
        }
        match self.rng.below(40) {
            0..=23 => -1,
            24..=33 => frame * self.rng.range(1, 3),
            34 => frame + 1,
            35 => self.rng.pick(&[0, frame - 1, 2 * frame + 1]),
            36 => last_multiple,
            37 => last_multiple + frame,
            38 => self.rng.pick(&[MOST_TIME, MOST_TIME + 1, FAR]),
            _ => 2 * frame,
        }
    }

    fn capacity(&mut self, period: i64) -> i64 {
        match self.rng.below(20) {
            0..=5 => -1,
            6..=15 if period > 0 && period <= MOST_TIME => self.rng.range(1, period),
            6..=15 => self.rng.range(1, 20),
            16 if period > 0 => period,
            17 if period > 0 => (period + 1).min(FAR),
            18 => self.rng.pick(&[0, MOST_TIME, MOST_TIME + 1, FAR]),
            _ => self.rng.pick(&[1, 2, 3]),
        }
    }

    fn delayed_start(&mut self, own: Id) -> [i64; 4] {
        let id = self.process(own, Process::dormant);
        let partition = self.module.partition(own);
        let period = partition
            .process_id(id)
            .and_then(|id| partition.process(id).period);
        let delay = match (period, self.rng.below(20)) {
            (_, 0) => self.rng.pick(&[-1, MOST_TIME + 1, FAR]),
            (_, 1) => MOST_TIME,
            (_, 2..=4) => 0,
            (Some(period), 5..=7) => period - 1,
            (Some(period), 8..=9) => period,
            (Some(period), _) => self.rng.range(0, period - 1).min(self.rng.range(0, 10)),
            (None, 5) => self.rng.range(1, 2 * self.module.frame),
            (None, _) => self.rng.range(1, 8),
        };
        [id, delay, 0, 0]
    }

    fn new_semaphore(&mut self, own: Id) -> [i64; 4] {
        let max = match self.rng.below(12) {
            0 => self.rng.pick(&[0, -1, 32_768, FAR]),
            1 => 32_767,
            _ => self.rng.range(1, 3),
        };
        let start = match self.rng.below(12) {
            0 => self.rng.pick(&[-1, max + 1, FAR]),
            1..=2 => max,
            _ => self.rng.range(0, max.clamp(0, 3)),
        };
        [self.name(own, 14), start.clamp(-1, FAR), max, 0]
    }

    /// Mostly small, so that buffers fill; the greatest too, and those beyond.
    fn limit(&mut self) -> i64 {
        let greatest = *LIMITS.end();
        match self.rng.below(12) {
            0 => self.rng.pick(&[0, -1, greatest + 1, FAR]),
            1 => greatest,
            2..=6 => 1,
            _ => self.rng.range(2, 4),
        }
    }

    /// A message for a buffer or a blackboard, often one that came before.
    fn passed_message(&mut self) -> i64 {
        if self.rng.percent(30) {
            return self.rng.range(0, 3);
        }
        self.message()
    }

    /// A process to stop: often one that waits in a queue or is suspended.
    fn process_to_stop(&mut self, own: Id) -> i64 {
        match self.rng.below(4) {
            0 => self.process(own, |process| process.wait.queued()),
            1 => self.process(own, suspended_waiter),
            _ => self.process(own, |process| process.started),
        }
    }

    /// A process to suspend: often one that waits in a queue.
    fn process_to_suspend(&mut self, own: Id) -> i64 {
        if self.rng.percent(60) {
            return self.process(own, may_suspend_waiter);
        }
        self.process(own, may_suspend)
    }

    /// An id: mostly of a process of the wanted sort, sometimes unknown.
    fn process(&mut self, own: Id, wanted: impl Fn(&Process) -> bool) -> i64 {
        pick_id(&mut self.rng, &self.module.partition(own).processes, wanted)
    }

    fn semaphore(&mut self, own: Id, wanted: impl Fn(&Semaphore) -> bool) -> i64 {
        pick_id(
            &mut self.rng,
            &self.module.partition(own).semaphores,
            wanted,
        )
    }

    fn event(&mut self, own: Id, wanted: impl Fn(&EventFlag) -> bool) -> i64 {
        pick_id(&mut self.rng, &self.module.partition(own).events, wanted)
    }

    /// True if a process runs that may fill one of the greatest buffers.
    fn fills(&self, own: Id) -> bool {
        let partition = self.module.partition(own);
        partition.running() != 0 && partition.buffers.iter().any(is_being_filled)
    }

    /// A semaphore to wait for: often one at 0, or one with waiters.
    fn semaphore_to_wait(&mut self, own: Id) -> i64 {
        let wanted = self.rng.pick(&[
            |it: &Semaphore| it.value == 0,
            |it: &Semaphore| !it.queue.is_empty(),
        ]);
        self.semaphore(own, wanted)
    }

    /// An event to wait for: often one that is DOWN, or one with waiters.
    fn event_to_wait(&mut self, own: Id) -> i64 {
        let wanted = self.rng.pick(&[
            |it: &EventFlag| !it.up,
            |it: &EventFlag| !it.queue.is_empty(),
        ]);
        self.event(own, wanted)
    }

    /// A buffer to send to: often a full one, one with waiters, or one that is
    /// being filled.
    fn buffer_to_send(&mut self, own: Id) -> i64 {
        let wanted = self.rng.pick(&[
            (|it| it.queue.full()) as fn(&Buffer) -> bool,
            |it| !it.senders.is_empty(),
            |it| !it.receivers.is_empty(),
            is_being_filled,
            is_being_filled,
        ]);
        pick_id(&mut self.rng, &self.module.partition(own).buffers, wanted)
    }

    /// A buffer to receive from: often an empty one, or one with waiters.
    fn buffer_to_receive(&mut self, own: Id) -> i64 {
        let wanted = self.rng.pick(&[
            |it: &Buffer| it.queue.messages.is_empty(),
            |it: &Buffer| !it.senders.is_empty(),
            |it: &Buffer| !it.receivers.is_empty(),
        ]);
        pick_id(&mut self.rng, &self.module.partition(own).buffers, wanted)
    }

    fn blackboard(&mut self, own: Id, wanted: impl Fn(&Blackboard) -> bool) -> i64 {
        pick_id(
            &mut self.rng,
            &self.module.partition(own).blackboards,
            wanted,
        )
    }

    /// A blackboard to read: often an empty one, or one with waiting readers.
    fn blackboard_to_read(&mut self, own: Id) -> i64 {
        let wanted = self.rng.pick(&[
            |it: &Blackboard| it.message.is_none(),
            |it: &Blackboard| !it.queue.is_empty(),
        ]);
        self.blackboard(own, wanted)
    }

    /// A channel to write to, mostly a sampling one with the partition as its
    /// source.
    fn source_channel(&mut self, own: Id) -> i64 {
        pick_id(&mut self.rng, &self.module.channels, |channel| {
            channel.source == own && channel.queue().is_none()
        })
    }

    /// A queuing channel to send to: often a full one, or one with waiters;
    /// one with room where no other process is READY.
    fn channel_to_send(&mut self, own: Id) -> i64 {
        let choices: [WantedQueue; 4] = [
            |queue, _| !queue.full(),
            |queue, _| queue.full(),
            |_, (senders, _)| senders > 0,
            |_, (_, receivers)| receivers > 0,
        ];
        let wanted = choices[self.first_if_alone(own, choices.len())];
        self.queuing_channel(|channel| channel.source == own, wanted)
    }

    /// A queuing channel to receive from: often an empty one, or one with
    /// waiters; one with messages where no other process is READY.
    fn channel_to_receive(&mut self, own: Id) -> i64 {
        let choices: [WantedQueue; 4] = [
            |queue, _| !queue.messages.is_empty(),
            |queue, _| queue.messages.is_empty(),
            |_, (senders, _)| senders > 0,
            |_, (_, receivers)| receivers > 0,
        ];
        let wanted = choices[self.first_if_alone(own, choices.len())];
        self.queuing_channel(|channel| channel.destination == own, wanted)
    }

    /// The first of some choices where no other process is READY, else any.
    fn first_if_alone(&mut self, own: Id, choices: usize) -> usize {
        let alone = self.module.partition(own).arrival.len() < 2;
        match alone && self.rng.percent(90) {
            true => 0,
            false => self.rng.below(choices),
        }
    }

    /// A queuing channel of the partition, with such messages and so many
    /// waiters of each end if there is one.
    fn queuing_channel(&mut self, own: impl Fn(&Channel) -> bool, wanted: WantedQueue) -> i64 {
        let queue = |channel: &'_ Channel| channel.queue().is_some() && own(channel);
        let channels = &self.module.channels;
        let mut fit: Vec<bool> = channels.iter().map(&queue).collect();
        let best = |n: Id| {
            let held = channels[n - 1].queue();
            fit[n - 1] && held.is_some_and(|held| wanted(held, self.waiters(n)))
        };
        let best: Vec<bool> = (1..=fit.len()).map(best).collect();
        if best.contains(&true) {
            fit = best;
        }
        pick_id(&mut self.rng, &fit, |&fits| fits)
    }

    /// A channel to read from, one about to grow old first.
    fn destination_channel(&mut self, own: Id) -> i64 {
        let (t, near) = (self.module.t, self.near_refresh(own));
        pick_id(&mut self.rng, &self.module.channels, |channel| {
            channel.destination == own
                && channel.queue().is_none()
                && (!near || about_to_age(channel, t))
        })
    }

    /// True if a message into the partition is at refresh or one past it.
    fn near_refresh(&self, own: Id) -> bool {
        let mut into = self
            .module
            .channels
            .iter()
            .filter(|channel| channel.destination == own);
        into.any(|channel| about_to_age(channel, self.module.t))
    }

    fn message(&mut self) -> i64 {
        match self.rng.below(12) {
            0 => self.rng.pick(&[-1, MOST_TIME + 1, FAR]),
            1 => self.rng.pick(&[0, MOST_TIME]),
            _ => self.rng.range(0, 1000),
        }
    }

    /// A time-out that lasts into other partitions' windows more often.
    fn long_time_out(&mut self, own: Id) -> i64 {
        let alone = self.module.partition(own).arrival.len() < 2;
        match self.rng.below(10) {
            0..=4 if !alone => self.rng.range(1, 3 * self.module.frame),
            5..=7 if !alone => -1,
            _ => self.time_out(own),
        }
    }

    /// A time-out; never and very long only where another process is READY.
    fn time_out(&mut self, own: Id) -> i64 {
        let alone = self.module.partition(own).arrival.len() < 2 && self.rng.percent(90);
        match self.rng.below(24) {
            0..=3 => 0,
            4 => self.rng.pick(&[MOST_TIME + 1, FAR]),
            5..=7 if !alone => -1,
            8 if !alone => MOST_TIME,
            9..=10 => self.rng.range(1, 2 * self.module.frame),
            11 => 1,
            _ => self.rng.range(1, 6),
        }
    }
}

/// Mostly ticks, restarts, starts and stops.
fn weigh_starts(weights: &mut Weights) {
    for weight in weights[6..].iter_mut() {
        *weight = weight.div_ceil(4);
    }
    weights[..6].copy_from_slice(&[20, 4, 1, 20, 20, 20]);
    weights[10] = 6;
}

/// Mostly ticks and GET_TICKS_LEFT, with mode changes between them.
fn weigh_asking(weights: &mut Weights) {
    for weight in weights[2..].iter_mut() {
        *weight = weight.div_ceil(4);
    }
    weights[..2].copy_from_slice(&[20, 5]);
    weights[34] = 80;
}

/// The number of an item of the wanted sort for the most part, else of any
/// item, sometimes of none.
fn pick_id<T>(rng: &mut Rng, items: &[T], wanted: impl Fn(&T) -> bool) -> i64 {
    let count = items.len();
    if count == 0 || rng.percent(6) {
        return rng.pick(&[0, -1, count as i64 + 1, 17, FAR]);
    }
    let from = rng.below(count);
    let mut places = (from..count).chain(0..from);
    let fitting = places.find(|&place| wanted(&items[place]));
    match fitting {
        Some(place) if rng.percent(70) => place as i64 + 1,
        _ => rng.range(1, count as i64),
    }
}

fn about_to_age(channel: &Channel, t: i64) -> bool {
    let age = channel.message().map_or(-1, |message| t - message.written);
    age == channel.refresh || age == channel.refresh + 1
}

/// True of a buffer of the greatest limit that holds some messages.
fn is_being_filled(buffer: &Buffer) -> bool {
    buffer.queue.limit as i64 == *LIMITS.end()
        && buffer.queue.messages.len() > 3
        && !buffer.queue.full()
}

fn may_suspend(process: &Process) -> bool {
    process.started && !process.periodic() && !process.suspended
}

fn may_suspend_waiter(process: &Process) -> bool {
    process.wait.queued() && may_suspend(process)
}

fn suspended_waiter(process: &Process) -> bool {
    process.wait != Wait::None && process.suspended
}

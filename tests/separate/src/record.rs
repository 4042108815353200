//! The module record ("Module record" of document 01; buffers, blackboards,
//! queuing channels, the preemption lock and the ticks left in a window of
//! document 02, a, b, e and f).

use std::collections::VecDeque;

/// Ids, partition numbers and channel numbers count from 1.
pub type Id = usize;

pub const PROCESSES: usize = 16;
pub const SEMAPHORES: usize = 8;
pub const EVENTS: usize = 8;
pub const BUFFERS: usize = 8;
pub const BLACKBOARDS: usize = 8;
/// The greatest level of a preemption lock.
pub const LEVELS: i64 = 16;

/// Time ends here.
pub const LAST_TIME: i64 = 99_999_999;

#[derive(Clone, Copy, Debug, PartialEq, Eq)]
pub enum Mode {
    Idle,
    ColdStart,
    WarmStart,
    Normal,
}

impl Mode {
    pub fn number(self) -> i64 {
        match self {
            Mode::Idle => 0,
            Mode::ColdStart => 1,
            Mode::WarmStart => 2,
            Mode::Normal => 3,
        }
    }

    pub fn from_number(number: i64) -> Option<Mode> {
        match number {
            0 => Some(Mode::Idle),
            1 => Some(Mode::ColdStart),
            2 => Some(Mode::WarmStart),
            3 => Some(Mode::Normal),
            _ => None,
        }
    }
}

/// What a process waits for.
#[derive(Clone, Copy, Debug, PartialEq, Eq)]
pub enum Wait {
    None,
    Normal,
    Delay,
    Timed,
    Period,
    Semaphore(Id),
    Event(Id),
    /// For room in a message queue; the message is kept with the wait.
    Sending {
        to: QueueId,
        message: i64,
    },
    /// For a message of a message queue.
    Receiving(QueueId),
    /// For a message on a blackboard.
    Blackboard(Id),
}

/// A message queue, as one of its ends names it: a buffer of the partition or
/// a queuing channel.
#[derive(Clone, Copy, Debug, PartialEq, Eq)]
pub enum QueueId {
    Buffer(Id),
    Channel(Id),
}

impl Wait {
    /// True if a process that waits so stands in a queue.
    pub fn queued(self) -> bool {
        match self {
            Wait::None | Wait::Normal | Wait::Delay | Wait::Timed | Wait::Period => false,
            Wait::Semaphore(_)
            | Wait::Event(_)
            | Wait::Sending { .. }
            | Wait::Receiving(_)
            | Wait::Blackboard(_) => true,
        }
    }
}

/// A process. `None` stands for -1 (never, aperiodic, no capacity).
#[derive(Clone, Debug, PartialEq, Eq)]
pub struct Process {
    pub name: i64,
    pub base: i64,
    pub current: i64,
    pub period: Option<i64>,
    pub capacity: Option<i64>,
    pub release: Option<i64>,
    pub deadline: Option<i64>,
    pub wake: Option<i64>,
    pub delay: i64,
    pub suspended: bool,
    pub missed: bool,
    pub wake_code: i64,
    /// The message last handed over to it while it waited; it stays till the
    /// next.
    pub message: i64,
    /// False is DORMANT.
    pub started: bool,
    pub wait: Wait,
}

impl Process {
    /// Created: DORMANT, four fields as given, no wait, r, d, w -1, the rest 0.
    pub fn created(name: i64, base: i64, period: Option<i64>, capacity: Option<i64>) -> Process {
        Process {
            name,
            base,
            current: 0,
            period,
            capacity,
            release: None,
            deadline: None,
            wake: None,
            delay: 0,
            suspended: false,
            missed: false,
            wake_code: 0,
            message: 0,
            started: false,
            wait: Wait::None,
        }
    }

    pub fn dormant(&self) -> bool {
        !self.started
    }

    pub fn periodic(&self) -> bool {
        self.period.is_some()
    }

    /// READY if started, waiting for nothing and not suspended.
    pub fn ready(&self) -> bool {
        self.started && self.wait == Wait::None && !self.suspended
    }
}

/// A semaphore and the ids that wait for it, first come first.
#[derive(Clone, Debug, PartialEq, Eq)]
pub struct Semaphore {
    pub name: i64,
    pub value: i64,
    pub max: i64,
    pub queue: VecDeque<Id>,
}

/// An event of a partition (UP or DOWN) and the ids that wait for it.
#[derive(Clone, Debug, PartialEq, Eq)]
pub struct EventFlag {
    pub name: i64,
    pub up: bool,
    pub queue: VecDeque<Id>,
}

/// The messages of a buffer or of a queuing channel, first in first out.
#[derive(Clone, Debug, PartialEq, Eq)]
pub struct MessageQueue {
    /// The most messages that it holds.
    pub limit: usize,
    pub messages: VecDeque<i64>,
}

impl MessageQueue {
    pub fn empty(limit: usize) -> MessageQueue {
        MessageQueue {
            limit,
            messages: VecDeque::with_capacity(limit),
        }
    }

    pub fn full(&self) -> bool {
        self.messages.len() == self.limit
    }
}

/// A buffer: its messages, and the ids that wait to send while it is full or
/// to receive while it is empty.
#[derive(Clone, Debug, PartialEq, Eq)]
pub struct Buffer {
    pub name: i64,
    pub queue: MessageQueue,
    pub senders: VecDeque<Id>,
    pub receivers: VecDeque<Id>,
}

/// A blackboard: the message that it shows, and the ids that wait for one.
#[derive(Clone, Debug, PartialEq, Eq)]
pub struct Blackboard {
    pub name: i64,
    pub message: Option<i64>,
    pub queue: VecDeque<Id>,
}

/// A partition's preemption lock: its level, and the process that raised it
/// from 0. The holder is 0 while the level is.
#[derive(Clone, Copy, Debug, PartialEq, Eq)]
pub struct Lock {
    pub level: i64,
    pub holder: Id,
}

impl Lock {
    pub const OPEN: Lock = Lock {
        level: 0,
        holder: 0,
    };
}

#[derive(Clone, Debug, PartialEq, Eq)]
pub struct Partition {
    pub mode: Mode,
    pub processes: Vec<Process>,
    pub semaphores: Vec<Semaphore>,
    pub events: Vec<EventFlag>,
    pub buffers: Vec<Buffer>,
    pub blackboards: Vec<Blackboard>,
    /// For each channel, the ids that wait at its end in this partition: to
    /// send at its source, to receive at its destination.
    pub ports: Vec<VecDeque<Id>>,
    /// The READY processes in order of arrival.
    pub arrival: VecDeque<Id>,
    pub lock: Lock,
}

impl Partition {
    /// Fresh: COLD_START with nothing created and no lock.
    pub fn fresh(channels: usize) -> Partition {
        Partition {
            mode: Mode::ColdStart,
            processes: Vec::with_capacity(PROCESSES),
            semaphores: Vec::with_capacity(SEMAPHORES),
            events: Vec::with_capacity(EVENTS),
            buffers: Vec::with_capacity(BUFFERS),
            blackboards: Vec::with_capacity(BLACKBOARDS),
            ports: vec![VecDeque::new(); channels],
            arrival: VecDeque::with_capacity(PROCESSES),
            lock: Lock::OPEN,
        }
    }

    /// True while the level of the preemption lock is above 0.
    pub fn locked(&self) -> bool {
        self.lock.level > 0
    }

    pub fn process(&self, id: Id) -> &Process {
        &self.processes[id - 1]
    }

    /// The id if a process has it.
    pub fn process_id(&self, number: i64) -> Option<Id> {
        known(number, self.processes.len())
    }

    pub fn semaphore_id(&self, number: i64) -> Option<Id> {
        known(number, self.semaphores.len())
    }

    pub fn event_id(&self, number: i64) -> Option<Id> {
        known(number, self.events.len())
    }

    pub fn buffer_id(&self, number: i64) -> Option<Id> {
        known(number, self.buffers.len())
    }

    pub fn blackboard_id(&self, number: i64) -> Option<Id> {
        known(number, self.blackboards.len())
    }

    /// Changes a process and keeps the arrival list: becoming READY appends,
    /// ceasing removes.
    pub fn change(&mut self, id: Id, change: impl FnOnce(&mut Process)) {
        let process = &mut self.processes[id - 1];
        let before = process.ready();
        change(process);
        match (before, process.ready()) {
            (false, true) => self.arrival.push_back(id),
            (true, false) => leave(&mut self.arrival, id),
            _ => {}
        }
    }

    /// Moves a READY process to the end of the arrival list.
    pub fn move_to_end(&mut self, id: Id) {
        if self.process(id).ready() {
            leave(&mut self.arrival, id);
            self.arrival.push_back(id);
        }
    }

    /// The queue of those that wait so, if it is a wait in a queue.
    fn queue(&mut self, wait: Wait) -> Option<&mut VecDeque<Id>> {
        match wait {
            Wait::None | Wait::Normal | Wait::Delay | Wait::Timed | Wait::Period => None,
            Wait::Semaphore(of) => Some(&mut self.semaphores[of - 1].queue),
            Wait::Event(of) => Some(&mut self.events[of - 1].queue),
            Wait::Sending { to, .. } => Some(self.senders(to)),
            Wait::Receiving(from) => Some(self.receivers(from)),
            Wait::Blackboard(of) => Some(&mut self.blackboards[of - 1].queue),
        }
    }

    /// The ids that wait to send to a message queue.
    pub fn senders(&mut self, to: QueueId) -> &mut VecDeque<Id> {
        match to {
            QueueId::Buffer(of) => &mut self.buffers[of - 1].senders,
            QueueId::Channel(of) => &mut self.ports[of - 1],
        }
    }

    /// The ids that wait to receive from a message queue.
    pub fn receivers(&mut self, from: QueueId) -> &mut VecDeque<Id> {
        match from {
            QueueId::Buffer(of) => &mut self.buffers[of - 1].receivers,
            QueueId::Channel(of) => &mut self.ports[of - 1],
        }
    }

    /// Puts a process last into the queue that it waits in, if any.
    pub fn join_queue(&mut self, id: Id) {
        let wait = self.process(id).wait;
        if let Some(queue) = self.queue(wait) {
            queue.push_back(id);
        }
    }

    /// Takes a process out of the queue that it waits in, if any.
    pub fn leave_queue(&mut self, id: Id) {
        let wait = self.process(id).wait;
        if let Some(queue) = self.queue(wait) {
            leave(queue, id);
        }
    }

    /// A signal ends a wait: w -1, wake code 0; a suspended mark stays.
    pub fn end_wait_by_signal(&mut self, id: Id) {
        self.change(id, |process| {
            process.wait = Wait::None;
            process.wake = None;
            process.wake_code = 0;
        });
    }

    /// A message handed over to a waiter goes into its process record, beside
    /// the wake code; its wait ends as by a signal.
    pub fn hand_over(&mut self, id: Id, message: i64) {
        self.processes[id - 1].message = message;
        self.end_wait_by_signal(id);
    }

    /// In NORMAL the holder of the lock; where there is none, the READY process
    /// of greatest current priority, first in the arrival list among equals; 0
    /// if there is none or the mode is not NORMAL.
    pub fn running(&self) -> Id {
        if self.mode != Mode::Normal {
            return 0;
        }
        if self.locked() {
            return self.lock.holder;
        }
        let mut running = 0;
        let mut greatest = i64::MIN;
        for &id in &self.arrival {
            let priority = self.process(id).current;
            if priority > greatest {
                (running, greatest) = (id, priority);
            }
        }
        running
    }

    /// Erases what modes 0, 1 and 2 erase inside the partition, those who wait
    /// at its ends of channels too, and opens its lock.
    pub fn erase(&mut self) {
        self.processes.clear();
        self.semaphores.clear();
        self.events.clear();
        self.buffers.clear();
        self.blackboards.clear();
        self.ports.iter_mut().for_each(VecDeque::clear);
        self.arrival.clear();
        self.lock = Lock::OPEN;
    }
}

fn known(number: i64, count: usize) -> Option<Id> {
    let id = Id::try_from(number).ok()?;
    (1..=count).contains(&id).then_some(id)
}

fn leave(queue: &mut VecDeque<Id>, id: Id) {
    queue.retain(|&other| other != id);
}

#[derive(Clone, Debug, PartialEq, Eq)]
pub struct Window {
    pub start: i64,
    pub duration: i64,
    pub partition: Id,
    pub flag: bool,
}

impl Window {
    /// The tick of the frame before which it ends.
    pub fn end(&self) -> i64 {
        self.start + self.duration
    }
}

#[derive(Clone, Copy, Debug, PartialEq, Eq)]
pub struct Message {
    pub value: i64,
    pub written: i64,
}

/// What a channel of each kind keeps.
#[derive(Clone, Debug, PartialEq, Eq)]
pub enum Kind {
    /// The latest message.
    Sampling(Option<Message>),
    Queuing(MessageQueue),
}

#[derive(Clone, Debug, PartialEq, Eq)]
pub struct Channel {
    pub source: Id,
    pub destination: Id,
    pub refresh: i64,
    pub kind: Kind,
}

impl Channel {
    /// The message of a sampling channel, if there is one.
    pub fn message(&self) -> Option<Message> {
        match self.kind {
            Kind::Sampling(message) => message,
            Kind::Queuing(_) => None,
        }
    }

    /// The messages of a queuing channel.
    pub fn queue(&self) -> Option<&MessageQueue> {
        match &self.kind {
            Kind::Sampling(_) => None,
            Kind::Queuing(queue) => Some(queue),
        }
    }
}

/// The whole module. Its fields are open to look at, but only table reading
/// and events make one.
#[derive(Clone, Debug, PartialEq, Eq)]
pub struct Module {
    pub(crate) t: i64,
    /// Ticks of the major frame, M.
    pub(crate) frame: i64,
    pub(crate) windows: Vec<Window>,
    pub(crate) channels: Vec<Channel>,
    pub(crate) partitions: Vec<Partition>,
    /// What the window lookup yields at t.
    pub(crate) current: Id,
    pub(crate) ticks_left: i64,
}

impl Module {
    /// The empty record that a refused table gives: M, P and all else 0.
    pub fn empty() -> Module {
        Module {
            t: 0,
            frame: 0,
            windows: Vec::new(),
            channels: Vec::new(),
            partitions: Vec::new(),
            current: 0,
            ticks_left: 0,
        }
    }

    /// The record that reading an accepted table gives.
    pub(crate) fn fresh(
        frame: i64,
        partitions: usize,
        windows: Vec<Window>,
        channels: Vec<Channel>,
    ) -> Module {
        let fresh = |_| Partition::fresh(channels.len());
        let mut module = Module {
            t: 0,
            frame,
            windows,
            partitions: (0..partitions).map(fresh).collect(),
            channels,
            current: 0,
            ticks_left: 0,
        };
        (module.current, module.ticks_left) = module.window_lookup(0);
        module
    }

    pub fn is_empty(&self) -> bool {
        self.partitions.is_empty()
    }

    pub fn t(&self) -> i64 {
        self.t
    }

    pub fn frame(&self) -> i64 {
        self.frame
    }

    pub fn windows(&self) -> &[Window] {
        &self.windows
    }

    pub fn channels(&self) -> &[Channel] {
        &self.channels
    }

    pub fn partitions(&self) -> &[Partition] {
        &self.partitions
    }

    pub fn partition(&self, id: Id) -> &Partition {
        &self.partitions[id - 1]
    }

    /// The current partition, 0 if none.
    pub fn current(&self) -> Id {
        self.current
    }

    /// The ticks until the current window ends, or until the next start where
    /// there is none.
    pub fn ticks_left(&self) -> i64 {
        self.ticks_left
    }

    /// The window lookup (document 02, f): the partition that owns the window
    /// with start <= t mod M < start + duration, and the ticks until this
    /// window ends, whatever follows it; where there is none, 0 and the ticks
    /// until the next start of any window, in this frame or in the next one.
    /// The empty record gives 0 and 0.
    pub fn window_lookup(&self, t: i64) -> (Id, i64) {
        let Some(first) = self.windows.first() else {
            return (0, 0);
        };
        let place = t % self.frame;
        // A table has its windows in order of time.
        let mut windows = self.windows.iter();
        match windows.find(|window| place < window.end()) {
            Some(window) if window.start <= place => (window.partition, window.end() - place),
            Some(window) => (0, window.start - place),
            None => (0, self.frame + first.start - place),
        }
    }

    /// The running process of the current partition, 0 if none.
    pub fn running(&self) -> Id {
        match self.current {
            0 => 0,
            current => self.partition(current).running(),
        }
    }

    /// The earliest start of a window with flag 1, of that partition, strictly
    /// after t (document 02, d): in this frame or in the next one.
    pub(crate) fn next_flagged_start(&self, partition: Id) -> i64 {
        let this_frame = self.t - self.t % self.frame;
        let next_frame = this_frame + self.frame;
        self.windows
            .iter()
            .filter(|window| window.partition == partition && window.flag)
            .flat_map(|window| [this_frame + window.start, next_frame + window.start])
            .filter(|&start| start > self.t)
            .min()
            .expect("every partition has a window with flag 1")
    }
}

//! What holds of the record after any list of events.

use separate::events::Events;
use separate::line;
use separate::record::{MessageQueue, Mode, Module, Partition, Process, QueueId, Wait};
use separate::{Answer, Event};
use std::collections::VecDeque;

fn check_process(process: &Process, mode: Mode, t: i64) {
    if process.dormant() {
        assert_eq!(process.wait, Wait::None);
        assert_eq!(
            (process.release, process.deadline, process.wake),
            (None, None, None)
        );
        assert!(!process.suspended);
    }
    if mode != Mode::Normal {
        assert_eq!(
            (process.release, process.deadline, process.wake),
            (None, None, None)
        );
        assert!(process.wait == Wait::Normal || process.dormant());
    } else {
        assert_ne!(process.wait, Wait::Normal);
    }
    if process.wake.is_some() {
        // A wake time has a wait, or the mark of SUSPEND_SELF.
        assert!(process.wait != Wait::None || process.suspended);
    }
    if process.wait != Wait::Period {
        assert!(process.wake.is_none_or(|wake| wake > t));
        assert!(process.deadline.is_none_or(|deadline| deadline > t));
    }
    if process.periodic() {
        assert!(!process.suspended);
        assert_eq!(
            process.release.is_some(),
            process.started && mode == Mode::Normal
        );
        if process.ready() {
            // A periodic process that can run has r at most t.
            assert!(process.release <= Some(t));
        }
    } else {
        assert_eq!(process.release, None);
        assert_ne!(process.wait, Wait::Period);
    }
    assert!([0, 6].contains(&process.wake_code));
    assert!((0..=9_999_999).contains(&process.message));
    if let Wait::Sending { message, .. } = process.wait {
        assert!((0..=9_999_999).contains(&message));
    }
}

/// The queue holds exactly those that wait for it, each once.
fn check_queue(partition: &Partition, queue: &VecDeque<usize>, waits: impl Fn(Wait) -> bool) {
    let mut queued: Vec<_> = queue.iter().copied().collect();
    queued.sort_unstable();
    let waiting: Vec<_> = (1..=partition.processes.len())
        .filter(|&id| waits(partition.process(id).wait))
        .collect();
    assert_eq!(queued, waiting);
}

/// A sender waits only where the queue is full, a receiver only where it is
/// empty; so never both.
fn check_messages(queue: &MessageQueue, senders: &VecDeque<usize>, receivers: &VecDeque<usize>) {
    assert!(queue.messages.len() <= queue.limit);
    assert!(senders.is_empty() || queue.full());
    assert!(receivers.is_empty() || queue.messages.is_empty());
    for message in &queue.messages {
        assert!((0..=9_999_999).contains(message));
    }
}

fn sends(wait: Wait, queue: QueueId) -> bool {
    matches!(wait, Wait::Sending { to, .. } if to == queue)
}

fn check_buffer(partition: &Partition, id: usize) {
    let buffer = &partition.buffers[id - 1];
    let own = QueueId::Buffer(id);
    check_queue(partition, &buffer.senders, |wait| sends(wait, own));
    check_queue(partition, &buffer.receivers, |wait| {
        wait == Wait::Receiving(own)
    });
    assert!((1..=16).contains(&buffer.queue.limit));
    check_messages(&buffer.queue, &buffer.senders, &buffer.receivers);
}

/// At a queuing channel's source its senders wait, at its destination its
/// receivers; elsewhere, and for a sampling channel, nobody.
fn check_channel(module: &Module, n: usize) {
    let channel = &module.channels()[n - 1];
    let own = QueueId::Channel(n);
    for (partition, k) in module.partitions().iter().zip(1..) {
        let (source, destination) = (k == channel.source, k == channel.destination);
        check_queue(partition, &partition.ports[n - 1], |wait| {
            source && sends(wait, own) || destination && wait == Wait::Receiving(own)
        });
    }
    let port = |k: usize| &module.partition(k).ports[n - 1];
    let (senders, receivers) = (port(channel.source), port(channel.destination));
    match channel.queue() {
        Some(queue) => {
            assert!((1..=8).contains(&queue.limit));
            check_messages(queue, senders, receivers);
        }
        None => assert!(senders.is_empty() && receivers.is_empty()),
    }
}

fn check_blackboard(partition: &Partition, id: usize) {
    let blackboard = &partition.blackboards[id - 1];
    check_queue(partition, &blackboard.queue, |wait| {
        wait == Wait::Blackboard(id)
    });
    assert!(blackboard.queue.is_empty() || blackboard.message.is_none());
    assert!(blackboard
        .message
        .is_none_or(|message| (0..=9_999_999).contains(&message)));
}

/// A level above 0 is of a NORMAL partition and has a READY holder, which runs
/// whenever the partition is current.
fn check_lock(module: &Module, k: usize) {
    let partition = module.partition(k);
    let lock = partition.lock;
    assert!((0..=16).contains(&lock.level));
    assert_eq!(lock.level == 0, lock.holder == 0);
    if lock.level > 0 {
        assert_eq!(partition.mode, Mode::Normal);
        assert!(partition.process(lock.holder).ready());
        if module.current() == k {
            assert_eq!(module.running(), lock.holder);
        }
    }
}

fn check_partition(partition: &Partition, t: i64) {
    for process in &partition.processes {
        check_process(process, partition.mode, t);
    }
    let mut arrival: Vec<_> = partition.arrival.iter().copied().collect();
    arrival.sort_unstable();
    let ready: Vec<_> = (1..=partition.processes.len())
        .filter(|&id| partition.process(id).ready())
        .collect();
    assert_eq!(arrival, ready);
    for (semaphore, id) in partition.semaphores.iter().zip(1..) {
        check_queue(partition, &semaphore.queue, |wait| {
            wait == Wait::Semaphore(id)
        });
        assert!((0..=semaphore.max).contains(&semaphore.value));
        assert!(semaphore.queue.is_empty() || semaphore.value == 0);
    }
    for (event, id) in partition.events.iter().zip(1..) {
        check_queue(partition, &event.queue, |wait| wait == Wait::Event(id));
        assert!(event.queue.is_empty() || !event.up);
    }
    for id in 1..=partition.buffers.len() {
        check_buffer(partition, id);
    }
    for id in 1..=partition.blackboards.len() {
        check_blackboard(partition, id);
    }
}

/// Every wait in a queue is in a queue.
fn check_all_queued(partition: &Partition) {
    let waiting = partition.processes.iter().filter(|it| it.wait.queued());
    let objects = partition.semaphores.iter().map(|it| it.queue.len());
    let objects = objects.chain(partition.events.iter().map(|it| it.queue.len()));
    let objects = objects.chain(partition.blackboards.iter().map(|it| it.queue.len()));
    let buffers = partition.buffers.iter();
    let buffers = buffers.map(|it| it.senders.len() + it.receivers.len());
    let ports = partition.ports.iter().map(VecDeque::len);
    let queued: usize = objects.chain(buffers).chain(ports).sum();
    assert_eq!(waiting.count(), queued);
}

fn check(module: &Module) {
    for partition in module.partitions() {
        check_partition(partition, module.t());
        check_all_queued(partition);
        assert_eq!(partition.ports.len(), module.channels().len());
    }
    for k in 1..=module.partitions().len() {
        check_lock(module, k);
    }
    for n in 1..=module.channels().len() {
        check_channel(module, n);
    }
    let place = module.t() % module.frame();
    let owners: Vec<_> = module
        .windows()
        .iter()
        .filter(|window| (window.start..window.start + window.duration).contains(&place))
        .map(|window| window.partition)
        .collect();
    assert_eq!(
        owners,
        if module.current() == 0 {
            vec![]
        } else {
            vec![module.current()]
        }
    );
    let pair = (module.current(), module.ticks_left());
    assert_eq!(module.window_lookup(module.t()), pair);
}

/// Generated events of three kinds in turn, each with its answer and the
/// records before and after it.
fn run(seed: u64, count: usize, mut take: impl FnMut(&Event, &Answer, &Module, &Module)) {
    let (_, mut events) = match seed % 8 {
        0 | 4 => Events::of_locks(seed),
        1 => Events::of_ticks_left(seed),
        _ => Events::with_table(seed),
    };
    let mut before = events.module.clone();
    for _ in 0..count {
        let (event, answer) = events.next_event();
        take(&event, &answer, &before, &events.module);
        before.clone_from(&events.module);
    }
}

#[test]
fn the_record_stays_whole_and_refusals_leave_it_the_same() {
    for seed in 1000..1200 {
        run(seed, 500, |event, answer, before, after| {
            assert!(line::write(&answer.six(), &mut [0; 61]).is_ok());
            if answer.code == 0 || answer.code == 7 {
                check(after);
            } else {
                assert!(after == before, "seed {seed} event {event:?}");
                assert_eq!((answer.value, answer.extra), (0, 0));
            }
            if answer.code == 7 {
                assert_eq!((answer.value, answer.extra), (0, 0));
            }
        });
    }
}

/// A message of an accepted send, and who waits with it: partition and id.
#[derive(Clone, Copy, Debug)]
struct Sent {
    message: i64,
    waiting: Option<(usize, usize)>,
}

/// What went into a message queue and what came out of it, each in order.
#[derive(Clone, Debug, Default)]
struct Account {
    sent: Vec<Sent>,
    received: Vec<i64>,
}

impl Account {
    /// A send answered 0 or 7, or a receive answered 0.
    fn take_call(&mut self, event: &Event, answer: &Answer, caller: (usize, usize)) {
        match (event.call, answer.code) {
            (24 | 30, 0 | 7) => self.sent.push(Sent {
                message: event.fields[1],
                waiting: (answer.code == 7).then_some(caller),
            }),
            (25 | 31, 0) => self.received.push(answer.value),
            _ => {}
        }
    }

    /// A waiting sender's wait ended: its message was let in, or, by a
    /// time-out or STOP, it is as if never sent.
    fn end_send(&mut self, sender: (usize, usize), event: &Event) {
        let mut sent = self.sent.iter();
        let at = sent.position(|sent| sent.waiting == Some(sender));
        let at = at.expect("a send that waits");
        match event.call {
            0 | 5 => {
                self.sent.remove(at);
            }
            1 | 25 | 31 => self.sent[at].waiting = None,
            call => panic!("call {call} ended a sender's wait"),
        }
    }

    /// A waiting receiver's wait ended: by a message, or by a time-out or STOP.
    fn end_receive(&mut self, process: &Process, event: &Event) {
        match event.call {
            0 | 5 => {}
            24 | 30 => self.received.push(process.message),
            call => panic!("call {call} ended a receiver's wait"),
        }
    }

    /// A restart of the source: what waits to be sent is as if never sent.
    fn restart_source(&mut self) {
        self.sent.retain(|sent| sent.waiting.is_none());
    }

    /// A restart of the destination: the messages held go.
    fn restart_destination(&mut self, held: usize) {
        let from = self.received.len();
        self.sent.drain(from..from + held);
    }

    /// Sent = received, then held, then kept with the waiting senders.
    fn check(&self, queue: &MessageQueue, senders: &VecDeque<usize>, source: &Partition) {
        let kept = senders.iter().map(|&id| match source.process(id).wait {
            Wait::Sending { message, .. } => message,
            wait => panic!("a sender that waits so: {wait:?}"),
        });
        let mut expected = self.received.clone();
        expected.extend(&queue.messages);
        expected.extend(kept);
        let sent: Vec<_> = self.sent.iter().map(|sent| sent.message).collect();
        assert_eq!(sent, expected);
    }
}

/// The accounts of every partition's buffers, since they were created, and of
/// all channels.
#[derive(Clone, Debug)]
struct Accounts {
    buffers: Vec<Vec<Account>>,
    channels: Vec<Account>,
}

impl Accounts {
    fn of(module: &Module) -> Accounts {
        Accounts {
            buffers: vec![vec![]; module.partitions().len()],
            channels: vec![Account::default(); module.channels().len()],
        }
    }

    fn account(&mut self, own: usize, queue: QueueId) -> &mut Account {
        match queue {
            QueueId::Buffer(id) => &mut self.buffers[own - 1][id - 1],
            QueueId::Channel(n) => &mut self.channels[n - 1],
        }
    }

    fn take(&mut self, event: &Event, answer: &Answer, before: &Module, after: &Module) {
        for (accounts, partition) in self.buffers.iter_mut().zip(after.partitions()) {
            accounts.resize_with(partition.buffers.len(), Account::default);
        }
        if [0, 7].contains(&answer.code) && event.call != 0 {
            self.take_call(event, answer, before);
        }
        for (k, (old, new)) in (1..).zip(before.partitions().iter().zip(after.partitions())) {
            for (id, (old, new)) in (1..).zip(old.processes.iter().zip(&new.processes)) {
                self.take_process(event, (k, id), old, new);
            }
        }
        self.check(after);
    }

    fn take_call(&mut self, event: &Event, answer: &Answer, before: &Module) {
        let (own, of) = (event.partition as usize, event.fields[0] as usize);
        let caller = (own, before.partition(own).running());
        let queue = match event.call {
            1 if event.fields[0] != 3 => return self.restart(own, before),
            24 | 25 => QueueId::Buffer(of),
            30 | 31 => QueueId::Channel(of),
            _ => return,
        };
        self.account(own, queue).take_call(event, answer, caller);
    }

    fn restart(&mut self, own: usize, before: &Module) {
        for (account, channel) in self.channels.iter_mut().zip(before.channels()) {
            if channel.source == own {
                account.restart_source();
            }
            if channel.destination == own {
                let held = channel.queue().map_or(0, |queue| queue.messages.len());
                account.restart_destination(held);
            }
        }
    }

    fn take_process(&mut self, event: &Event, who: (usize, usize), old: &Process, new: &Process) {
        if old.wait == new.wait {
            return;
        }
        match old.wait {
            Wait::Sending { to, .. } => self.account(who.0, to).end_send(who, event),
            Wait::Receiving(from) => self.account(who.0, from).end_receive(new, event),
            _ => {}
        }
    }

    fn check(&self, module: &Module) {
        for (accounts, partition) in self.buffers.iter().zip(module.partitions()) {
            for (account, buffer) in accounts.iter().zip(&partition.buffers) {
                account.check(&buffer.queue, &buffer.senders, partition);
            }
        }
        let channels = module.channels().iter().zip(&self.channels);
        for (n, (channel, account)) in channels.enumerate() {
            let source = module.partition(channel.source);
            if let Some(queue) = channel.queue() {
                account.check(queue, &source.ports[n], source);
            }
        }
    }

    /// How many messages were received from buffers and from channels.
    fn received(&self) -> [usize; 2] {
        let buffers = self.buffers.iter().flatten();
        let received = |account: &Account| account.received.len();
        [
            buffers.map(received).sum(),
            self.channels.iter().map(received).sum(),
        ]
    }
}

#[test]
fn what_was_sent_to_a_buffer_or_a_channel_is_received_held_or_kept_in_order() {
    let mut received = [0, 0];
    for seed in 2000..2300 {
        let mut accounts = None;
        run(seed, 1000, |event, answer, before, after| {
            let accounts = accounts.get_or_insert_with(|| Accounts::of(before));
            accounts.take(event, answer, before, after);
        });
        let [buffers, channels] = accounts.expect("some events").received();
        received = [received[0] + buffers, received[1] + channels];
    }
    assert!(received.iter().all(|&n| n > 1_000), "{received:?} received");
}

/// True if the event handed its message over to a process that waited for one.
fn handed_over(event: &Event, old: &Process, new: &Process) -> bool {
    let of = event.fields[0] as usize;
    let waited = match event.call {
        24 => old.wait == Wait::Receiving(QueueId::Buffer(of)),
        27 => old.wait == Wait::Blackboard(of),
        30 => old.wait == Wait::Receiving(QueueId::Channel(of)),
        _ => false,
    };
    waited && new.wait == Wait::None
}

#[test]
fn only_a_hand_over_writes_the_message_of_a_process_record() {
    let mut written = 0;
    for seed in 3000..3200 {
        run(seed, 500, |event, _, before, after| {
            for (old, new) in before.partitions().iter().zip(after.partitions()) {
                for (old, new) in old.processes.iter().zip(&new.processes) {
                    let given = handed_over(event, old, new);
                    let expected = if given { event.fields[1] } else { old.message };
                    assert_eq!(new.message, expected, "seed {seed} event {event:?}");
                    written += usize::from(given);
                }
            }
        });
    }
    assert!(written > 200, "{written} messages handed over");
}

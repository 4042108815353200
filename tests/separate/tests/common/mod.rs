//! A module under test and short ways to drive it.
#![allow(dead_code)]

use separate::line::Line;
use separate::record::{Message, Partition, Process};
use separate::{tables, Event, Module, Six};
use std::io::{self, Read};

/// The last time.
pub const END: i64 = 99_999_999;

/// One partition that owns the whole major frame of 10 ticks.
pub const ONE: [Six; 2] = [[10, 1, 1, 0, 0, 0], [0, 10, 1, 1, 0, 0]];

/// The worked example's table: partition 1 owns 0..6, partition 2 owns 6..10.
pub const TWO: [Six; 3] = [[10, 2, 2, 0, 0, 0], [0, 6, 1, 1, 0, 0], [6, 4, 2, 1, 0, 0]];

/// Two partitions, a gap at 8 and 9, channel 1 from 1 to 2 and channel 2
/// back, channel 3 between 2 and 3, refresh 5 each.
pub const CHANNELS: [Six; 7] = [
    [10, 3, 3, 3, 0, 0],
    [0, 4, 1, 1, 0, 0],
    [4, 3, 2, 1, 0, 0],
    [7, 1, 3, 1, 0, 0],
    [1, 2, 5, 0, 0, 0],
    [2, 1, 5, 0, 0, 0],
    [2, 3, 5, 0, 0, 0],
];

/// Partition 1 has 2..5, 5..6 and 14..16, partition 2 has 6..9 and 11..14;
/// nobody owns 0, 1, 9, 10 and 16 to 19.
pub const SHAPES: [Six; 6] = [
    [20, 2, 5, 0, 0, 0],
    [2, 3, 1, 1, 0, 0],
    [5, 1, 1, 0, 0, 0],
    [6, 3, 2, 0, 0, 0],
    [11, 3, 2, 1, 0, 0],
    [14, 2, 1, 0, 0, 0],
];

pub struct World {
    pub module: Module,
}

impl World {
    pub fn new(table: &[Six]) -> World {
        World {
            module: tables::module(table).expect("an accepted table"),
        }
    }

    pub fn one() -> World {
        World::new(&ONE)
    }

    /// Steps and gives all six numbers.
    pub fn event(&mut self, event: Six) -> Six {
        self.module.step(&Event::from_six(event)).six()
    }

    /// Steps and gives code, value and extra.
    pub fn outcome(&mut self, event: Six) -> [i64; 3] {
        let [code, value, extra, ..] = self.event(event);
        [code, value, extra]
    }

    pub fn code(&mut self, event: Six) -> i64 {
        self.event(event)[0]
    }

    /// A call of partition 1 with the given fields, the others 0.
    pub fn call(&mut self, call: i64, fields: &[i64]) -> [i64; 3] {
        self.outcome(line(1, call, fields))
    }

    pub fn done(&mut self, call: i64, fields: &[i64]) {
        assert_eq!(self.call(call, fields), [0, 0, 0], "call {call} {fields:?}");
    }

    pub fn waits(&mut self, call: i64, fields: &[i64]) {
        assert_eq!(self.call(call, fields), [7, 0, 0], "call {call} {fields:?}");
    }

    /// A call of partition 1 that gets the code, value and extra 0, and
    /// leaves the record as it was.
    pub fn refused(&mut self, code: i64, call: i64, fields: &[i64]) {
        self.refused_event(code, line(1, call, fields));
    }

    pub fn refused_event(&mut self, code: i64, event: Six) {
        let before = self.module.clone();
        assert_eq!(self.outcome(event), [code, 0, 0], "event {event:?}");
        assert!(self.module == before, "event {event:?} changed the record");
    }

    pub fn tick(&mut self) -> Six {
        self.event([0; 6])
    }

    pub fn ticks(&mut self, count: usize) {
        for _ in 0..count {
            assert_eq!(self.tick()[0], 0);
        }
    }

    /// Creates a process of partition 1; its name is its id.
    pub fn create(&mut self, priority: i64, period: i64, capacity: i64) -> i64 {
        let id = self.partition().processes.len() as i64 + 1;
        assert_eq!(self.call(2, &[id, priority, period, capacity]), [0, id, 0]);
        id
    }

    /// Creates and starts an aperiodic process without capacity.
    pub fn started(&mut self, priority: i64) -> i64 {
        let id = self.create(priority, -1, -1);
        self.done(3, &[id]);
        id
    }

    pub fn semaphore(&mut self, start: i64, max: i64) -> i64 {
        let id = self.partition().semaphores.len() as i64 + 1;
        assert_eq!(self.call(14, &[id, start, max]), [0, id, 0]);
        id
    }

    pub fn flag(&mut self) -> i64 {
        let id = self.partition().events.len() as i64 + 1;
        assert_eq!(self.call(17, &[id]), [0, id, 0]);
        id
    }

    /// Creates a buffer of partition 1; its name is its id.
    pub fn buffer(&mut self, limit: i64) -> i64 {
        let id = self.partition().buffers.len() as i64 + 1;
        assert_eq!(self.call(23, &[id, limit]), [0, id, 0]);
        id
    }

    pub fn blackboard(&mut self) -> i64 {
        let id = self.partition().blackboards.len() as i64 + 1;
        assert_eq!(self.call(26, &[id]), [0, id, 0]);
        id
    }

    /// A semaphore of value 0 and max 1, an event, a buffer for 1 message, a
    /// blackboard and a started process, in NORMAL.
    pub fn one_of_each(&mut self) {
        self.semaphore(0, 1);
        self.flag();
        self.buffer(1);
        self.blackboard();
        self.started(5);
        self.normal();
    }

    pub fn normal(&mut self) {
        self.done(1, &[3]);
    }

    pub fn partition(&self) -> &Partition {
        self.module.partition(1)
    }

    pub fn process(&self, id: i64) -> &Process {
        self.partition().process(id as usize)
    }

    pub fn running(&self) -> usize {
        self.module.running()
    }

    pub fn arrival(&self) -> Vec<usize> {
        self.partition().arrival.iter().copied().collect()
    }

    pub fn semaphore_queue(&self, id: i64) -> Vec<usize> {
        self.partition().semaphores[id as usize - 1]
            .queue
            .iter()
            .copied()
            .collect()
    }

    pub fn event_queue(&self, id: i64) -> Vec<usize> {
        self.partition().events[id as usize - 1]
            .queue
            .iter()
            .copied()
            .collect()
    }

    /// The messages that a buffer holds, first to come out first.
    pub fn held(&self, id: i64) -> Vec<i64> {
        self.partition().buffers[id as usize - 1]
            .queue
            .messages
            .iter()
            .copied()
            .collect()
    }

    pub fn senders(&self, id: i64) -> Vec<usize> {
        self.partition().buffers[id as usize - 1]
            .senders
            .iter()
            .copied()
            .collect()
    }

    pub fn receivers(&self, id: i64) -> Vec<usize> {
        self.partition().buffers[id as usize - 1]
            .receivers
            .iter()
            .copied()
            .collect()
    }

    /// The message that a blackboard shows, if any.
    pub fn shown(&self, id: i64) -> Option<i64> {
        self.partition().blackboards[id as usize - 1].message
    }

    pub fn readers(&self, id: i64) -> Vec<usize> {
        self.partition().blackboards[id as usize - 1]
            .queue
            .iter()
            .copied()
            .collect()
    }

    pub fn message(&self, channel: usize) -> Option<Message> {
        self.module.channels()[channel - 1].message()
    }
}

/// An event line with the fields from a on.
pub fn line(partition: i64, call: i64, fields: &[i64]) -> Six {
    let mut six = [partition, call, 0, 0, 0, 0];
    six[2..2 + fields.len()].copy_from_slice(fields);
    six
}

/// The six-column text of some lines.
pub fn text(lines: &[Six]) -> Vec<u8> {
    lines.iter().flat_map(separate::line::text).collect()
}

/// The lines of an input as the paper has them, found the plain way.
pub fn plain_lines(mut input: &[u8]) -> Vec<Line> {
    let mut lines = Vec::new();
    while !input.is_empty() {
        let end = input
            .iter()
            .position(|&byte| byte == b'\n')
            .map_or(input.len(), |at| at + 1);
        lines.push(separate::line::read(&input[..end]));
        input = &input[end..];
    }
    lines
}

/// Gives its bytes in small pieces.
pub struct Pieces<'a> {
    pub bytes: &'a [u8],
    pub size: usize,
}

impl Read for Pieces<'_> {
    fn read(&mut self, buffer: &mut [u8]) -> io::Result<usize> {
        let count = self.size.min(self.bytes.len()).min(buffer.len());
        let (now, later) = self.bytes.split_at(count);
        buffer[..count].copy_from_slice(now);
        self.bytes = later;
        Ok(count)
    }
}

/// Every list of windows from a tick on, of two partitions and both flags.
fn add_windows(frame: i64, from: i64, windows: &mut Vec<Six>, take: &mut impl FnMut(&[Six])) {
    take(windows);
    for start in from..frame {
        for end in start + 1..=frame {
            for (partition, flag) in [(1, 0), (1, 1), (2, 0), (2, 1)] {
                windows.push([start, end - start, partition, flag, 0, 0]);
                add_windows(frame, end, windows, take);
                windows.pop();
            }
        }
    }
}

/// The module of every accepted table of one or two partitions with this M.
pub fn every_table(frame: i64, mut take: impl FnMut(&Module)) {
    add_windows(frame, 0, &mut Vec::new(), &mut |windows| {
        for partitions in [1, 2] {
            let head = [frame, partitions, windows.len() as i64, 0, 0, 0];
            let table = [&[head][..], windows].concat();
            if let Ok(module) = tables::module(&table) {
                take(&module);
            }
        }
    });
}

/// The waiting time found by trying every n, one after the other, from 1 on.
pub fn searched(module: &Module, t: i64, partition: i64) -> i64 {
    let mut is_start = vec![false; module.frame() as usize];
    for window in module.windows() {
        if window.partition as i64 == partition {
            is_start[window.start as usize] = true;
        }
    }
    let mut n = 1;
    while !is_start[((t + n) % module.frame()) as usize] {
        n += 1;
    }
    n
}

/// Creation by a name alone: 4, then 1, then 3, then 5.
pub fn creation_by_name_is_checked(call: i64, create: fn(&mut World) -> i64) {
    let mut world = World::one();
    for name in [0, -1, 256] {
        world.refused(3, call, &[name]);
    }
    for _ in 0..8 {
        create(&mut world);
    }
    world.refused(4, call, &[8]);
    world.refused(4, call, &[0]);
    world.started(5);
    world.normal();
    world.refused(4, call, &[100]);

    let mut world = World::one();
    create(&mut world);
    world.refused(1, call, &[1]);
    world.started(5);
    world.normal();
    world.refused(1, call, &[1]);
    world.refused(3, call, &[256]);
    world.refused(5, call, &[255]);
}

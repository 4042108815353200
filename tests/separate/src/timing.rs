//! Inputs for timing: busy lines, messages within and between partitions, and
//! ticks.

use crate::calls::MOST_TIME;
use crate::generate::print_table;
use crate::line;
use crate::machine::{Answer, Event};
use crate::record::{Channel, Id, MessageQueue, Module, Partition};
use crate::rng::Rng;
use crate::tables;
use std::io::{self, Write};

/// Prints a set-up in which every partition enters NORMAL, then the lines.
struct SetUp<'a, W> {
    module: Module,
    out: &'a mut W,
}

impl<W: Write> SetUp<'_, W> {
    fn event(&mut self, event: Event) -> io::Result<Answer> {
        self.out.write_all(&line::text(&event.six()))?;
        Ok(self.module.step(&event))
    }

    fn call(&mut self, own: Id, call: i64, fields: [i64; 4]) -> io::Result<Answer> {
        self.event(Event {
            partition: own as i64,
            call,
            fields,
        })
    }

    /// Ticks until the partition is current.
    fn reach(&mut self, own: Id) -> io::Result<()> {
        while self.module.current() != own {
            self.event(Event::TICK)?;
        }
        Ok(())
    }
}

/// A table of full major frames.
fn full_table(rng: &mut Rng, partitions: i64) -> Vec<line::Six> {
    let windows = 2 * partitions;
    let duration = rng.range(3, 6);
    let mut table = vec![[windows * duration, partitions, windows, partitions, 0, 0]];
    for window in 0..windows {
        let flag = i64::from(window < partitions);
        table.push([
            window * duration,
            duration,
            window % partitions + 1,
            flag,
            0,
            0,
        ]);
    }
    for source in 1..=partitions {
        table.push([source, source % partitions + 1, rng.range(1, 30), 0, 0, 0]);
    }
    table
}

fn set_up<'a, W: Write>(numbers: &[line::Six], out: &'a mut W) -> io::Result<SetUp<'a, W>> {
    print_table(numbers, out)?;
    Ok(SetUp {
        module: tables::module(numbers).expect("an accepted table"),
        out,
    })
}

/// In a table every partition gets what `begin` makes and enters NORMAL, then
/// the lines.
fn print_lines<W: Write>(
    (seed, count): (u64, u64),
    out: &mut W,
    table: fn(&mut Rng) -> Vec<line::Six>,
    begin: fn(&mut SetUp<W>, &mut Rng, Id) -> io::Result<()>,
    event: fn(&mut Rng, &Module) -> Event,
) -> io::Result<()> {
    let mut rng = Rng::new(seed);
    let numbers = table(&mut rng);
    let mut set_up = set_up(&numbers, out)?;
    for own in 1..=set_up.module.partitions().len() {
        set_up.reach(own)?;
        begin(&mut set_up, &mut rng, own)?;
        set_up.call(own, 1, [3, 0, 0, 0])?;
    }
    for _ in 0..count {
        let event = event(&mut rng, &set_up.module);
        set_up.event(event)?;
    }
    Ok(())
}

/// Many processes in several partitions, then busy lines. Process 1 of each
/// partition never waits, so that its partition always has a caller.
pub(crate) fn print_busy(seed: u64, count: u64, out: &mut impl Write) -> io::Result<()> {
    let table = |rng: &mut Rng| full_table(rng, 4);
    print_lines((seed, count), out, table, begin_busy, busy_event)
}

fn begin_busy<W: Write>(set_up: &mut SetUp<W>, rng: &mut Rng, own: Id) -> io::Result<()> {
    start_processes(set_up, rng, own)?;
    for name in 1..=4 {
        set_up.call(own, 14, [name, 1, 3, 0])?;
        set_up.call(own, 17, [name, 0, 0, 0])?;
    }
    Ok(())
}

/// 16 processes, started; one in four is periodic. Process 1 has the least
/// priority.
fn start_processes<W: Write>(set_up: &mut SetUp<W>, rng: &mut Rng, own: Id) -> io::Result<()> {
    let frame = set_up.module.frame();
    for id in 1..=16 {
        let period = if id % 4 == 0 { frame } else { -1 };
        let priority = if id == 1 { 1 } else { rng.range(2, 9) };
        set_up.call(own, 2, [id, priority, period, rng.pick(&[-1, 5, 20])])?;
        set_up.call(own, 3, [id, 0, 0, 0])?;
    }
    Ok(())
}

/// A tick, in so many of a hundred events, or a call of the process that runs.
fn tick_or_call(
    rng: &mut Rng,
    module: &Module,
    ticks: usize,
    call: fn(&mut Rng, &Module, Id) -> (i64, [i64; 4]),
) -> Event {
    let own = module.current();
    let caller = module.partition(own).running();
    if rng.percent(ticks) || caller == 0 {
        return Event::TICK;
    }
    let (call, fields) = call(rng, module, caller);
    Event {
        partition: own as i64,
        call,
        fields,
    }
}

fn busy_event(rng: &mut Rng, module: &Module) -> Event {
    tick_or_call(rng, module, 20, busy_call)
}

/// A call that mostly gets 0 or 7.
fn busy_call(rng: &mut Rng, module: &Module, caller: Id) -> (i64, [i64; 4]) {
    let partition = module.partition(module.current());
    let may_wait = caller != 1;
    let periodic = partition.process(caller).periodic();
    let call = match rng.below(16) {
        0..=2 => 15,
        3..=4 => 20,
        5 if periodic => 10,
        5..=6 => 9,
        7 if !periodic => 8,
        7..=9 => 16,
        10 => rng.pick(&[18, 19]),
        11 => rng.pick(&[7, 11]),
        12 => 12,
        13 => 13,
        14 => 21,
        _ => 22,
    };
    let call = if may_wait || ![8, 9, 15, 20].contains(&call) {
        call
    } else {
        16
    };
    (call, busy_fields(rng, module, partition, call))
}

fn busy_fields(rng: &mut Rng, module: &Module, partition: &Partition, call: i64) -> [i64; 4] {
    let other = rng.range(2, partition.processes.len() as i64);
    let own = module.current();
    match call {
        8 | 9 => [rng.range(1, 30), 0, 0, 0],
        10 => [0; 4],
        12 => [other, rng.range(2, 9), 0, 0],
        15 | 20 => [rng.range(1, 4), rng.pick(&[-1, 10, 40]), 0, 0],
        16 | 18 | 19 => [rng.range(1, 4), 0, 0, 0],
        // Channel k goes from partition k to the one after it.
        21 => [own as i64, rng.range(0, MOST_TIME), 0, 0],
        22 => [(own + module.partitions.len() - 2) as i64 % 4 + 1, 0, 0, 0],
        _ => [other, 0, 0, 0],
    }
}

/// As the busy lines, but most calls pass messages, over four buffers and two
/// blackboards of each partition.
pub(crate) fn print_passing(seed: u64, count: u64, out: &mut impl Write) -> io::Result<()> {
    let table = |rng: &mut Rng| full_table(rng, 4);
    print_lines((seed, count), out, table, begin_passing, passing_event)
}

fn begin_passing<W: Write>(set_up: &mut SetUp<W>, rng: &mut Rng, own: Id) -> io::Result<()> {
    start_processes(set_up, rng, own)?;
    for (name, limit) in [(1, 1), (2, 2), (3, 4), (4, 16)] {
        set_up.call(own, 23, [name, limit, 0, 0])?;
    }
    for name in 1..=2 {
        set_up.call(own, 26, [name, 0, 0, 0])?;
    }
    Ok(())
}

fn passing_event(rng: &mut Rng, module: &Module) -> Event {
    tick_or_call(rng, module, 10, passing_call)
}

/// A call that mostly passes a message and gets 0 or 7.
fn passing_call(rng: &mut Rng, module: &Module, caller: Id) -> (i64, [i64; 4]) {
    let partition = module.partition(module.current());
    let id = rng.range(1, 4);
    let held = !partition.buffers[id as usize - 1].queue.messages.is_empty();
    let call = match rng.below(16) {
        // Process 1 never waits: it takes what is held and sends where
        // nothing is.
        0..=9 if caller == 1 && held => 25,
        0..=9 if caller == 1 => 24,
        0..=4 => 24,
        5..=9 => 25,
        10..=11 if caller != 1 => 28,
        10..=13 => 27,
        14 if partition.process(caller).periodic() => 10,
        14 => 13,
        _ => 29,
    };
    (call, passing_fields(rng, id, call))
}

fn passing_fields(rng: &mut Rng, buffer: i64, call: i64) -> [i64; 4] {
    let message = rng.range(0, MOST_TIME);
    let time_out = rng.pick(&[-1, 10, 40]);
    let blackboard = rng.range(1, 2);
    match call {
        10 => [0; 4],
        13 => [rng.range(1, 16), 0, 0, 0],
        24 => [buffer, message, time_out, 0],
        25 => [buffer, time_out, 0, 0],
        27 => [blackboard, message, 0, 0],
        28 => [blackboard, time_out, 0, 0],
        _ => [blackboard, 0, 0, 0],
    }
}

/// As the busy lines, but most calls send and receive over queuing channels,
/// two out of each partition and two into it.
pub(crate) fn print_queuing(seed: u64, count: u64, out: &mut impl Write) -> io::Result<()> {
    let begin = start_processes;
    print_lines((seed, count), out, queuing_table, begin, queuing_event)
}

/// Where all but process 1 wait, other partitions come sooner.
fn queuing_event(rng: &mut Rng, module: &Module) -> Event {
    let ticks = match module.running() {
        1 => 60,
        _ => 5,
    };
    tick_or_call(rng, module, ticks, queuing_call)
}

/// Two rings of queuing channels: to the next partition, and to the one after
/// it.
fn queuing_table(rng: &mut Rng) -> Vec<line::Six> {
    let partitions = 4;
    let mut table = full_table(rng, partitions);
    table.truncate(table.len() - partitions as usize);
    table[0][3] = 2 * partitions;
    for ahead in [0, 1] {
        for source in 1..=partitions {
            let destination = (source + ahead) % partitions + 1;
            let size = rng.pick(&[1, 2, 4, 8]);
            table.push([source, destination, 1, 1, size, 0]);
        }
    }
    table
}

/// A call that mostly sends or receives and gets 0 or 7. Process 1 never
/// waits: it sends where there is room and takes what is held.
fn queuing_call(rng: &mut Rng, module: &Module, caller: Id) -> (i64, [i64; 4]) {
    let own = module.current();
    let may_wait = caller != 1;
    let to = any_channel(rng, module, |channel, queue| {
        channel.source == own && (may_wait || !queue.full())
    });
    let from = any_channel(rng, module, |channel, queue| {
        channel.destination == own && (may_wait || !queue.messages.is_empty())
    });
    let (message, time_out) = (rng.range(0, MOST_TIME), rng.pick(&[-1, 10, 40]));
    let send = to.map(|n| (30, [n, message, time_out, 0]));
    let receive = from.map(|n| (31, [n, time_out, 0, 0]));
    let periodic = module.partition(own).process(caller).periodic();
    let call = match rng.below(16) {
        0..=6 => send.or(receive),
        7..=14 => receive.or(send),
        _ if periodic => Some((10, [0; 4])),
        _ => None,
    };
    call.unwrap_or((13, [rng.range(1, 16), 0, 0, 0]))
}

/// The number of a queuing channel of this sort, if there is one.
fn any_channel(
    rng: &mut Rng,
    module: &Module,
    wanted: impl Fn(&Channel, &MessageQueue) -> bool,
) -> Option<i64> {
    let fits = |it: &&Channel| it.queue().is_some_and(|queue| wanted(it, queue));
    let channels = module.channels().iter();
    let numbers = (1..).zip(channels).filter(|(_, channel)| fits(channel));
    let numbers: Vec<i64> = numbers.map(|(n, _)| n).collect();
    (!numbers.is_empty()).then(|| rng.pick(&numbers))
}

/// Every partition in NORMAL with processes that wait long, then ticks.
pub(crate) fn print_ticks(seed: u64, count: u64, out: &mut impl Write) -> io::Result<()> {
    let table = |rng: &mut Rng| full_table(rng, 8);
    print_lines((seed, count), out, table, begin_waiting, |_, _| Event::TICK)
}

fn begin_waiting<W: Write>(set_up: &mut SetUp<W>, rng: &mut Rng, own: Id) -> io::Result<()> {
    for id in 1..=16 {
        set_up.call(own, 2, [id, rng.range(1, 9), -1, MOST_TIME])?;
        set_up.call(own, 4, [id, MOST_TIME - rng.range(0, 1000), 0, 0])?;
    }
    Ok(())
}

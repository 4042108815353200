//! The whole record as text, one item per line; -1 for never.

use crate::record::{Channel, Id, Kind, MessageQueue, Module, Partition, Process};
use crate::record::{QueueId, Wait, Window};
use std::collections::VecDeque;
use std::fmt::Display;
use std::io::{self, Write};

/// Prints the record; a refused table's record is the line `empty`.
pub fn dump(module: &Module, out: &mut impl Write) -> io::Result<()> {
    if module.is_empty() {
        return writeln!(out, "empty");
    }
    dump_module(module, out)?;
    for (window, n) in module.windows().iter().zip(1..) {
        dump_window(window, n, out)?;
    }
    for (channel, n) in module.channels().iter().zip(1..) {
        dump_channel(channel, n, out)?;
    }
    for (partition, k) in module.partitions().iter().zip(1..) {
        dump_partition(partition, k, out)?;
        dump_ports(module, k, "sending", |channel| channel.source, out)?;
        dump_ports(module, k, "receiving", |channel| channel.destination, out)?;
    }
    Ok(())
}

/// The dump as a string.
pub fn text(module: &Module) -> String {
    let mut out = Vec::new();
    dump(module, &mut out).expect("a vector takes every byte");
    String::from_utf8(out).expect("the dump is ASCII")
}

fn dump_module(module: &Module, out: &mut impl Write) -> io::Result<()> {
    writeln!(
        out,
        "module t {} current {} running {} frame {} partitions {} windows {} channels {}",
        module.t(),
        module.current(),
        module.running(),
        module.frame(),
        module.partitions().len(),
        module.windows().len(),
        module.channels().len()
    )
}

fn dump_window(window: &Window, n: usize, out: &mut impl Write) -> io::Result<()> {
    let Window {
        start,
        duration,
        partition,
        flag,
    } = window;
    let flag = u8::from(*flag);
    writeln!(
        out,
        "window {n} start {start} duration {duration} partition {partition} flag {flag}"
    )
}

fn dump_channel(channel: &Channel, n: usize, out: &mut impl Write) -> io::Result<()> {
    let Channel {
        source,
        destination,
        refresh,
        kind,
    } = channel;
    write!(
        out,
        "channel {n} source {source} destination {destination} refresh {refresh} "
    )?;
    match kind {
        Kind::Sampling(message) => {
            let value = message.map_or(-1, |message| message.value);
            let written = message.map_or(-1, |message| message.written);
            writeln!(out, "message {value} written {written}")
        }
        Kind::Queuing(queue) => dump_messages(queue, out),
    }
}

/// The limit of a message queue, and what it holds, first to come out first.
fn dump_messages(queue: &MessageQueue, out: &mut impl Write) -> io::Result<()> {
    write!(out, "limit {} messages", queue.limit)?;
    dump_numbers(&queue.messages, out)
}

fn dump_partition(partition: &Partition, k: usize, out: &mut impl Write) -> io::Result<()> {
    writeln!(
        out,
        "partition {k} mode {} processes {} semaphores {} events {} buffers {} blackboards {} \
         level {} holder {}",
        partition.mode.number(),
        partition.processes.len(),
        partition.semaphores.len(),
        partition.events.len(),
        partition.buffers.len(),
        partition.blackboards.len(),
        partition.lock.level,
        partition.lock.holder
    )?;
    for (process, id) in partition.processes.iter().zip(1..) {
        dump_process(process, id, out)?;
    }
    dump_objects(partition, out)?;
    write!(out, "arrival")?;
    dump_numbers(&partition.arrival, out)?;
    dump_waiters(partition, out)
}

/// The semaphores, events, buffers and blackboards.
fn dump_objects(partition: &Partition, out: &mut impl Write) -> io::Result<()> {
    for (semaphore, id) in partition.semaphores.iter().zip(1..) {
        let (name, value, max) = (semaphore.name, semaphore.value, semaphore.max);
        writeln!(out, "semaphore {id} name {name} value {value} max {max}")?;
    }
    for (event, id) in partition.events.iter().zip(1..) {
        let (name, up) = (event.name, u8::from(event.up));
        writeln!(out, "event {id} name {name} up {up}")?;
    }
    for (buffer, id) in partition.buffers.iter().zip(1..) {
        write!(out, "buffer {id} name {} ", buffer.name)?;
        dump_messages(&buffer.queue, out)?;
    }
    for (blackboard, id) in partition.blackboards.iter().zip(1..) {
        let (name, message) = (blackboard.name, blackboard.message.unwrap_or(-1));
        writeln!(out, "blackboard {id} name {name} message {message}")?;
    }
    Ok(())
}

/// Every queue, also where no one waits.
fn dump_waiters(partition: &Partition, out: &mut impl Write) -> io::Result<()> {
    let semaphores = partition.semaphores.iter().map(|it| &it.queue);
    let events = partition.events.iter().map(|it| &it.queue);
    let senders = partition.buffers.iter().map(|it| &it.senders);
    let receivers = partition.buffers.iter().map(|it| &it.receivers);
    let blackboards = partition.blackboards.iter().map(|it| &it.queue);
    dump_queues("semaphore", semaphores, out)?;
    dump_queues("event", events, out)?;
    dump_queues("sending", senders, out)?;
    dump_queues("receiving", receivers, out)?;
    dump_queues("blackboard", blackboards, out)
}

/// Those who wait at the partition's ends of queuing channels, of one kind of
/// end, by channel.
fn dump_ports(
    module: &Module,
    k: Id,
    wait: &str,
    end: fn(&Channel) -> Id,
    out: &mut impl Write,
) -> io::Result<()> {
    let ports = module.channels().iter().zip(&module.partition(k).ports);
    for ((channel, waiters), n) in ports.zip(1..) {
        if channel.queue().is_some() && end(channel) == k {
            write!(out, "waiters {wait} channel {n}")?;
            dump_numbers(waiters, out)?;
        }
    }
    Ok(())
}

/// The queues of one kind of wait, by id.
fn dump_queues<'a>(
    wait: &str,
    queues: impl Iterator<Item = &'a VecDeque<Id>>,
    out: &mut impl Write,
) -> io::Result<()> {
    for (queue, id) in queues.zip(1..) {
        write!(out, "waiters {wait} {id}")?;
        dump_numbers(queue, out)?;
    }
    Ok(())
}

fn dump_process(process: &Process, id: Id, out: &mut impl Write) -> io::Result<()> {
    let or_never = |time: Option<i64>| time.unwrap_or(-1);
    write!(
        out,
        "process {id} name {} base {} current {} period {} capacity {} release {} deadline {} \
         wake {} delay {} suspended {} missed {} code {} message {} started {} wait ",
        process.name,
        process.base,
        process.current,
        or_never(process.period),
        or_never(process.capacity),
        or_never(process.release),
        or_never(process.deadline),
        or_never(process.wake),
        process.delay,
        u8::from(process.suspended),
        u8::from(process.missed),
        process.wake_code,
        process.message,
        u8::from(process.started)
    )?;
    dump_wait(process.wait, out)
}

fn dump_wait(wait: Wait, out: &mut impl Write) -> io::Result<()> {
    match wait {
        Wait::None => writeln!(out, "none"),
        Wait::Normal => writeln!(out, "normal"),
        Wait::Delay => writeln!(out, "delay"),
        Wait::Timed => writeln!(out, "timed"),
        Wait::Period => writeln!(out, "period"),
        Wait::Semaphore(id) => writeln!(out, "semaphore {id}"),
        Wait::Event(id) => writeln!(out, "event {id}"),
        Wait::Sending { to, message } => writeln!(out, "sending {} {message}", words(to)),
        Wait::Receiving(from) => writeln!(out, "receiving {}", words(from)),
        Wait::Blackboard(id) => writeln!(out, "blackboard {id}"),
    }
}

/// A buffer's id, or `channel` and its number.
fn words(queue: QueueId) -> String {
    match queue {
        QueueId::Buffer(id) => format!("{id}"),
        QueueId::Channel(n) => format!("channel {n}"),
    }
}

/// The numbers, each after a single space, and the line's end.
fn dump_numbers<T: Display>(
    numbers: impl IntoIterator<Item = T>,
    out: &mut impl Write,
) -> io::Result<()> {
    for number in numbers {
        write!(out, " {number}")?;
    }
    writeln!(out)
}

//! What happens under a preemption lock (document 02, e).

use super::{place, Coverage, NAMES};
use crate::calls::WAITING;
use crate::machine::{Answer, Event};
use crate::record::{Id, Module, Partition, Process, Wait};
use std::io::{self, Write};

/// What a call that can wait gets from the holder of a lock.
pub const LOCKED: [&str; 7] = [
    "0",
    "2",
    "3",
    "5 by another check",
    "5 by the lock",
    "5 by the lock, time 0",
    "7",
];

/// True if the rules let such a call get this.
fn may_get(call: i64, way: &str) -> bool {
    match way {
        "0" | "2" => call >= 15,
        "3" => call != 10,
        // Periodic, aperiodic, not the source, not the destination.
        "5 by another check" => [8, 10, 30, 31].contains(&call),
        "5 by the lock" => true,
        "5 by the lock, time 0" => [8, 9].contains(&call),
        _ => false,
    }
}

/// What else can happen to a lock and beside its holder. "Came" is said of a
/// process that so came to be READY with a greater priority than the holder's.
pub const LOCKS: [&str; 49] = [
    "level 1",
    "level 2",
    "level 3",
    "level 4",
    "level 5",
    "level 6",
    "level 7",
    "level 8",
    "level 9",
    "level 10",
    "level 11",
    "level 12",
    "level 13",
    "level 14",
    "level 15",
    "level 16",
    "ended by UNLOCK_PREEMPTION",
    "ended by STOP_SELF",
    "ended by mode 0",
    "ended by mode 1",
    "ended by mode 2",
    "ended above level 1",
    "mode 3 refused",
    "mode out of range refused",
    "greater priority READY",
    "equal priority READY, ahead in the arrival list",
    "came by START",
    "came by DELAYED_START",
    "came by RESUME",
    "came by SET_PRIORITY",
    "came by SIGNAL",
    "came by SET_EVENT",
    "came by SEND_BUFFER",
    "came by RECEIVE_BUFFER",
    "came by SHOW",
    "came by a neighbour's SEND",
    "came by a neighbour's RECEIVE",
    "came by a neighbour's restart",
    "came by a tick that ends a delay",
    "came by a tick that ends a timed wait",
    "came by a tick that releases it",
    "came by a tick that times it out in a queue",
    "came by a tick that takes its mark",
    "another runs after the lock",
    "deadline of the holder missed",
    "SET_PRIORITY of the holder",
    "periodic holder",
    "two partitions locked",
    "locked where another or no partition is current",
];

impl Coverage {
    pub(super) fn take_locks(
        &mut self,
        before: &Module,
        event: &Event,
        answer: &Answer,
        after: &Module,
    ) {
        for (k, (old, new)) in (1..).zip(before.partitions().iter().zip(after.partitions())) {
            if old.locked() && new.locked() {
                self.take_beside_holder(event, event.partition == k as i64, old, new);
                let elsewhere = after.current() != k;
                self.count_lock("locked where another or no partition is current", elsewhere);
            }
        }
        let locked = after.partitions().iter().filter(|it| it.locked());
        self.count_lock("two partitions locked", locked.count() > 1);
        // A call that came as far as its body.
        if event.call != 0 && ![8, 9, 13].contains(&answer.code) {
            self.take_lock_call(before, event, answer, after);
        }
    }

    fn take_lock_call(&mut self, before: &Module, event: &Event, answer: &Answer, after: &Module) {
        let own = event.partition as Id;
        let (old, new) = (before.partition(own), after.partition(own));
        if event.call == 32 && answer.code == 0 {
            self.count_lock(&format!("level {}", new.lock.level), true);
            let periodic = new.process(new.lock.holder).periodic();
            self.count_lock("periodic holder", !old.locked() && periodic);
        }
        if !old.locked() {
            return;
        }
        if !new.locked() {
            self.take_end(event, old, new);
        }
        let [a, ..] = event.fields;
        match event.call {
            1 => {
                self.count_lock("mode 3 refused", answer.code == 1);
                self.count_lock("mode out of range refused", answer.code == 3);
            }
            12 => {
                let of_holder = answer.code == 0 && a == old.lock.holder as i64;
                self.count_lock("SET_PRIORITY of the holder", of_holder);
            }
            _ => {}
        }
        if let Some(at) = WAITING.iter().position(|&call| call == event.call) {
            self.locked[at][place(&LOCKED, way(before, event, answer))] += 1;
        }
    }

    fn take_end(&mut self, event: &Event, old: &Partition, new: &Partition) {
        let end = match event.call {
            33 => "ended by UNLOCK_PREEMPTION",
            6 => "ended by STOP_SELF",
            _ => ["ended by mode 0", "ended by mode 1", "ended by mode 2"][new.mode as usize],
        };
        self.count_lock(end, true);
        self.count_lock("ended above level 1", old.lock.level > 1);
        let another = event.call == 33 && new.running() != old.lock.holder;
        self.count_lock("another runs after the lock", another);
    }

    /// What an event, a call of the partition's own or not, did to the holder
    /// and beside it.
    fn take_beside_holder(&mut self, event: &Event, own: bool, old: &Partition, new: &Partition) {
        let holder = new.process(new.lock.holder);
        let before = old.process(old.lock.holder);
        self.count_lock(
            "deadline of the holder missed",
            !before.missed && holder.missed,
        );
        let greater = |id: Id| new.process(id).current > holder.current;
        let ready = new.arrival.iter();
        self.count_lock(
            "greater priority READY",
            ready.clone().any(|&id| greater(id)),
        );
        let mut ahead = ready.take_while(|&&id| id != new.lock.holder);
        let equal = ahead.any(|&id| new.process(id).current == holder.current);
        self.count_lock("equal priority READY, ahead in the arrival list", equal);
        for (id, (old, new)) in (1..).zip(old.processes.iter().zip(&new.processes)) {
            let was = old.ready() && old.current > before.current;
            if new.ready() && greater(id) && !was {
                self.take_arrival(event, own, old);
            }
        }
    }

    /// A process came to be READY with a greater priority than the holder's, by
    /// a call of its own partition or not.
    fn take_arrival(&mut self, event: &Event, own: bool, old: &Process) {
        let by = match event.call {
            0 => by_tick(old),
            1 => "came by a neighbour's restart",
            3 => "came by START",
            4 => "came by DELAYED_START",
            11 => "came by RESUME",
            12 => "came by SET_PRIORITY",
            16 => "came by SIGNAL",
            18 => "came by SET_EVENT",
            24 => "came by SEND_BUFFER",
            25 => "came by RECEIVE_BUFFER",
            27 => "came by SHOW",
            30 if !own => "came by a neighbour's SEND",
            31 if !own => "came by a neighbour's RECEIVE",
            call => panic!("call {call} made a process READY"),
        };
        self.count_lock(by, true);
    }

    fn count_lock(&mut self, name: &str, holds: bool) {
        if holds {
            self.locks[place(&LOCKS, name)] += 1;
        }
    }

    /// What the rules let happen under a lock and what was not met.
    pub fn missing_locks(&self) -> Vec<(&'static str, &'static str)> {
        let mut missing = self.locked_where(|may_get, met| may_get && !met);
        let locks = LOCKS.iter().zip(self.locks);
        let unmet = locks.filter(|&(_, count)| count == 0);
        missing.extend(unmet.map(|(name, _)| ("lock", *name)));
        missing
    }

    /// What calls got under a lock though the rules do not have it.
    pub fn unforeseen_locks(&self) -> Vec<(&'static str, &'static str)> {
        self.locked_where(|may_get, met| !may_get && met)
    }

    fn locked_where(&self, wanted: fn(bool, bool) -> bool) -> Vec<(&'static str, &'static str)> {
        let mut found = Vec::new();
        for (call, counts) in WAITING.into_iter().zip(self.locked) {
            for (way, count) in LOCKED.into_iter().zip(counts) {
                if wanted(may_get(call, way), count > 0) {
                    found.push((NAMES[call as usize], way));
                }
            }
        }
        found
    }

    pub(super) fn print_locked(&self, out: &mut impl Write) -> io::Result<()> {
        writeln!(out, "\ncalls that can wait, by the holder of a lock")?;
        for (call, counts) in WAITING.into_iter().zip(self.locked) {
            let ways = LOCKED.iter().zip(counts).filter(|&(_, count)| count > 0);
            let ways: Vec<String> = ways.map(|(way, count)| format!("{way}: {count}")).collect();
            writeln!(out, "  {}: {}", NAMES[call as usize], ways.join("; "))?;
        }
        Ok(())
    }
}

/// How a tick made a process READY.
fn by_tick(old: &Process) -> &'static str {
    match old.wait {
        Wait::Delay => "came by a tick that ends a delay",
        Wait::Timed => "came by a tick that ends a timed wait",
        Wait::Period => "came by a tick that releases it",
        Wait::None => "came by a tick that takes its mark",
        _ => "came by a tick that times it out in a queue",
    }
}

/// What a call that can wait got from the holder of a lock.
fn way(before: &Module, event: &Event, answer: &Answer) -> &'static str {
    match answer.code {
        0 => "0",
        2 => "2",
        3 => "3",
        7 => "7",
        _ if refused_without_lock(before, event) => "5 by another check",
        _ if [8, 9].contains(&event.call) && event.fields[0] == 0 => "5 by the lock, time 0",
        _ => "5 by the lock",
    }
}

/// True if a call that got 5 from the holder of a lock gets it without as well.
fn refused_without_lock(before: &Module, event: &Event) -> bool {
    let own = event.partition as Id;
    let partition = before.partition(own);
    let periodic = partition.process(partition.running()).periodic();
    let channel = || &before.channels()[event.fields[0] as Id - 1];
    match event.call {
        8 => periodic,
        10 => !periodic,
        30 => channel().source != own,
        31 => channel().destination != own,
        _ => false,
    }
}

//! Calls 32 and 33, the preemption lock: every rule, the order of the checks,
//! and what other calls do under a lock (document 02, e).

mod common;

use common::{line, World, CHANNELS, TWO};
use separate::events::Events;
use separate::record::{Lock, Mode, Wait};
use separate::Six;

/// Partitions 1 and 2, a gap before and after each window. Channel 1 leads
/// from 2 to 1, channel 2 back, one message each; channel 3 from 1 to 2 is a
/// sampling one.
const GAPS: [Six; 6] = [
    [10, 2, 2, 3, 0, 0],
    [0, 3, 1, 1, 0, 0],
    [5, 3, 2, 1, 0, 0],
    [2, 1, 5, 1, 1, 0],
    [1, 2, 5, 1, 1, 0],
    [1, 2, 5, 0, 0, 0],
];

/// Level and holder of partition 1's lock.
fn lock(world: &World) -> (i64, usize) {
    lock_of(world, 1)
}

fn lock_of(world: &World, partition: usize) -> (i64, usize) {
    let Lock { level, holder } = world.module.partition(partition).lock;
    (level, holder)
}

/// Locks so many times over.
fn take(world: &mut World, levels: i64) {
    for _ in 0..levels {
        world.done(32, &[]);
    }
}

fn give_back(world: &mut World, levels: i64) {
    for _ in 0..levels {
        world.done(33, &[]);
    }
}

/// Process 1, of priority 5, runs and holds the lock once. There are one of
/// each object, all empty, and a full buffer (2) and a full semaphore (2).
fn locked() -> World {
    let mut world = World::one();
    world.semaphore(0, 1);
    world.semaphore(1, 1);
    world.flag();
    world.flag();
    world.buffer(1);
    world.buffer(1);
    world.blackboard();
    world.blackboard();
    world.done(18, &[2]);
    world.done(27, &[2, 70]);
    world.started(5);
    world.started(3);
    world.normal();
    world.done(24, &[2, 40, 0]);
    take(&mut world, 1);
    world
}

/// The partition is the one before but for its lock.
fn only_lock_changed(world: &mut World, call: i64, expected: (i64, usize)) {
    let mut partition = world.partition().clone();
    let (level, holder) = expected;
    partition.lock = Lock { level, holder };
    world.done(call, &[]);
    assert_eq!(world.partition(), &partition);
}

// 32 LOCK_PREEMPTION, 33 UNLOCK_PREEMPTION

#[test]
fn a_fresh_partition_has_level_0_and_no_holder() {
    let world = World::new(&CHANNELS);
    for partition in world.module.partitions() {
        assert_eq!(partition.lock, Lock::OPEN);
        assert!(!partition.locked());
    }
    assert_eq!(lock(&world), (0, 0));
}

#[test]
fn both_are_1_in_start_modes() {
    let mut world = World::one();
    world.refused(1, 32, &[]);
    world.refused(1, 33, &[]);
    world.started(5);
    world.refused(1, 32, &[]);
    world.refused(1, 33, &[]);
    world.normal();
    world.done(1, &[2]);
    assert_eq!(world.partition().mode, Mode::WarmStart);
    world.refused(1, 32, &[]);
    world.refused(1, 33, &[]);
}

#[test]
fn place_13_comes_before_8_and_8_before_9_and_9_before_1() {
    for call in [32, 33] {
        let mut world = World::new(&TWO);
        for field in 0..4 {
            for partition in [0, 1, 2] {
                let mut event = line(partition, call, &[]);
                event[2 + field] = 1;
                world.refused_event(13, event);
            }
        }
        world.refused_event(13, line(0, call, &[]));
        world.refused_event(13, line(3, call, &[]));
        world.refused_event(8, line(2, call, &[]));
        world.create(5, -1, -1);
        world.normal();
        // NORMAL and nothing runs.
        world.refused(9, call, &[]);
        world.refused_event(13, line(1, call, &[1]));
        world.ticks(6);
        world.refused_event(8, line(1, call, &[]));
        world.refused_event(1, line(2, call, &[]));
        assert_eq!(world.code([2, 1, 0, 0, 0, 0]), 0);
        // IDLE.
        world.refused_event(9, line(2, call, &[]));
        world.refused_event(13, line(2, call, &[-1]));
    }
}

#[test]
fn the_level_rises_to_16_where_lock_is_4_and_falls_to_0_where_unlock_is_1() {
    let mut world = World::one();
    world.started(5);
    world.normal();
    world.refused(1, 33, &[]);
    for level in 1..=16 {
        only_lock_changed(&mut world, 32, (level, 1));
    }
    world.refused(4, 32, &[]);
    world.refused(13, 32, &[1]);
    world.refused(4, 32, &[]);
    for level in (1..16).rev() {
        only_lock_changed(&mut world, 33, (level, 1));
    }
    take(&mut world, 15);
    world.refused(4, 32, &[]);
    give_back(&mut world, 15);
    only_lock_changed(&mut world, 33, (0, 0));
    world.refused(1, 33, &[]);
    assert_eq!(lock(&world), (0, 0));
}

#[test]
fn the_answers_of_both_have_value_0_and_show_the_holder() {
    let mut world = World::new(&TWO);
    world.started(5);
    world.started(9);
    world.normal();
    assert_eq!(world.event([1, 32, 0, 0, 0, 0]), [0, 0, 0, 0, 1, 2]);
    world.done(12, &[1, 200]);
    assert_eq!(world.event([1, 32, 0, 0, 0, 0]), [0, 0, 0, 0, 1, 2]);
    assert_eq!(world.event([1, 33, 0, 0, 0, 0]), [0, 0, 0, 0, 1, 2]);
    assert_eq!(world.event([2, 33, 0, 0, 0, 0]), [8, 0, 0, 0, 1, 0]);
    assert_eq!(world.event([1, 33, 0, 0, 0, 0]), [0, 0, 0, 0, 1, 1]);
    assert_eq!(world.event([1, 33, 0, 0, 0, 0]), [1, 0, 0, 0, 1, 1]);
}

#[test]
fn the_holder_is_who_raised_the_level_from_0() {
    let mut world = World::one();
    world.started(9);
    world.started(5);
    world.normal();
    take(&mut world, 2);
    assert_eq!(lock(&world), (2, 1));
    give_back(&mut world, 2);
    world.waits(9, &[1]);
    take(&mut world, 1);
    assert_eq!(lock(&world), (1, 2));
    world.ticks(1);
    // Process 1 is READY again; it is still process 2 that calls.
    take(&mut world, 2);
    assert_eq!(lock(&world), (3, 2));
    give_back(&mut world, 3);
    assert_eq!((lock(&world), world.running()), ((0, 0), 1));
    take(&mut world, 1);
    assert_eq!(lock(&world), (1, 1));
}

// Others of greater or equal priority

/// How process 2, of the greater priority, stops being READY, and how it
/// becomes READY while process 1 holds the lock.
struct Arrival {
    name: &'static str,
    period: i64,
    goes: fn(&mut World),
    comes: fn(&mut World),
}

const ARRIVALS: [Arrival; 17] = [
    aperiodic("START", |it| it.done(6, &[]), |it| it.done(3, &[2])),
    aperiodic(
        "DELAYED_START 0",
        |it| it.done(6, &[]),
        |it| it.done(4, &[2, 0]),
    ),
    aperiodic("RESUME", |it| it.waits(8, &[-1]), |it| it.done(11, &[2])),
    aperiodic(
        "SIGNAL",
        |it| it.waits(15, &[1, -1]),
        |it| it.done(16, &[1]),
    ),
    aperiodic(
        "SET_EVENT",
        |it| it.waits(20, &[1, -1]),
        |it| it.done(18, &[1]),
    ),
    aperiodic(
        "SEND_BUFFER",
        |it| it.waits(25, &[1, -1]),
        |it| it.done(24, &[1, 7, 0]),
    ),
    aperiodic(
        "RECEIVE_BUFFER",
        |it| {
            it.done(24, &[1, 7, 0]);
            it.waits(24, &[1, 8, -1]);
        },
        |it| assert_eq!(it.call(25, &[1, 0]), [0, 7, 0]),
    ),
    aperiodic(
        "SHOW",
        |it| it.waits(28, &[1, -1]),
        |it| it.done(27, &[1, 7]),
    ),
    aperiodic("a timed wait's end", |it| it.waits(9, &[2]), two_ticks),
    aperiodic("SUSPEND_SELF's end", |it| it.waits(8, &[2]), two_ticks),
    aperiodic(
        "a semaphore's time-out",
        |it| it.waits(15, &[1, 2]),
        two_ticks,
    ),
    aperiodic("an event's time-out", |it| it.waits(20, &[1, 2]), two_ticks),
    aperiodic(
        "a receiver's time-out",
        |it| it.waits(25, &[1, 2]),
        two_ticks,
    ),
    aperiodic("a reader's time-out", |it| it.waits(28, &[1, 2]), two_ticks),
    aperiodic(
        "a delay's end",
        |it| {
            it.done(6, &[]);
            it.done(4, &[2, 2]);
        },
        two_ticks,
    ),
    Arrival {
        name: "a release",
        period: 10,
        goes: |it| assert_eq!(it.process(2).wait, Wait::Period),
        comes: |it| it.ticks(10),
    },
    Arrival {
        name: "a release after PERIODIC_WAIT",
        period: 10,
        goes: |it| {
            it.ticks(10);
            turn_of_2(it);
            it.waits(10, &[]);
        },
        comes: |it| it.ticks(10),
    },
];

const fn aperiodic(name: &'static str, goes: fn(&mut World), comes: fn(&mut World)) -> Arrival {
    Arrival {
        name,
        period: -1,
        goes,
        comes,
    }
}

/// Of equal priorities the second has its turn.
fn turn_of_2(world: &mut World) {
    if world.running() == 1 {
        world.done(9, &[0]);
    }
}

fn two_ticks(world: &mut World) {
    world.ticks(2);
}

/// Process 1 holds the lock at level 2 while process 2, of this priority,
/// becomes READY.
fn arrived(arrival: &Arrival, priority: i64) -> World {
    let mut world = World::one();
    world.semaphore(0, 1);
    world.flag();
    world.buffer(1);
    world.blackboard();
    world.started(5);
    world.create(priority, arrival.period, -1);
    world.done(3, &[2]);
    world.normal();
    if arrival.period == -1 {
        turn_of_2(&mut world);
    }
    (arrival.goes)(&mut world);
    assert_eq!((world.running(), world.arrival()), (1, vec![1]));
    take(&mut world, 2);
    (arrival.comes)(&mut world);
    world
}

#[test]
fn a_greater_priority_does_not_take_over_and_runs_after_the_last_unlock() {
    for arrival in &ARRIVALS {
        let name = arrival.name;
        let mut world = arrived(arrival, 9);
        assert_eq!(world.arrival(), [1, 2], "{name}");
        assert_eq!((world.running(), lock(&world)), (1, (2, 1)), "{name}");
        assert_eq!(world.call(13, &[1]), [0, 2, -1], "{name}");
        assert_eq!(world.call(13, &[2]), [0, 1, -1], "{name}");
        give_back(&mut world, 1);
        world.tick();
        assert_eq!((world.running(), lock(&world)), (1, (1, 1)), "{name}");
        give_back(&mut world, 1);
        assert_eq!((world.running(), lock(&world)), (2, (0, 0)), "{name}");
        assert_eq!(world.call(13, &[2]), [0, 2, -1], "{name}");
        assert_eq!(world.arrival(), [1, 2], "{name}");
    }
}

#[test]
fn an_equal_priority_that_comes_later_runs_later_after_the_unlock_too() {
    for arrival in &ARRIVALS {
        let mut world = arrived(arrival, 5);
        assert_eq!((world.running(), world.arrival()), (1, vec![1, 2]));
        give_back(&mut world, 2);
        assert_eq!(world.running(), 1, "{}", arrival.name);
        world.done(9, &[0]);
        assert_eq!(world.running(), 2, "{}", arrival.name);
    }
}

#[test]
fn an_equal_priority_ahead_in_the_arrival_list_runs_after_the_unlock() {
    let mut world = World::one();
    world.started(5);
    world.started(5);
    world.normal();
    world.done(9, &[0]);
    world.waits(9, &[1]);
    // Process 1 alone; process 2 comes back behind it, and 1 goes to the end.
    take(&mut world, 1);
    world.ticks(1);
    assert_eq!(world.arrival(), [1, 2]);
    world.refused(5, 9, &[0]);
    assert_eq!(world.arrival(), [1, 2]);
    world.done(12, &[1, 5]);
    assert_eq!((world.running(), world.arrival()), (1, vec![2, 1]));
    give_back(&mut world, 1);
    assert_eq!(world.running(), 2);
}

#[test]
fn set_priority_under_a_lock_moves_as_always_and_the_holder_runs() {
    let mut world = World::one();
    for priority in [9, 5, 5] {
        world.started(priority);
    }
    world.normal();
    take(&mut world, 1);
    // Another above the holder, the holder below all, the holder above all.
    world.done(12, &[2, 239]);
    assert_eq!((world.running(), world.arrival()), (1, vec![1, 3, 2]));
    world.done(12, &[1, 1]);
    assert_eq!((world.running(), world.arrival()), (1, vec![3, 2, 1]));
    assert_eq!(world.process(1).current, 1);
    world.refused(3, 12, &[1, 240]);
    world.done(12, &[3, 7]);
    assert_eq!((world.running(), world.arrival()), (1, vec![2, 1, 3]));
    give_back(&mut world, 1);
    assert_eq!(world.running(), 2);
    world.waits(9, &[5]);
    assert_eq!(world.running(), 3);
}

#[test]
fn others_are_started_stopped_suspended_and_resumed_as_always() {
    let mut world = locked();
    for call in [5, 7, 11] {
        world.refused(3, call, &[1]);
    }
    world.done(7, &[2]);
    world.refused(1, 7, &[2]);
    assert_eq!((world.running(), world.arrival()), (1, vec![1]));
    world.done(11, &[2]);
    world.done(5, &[2]);
    world.refused(1, 5, &[2]);
    world.done(4, &[2, 1]);
    world.ticks(1);
    assert_eq!((world.running(), world.arrival()), (1, vec![1, 2]));
    assert_eq!(lock(&world), (1, 1));
    // Created nothing, as ever in NORMAL.
    world.refused(5, 2, &[9, 5, -1, -1]);
    world.refused(5, 14, &[9, 0, 1]);
}

// The calls that can wait

#[test]
fn timed_wait_is_3_then_5_whatever_the_time() {
    let mut world = locked();
    for time in [-2, -1, 10_000_000] {
        world.refused(3, 9, &[time]);
    }
    for time in [0, 1, 9_999_999] {
        world.refused(5, 9, &[time]);
    }
    take(&mut world, 15);
    world.refused(3, 9, &[-1]);
    world.refused(5, 9, &[0]);
    give_back(&mut world, 16);
    world.done(9, &[0]);
    assert_eq!(world.arrival(), [2, 1]);
    world.waits(9, &[1]);
}

#[test]
fn suspend_self_is_3_then_5_whatever_the_time() {
    let mut world = locked();
    for time in [-2, 10_000_000] {
        world.refused(3, 8, &[time]);
    }
    for time in [-1, 0, 1, 9_999_999] {
        world.refused(5, 8, &[time]);
    }
    give_back(&mut world, 1);
    world.done(8, &[0]);
    world.waits(8, &[-1]);
}

/// Process 1, periodic, is released at 10, runs and holds the lock; process 2
/// is aperiodic.
fn locked_by_periodic() -> World {
    let mut world = World::one();
    world.create(5, 10, 4);
    world.done(3, &[1]);
    world.started(3);
    world.normal();
    world.ticks(10);
    take(&mut world, 1);
    assert_eq!(lock(&world), (1, 1));
    world
}

#[test]
fn periodic_wait_is_5_for_a_periodic_and_an_aperiodic_holder() {
    let mut world = locked_by_periodic();
    world.refused(5, 10, &[]);
    // SUSPEND_SELF of a periodic caller is 5 before its 3.
    world.refused(5, 8, &[-2]);
    world.refused(5, 8, &[0]);
    world.refused(3, 9, &[-1]);
    world.refused(5, 9, &[0]);
    assert_eq!(world.process(1).release, Some(10));
    give_back(&mut world, 1);
    world.waits(10, &[]);
    assert_eq!(world.process(1).release, Some(20));
    take(&mut world, 1);
    assert_eq!(lock(&world), (1, 2));
    world.refused(5, 10, &[]);
}

/// Calls that may wait for an object: what would wait, what finds something at
/// once, and where the time-out stands. Objects 2 have what objects 1 lack.
const OBJECTS: [(i64, &[i64], &[i64], usize); 5] = [
    (15, &[1, 0], &[2, 0], 1),
    (20, &[1, 0], &[2, 0], 1),
    (24, &[2, 5, 0], &[1, 5, 0], 2),
    (25, &[1, 0], &[2, 0], 1),
    (28, &[1, 0], &[2, 0], 1),
];

fn with_time_out(fields: &[i64], place: usize, time_out: i64) -> Vec<i64> {
    let mut fields = fields.to_vec();
    fields[place] = time_out;
    fields
}

#[test]
fn a_call_that_would_wait_for_an_object_is_5_and_leaves_the_record() {
    for (call, waits, _, place) in OBJECTS {
        let mut world = locked();
        for time_out in [-1, 1, 9_999_999] {
            world.refused(5, call, &with_time_out(waits, place, time_out));
        }
        give_back(&mut world, 1);
        world.waits(call, &with_time_out(waits, place, -1));
    }
}

#[test]
fn time_out_0_stays_2_and_bad_fields_stay_3() {
    for (call, waits, finds, place) in OBJECTS {
        let mut world = locked();
        world.refused(2, call, waits);
        for time_out in [-2, 10_000_000] {
            world.refused(3, call, &with_time_out(waits, place, time_out));
            world.refused(3, call, &with_time_out(finds, place, time_out));
        }
        for id in [0, -1, 3] {
            let mut fields = waits.to_vec();
            fields[0] = id;
            world.refused(3, call, &fields);
            world.refused(3, call, &with_time_out(&fields, place, 5));
        }
    }
    let mut world = locked();
    for message in [-1, 10_000_000] {
        world.refused(3, 24, &[1, message, 5]);
        world.refused(3, 24, &[2, message, 5]);
        world.refused(3, 24, &[2, message, 0]);
    }
}

#[test]
fn what_is_there_at_once_is_0_whatever_the_time_out() {
    for time_out in [-1, 0, 1, 9_999_999] {
        for (call, _, finds, place) in OBJECTS {
            let mut world = locked();
            let value = match call {
                25 => 40,
                28 => 70,
                _ => 0,
            };
            let fields = with_time_out(finds, place, time_out);
            assert_eq!(world.call(call, &fields), [0, value, 0], "call {call}");
            assert_eq!((world.running(), lock(&world)), (1, (1, 1)));
        }
    }
    let mut world = locked();
    world.done(15, &[2, -1]);
    world.refused(5, 15, &[2, -1]);
    world.done(24, &[1, 5, -1]);
    world.refused(5, 24, &[1, 6, -1]);
    assert_eq!(world.call(25, &[1, -1]), [0, 5, 0]);
    world.refused(5, 25, &[1, -1]);
    assert_eq!(world.held(2), [40]);
}

#[test]
fn a_receive_under_a_lock_lets_a_waiting_sender_in() {
    let mut world = World::one();
    world.buffer(1);
    world.started(5);
    world.started(9);
    world.normal();
    world.done(24, &[1, 10, 0]);
    world.waits(24, &[1, 20, 8]);
    take(&mut world, 1);
    world.refused(5, 24, &[1, 30, -1]);
    assert_eq!(world.senders(1), [2]);
    assert_eq!(world.call(25, &[1, -1]), [0, 10, 0]);
    assert_eq!((world.held(1), world.senders(1)), (vec![20], vec![]));
    assert_eq!((world.running(), world.arrival()), (1, vec![1, 2]));
}

/// Partitions 1 and 2 of `GAPS` in NORMAL with processes 1 (priority 5) and 2
/// (priority 9) each; partition 1 is current, at t 10.
fn neighbours() -> World {
    let mut world = World::new(&GAPS);
    for partition in [1, 2] {
        while world.module.current() != partition {
            world.ticks(1);
        }
        let own = partition as i64;
        for (id, priority) in [(1, 5), (2, 9)] {
            assert_eq!(world.code([own, 2, id, priority, -1, -1]), 0);
            assert_eq!(world.code([own, 3, id, 0, 0, 0]), 0);
        }
        assert_eq!(world.code([own, 1, 3, 0, 0, 0]), 0);
    }
    world.ticks(5);
    assert_eq!((world.module.t(), world.running()), (10, 2));
    world
}

#[test]
fn channel_checks_come_before_the_lock() {
    let mut world = neighbours();
    take(&mut world, 1);
    // No such channel, a sampling one.
    for channel in [0, 4, 3] {
        world.refused(3, 30, &[channel, 5, -1]);
        world.refused(3, 31, &[channel, -1]);
    }
    // Not the source, not the destination, before bad fields.
    world.refused(5, 30, &[1, -1, -2]);
    world.refused(5, 31, &[2, -2]);
    world.refused(3, 30, &[2, -1, 5]);
    world.refused(3, 30, &[2, 10_000_000, 5]);
    world.refused(3, 30, &[2, 5, -2]);
    world.refused(3, 31, &[1, 10_000_000]);
    // Room; then full: 2 at time-out 0, else 5.
    world.done(30, &[2, 5, -1]);
    world.refused(3, 30, &[2, 5, 10_000_000]);
    world.refused(2, 30, &[2, 5, 0]);
    for time_out in [-1, 1, 9_999_999] {
        world.refused(5, 30, &[2, 5, time_out]);
        world.refused(5, 31, &[1, time_out]);
    }
    world.refused(2, 31, &[1, 0]);
    give_back(&mut world, 1);
    world.waits(30, &[2, 6, -1]);
    world.waits(31, &[1, -1]);
}

#[test]
fn a_neighbours_send_wakes_a_receiver_and_the_holder_runs_on() {
    let mut world = neighbours();
    world.waits(31, &[1, -1]);
    take(&mut world, 1);
    assert_eq!(lock(&world), (1, 1));
    world.ticks(5);
    assert_eq!(world.event([2, 30, 1, 77, 0, 0]), [0, 0, 0, 15, 2, 2]);
    assert_eq!(world.arrival(), [1, 2]);
    assert_eq!((world.process(2).message, lock(&world)), (77, (1, 1)));
    world.ticks(4);
    assert_eq!(world.tick(), [0, 0, 0, 20, 1, 1]);
    assert_eq!(world.event([1, 33, 0, 0, 0, 0]), [0, 0, 0, 20, 1, 2]);
}

#[test]
fn a_neighbours_receive_or_restart_lets_a_sender_in_and_the_holder_runs_on() {
    for (event, answer) in [
        ([2, 31, 2, 0, 0, 0], [0, 60, 0, 15, 2, 2]),
        ([2, 1, 1, 0, 0, 0], [0, 0, 0, 15, 2, 0]),
    ] {
        let mut world = neighbours();
        world.done(30, &[2, 60, 0]);
        world.waits(30, &[2, 61, -1]);
        take(&mut world, 3);
        world.ticks(5);
        assert_eq!(world.event(event), answer);
        assert_eq!((world.arrival(), lock(&world)), (vec![1, 2], (3, 1)));
        world.ticks(4);
        assert_eq!(world.tick(), [0, 0, 0, 20, 1, 1]);
        give_back(&mut world, 2);
        assert_eq!(world.event([1, 33, 0, 0, 0, 0]), [0, 0, 0, 20, 1, 2]);
    }
}

#[test]
fn a_holders_send_and_receive_serve_a_neighbour_that_waits() {
    let mut world = neighbours();
    // Partition 2's process 2 waits to receive, its process 1 to send.
    world.ticks(5);
    assert_eq!(world.code([2, 31, 2, -1, 0, 0]), 7);
    assert_eq!(world.code([2, 30, 1, 50, 0, 0]), 0);
    assert_eq!(world.code([2, 30, 1, 51, -1, 0]), 7);
    world.ticks(5);
    take(&mut world, 1);
    world.done(30, &[2, 80, -1]);
    assert_eq!(world.call(31, &[1, -1]), [0, 50, 0]);
    let neighbour = world.module.partition(2);
    assert_eq!(neighbour.arrival, [2, 1]);
    assert_eq!(neighbour.process(2).message, 80);
    assert_eq!(world.call(31, &[1, -1]), [0, 51, 0]);
    assert_eq!((world.running(), lock(&world)), (2, (1, 2)));
}

// The lock's end

#[test]
fn stop_self_brings_the_level_to_0() {
    for levels in [1, 2, 16] {
        let mut world = locked();
        world.done(12, &[2, 200]);
        take(&mut world, levels - 1);
        assert_eq!(world.event([1, 6, 0, 0, 0, 0]), [0, 0, 0, 0, 1, 2]);
        assert_eq!(lock(&world), (0, 0));
        assert!(world.process(1).dormant());
        world.refused(1, 33, &[]);
        // Started again it holds nothing.
        world.done(3, &[1]);
        assert_eq!((lock(&world), world.running()), ((0, 0), 2));
        world.waits(9, &[3]);
        world.waits(9, &[3]);
    }
}

#[test]
fn stop_self_of_the_last_ready_process_leaves_nothing_running() {
    let mut world = World::one();
    world.started(5);
    world.started(4);
    world.normal();
    world.waits(9, &[3]);
    take(&mut world, 5);
    assert_eq!(world.event([1, 6, 0, 0, 0, 0]), [0, 0, 0, 0, 1, 0]);
    for call in [32, 33] {
        world.refused(9, call, &[]);
    }
    world.ticks(2);
    assert_eq!(world.tick(), [0, 0, 0, 3, 1, 1]);
    take(&mut world, 1);
    assert_eq!(lock(&world), (1, 1));
}

#[test]
fn stop_self_without_a_lock_leaves_none() {
    let mut world = locked();
    give_back(&mut world, 1);
    world.done(6, &[]);
    assert_eq!((lock(&world), world.running()), ((0, 0), 2));
}

#[test]
fn an_accepted_mode_change_brings_the_level_to_0() {
    for (mode, levels) in [(0, 1), (1, 2), (2, 16)] {
        let mut world = locked();
        take(&mut world, levels - 1);
        assert_eq!(world.event([1, 1, mode, 0, 0, 0]), [0, 0, 0, 0, 1, 0]);
        assert_eq!(lock(&world), (0, 0));
        assert_eq!(world.partition().mode.number(), mode);
        let code = if mode == 0 { 9 } else { 1 };
        world.refused(code, 32, &[]);
        world.refused(code, 33, &[]);
    }
}

#[test]
fn after_a_restart_the_lock_is_taken_anew() {
    let mut world = locked();
    take(&mut world, 4);
    world.done(1, &[2]);
    world.started(3);
    world.started(4);
    world.normal();
    assert_eq!((lock(&world), world.running()), ((0, 0), 2));
    world.refused(1, 33, &[]);
    take(&mut world, 1);
    assert_eq!(lock(&world), (1, 2));
}

#[test]
fn a_refused_mode_change_leaves_the_level() {
    let mut world = locked();
    take(&mut world, 2);
    for mode in [-1, 4, 999_999_999] {
        world.refused(3, 1, &[mode]);
    }
    world.refused(1, 1, &[3]);
    world.refused(13, 1, &[0, 1]);
    assert_eq!(lock(&world), (3, 1));
}

#[test]
fn stop_of_another_leaves_the_level() {
    let mut world = locked();
    world.done(5, &[2]);
    assert_eq!(lock(&world), (1, 1));
}

// Windows, partitions, time

#[test]
fn a_lock_stays_over_other_windows_and_gaps() {
    let mut world = neighbours();
    world.waits(9, &[4]);
    take(&mut world, 2);
    let shown = [
        [0, 0, 0, 11, 1, 1],
        [0, 0, 0, 12, 1, 1],
        [0, 0, 0, 13, 0, 0],
        [0, 0, 0, 14, 0, 0],
        [0, 0, 0, 15, 2, 2],
        [0, 0, 0, 16, 2, 2],
        [0, 0, 0, 17, 2, 2],
        [0, 0, 0, 18, 0, 0],
        [0, 0, 0, 19, 0, 0],
        [0, 0, 0, 20, 1, 1],
    ];
    for answer in shown {
        assert_eq!(world.tick(), answer);
        assert_eq!(lock(&world), (2, 1));
    }
    // Process 2 has been READY since 14.
    assert_eq!(world.arrival(), [1, 2]);
    give_back(&mut world, 2);
    assert_eq!(world.running(), 2);
}

#[test]
fn each_partition_has_a_lock_of_its_own() {
    let mut world = neighbours();
    take(&mut world, 3);
    world.refused_event(8, [2, 32, 0, 0, 0, 0]);
    world.refused_event(8, [2, 33, 0, 0, 0, 0]);
    world.ticks(5);
    // Partition 2 is not locked, and its waits wait.
    world.refused_event(1, [2, 33, 0, 0, 0, 0]);
    assert_eq!(world.event([2, 9, 3, 0, 0, 0]), [7, 0, 0, 15, 2, 1]);
    for level in 1..=16 {
        assert_eq!(world.event([2, 32, 0, 0, 0, 0]), [0, 0, 0, 15, 2, 1]);
        assert_eq!((lock(&world), lock_of(&world, 2)), ((3, 2), (level, 1)));
    }
    world.refused_event(4, [2, 32, 0, 0, 0, 0]);
    world.refused_event(8, [1, 33, 0, 0, 0, 0]);
    world.ticks(5);
    assert_eq!((world.module.current(), world.running()), (1, 2));
    give_back(&mut world, 3);
    assert_eq!((lock(&world), lock_of(&world, 2)), ((0, 0), (16, 1)));
    world.refused(1, 33, &[]);
    world.done(1, &[2]);
    assert_eq!(lock_of(&world, 2), (16, 1));
    world.ticks(5);
    // Process 2 of partition 2 is READY again.
    assert_eq!(world.event([2, 6, 0, 0, 0, 0]), [0, 0, 0, 25, 2, 2]);
    assert_eq!(lock_of(&world, 2), (0, 0));
}

#[test]
fn a_neighbours_restart_leaves_the_level() {
    let mut world = neighbours();
    take(&mut world, 2);
    world.ticks(5);
    for mode in [2, 1, 0] {
        assert_eq!(world.code([2, 1, mode, 0, 0, 0]), 0);
        assert_eq!(lock(&world), (2, 2));
    }
}

#[test]
fn deadlines_are_missed_under_a_lock() {
    let mut world = World::one();
    for (priority, capacity) in [(9, 2), (5, 3)] {
        let id = world.create(priority, -1, capacity);
        world.done(3, &[id]);
    }
    world.normal();
    take(&mut world, 1);
    assert_eq!(world.call(13, &[1]), [0, 2, 2]);
    assert_eq!(world.call(13, &[2]), [0, 1, 3]);
    assert_eq!(world.tick(), [0, 0, 0, 1, 1, 1]);
    assert_eq!(world.tick(), [0, 0, 0, 2, 1, 1]);
    assert!(world.process(1).missed && !world.process(2).missed);
    assert_eq!(world.tick(), [0, 0, 0, 3, 1, 1]);
    assert!(world.process(2).missed);
    assert_eq!(world.call(13, &[1]), [0, 2, -1]);
    assert_eq!(lock(&world), (1, 1));
    give_back(&mut world, 1);
}

#[test]
fn a_periodic_holder_keeps_its_release_past_the_next_one() {
    let mut world = locked_by_periodic();
    world.ticks(4);
    assert!(world.process(1).missed);
    world.ticks(11);
    let process = world.process(1);
    assert_eq!((process.release, process.wake), (Some(10), None));
    assert_eq!((world.running(), lock(&world)), (1, (1, 1)));
    world.refused(5, 10, &[]);
    give_back(&mut world, 1);
    world.waits(10, &[]);
    // Late: r is 20 at t 25.
    assert_eq!(world.process(1).release, Some(20));
    world.tick();
    assert_eq!(world.running(), 1);
}

// Made-up events

/// How often made-up events changed a level, and how often a holder was
/// refused with 5.
fn check_levels(mut events: Events, count: usize) -> [usize; 2] {
    let (mut changed, mut refused) = (0, 0);
    for _ in 0..count {
        let before = events.module.clone();
        let (event, answer) = events.next_event();
        let pairs = before.partitions().iter().zip(events.module.partitions());
        for (k, (old, new)) in (1..).zip(pairs) {
            let own = event.partition == k && event.call != 0;
            if old.lock != new.lock {
                // A neighbour never, and only by these calls.
                assert!(own && answer.code == 0, "{event:?}");
                match event.call {
                    32 => assert_eq!(new.lock.level, old.lock.level + 1),
                    33 => assert_eq!(new.lock.level, old.lock.level - 1),
                    1 | 6 => assert_eq!(new.lock, Lock::OPEN),
                    call => panic!("call {call} changed a level"),
                }
                if old.locked() && new.locked() {
                    assert_eq!(old.lock.holder, new.lock.holder);
                }
                changed += 1;
            }
            if own && old.locked() && ![8, 13].contains(&answer.code) {
                // A holder calls, and never waits.
                assert!(![7, 9].contains(&answer.code), "{event:?}");
                refused += usize::from(answer.code == 5);
            }
        }
    }
    [changed, refused]
}

#[test]
fn only_a_partitions_own_calls_change_its_level_and_a_holder_never_waits() {
    let (mut changed, mut refused) = (0, 0);
    for seed in 0..200 {
        for events in [Events::with_table(seed).1, Events::of_locks(seed).1] {
            let [more, further] = check_levels(events, 500);
            changed += more;
            refused += further;
        }
    }
    assert!(changed > 10_000 && refused > 5_000, "{changed} {refused}");
}

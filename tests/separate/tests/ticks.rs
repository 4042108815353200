//! The tick: timers, deadlines, and their order.

mod common;

use common::{World, TWO};
use separate::record::Wait;

#[test]
fn a_timed_wait_ends_with_code_0_at_its_time_and_not_before() {
    let mut world = World::one();
    world.started(5);
    world.normal();
    world.waits(9, &[3]);
    world.ticks(2);
    assert_eq!(world.process(1).wait, Wait::Timed);
    world.tick();
    let process = world.process(1);
    assert_eq!(
        (process.wait, process.wake, process.wake_code),
        (Wait::None, None, 0)
    );
    assert_eq!(world.running(), 1);
}

#[test]
fn semaphore_and_event_time_outs_leave_the_queue_with_code_6() {
    let mut world = World::one();
    world.semaphore(0, 1);
    world.flag();
    for priority in [9, 8, 7] {
        world.started(priority);
    }
    world.normal();
    world.waits(15, &[1, 2]);
    world.waits(20, &[1, 2]);
    world.waits(15, &[1, 3]);
    world.ticks(2);
    assert_eq!(
        (world.semaphore_queue(1), world.event_queue(1)),
        (vec![3], vec![])
    );
    assert_eq!(
        (world.process(1).wake_code, world.process(2).wake_code),
        (6, 6)
    );
    assert_eq!(world.arrival(), [1, 2]);
    // The signal goes to the one that is still there.
    world.done(16, &[1]);
    assert_eq!(world.partition().semaphores[0].value, 0);
    assert_eq!(world.process(3).wake_code, 0);
}

#[test]
fn delay_timed_and_period_waits_end_with_wake_code_0() {
    let mut world = World::one();
    world.semaphore(0, 1);
    world.create(9, -1, -1);
    world.create(8, 10, -1);
    world.done(4, &[1, 1]);
    world.done(3, &[2]);
    world.normal();
    world.tick();
    assert_eq!(
        (world.process(1).wait, world.process(1).wake_code),
        (Wait::None, 0)
    );
    world.waits(15, &[1, 1]);
    world.tick();
    assert_eq!(world.process(1).wake_code, 6);
    world.waits(9, &[1]);
    assert_eq!(world.process(1).wake_code, 6);
    world.tick();
    assert_eq!(world.process(1).wake_code, 0);
    world.waits(9, &[50]);
    world.ticks(7);
    assert_eq!((world.running(), world.process(2).wake_code), (2, 0));
    world.waits(15, &[1, 1]);
    world.tick();
    assert_eq!(world.process(2).wake_code, 6);
    world.waits(10, &[]);
    world.ticks(9);
    assert_eq!((world.running(), world.process(2).wake_code), (2, 0));
}

#[test]
fn suspend_self_times_out_with_code_6_and_loses_the_mark() {
    let mut world = World::one();
    world.started(5);
    world.normal();
    world.waits(8, &[2]);
    assert_eq!(world.tick(), [0, 0, 0, 1, 1, 0]);
    assert_eq!(world.tick(), [0, 0, 0, 2, 1, 1]);
    let process = world.process(1);
    assert_eq!(
        (process.suspended, process.wake, process.wake_code),
        (false, None, 6)
    );
}

#[test]
fn suspend_self_for_ever_never_times_out() {
    let mut world = World::one();
    world.started(5);
    world.normal();
    world.waits(8, &[-1]);
    world.ticks(1000);
    assert!(world.process(1).suspended);
    assert_eq!(world.running(), 0);
}

#[test]
fn an_ended_wait_leaves_the_suspended_mark() {
    let mut world = World::one();
    world.started(1);
    world.started(9);
    world.normal();
    world.waits(9, &[2]);
    world.done(7, &[2]);
    world.ticks(2);
    let process = world.process(2);
    assert_eq!(
        (process.wait, process.wake, process.wake_code),
        (Wait::None, None, 0)
    );
    assert!(process.suspended);
    assert_eq!(world.running(), 1);
    world.ticks(20);
    assert_eq!(world.running(), 1);
}

#[test]
fn a_suspended_semaphore_waiter_times_out_with_6_and_keeps_the_mark() {
    let mut world = World::one();
    world.semaphore(0, 1);
    world.started(1);
    world.started(9);
    world.normal();
    world.waits(15, &[1, 2]);
    world.done(7, &[2]);
    world.ticks(2);
    let process = world.process(2);
    assert_eq!(
        (process.wait, process.wake, process.wake_code),
        (Wait::None, None, 6)
    );
    assert!(process.suspended);
    assert_eq!(world.semaphore_queue(1), []);
    // RESUME without a wait clears the wake code.
    world.done(11, &[2]);
    assert_eq!((world.running(), world.process(2).wake_code), (2, 0));
}

#[test]
fn ascending_id_decides_the_arrival_order() {
    let mut world = World::one();
    for _ in 0..3 {
        world.started(5);
    }
    world.normal();
    // They begin to wait in the order 1, 2, 3 and end together.
    world.waits(9, &[4]);
    world.tick();
    world.waits(9, &[3]);
    world.tick();
    world.waits(9, &[2]);
    assert_eq!(world.arrival(), []);
    world.ticks(2);
    assert_eq!(world.arrival(), [1, 2, 3]);

    let mut world = World::one();
    for priority in [5, 6, 7] {
        world.started(priority);
    }
    world.normal();
    for _ in 0..3 {
        world.waits(9, &[2]);
    }
    world.ticks(2);
    assert_eq!(world.arrival(), [1, 2, 3]);
}

#[test]
fn those_that_wake_come_behind_those_already_ready() {
    let mut world = World::one();
    world.started(5);
    world.started(5);
    world.normal();
    world.waits(9, &[1]);
    world.tick();
    assert_eq!(world.arrival(), [2, 1]);
    assert_eq!(world.running(), 2);
}

#[test]
fn a_deadline_is_missed_at_d_and_only_once() {
    let mut world = World::one();
    world.create(5, -1, 5);
    world.done(3, &[1]);
    world.normal();
    world.ticks(4);
    assert_eq!(
        (world.process(1).missed, world.process(1).deadline),
        (false, Some(5))
    );
    world.tick();
    assert_eq!(
        (world.process(1).missed, world.process(1).deadline),
        (true, None)
    );
    // The mark changes nothing else: it still runs.
    assert_eq!(world.running(), 1);
}

#[test]
fn a_deadline_is_missed_by_waiting_and_suspended_processes_too() {
    let mut world = World::one();
    world.started(1);
    world.create(8, -1, 3);
    world.create(7, -1, 3);
    world.create(6, -1, 3);
    world.done(3, &[2]);
    world.done(3, &[3]);
    world.done(4, &[4, 0]);
    world.normal();
    world.waits(9, &[50]);
    world.done(7, &[4]);
    world.waits(8, &[60]);
    world.ticks(3);
    for id in [2, 3, 4] {
        assert!(world.process(id).missed, "process {id}");
        assert_eq!(world.process(id).deadline, None);
    }
    assert!(!world.process(1).missed);
}

#[test]
fn wake_time_and_deadline_may_come_with_one_tick() {
    let mut world = World::one();
    world.create(5, -1, 3);
    world.done(3, &[1]);
    world.normal();
    world.waits(9, &[3]);
    world.ticks(3);
    let process = world.process(1);
    assert_eq!(
        (process.wait, process.missed, process.deadline),
        (Wait::None, true, None)
    );
}

#[test]
fn timers_run_outside_the_partitions_window() {
    let mut world = World::new(&TWO);
    world.create(5, -1, 7);
    world.done(3, &[1]);
    world.normal();
    world.ticks(5);
    world.waits(9, &[3]);
    world.ticks(3);
    assert_eq!((world.module.t(), world.module.current()), (8, 2));
    assert_eq!(
        (world.process(1).wait, world.process(1).missed),
        (Wait::None, true)
    );
    assert_eq!(world.arrival(), [1]);
    assert_eq!(world.running(), 0);
}

#[test]
fn a_partition_in_a_start_mode_has_no_timers() {
    let mut world = World::one();
    world.create(5, -1, 3);
    world.done(4, &[1, 2]);
    world.ticks(20);
    let process = world.process(1);
    assert_eq!(
        (process.wait, process.missed, process.deadline),
        (Wait::Normal, false, None)
    );
    world.normal();
    assert_eq!(
        (world.process(1).wake, world.process(1).deadline),
        (Some(22), Some(25))
    );
}

#[test]
fn every_normal_partition_is_worked_on() {
    let mut world = World::new(&TWO);
    world.started(5);
    world.normal();
    world.ticks(5);
    world.waits(9, &[3]);
    world.tick();
    for event in [[2, 2, 1, 5, -1, 3], [2, 3, 1, 0, 0, 0], [2, 1, 3, 0, 0, 0]] {
        assert_eq!(world.code(event), 0);
    }
    assert_eq!(world.code([2, 9, 2, 0, 0, 0]), 7);
    assert_eq!(world.tick(), [0, 0, 0, 7, 2, 0]);
    assert_eq!(world.tick(), [0, 0, 0, 8, 2, 1]);
    assert_eq!(world.arrival(), [1]);
    world.tick();
    assert!(world.module.partition(2).process(1).missed);
}

#[test]
fn the_missed_mark_lasts_until_the_next_start() {
    let mut world = World::one();
    world.create(5, 10, 2);
    world.done(3, &[1]);
    world.normal();
    world.ticks(12);
    assert!(world.process(1).missed);
    world.waits(10, &[]);
    assert!(world.process(1).missed);
    world.ticks(8);
    assert!(world.process(1).missed);
    assert_eq!((world.running(), world.process(1).deadline), (1, Some(22)));
}

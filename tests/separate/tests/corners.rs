//! The worked example, the corners, and the mistakes to shut out.

mod common;

use common::{World, CHANNELS, TWO};
use separate::record::{Message, Wait};

const EXAMPLE: [[i64; 6]; 6] = [
    [1, 2, 7, 50, -1, 5],
    [1, 3, 1, 0, 0, 0],
    [1, 1, 3, 0, 0, 0],
    [2, 1, 3, 0, 0, 0],
    [1, 9, 4, 0, 0, 0],
    [0, 0, 0, 0, 0, 0],
];

#[test]
fn the_worked_example() {
    let mut world = World::new(&TWO);
    let answers: Vec<_> = EXAMPLE.iter().map(|&event| world.event(event)).collect();
    assert_eq!(
        answers,
        [
            [0, 1, 0, 0, 1, 0],
            [0, 0, 0, 0, 1, 0],
            [0, 0, 0, 0, 1, 1],
            [8, 0, 0, 0, 1, 0],
            [7, 0, 0, 0, 1, 0],
            [0, 0, 0, 1, 1, 0],
        ]
    );
}

#[test]
fn the_worked_example_continued() {
    let mut world = World::new(&TWO);
    for event in EXAMPLE {
        world.event(event);
    }
    assert_eq!(world.tick(), [0, 0, 0, 2, 1, 0]);
    assert_eq!(world.tick(), [0, 0, 0, 3, 1, 0]);
    assert_eq!(world.tick(), [0, 0, 0, 4, 1, 1]);
    assert!(!world.process(1).missed);
    assert_eq!(world.tick(), [0, 0, 0, 5, 1, 1]);
    assert!(world.process(1).missed);
    assert_eq!(world.tick(), [0, 0, 0, 6, 2, 0]);
}

#[test]
fn priority_239_and_240() {
    let mut world = World::one();
    world.refused(3, 2, &[1, 240, -1, -1]);
    assert_eq!(world.call(2, &[1, 239, -1, -1]), [0, 1, 0]);
    world.done(3, &[1]);
    world.refused(3, 12, &[1, 240]);
    world.done(12, &[1, 239]);
}

#[test]
fn name_255_and_256() {
    let mut world = World::one();
    world.refused(3, 2, &[256, 5, -1, -1]);
    world.refused(3, 14, &[256, 0, 1]);
    world.refused(3, 17, &[256]);
    world.refused(3, 23, &[256, 1]);
    world.refused(3, 26, &[256]);
    assert_eq!(world.call(2, &[255, 5, -1, -1]), [0, 1, 0]);
    assert_eq!(world.call(14, &[255, 0, 1]), [0, 1, 0]);
    assert_eq!(world.call(17, &[255]), [0, 1, 0]);
    assert_eq!(world.call(23, &[255, 1]), [0, 1, 0]);
    assert_eq!(world.call(26, &[255]), [0, 1, 0]);
}

#[test]
fn limit_16_and_17() {
    let mut world = World::one();
    world.refused(3, 23, &[1, 17]);
    assert_eq!(world.call(23, &[1, 16]), [0, 1, 0]);
    world.started(5);
    world.normal();
    for message in 1..=16 {
        world.done(24, &[1, message, 0]);
    }
    world.refused(2, 24, &[1, 17, 0]);
    for message in 1..=16 {
        assert_eq!(world.call(25, &[1, 0]), [0, message, 0]);
    }
    world.refused(2, 25, &[1, 0]);
}

#[test]
fn message_9_999_999_and_10_000_000() {
    let mut world = World::one();
    world.buffer(1);
    world.blackboard();
    world.started(5);
    world.normal();
    world.refused(3, 24, &[1, 10_000_000, 0]);
    world.refused(3, 27, &[1, 10_000_000]);
    world.done(24, &[1, 9_999_999, 0]);
    world.done(27, &[1, 9_999_999]);
    assert_eq!(world.call(25, &[1, 0]), [0, 9_999_999, 0]);
    assert_eq!(world.call(28, &[1, 0]), [0, 9_999_999, 0]);
}

#[test]
fn period_m_and_m_plus_1() {
    let mut world = World::one();
    world.refused(3, 2, &[1, 5, 11, -1]);
    assert_eq!(world.call(2, &[1, 5, 10, -1]), [0, 1, 0]);
    // With M 1 every period up to the greatest is a multiple.
    let mut world = World::new(&[[1, 1, 1, 0, 0, 0], [0, 1, 1, 1, 0, 0]]);
    assert_eq!(world.call(2, &[1, 5, 2, -1]), [0, 1, 0]);
    assert_eq!(world.call(2, &[2, 5, 9_999_999, -1]), [0, 2, 0]);
    world.refused(3, 2, &[3, 5, 10_000_000, -1]);
}

#[test]
fn delay_period_minus_1_and_period() {
    let mut world = World::one();
    world.create(5, 10, -1);
    world.refused(3, 4, &[1, 10]);
    world.done(4, &[1, 9]);
}

#[test]
fn age_refresh_and_refresh_plus_1() {
    let mut world = World::new(&CHANNELS);
    world.ticks(1);
    world.done(21, &[1, 42]);
    world.ticks(5);
    assert_eq!(world.event([2, 22, 1, 0, 0, 0]), [0, 42, 1, 6, 2, 0]);
    let mut world = World::new(&CHANNELS);
    world.done(21, &[1, 42]);
    world.ticks(6);
    assert_eq!(world.event([2, 22, 1, 0, 0, 0]), [0, 42, 0, 6, 2, 0]);
}

#[test]
fn timeout_0() {
    let mut world = World::one();
    world.one_of_each();
    for call in [15, 20, 25, 28] {
        world.refused(2, call, &[1, 0]);
    }
    world.done(24, &[1, 7, 0]);
    world.refused(2, 24, &[1, 8, 0]);
    world.done(8, &[0]);
    world.done(9, &[0]);
    assert_eq!(world.running(), 1);
}

#[test]
fn signal_at_max() {
    let mut world = World::one();
    world.semaphore(1, 1);
    world.refused(1, 16, &[1]);
}

#[test]
fn periodic_wait_with_r_at_most_t_waits_until_the_next_tick() {
    let mut world = World::one();
    world.create(5, 10, 4);
    world.done(3, &[1]);
    world.normal();
    world.ticks(35);
    assert_eq!(world.event([1, 10, 0, 0, 0, 0]), [7, 0, 0, 35, 1, 0]);
    let process = world.process(1);
    assert_eq!(
        (process.release, process.wake, process.deadline),
        (Some(20), Some(20), Some(24))
    );
    assert_eq!(world.tick(), [0, 0, 0, 36, 1, 1]);
    assert!(world.process(1).missed);
    assert_eq!(world.process(1).deadline, None);
    // It catches up release by release, one tick each.
    assert_eq!(world.event([1, 10, 0, 0, 0, 0]), [7, 0, 0, 36, 1, 0]);
    assert_eq!(world.tick(), [0, 0, 0, 37, 1, 1]);
    assert_eq!(world.process(1).release, Some(30));
}

#[test]
fn timers_do_not_freeze_outside_the_window() {
    let mut world = World::new(&TWO);
    world.started(5);
    world.normal();
    world.ticks(5);
    world.waits(9, &[2]);
    world.ticks(2);
    assert_eq!(world.module.current(), 2);
    assert_eq!(world.process(1).wait, Wait::None);
    world.ticks(2);
    assert_eq!(world.tick(), [0, 0, 0, 10, 1, 1]);
}

#[test]
fn a_neighbours_running_process_never_shows_in_8_or_13() {
    let mut world = World::new(&TWO);
    world.started(5);
    world.normal();
    assert_eq!(world.event([2, 13, 1, 0, 0, 0]), [8, 0, 0, 0, 1, 0]);
    assert_eq!(world.event([2, 13, 1, 1, 0, 0]), [13, 0, 0, 0, 1, 0]);
    assert_eq!(world.event([2, 0, 0, 0, 0, 0]), [13, 0, 0, 0, 1, 0]);
    assert_eq!(world.event([2, 35, 0, 0, 0, 0]), [13, 0, 0, 0, 1, 0]);
}

#[test]
fn a_periodic_deadline_counts_from_the_release_and_not_from_t() {
    let mut world = World::one();
    world.create(5, 10, 3);
    world.done(3, &[1]);
    world.ticks(4);
    world.normal();
    assert_eq!(
        (world.process(1).release, world.process(1).deadline),
        (Some(10), Some(13))
    );
    world.ticks(5);
    assert!(!world.process(1).missed);
    world.ticks(3);
    assert_eq!((world.module.t(), world.process(1).missed), (12, false));
    world.tick();
    assert!(world.process(1).missed);
}

#[test]
fn an_ended_wait_makes_no_suspended_process_ready() {
    let mut world = World::one();
    world.semaphore(0, 1);
    world.flag();
    world.buffer(1);
    world.buffer(1);
    world.blackboard();
    for priority in [1, 9, 8, 7, 6, 5, 4] {
        world.started(priority);
    }
    world.normal();
    world.waits(15, &[1, 20]);
    world.waits(20, &[1, 20]);
    world.waits(9, &[3]);
    world.waits(25, &[1, 20]);
    world.waits(28, &[1, 20]);
    world.done(24, &[2, 11, 0]);
    world.waits(24, &[2, 12, 20]);
    let waiters = [2, 3, 4, 5, 6, 7];
    for id in waiters {
        world.done(7, &[id]);
    }
    world.done(16, &[1]);
    world.done(18, &[1]);
    world.done(24, &[1, 21, 0]);
    world.done(27, &[1, 31]);
    assert_eq!(world.call(25, &[2, 0]), [0, 11, 0]);
    world.ticks(3);
    assert_eq!(world.arrival(), [1]);
    for id in waiters {
        assert_eq!(world.process(id).wait, Wait::None);
        assert_eq!(world.call(13, &[id]), [0, 3, -1]);
    }
}

#[test]
fn a_sources_restart_erases_no_message() {
    let mut world = World::new(&CHANNELS);
    world.done(21, &[1, 42]);
    for mode in [1, 0] {
        world.done(1, &[mode]);
        assert_eq!(
            world.message(1),
            Some(Message {
                value: 42,
                written: 0
            })
        );
    }
    world.ticks(4);
    assert_eq!(world.event([2, 22, 1, 0, 0, 0]), [0, 42, 1, 4, 2, 0]);
}

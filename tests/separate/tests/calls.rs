//! Calls 1 to 22: every rule, and the order of the checks. Calls 23 to 29 are
//! in `messages.rs`, 30 and 31 in `queuing.rs`, 32 and 33 in `locks.rs`, 34 in
//! `ticks_left.rs`.

mod common;

use common::{creation_by_name_is_checked, line, World, CHANNELS, TWO};
use separate::record::{Message, Mode, Wait};

/// One partition in NORMAL; process 1 runs at priority 9, and process 2,
/// aperiodic at priority 5, is READY.
fn pair() -> World {
    let mut world = World::one();
    world.started(9);
    world.started(5);
    world.normal();
    world
}

// 1 SET_PARTITION_MODE

#[test]
fn mode_not_0_to_3_is_3_in_every_mode() {
    let mut world = World::one();
    for mode in [-1, 4, 999_999_999] {
        world.refused(3, 1, &[mode]);
    }
    world.started(5);
    world.normal();
    world.refused(3, 1, &[4]);
    world.done(1, &[2]);
    world.refused(3, 1, &[-1]);
}

#[test]
fn mode_3_in_normal_is_1() {
    pair().refused(1, 1, &[3]);
}

#[test]
fn mode_2_in_cold_start_is_5_and_elsewhere_good() {
    let mut world = World::one();
    world.refused(5, 1, &[2]);
    world.started(5);
    world.refused(5, 1, &[2]);
    world.normal();
    world.done(1, &[2]);
    assert_eq!(world.partition().mode, Mode::WarmStart);
    world.done(1, &[2]);
    assert_eq!(world.partition().mode, Mode::WarmStart);
    world.done(1, &[1]);
    world.refused(5, 1, &[2]);
}

#[test]
fn mode_3_with_no_process_is_5() {
    let mut world = World::one();
    world.semaphore(0, 1);
    world.flag();
    world.refused(5, 1, &[3]);
    world.create(5, -1, -1);
    world.normal();
}

#[test]
fn normal_may_be_entered_with_dormant_processes_only_and_is_9_for_ever() {
    let mut world = World::one();
    world.create(5, -1, -1);
    world.normal();
    world.refused(9, 3, &[1]);
    world.refused(9, 1, &[1]);
}

#[test]
fn entering_normal_starts_by_id_those_waiting_for_it() {
    let mut world = World::one();
    for _ in 0..3 {
        world.create(5, -1, -1);
    }
    world.done(3, &[3]);
    world.done(3, &[1]);
    assert_eq!(world.arrival(), []);
    world.normal();
    assert_eq!(world.arrival(), [1, 3]);
    assert!(world.process(2).dormant());
    assert_eq!(world.process(2).current, 0);
}

#[test]
fn entering_normal_takes_the_start_rule_with_the_delay() {
    let mut world = World::one();
    world.create(5, -1, 20);
    world.create(5, 30, 7);
    world.create(5, -1, -1);
    world.done(4, &[1, 4]);
    world.done(4, &[2, 12]);
    world.done(4, &[3, 0]);
    world.ticks(3);
    world.normal();
    let delayed = world.process(1);
    assert_eq!(
        (delayed.wait, delayed.wake, delayed.deadline),
        (Wait::Delay, Some(7), Some(27))
    );
    assert_eq!((delayed.release, delayed.delay), (None, 4));
    let periodic = world.process(2);
    assert_eq!((periodic.wait, periodic.wake), (Wait::Period, Some(22)));
    assert_eq!((periodic.release, periodic.deadline), (Some(22), Some(29)));
    let ready = world.process(3);
    assert_eq!(
        (ready.wait, ready.wake, ready.deadline),
        (Wait::None, None, None)
    );
    assert_eq!(world.arrival(), [3]);
}

#[test]
fn entering_normal_keeps_the_suspended_mark_and_the_current_priority() {
    let mut world = World::one();
    world.create(5, -1, 6);
    world.started(4);
    world.done(3, &[1]);
    world.done(12, &[1, 200]);
    world.done(7, &[1]);
    world.normal();
    let process = world.process(1);
    assert!(process.suspended);
    assert_eq!((process.current, process.base), (200, 5));
    assert_eq!(
        (process.wait, process.wake, process.deadline),
        (Wait::None, None, Some(6))
    );
    assert_eq!(world.arrival(), [2]);
    // Its deadline runs all the same, and RESUME makes it READY.
    world.ticks(6);
    assert!(world.process(1).missed);
    world.done(11, &[1]);
    assert_eq!(world.arrival(), [2, 1]);
    assert_eq!(world.running(), 1);
}

#[test]
fn entering_normal_with_a_delay_and_the_mark_keeps_both() {
    let mut world = World::one();
    world.started(4);
    world.create(5, -1, -1);
    world.done(4, &[2, 3]);
    world.done(7, &[2]);
    world.normal();
    assert_eq!(
        (world.process(2).wait, world.process(2).wake),
        (Wait::Delay, Some(3))
    );
    world.ticks(3);
    assert_eq!(
        (world.process(2).wait, world.process(2).wake),
        (Wait::None, None)
    );
    assert!(world.process(2).suspended);
    assert_eq!(world.arrival(), [1]);
}

#[test]
fn modes_0_1_and_2_erase_processes_semaphores_and_events() {
    for mode in [0, 1, 2] {
        let mut world = World::one();
        world.semaphore(1, 2);
        world.flag();
        world.started(5);
        world.normal();
        assert_eq!(world.event([1, 1, mode, 0, 0, 0]), [0, 0, 0, 0, 1, 0]);
        let partition = world.partition();
        assert_eq!(partition.mode.number(), mode);
        assert!(partition.processes.is_empty() && partition.arrival.is_empty());
        assert!(partition.semaphores.is_empty() && partition.events.is_empty());
    }
}

#[test]
fn mode_1_in_cold_start_erases_too_and_ids_count_from_1_again() {
    let mut world = World::one();
    world.started(5);
    world.semaphore(0, 1);
    world.done(1, &[1]);
    assert!(world.partition().processes.is_empty());
    assert_eq!(world.call(2, &[1, 5, -1, -1]), [0, 1, 0]);
    assert_eq!(world.call(14, &[1, 0, 1]), [0, 1, 0]);
}

#[test]
fn a_restart_erases_messages_into_the_partition_and_no_others() {
    let mut world = World::new(&CHANNELS);
    world.done(21, &[1, 11]);
    world.ticks(4);
    assert_eq!(world.outcome([2, 21, 2, 22, 0, 0]), [0, 0, 0]);
    assert_eq!(world.outcome([2, 21, 3, 33, 0, 0]), [0, 0, 0]);
    assert_eq!(world.outcome([2, 1, 1, 0, 0, 0]), [0, 0, 0]);
    assert_eq!(world.message(1), None);
    assert_eq!(
        world.message(2),
        Some(Message {
            value: 22,
            written: 4
        })
    );
    assert_eq!(
        world.message(3),
        Some(Message {
            value: 33,
            written: 4
        })
    );
}

#[test]
fn entering_normal_erases_no_message() {
    let mut world = World::new(&CHANNELS);
    world.done(21, &[1, 11]);
    world.ticks(4);
    assert_eq!(world.outcome([2, 2, 1, 5, -1, -1]), [0, 1, 0]);
    assert_eq!(world.outcome([2, 1, 3, 0, 0, 0]), [0, 0, 0]);
    assert_eq!(
        world.message(1),
        Some(Message {
            value: 11,
            written: 0
        })
    );
}

#[test]
fn an_idle_partition_answers_9_for_ever() {
    let mut world = World::one();
    world.done(1, &[0]);
    world.refused(9, 1, &[1]);
    world.ticks(30);
    world.refused(9, 1, &[1]);
}

// 2 CREATE_PROCESS

#[test]
fn create_process_gives_ids_in_order_and_a_dormant_record() {
    let mut world = World::one();
    assert_eq!(world.call(2, &[200, 7, 20, 15]), [0, 1, 0]);
    assert_eq!(world.call(2, &[100, 8, -1, -1]), [0, 2, 0]);
    let process = world.process(1);
    assert_eq!((process.name, process.base, process.current), (200, 7, 0));
    assert_eq!((process.period, process.capacity), (Some(20), Some(15)));
    assert_eq!(
        (process.release, process.deadline, process.wake),
        (None, None, None)
    );
    assert_eq!(
        (process.delay, process.wake_code, process.wait),
        (0, 0, Wait::None)
    );
    assert!(process.dormant() && !process.suspended && !process.missed);
}

#[test]
fn create_process_checks_each_field() {
    let mut world = World::one();
    for fields in [
        [0, 5, -1, -1],
        [-1, 5, -1, -1],
        [256, 5, -1, -1],
        [1, 0, -1, -1],
        [1, -1, -1, -1],
        [1, 240, -1, -1],
        [1, 5, 0, -1],
        [1, 5, 11, -1],
        [1, 5, 9, -1],
        [1, 5, -10, -1],
        [1, 5, 10_000_000, -1],
        [1, 5, -1, 0],
        [1, 5, -1, -2],
        [1, 5, -1, 10_000_000],
        [1, 5, 10, 11],
        [1, 5, 10, 0],
    ] {
        world.refused(3, 2, &fields);
    }
    for fields in [
        [1, 1, -1, -1],
        [255, 239, -1, 9_999_999],
        [2, 5, 10, 10],
        [3, 5, 10, -1],
        [4, 5, 9_999_990, 9_999_990],
        [5, 5, 20, 1],
    ] {
        assert_eq!(world.call(2, &fields)[0], 0, "{fields:?}");
    }
}

#[test]
fn create_process_checks_run_4_then_1_then_3_then_5() {
    let mut world = World::one();
    for _ in 0..15 {
        world.started(5);
    }
    // Name exists and the priority is bad: 1 before 3.
    world.refused(1, 2, &[15, 0, -1, -1]);
    world.started(5);
    // Sixteen exist, the name too, the priority is bad: 4 first.
    world.refused(4, 2, &[15, 0, -1, -1]);
    world.refused(4, 2, &[200, 5, -1, -1]);
    world.normal();
    world.refused(4, 2, &[200, 5, -1, -1]);
    world.refused(4, 2, &[15, 0, -1, -1]);

    let mut world = pair();
    world.refused(1, 2, &[1, 0, 7, -1]);
    world.refused(1, 2, &[1, 5, -1, -1]);
    world.refused(3, 2, &[3, 0, -1, -1]);
    world.refused(5, 2, &[3, 5, -1, -1]);
}

#[test]
fn names_are_compared_within_the_partition_and_the_kind() {
    let mut world = World::new(&TWO);
    assert_eq!(world.call(2, &[7, 5, -1, -1]), [0, 1, 0]);
    assert_eq!(world.call(14, &[7, 0, 1]), [0, 1, 0]);
    assert_eq!(world.call(17, &[7]), [0, 1, 0]);
    world.refused(1, 2, &[7, 5, -1, -1]);
    world.refused(1, 14, &[7, 0, 1]);
    world.refused(1, 17, &[7]);
    world.ticks(6);
    assert_eq!(world.outcome([2, 2, 7, 5, -1, -1]), [0, 1, 0]);
}

// 3 START, 4 DELAYED_START

#[test]
fn start_of_an_unknown_id_is_3() {
    let mut world = pair();
    for id in [0, -1, 3, 17, 999_999_999] {
        world.refused(3, 3, &[id]);
        world.refused(3, 4, &[id, 0]);
    }
    world.done(1, &[1]);
    world.refused(3, 3, &[1]);
}

#[test]
fn a_bad_delay_is_3_before_not_dormant_1() {
    let mut world = pair();
    world.refused(3, 4, &[2, -1]);
    world.refused(3, 4, &[2, 10_000_000]);
    world.refused(1, 4, &[2, 9_999_999]);
    world.refused(1, 3, &[2]);
    world.refused(1, 3, &[1]);
}

#[test]
fn the_delay_of_a_periodic_process_stays_below_its_period() {
    let mut world = World::one();
    world.create(5, 20, -1);
    world.refused(3, 4, &[1, 20]);
    world.refused(3, 4, &[1, -1]);
    world.done(4, &[1, 19]);
    // Started now: the delay is still looked at first.
    world.refused(3, 4, &[1, 20]);
    world.refused(1, 4, &[1, 19]);
}

#[test]
fn start_in_a_start_mode_waits_for_normal() {
    let mut world = World::one();
    world.create(7, -1, 9);
    world.done(4, &[1, 6]);
    let process = world.process(1);
    assert!(process.started && !process.ready());
    assert_eq!(
        (process.wait, process.current, process.delay),
        (Wait::Normal, 7, 6)
    );
    assert_eq!(
        (process.wake, process.deadline, process.release),
        (None, None, None)
    );
    world.done(5, &[1]);
    assert_eq!(world.process(1).delay, 6);
    world.done(3, &[1]);
    assert_eq!(world.process(1).delay, 0);
}

#[test]
fn start_in_normal_leaves_the_delay_field() {
    let mut world = World::one();
    world.started(9);
    world.create(5, -1, -1);
    world.done(4, &[2, 8]);
    world.normal();
    world.done(5, &[2]);
    world.done(4, &[2, 3]);
    assert_eq!(
        (world.process(2).delay, world.process(2).wake),
        (8, Some(3))
    );
    world.done(5, &[2]);
    world.done(3, &[2]);
    assert_eq!((world.process(2).delay, world.process(2).wake), (8, None));
}

#[test]
fn the_start_rule_of_an_aperiodic_process() {
    let mut world = World::one();
    world.started(9);
    world.create(5, -1, 8);
    world.create(6, -1, -1);
    world.normal();
    world.ticks(13);
    world.done(4, &[2, 4]);
    let process = world.process(2);
    assert_eq!(
        (process.wait, process.wake, process.deadline),
        (Wait::Delay, Some(17), Some(25))
    );
    assert_eq!((process.release, process.current), (None, 5));
    world.done(3, &[3]);
    let process = world.process(3);
    assert_eq!(
        (process.wait, process.wake, process.deadline),
        (Wait::None, None, None)
    );
    assert_eq!(world.arrival(), [1, 3]);
}

#[test]
fn a_delayed_start_of_0_is_ready_at_once() {
    let mut world = World::one();
    world.started(9);
    world.create(5, -1, 8);
    world.normal();
    world.ticks(2);
    world.done(4, &[2, 0]);
    assert_eq!(world.arrival(), [1, 2]);
    assert_eq!(
        (world.process(2).wake, world.process(2).deadline),
        (None, Some(10))
    );
}

#[test]
fn the_start_rule_of_a_periodic_process_counts_from_the_next_flagged_window() {
    // Partition 1 has windows at 1 (no flag), 4 (flag) and 7 (flag).
    let table = [
        [10, 1, 3, 0, 0, 0],
        [1, 2, 1, 0, 0, 0],
        [4, 2, 1, 1, 0, 0],
        [7, 3, 1, 1, 0, 0],
    ];
    let mut world = World::new(&table);
    world.ticks(1);
    world.started(9);
    world.create(5, 20, 6);
    world.create(5, 20, -1);
    world.normal();
    world.ticks(11);
    assert_eq!(world.module.t(), 12);
    world.done(3, &[2]);
    let process = world.process(2);
    assert_eq!(
        (process.release, process.wake, process.deadline),
        (Some(14), Some(14), Some(20))
    );
    assert_eq!(process.wait, Wait::Period);
    world.done(4, &[3, 5]);
    let process = world.process(3);
    assert_eq!(
        (process.release, process.wake, process.deadline),
        (Some(19), Some(19), None)
    );
}

#[test]
fn a_periodic_start_at_the_first_tick_of_a_frame_still_takes_the_next_one() {
    let mut world = World::one();
    world.started(9);
    world.create(5, 10, 10);
    world.normal();
    world.ticks(10);
    world.done(3, &[2]);
    assert_eq!(
        (world.process(2).release, world.process(2).deadline),
        (Some(20), Some(30))
    );
}

#[test]
fn the_start_rule_clears_marks_wake_code_and_priority() {
    let mut world = World::one();
    world.semaphore(0, 1);
    world.started(9);
    world.create(5, -1, 2);
    world.done(3, &[2]);
    world.normal();
    world.done(12, &[2, 20]);
    // Process 2 runs, times out (wake code 6) and misses its deadline.
    world.waits(15, &[1, 2]);
    world.ticks(2);
    assert_eq!(
        (world.process(2).wake_code, world.process(2).missed),
        (6, true)
    );
    world.done(6, &[]);
    let process = world.process(2);
    assert_eq!(
        (process.wake_code, process.missed, process.current),
        (6, true, 20)
    );
    world.done(3, &[2]);
    let process = world.process(2);
    assert_eq!(
        (process.wake_code, process.missed, process.current),
        (0, false, 5)
    );
}

#[test]
fn a_start_may_take_the_processor_from_the_caller() {
    let mut world = World::one();
    world.started(3);
    world.create(8, -1, -1);
    world.normal();
    assert_eq!(world.event([1, 3, 2, 0, 0, 0]), [0, 0, 0, 0, 1, 2]);
}

// 5 STOP, 6 STOP_SELF

#[test]
fn stop_checks_unknown_then_the_caller_then_dormant() {
    let mut world = World::one();
    world.started(9);
    world.create(5, -1, -1);
    world.normal();
    world.refused(3, 5, &[0]);
    world.refused(3, 5, &[3]);
    world.refused(3, 5, &[1]);
    world.refused(1, 5, &[2]);
}

#[test]
fn stop_clears_wait_times_and_mark_and_leaves_the_queue() {
    let mut world = World::one();
    world.semaphore(0, 1);
    world.flag();
    world.started(1);
    world.create(8, -1, 50);
    world.create(7, -1, 60);
    world.done(3, &[2]);
    world.done(3, &[3]);
    world.normal();
    world.waits(15, &[1, 30]);
    world.waits(20, &[1, -1]);
    world.done(7, &[2]);
    assert_eq!(
        (world.semaphore_queue(1), world.event_queue(1)),
        (vec![2], vec![3])
    );
    world.done(5, &[2]);
    world.done(5, &[3]);
    for id in [2, 3] {
        let process = world.process(id);
        assert!(process.dormant() && !process.suspended);
        assert_eq!(process.wait, Wait::None);
        assert_eq!(
            (process.wake, process.deadline, process.release),
            (None, None, None)
        );
    }
    assert_eq!(
        (world.semaphore_queue(1), world.event_queue(1)),
        (vec![], vec![])
    );
    // A later signal finds no waiter.
    world.done(16, &[1]);
    assert_eq!(world.partition().semaphores[0].value, 1);
}

#[test]
fn stop_of_a_periodic_process_clears_its_release() {
    let mut world = World::one();
    world.started(9);
    world.create(5, 10, 5);
    world.done(3, &[2]);
    world.normal();
    assert_eq!(world.process(2).release, Some(10));
    world.done(5, &[2]);
    let process = world.process(2);
    assert_eq!(
        (process.release, process.wake, process.deadline),
        (None, None, None)
    );
    world.ticks(30);
    assert!(!world.process(2).missed);
}

#[test]
fn stop_leaves_priority_missed_mark_wake_code_and_delay() {
    let mut world = World::one();
    world.started(9);
    world.create(5, -1, 3);
    world.done(4, &[2, 1]);
    world.normal();
    world.done(12, &[2, 4]);
    world.ticks(4);
    world.done(5, &[2]);
    let process = world.process(2);
    assert_eq!((process.current, process.delay), (4, 1));
    assert!(process.missed);
}

#[test]
fn stop_in_a_start_mode_acts_on_a_process_waiting_for_normal() {
    let mut world = World::one();
    world.started(5);
    world.done(5, &[1]);
    assert!(world.process(1).dormant());
    assert_eq!(world.process(1).wait, Wait::None);
    world.refused(1, 5, &[1]);
    world.normal();
    world.refused(9, 13, &[1]);
}

#[test]
fn stop_self_stops_the_caller_and_is_5_in_a_start_mode() {
    let mut world = World::one();
    world.started(9);
    world.started(5);
    world.refused(5, 6, &[]);
    world.normal();
    assert_eq!(world.event([1, 6, 0, 0, 0, 0]), [0, 0, 0, 0, 1, 2]);
    assert!(world.process(1).dormant());
    assert_eq!(world.arrival(), [2]);
    assert_eq!(world.event([1, 6, 0, 0, 0, 0]), [0, 0, 0, 0, 1, 0]);
    world.refused(9, 6, &[]);
}

// 7 SUSPEND, 8 SUSPEND_SELF, 11 RESUME

#[test]
fn suspend_checks_unknown_then_caller_then_dormant_or_periodic_then_suspended() {
    let mut world = World::one();
    world.started(9);
    world.started(5);
    world.create(5, -1, -1);
    world.create(5, 10, -1);
    world.done(3, &[4]);
    world.create(5, 10, -1);
    world.normal();
    world.refused(3, 7, &[6]);
    world.refused(3, 7, &[1]);
    world.refused(5, 7, &[3]);
    world.refused(5, 7, &[4]);
    world.refused(5, 7, &[5]);
    world.done(7, &[2]);
    world.refused(1, 7, &[2]);
}

#[test]
fn suspend_of_a_periodic_caller_is_3_and_not_5() {
    let mut world = World::one();
    world.create(9, 10, -1);
    world.done(3, &[1]);
    world.normal();
    world.ticks(10);
    assert_eq!(world.running(), 1);
    world.refused(3, 7, &[1]);
    world.refused(3, 11, &[1]);
    world.refused(3, 5, &[1]);
}

#[test]
fn suspend_sets_the_mark_and_nothing_else() {
    let mut world = World::one();
    world.semaphore(0, 1);
    world.started(1);
    world.started(8);
    world.normal();
    world.waits(15, &[1, 20]);
    let mut expected = world.process(2).clone();
    world.done(7, &[2]);
    expected.suspended = true;
    assert_eq!(world.process(2), &expected);
    assert_eq!(world.semaphore_queue(1), [2]);
}

#[test]
fn a_suspended_ready_process_leaves_the_arrival_list() {
    let mut world = pair();
    world.done(7, &[2]);
    assert_eq!(world.arrival(), [1]);
    assert_eq!(world.call(13, &[2]), [0, 3, -1]);
    world.done(11, &[2]);
    assert_eq!(world.arrival(), [1, 2]);
}

#[test]
fn suspend_and_resume_work_in_start_modes() {
    let mut world = World::one();
    world.started(5);
    world.refused(1, 11, &[1]);
    world.done(7, &[1]);
    world.refused(1, 7, &[1]);
    assert_eq!(world.process(1).wait, Wait::Normal);
    world.done(11, &[1]);
    assert_eq!(world.process(1).wait, Wait::Normal);
    world.normal();
    assert_eq!(world.running(), 1);
}

#[test]
fn suspend_self_checks_start_mode_and_periodic_5_before_3() {
    let mut world = World::one();
    world.create(9, 10, -1);
    world.done(3, &[1]);
    world.refused(5, 8, &[-2]);
    world.refused(5, 8, &[0]);
    world.normal();
    world.ticks(10);
    world.refused(5, 8, &[10_000_000]);
    world.refused(5, 8, &[0]);
    let mut world = pair();
    world.refused(3, 8, &[-2]);
    world.refused(3, 8, &[10_000_000]);
}

#[test]
fn suspend_self_0_changes_nothing() {
    let mut world = World::one();
    world.started(5);
    world.started(5);
    world.normal();
    let before = world.module.clone();
    world.done(8, &[0]);
    assert!(world.module == before);
    assert_eq!(world.arrival(), [1, 2]);
}

#[test]
fn suspend_self_sets_mark_and_wake_time_and_no_wait() {
    let mut world = pair();
    world.ticks(2);
    world.waits(8, &[3]);
    let process = world.process(1);
    assert!(process.suspended);
    assert_eq!((process.wait, process.wake), (Wait::None, Some(5)));
    assert_eq!(world.running(), 2);
    world.waits(8, &[-1]);
    assert_eq!(
        (world.process(2).wait, world.process(2).wake),
        (Wait::None, None)
    );
    assert_eq!(world.running(), 0);
}

#[test]
fn resume_checks_unknown_then_caller_then_dormant_or_periodic_then_not_suspended() {
    let mut world = World::one();
    world.started(9);
    world.started(5);
    world.create(5, -1, -1);
    world.create(5, 10, -1);
    world.done(3, &[4]);
    world.normal();
    world.refused(3, 11, &[5]);
    world.refused(3, 11, &[1]);
    world.refused(5, 11, &[3]);
    world.refused(5, 11, &[4]);
    world.refused(1, 11, &[2]);
}

#[test]
fn resume_without_wait_clears_wake_time_and_wake_code() {
    let mut world = World::one();
    world.semaphore(0, 1);
    world.started(9);
    world.started(5);
    world.normal();
    world.waits(15, &[1, 1]);
    world.tick();
    assert_eq!(world.process(1).wake_code, 6);
    world.waits(8, &[50]);
    assert_eq!(world.process(1).wake_code, 6);
    world.done(11, &[1]);
    let process = world.process(1);
    assert_eq!(
        (process.suspended, process.wake, process.wake_code),
        (false, None, 0)
    );
    assert_eq!(world.arrival(), [2, 1]);
}

#[test]
fn resume_with_a_wait_leaves_wake_time_wait_and_wake_code() {
    let mut world = World::one();
    world.semaphore(0, 1);
    world.started(9);
    world.started(5);
    world.normal();
    world.waits(15, &[1, 1]);
    world.tick();
    world.waits(15, &[1, 50]);
    world.done(7, &[1]);
    world.done(11, &[1]);
    let process = world.process(1);
    assert_eq!((process.wait, process.wake), (Wait::Semaphore(1), Some(51)));
    assert_eq!(process.wake_code, 6);
    assert_eq!(world.semaphore_queue(1), [1]);
}

// 9 TIMED_WAIT, 10 PERIODIC_WAIT

#[test]
fn timed_wait_is_5_in_start_modes_before_3() {
    let mut world = World::one();
    world.started(5);
    world.refused(5, 9, &[-1]);
    world.refused(5, 9, &[0]);
    world.normal();
    world.refused(3, 9, &[-1]);
    world.refused(3, 9, &[10_000_000]);
}

#[test]
fn timed_wait_0_moves_the_caller_to_the_end() {
    let mut world = World::one();
    for _ in 0..3 {
        world.started(5);
    }
    world.normal();
    assert_eq!(world.event([1, 9, 0, 0, 0, 0]), [0, 0, 0, 0, 1, 2]);
    assert_eq!(world.arrival(), [2, 3, 1]);
    assert_eq!(
        (world.process(1).wait, world.process(1).wake),
        (Wait::None, None)
    );
}

#[test]
fn timed_wait_waits_until_t_plus_a() {
    let mut world = pair();
    world.ticks(4);
    world.waits(9, &[9_999_999]);
    assert_eq!(
        (world.process(1).wait, world.process(1).wake),
        (Wait::Timed, Some(10_000_003))
    );
    world.waits(9, &[2]);
    assert_eq!(world.tick(), [0, 0, 0, 5, 1, 0]);
    assert_eq!(world.tick(), [0, 0, 0, 6, 1, 2]);
    assert_eq!(
        (world.process(2).wait, world.process(2).wake),
        (Wait::None, None)
    );
}

#[test]
fn a_periodic_process_may_take_a_timed_wait() {
    let mut world = World::one();
    world.create(9, 10, 4);
    world.done(3, &[1]);
    world.normal();
    world.ticks(10);
    world.waits(9, &[3]);
    let process = world.process(1);
    assert_eq!(
        (process.wait, process.wake, process.release),
        (Wait::Timed, Some(13), Some(10))
    );
}

#[test]
fn periodic_wait_is_5_in_start_modes_and_for_an_aperiodic_caller() {
    let mut world = World::one();
    world.create(9, 10, -1);
    world.done(3, &[1]);
    world.refused(5, 10, &[]);
    pair().refused(5, 10, &[]);
}

#[test]
fn periodic_wait_moves_release_wake_and_deadline_by_the_period() {
    let mut world = World::one();
    world.create(9, 20, 6);
    world.done(4, &[1, 3]);
    world.normal();
    world.ticks(15);
    assert_eq!(world.running(), 1);
    assert_eq!(world.event([1, 10, 0, 0, 0, 0]), [7, 0, 0, 15, 1, 0]);
    let process = world.process(1);
    assert_eq!(
        (process.release, process.wake, process.deadline),
        (Some(33), Some(33), Some(39))
    );
    assert_eq!(process.wait, Wait::Period);
}

#[test]
fn periodic_wait_without_capacity_has_no_deadline() {
    let mut world = World::one();
    world.create(9, 10, -1);
    world.done(3, &[1]);
    world.normal();
    world.ticks(10);
    world.waits(10, &[]);
    assert_eq!(
        (world.process(1).release, world.process(1).deadline),
        (Some(20), None)
    );
}

// 12 SET_PRIORITY, 13 GET_PROCESS_STATUS

#[test]
fn set_priority_checks_unknown_then_range_then_dormant() {
    let mut world = World::one();
    world.create(5, -1, -1);
    world.refused(3, 12, &[2, 5]);
    world.refused(3, 12, &[1, 0]);
    world.refused(3, 12, &[1, 240]);
    world.refused(3, 12, &[1, -1]);
    world.refused(5, 12, &[1, 1]);
    world.refused(5, 12, &[1, 239]);
    world.done(3, &[1]);
    world.done(12, &[1, 239]);
    assert_eq!((world.process(1).current, world.process(1).base), (239, 5));
}

#[test]
fn set_priority_moves_a_ready_process_to_the_end_also_where_the_number_stays() {
    let mut world = World::one();
    for _ in 0..3 {
        world.started(5);
    }
    world.normal();
    world.done(12, &[1, 5]);
    assert_eq!(world.arrival(), [2, 3, 1]);
    world.done(12, &[3, 5]);
    assert_eq!(world.arrival(), [2, 1, 3]);
    assert_eq!(world.running(), 2);
}

#[test]
fn set_priority_of_a_waiting_or_suspended_process_moves_nothing() {
    let mut world = World::one();
    for _ in 0..4 {
        world.started(5);
    }
    world.normal();
    world.waits(9, &[9]);
    world.done(7, &[3]);
    assert_eq!(world.arrival(), [2, 4]);
    world.done(12, &[1, 8]);
    world.done(12, &[3, 7]);
    assert_eq!(world.arrival(), [2, 4]);
    assert_eq!((world.process(1).current, world.process(3).current), (8, 7));
}

#[test]
fn get_process_status_tells_the_state_and_the_deadline() {
    let mut world = World::one();
    world.create(9, -1, 40);
    world.create(5, -1, -1);
    world.create(5, -1, -1);
    world.create(5, 10, 3);
    for id in [1, 2, 4] {
        world.done(3, &[id]);
    }
    assert_eq!(world.call(13, &[1]), [0, 3, -1]);
    assert_eq!(world.call(13, &[3]), [0, 0, -1]);
    world.normal();
    assert_eq!(world.call(13, &[1]), [0, 2, 40]);
    assert_eq!(world.call(13, &[2]), [0, 1, -1]);
    assert_eq!(world.call(13, &[3]), [0, 0, -1]);
    assert_eq!(world.call(13, &[4]), [0, 3, 13]);
    world.refused(3, 13, &[5]);
    world.refused(3, 13, &[0]);
    world.ticks(10);
    assert_eq!(world.call(13, &[4]), [0, 1, 13]);
    world.ticks(3);
    assert_eq!(world.call(13, &[4]), [0, 1, -1]);
}

// 14 CREATE_SEMAPHORE, 17 CREATE_EVENT

#[test]
fn create_semaphore_checks_run_4_then_1_then_3_then_5() {
    let mut world = World::one();
    for _ in 0..7 {
        world.semaphore(0, 1);
    }
    world.refused(1, 14, &[7, 2, 1]);
    world.semaphore(1, 1);
    world.refused(4, 14, &[7, 2, 1]);
    world.refused(4, 14, &[100, 0, 1]);
    world.started(5);
    world.normal();
    world.refused(4, 14, &[100, 0, 1]);

    let mut world = World::one();
    world.semaphore(0, 1);
    world.started(5);
    world.normal();
    world.refused(1, 14, &[1, 2, 1]);
    world.refused(3, 14, &[2, 2, 1]);
    world.refused(5, 14, &[2, 1, 1]);
}

#[test]
fn create_semaphore_checks_each_field() {
    let mut world = World::one();
    for fields in [
        [0, 0, 1],
        [256, 0, 1],
        [-1, 0, 1],
        [1, 0, 0],
        [1, 0, -1],
        [1, 0, 32_768],
        [1, -1, 1],
        [1, 2, 1],
        [1, 32_768, 32_767],
    ] {
        world.refused(3, 14, &fields);
    }
    for fields in [[1, 0, 1], [2, 1, 1], [255, 32_767, 32_767], [3, 5, 9]] {
        assert_eq!(world.call(14, &fields)[0], 0, "{fields:?}");
    }
    let third = &world.partition().semaphores[2];
    assert_eq!((third.name, third.value, third.max), (255, 32_767, 32_767));
}

#[test]
fn create_event_checks_run_4_then_1_then_3_then_5() {
    creation_by_name_is_checked(17, World::flag);
}

#[test]
fn a_created_event_is_down() {
    let mut world = World::one();
    world.flag();
    assert!(!world.partition().events[0].up);
}

// 15 WAIT_SEMAPHORE, 16 SIGNAL

#[test]
fn wait_semaphore_checks_unknown_then_start_mode_then_time_out() {
    let mut world = World::one();
    world.semaphore(1, 1);
    world.refused(3, 15, &[2, -2]);
    world.refused(5, 15, &[1, -2]);
    world.started(5);
    world.normal();
    world.refused(3, 15, &[0, 0]);
    // A bad time-out is 3 although the value is above 0.
    world.refused(3, 15, &[1, -2]);
    world.refused(3, 15, &[1, 10_000_000]);
    world.done(15, &[1, 0]);
    world.refused(3, 15, &[1, 10_000_000]);
    world.refused(2, 15, &[1, 0]);
}

#[test]
fn wait_semaphore_takes_one_while_the_value_is_above_0() {
    let mut world = World::one();
    world.semaphore(2, 2);
    world.started(5);
    world.normal();
    world.done(15, &[1, -1]);
    world.done(15, &[1, 5]);
    assert_eq!(world.partition().semaphores[0].value, 0);
    world.waits(15, &[1, 9_999_999]);
    assert_eq!(world.process(1).wake, Some(9_999_999));
    assert_eq!(world.process(1).wait, Wait::Semaphore(1));
}

#[test]
fn semaphore_waiters_queue_in_order_of_coming_whatever_their_priority() {
    let mut world = World::one();
    world.semaphore(0, 1);
    world.started(1);
    world.started(5);
    world.started(9);
    world.started(7);
    world.normal();
    world.waits(15, &[1, -1]);
    world.waits(15, &[1, 40]);
    world.waits(15, &[1, -1]);
    assert_eq!(world.semaphore_queue(1), [3, 4, 2]);
    assert_eq!(world.event([1, 16, 1, 0, 0, 0]), [0, 0, 0, 0, 1, 3]);
    assert_eq!(world.partition().semaphores[0].value, 0);
    assert_eq!(world.semaphore_queue(1), [4, 2]);
    assert_eq!(
        (world.process(3).wait, world.process(3).wake),
        (Wait::None, None)
    );
    world.done(16, &[1]);
    assert_eq!(
        (world.process(4).wake, world.process(4).wake_code),
        (None, 0)
    );
    assert_eq!(world.arrival(), [1, 3, 4]);
}

#[test]
fn signal_at_max_is_1_and_unknown_is_3() {
    let mut world = World::one();
    world.semaphore(1, 2);
    world.refused(3, 16, &[2]);
    world.done(16, &[1]);
    assert_eq!(world.partition().semaphores[0].value, 2);
    world.refused(1, 16, &[1]);
}

#[test]
fn signal_works_in_start_modes() {
    let mut world = World::one();
    world.semaphore(0, 3);
    world.done(16, &[1]);
    assert_eq!(world.partition().semaphores[0].value, 1);
}

#[test]
fn a_suspended_waiter_takes_the_signal_and_stays_suspended() {
    let mut world = World::one();
    world.semaphore(0, 1);
    world.started(1);
    world.started(9);
    world.normal();
    world.waits(15, &[1, 30]);
    world.done(7, &[2]);
    world.done(16, &[1]);
    let process = world.process(2);
    assert_eq!(
        (process.wait, process.wake, process.suspended),
        (Wait::None, None, true)
    );
    assert_eq!(world.partition().semaphores[0].value, 0);
    assert_eq!(world.running(), 1);
    world.ticks(40);
    assert!(world.process(2).suspended);
    world.done(11, &[2]);
    assert_eq!(world.running(), 2);
}

// 18 SET_EVENT, 19 RESET_EVENT, 20 WAIT_EVENT

#[test]
fn wait_event_checks_unknown_then_start_mode_then_time_out() {
    let mut world = World::one();
    world.flag();
    world.done(18, &[1]);
    world.refused(3, 20, &[2, -2]);
    world.refused(5, 20, &[1, -2]);
    world.started(5);
    world.normal();
    world.refused(3, 20, &[1, -2]);
    world.refused(3, 20, &[1, 10_000_000]);
    world.done(20, &[1, 0]);
    world.done(20, &[1, -1]);
    world.done(19, &[1]);
    world.refused(2, 20, &[1, 0]);
    world.waits(20, &[1, 4]);
    assert_eq!(
        (world.process(1).wait, world.process(1).wake),
        (Wait::Event(1), Some(4))
    );
}

#[test]
fn set_event_ends_every_wait_in_queue_order() {
    let mut world = World::one();
    world.flag();
    for priority in [1, 5, 9, 7] {
        world.started(priority);
    }
    world.normal();
    world.waits(20, &[1, -1]);
    world.waits(20, &[1, 8]);
    world.waits(20, &[1, -1]);
    assert_eq!(world.event_queue(1), [3, 4, 2]);
    world.done(7, &[4]);
    assert_eq!(world.event([1, 18, 1, 0, 0, 0]), [0, 0, 0, 0, 1, 3]);
    assert_eq!(world.event_queue(1), []);
    assert_eq!(world.arrival(), [1, 3, 2]);
    assert!(world.partition().events[0].up);
    for id in [2, 3, 4] {
        let process = world.process(id);
        assert_eq!(
            (process.wait, process.wake, process.wake_code),
            (Wait::None, None, 0)
        );
    }
    assert!(world.process(4).suspended);
}

#[test]
fn set_and_reset_event_know_their_ids_and_work_in_start_modes() {
    let mut world = World::one();
    world.flag();
    world.refused(3, 18, &[2]);
    world.refused(3, 19, &[0]);
    world.done(18, &[1]);
    world.done(18, &[1]);
    assert!(world.partition().events[0].up);
    world.done(19, &[1]);
    world.done(19, &[1]);
    assert!(!world.partition().events[0].up);
}

#[test]
fn reset_event_leaves_nobody_waiting_again() {
    let mut world = World::one();
    world.flag();
    world.started(1);
    world.started(5);
    world.normal();
    world.waits(20, &[1, -1]);
    world.done(18, &[1]);
    world.done(19, &[1]);
    assert_eq!(world.process(2).wait, Wait::None);
    world.waits(20, &[1, -1]);
    assert_eq!(world.event_queue(1), [2]);
}

#[test]
fn a_signal_sets_wake_code_0_over_an_earlier_time_out() {
    let mut world = World::one();
    world.semaphore(0, 1);
    world.flag();
    world.started(1);
    world.started(5);
    world.normal();
    world.waits(15, &[1, 1]);
    world.tick();
    assert_eq!(world.process(2).wake_code, 6);
    world.waits(15, &[1, -1]);
    assert_eq!(world.process(2).wake_code, 6);
    world.done(16, &[1]);
    assert_eq!(world.process(2).wake_code, 0);
}

// 21 WRITE, 22 READ

#[test]
fn write_checks_end_3_then_source_5_then_value_3() {
    let mut world = World::new(&CHANNELS);
    for channel in [0, -1, 4, 999_999_999] {
        world.refused(3, 21, &[channel, 5]);
    }
    world.refused(3, 21, &[3, 5]);
    world.refused(5, 21, &[2, 5]);
    world.refused(5, 21, &[2, -1]);
    world.refused(3, 21, &[1, -1]);
    world.refused(3, 21, &[1, 10_000_000]);
    world.done(21, &[1, 9_999_999]);
    assert_eq!(
        world.message(1),
        Some(Message {
            value: 9_999_999,
            written: 0
        })
    );
    world.ticks(2);
    world.done(21, &[1, 0]);
    assert_eq!(
        world.message(1),
        Some(Message {
            value: 0,
            written: 2
        })
    );
}

#[test]
fn read_checks_end_3_then_destination_5_then_message_1() {
    let mut world = World::new(&CHANNELS);
    world.refused(3, 22, &[0]);
    world.refused(3, 22, &[4]);
    world.refused(3, 22, &[3]);
    world.refused(5, 22, &[1]);
    world.refused(1, 22, &[2]);
    world.done(21, &[1, 42]);
    world.refused(5, 22, &[1]);
    world.ticks(4);
    assert_eq!(world.event([2, 22, 1, 0, 0, 0]), [0, 42, 1, 4, 2, 0]);
    // Reading takes nothing away.
    assert_eq!(world.event([2, 22, 1, 0, 0, 0]), [0, 42, 1, 4, 2, 0]);
}

#[test]
fn write_and_read_work_in_normal() {
    let mut world = World::new(&CHANNELS);
    world.started(5);
    world.normal();
    assert_eq!(world.event(line(1, 21, &[1, 7])), [0, 0, 0, 0, 1, 1]);
    assert_eq!(world.event(line(1, 22, &[2])), [1, 0, 0, 0, 1, 1]);
}

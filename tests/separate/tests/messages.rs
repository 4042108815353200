//! Calls 23 to 29, buffers and blackboards: every rule, and the order of the
//! checks (document 02, a).

mod common;

use common::{creation_by_name_is_checked, World, TWO};
use separate::record::{Buffer, MessageQueue, QueueId, Wait};

/// One partition with a buffer and a blackboard; after NORMAL process 1 runs
/// last, at priority 1, and the others in the order of their ids.
fn group(limit: i64, others: i64) -> World {
    let mut world = World::one();
    world.buffer(limit);
    world.blackboard();
    world.started(1);
    for place in 0..others {
        world.started(100 - place);
    }
    world.normal();
    world
}

/// Wait, wake time, wake code, message and suspended mark of a process.
fn waiting(world: &World, id: i64) -> (Wait, Option<i64>, i64, i64, bool) {
    let process = world.process(id);
    (
        process.wait,
        process.wake,
        process.wake_code,
        process.message,
        process.suspended,
    )
}

fn sending(buffer: usize, message: i64) -> Wait {
    let to = QueueId::Buffer(buffer);
    Wait::Sending { to, message }
}

fn receiving(buffer: usize) -> Wait {
    Wait::Receiving(QueueId::Buffer(buffer))
}

// 23 CREATE_BUFFER, 26 CREATE_BLACKBOARD

#[test]
fn create_buffer_checks_run_4_then_1_then_3_then_5() {
    let mut world = World::one();
    for _ in 0..7 {
        world.buffer(1);
    }
    // The name exists and the limit is bad: 1 before 3.
    world.refused(1, 23, &[7, 0]);
    world.buffer(16);
    // Eight exist, the name too, the limit is bad: 4 first.
    world.refused(4, 23, &[7, 0]);
    world.refused(4, 23, &[100, 1]);
    world.started(5);
    world.normal();
    world.refused(4, 23, &[100, 1]);

    let mut world = World::one();
    world.buffer(1);
    world.started(5);
    world.normal();
    world.refused(1, 23, &[1, 17]);
    world.refused(1, 23, &[1, 1]);
    world.refused(3, 23, &[2, 17]);
    world.refused(3, 23, &[256, 1]);
    world.refused(5, 23, &[2, 16]);
}

#[test]
fn create_buffer_checks_each_field() {
    let mut world = World::one();
    for fields in [
        [0, 1],
        [-1, 1],
        [256, 1],
        [1, 0],
        [1, -1],
        [1, 17],
        [1, 999_999_999],
    ] {
        world.refused(3, 23, &fields);
    }
    for (fields, id) in [([1, 1], 1), ([255, 16], 2), ([2, 5], 3)] {
        assert_eq!(world.call(23, &fields), [0, id, 0]);
    }
}

#[test]
fn a_created_buffer_is_empty() {
    let mut world = World::one();
    assert_eq!(world.call(23, &[200, 9]), [0, 1, 0]);
    let expected = Buffer {
        name: 200,
        queue: MessageQueue {
            limit: 9,
            messages: [].into(),
        },
        senders: [].into(),
        receivers: [].into(),
    };
    assert_eq!(world.partition().buffers, [expected]);
}

#[test]
fn create_blackboard_checks_run_4_then_1_then_3_then_5() {
    creation_by_name_is_checked(26, World::blackboard);
}

#[test]
fn a_created_blackboard_shows_nothing() {
    let mut world = World::one();
    world.blackboard();
    assert_eq!((world.shown(1), world.readers(1)), (None, vec![]));
}

#[test]
fn names_are_compared_among_buffers_and_among_blackboards() {
    let mut world = World::new(&TWO);
    assert_eq!(world.call(2, &[7, 5, -1, -1]), [0, 1, 0]);
    assert_eq!(world.call(14, &[7, 0, 1]), [0, 1, 0]);
    assert_eq!(world.call(17, &[7]), [0, 1, 0]);
    assert_eq!(world.call(23, &[7, 1]), [0, 1, 0]);
    assert_eq!(world.call(26, &[7]), [0, 1, 0]);
    world.refused(1, 23, &[7, 1]);
    world.refused(1, 26, &[7]);
    world.ticks(6);
    assert_eq!(world.outcome([2, 23, 7, 1, 0, 0]), [0, 1, 0]);
    assert_eq!(world.outcome([2, 26, 7, 0, 0, 0]), [0, 1, 0]);
}

#[test]
fn a_buffer_and_a_blackboard_belong_to_their_partition() {
    let mut world = World::new(&TWO);
    world.buffer(1);
    world.blackboard();
    world.ticks(6);
    for event in [
        [2, 24, 1, 5, 0, 0],
        [2, 25, 1, 0, 0, 0],
        [2, 27, 1, 5, 0, 0],
        [2, 28, 1, 0, 0, 0],
        [2, 29, 1, 0, 0, 0],
    ] {
        world.refused_event(3, event);
    }
}

// 24 SEND_BUFFER

#[test]
fn send_checks_unknown_then_start_mode_then_message_and_time_out() {
    let mut world = World::one();
    world.buffer(1);
    world.started(5);
    for id in [0, -1, 2, 999_999_999] {
        world.refused(3, 24, &[id, -1, -2]);
    }
    world.refused(5, 24, &[1, -1, -2]);
    world.refused(5, 24, &[1, 5, 0]);
    world.normal();
    world.refused(3, 24, &[2, 5, 0]);
    // Bad fields are 3 although there is room.
    for (message, time_out) in [
        (-1, 0),
        (10_000_000, 0),
        (999_999_999, -1),
        (5, -2),
        (5, 10_000_000),
        (-1, -2),
    ] {
        world.refused(3, 24, &[1, message, time_out]);
    }
    world.done(24, &[1, 5, 0]);
    // And they come before 2.
    world.refused(3, 24, &[1, 10_000_000, 0]);
    world.refused(3, 24, &[1, 5, 10_000_000]);
    world.refused(2, 24, &[1, 5, 0]);
    world.waits(24, &[1, 9_999_999, 9_999_999]);
    let expected = (sending(1, 9_999_999), Some(9_999_999), 0, 0, false);
    assert_eq!(waiting(&world, 1), expected);
}

#[test]
fn a_send_with_room_holds_the_message_whatever_the_time_out() {
    let mut world = group(3, 1);
    world.done(24, &[1, 30, 0]);
    world.done(24, &[1, 10, -1]);
    world.done(24, &[1, 20, 7]);
    assert_eq!(world.held(1), [30, 10, 20]);
    assert_eq!(waiting(&world, 2), (Wait::None, None, 0, 0, false));
    world.refused(2, 24, &[1, 40, 0]);
}

#[test]
fn senders_wait_in_order_of_coming_whatever_their_priority() {
    let mut world = World::one();
    world.buffer(1);
    for priority in [1, 5, 9, 7] {
        world.started(priority);
    }
    world.normal();
    world.done(24, &[1, 90, 0]);
    world.ticks(2);
    world.waits(24, &[1, 93, -1]);
    world.waits(24, &[1, 94, 40]);
    world.waits(24, &[1, 92, 1]);
    assert_eq!(world.senders(1), [3, 4, 2]);
    assert_eq!(world.held(1), [90]);
    assert_eq!(waiting(&world, 3).0, sending(1, 93));
    let expected = (sending(1, 94), Some(42), 0, 0, false);
    assert_eq!(waiting(&world, 4), expected);
    assert_eq!(waiting(&world, 2).1, Some(3));
    assert_eq!(world.arrival(), [1]);
}

#[test]
fn a_send_goes_straight_into_the_first_waiting_receivers_record() {
    let mut world = group(2, 3);
    world.waits(25, &[1, 20]);
    world.waits(25, &[1, -1]);
    world.waits(25, &[1, 30]);
    assert_eq!(world.receivers(1), [2, 3, 4]);
    assert_eq!(world.event([1, 24, 1, 70, 0, 0]), [0, 0, 0, 0, 1, 2]);
    assert_eq!(waiting(&world, 2), (Wait::None, None, 0, 70, false));
    assert_eq!(world.held(1), []);
    assert_eq!(world.receivers(1), [3, 4]);
    // It comes behind those already READY.
    assert_eq!(world.arrival(), [1, 2]);
    // Process 2, woken, sends on to the next.
    assert_eq!(world.event([1, 24, 1, 80, -1, 0]), [0, 0, 0, 0, 1, 2]);
    assert_eq!(waiting(&world, 3), (Wait::None, None, 0, 80, false));
    assert_eq!(world.process(2).message, 70);
    assert_eq!(world.receivers(1), [4]);
    assert_eq!(world.arrival(), [1, 2, 3]);
}

#[test]
fn a_hand_over_sets_wake_code_0_over_an_earlier_time_out() {
    let mut world = group(1, 1);
    world.waits(25, &[1, 1]);
    world.tick();
    assert_eq!(waiting(&world, 2), (Wait::None, None, 6, 0, false));
    world.waits(25, &[1, -1]);
    assert_eq!(world.process(2).wake_code, 6);
    world.done(24, &[1, 5, 0]);
    assert_eq!(waiting(&world, 2), (Wait::None, None, 0, 5, false));
}

#[test]
fn a_suspended_receiver_takes_the_message_and_stays_suspended() {
    let mut world = group(1, 1);
    world.waits(25, &[1, 30]);
    world.done(7, &[2]);
    assert_eq!(world.event([1, 24, 1, 70, 0, 0]), [0, 0, 0, 0, 1, 1]);
    assert_eq!(waiting(&world, 2), (Wait::None, None, 0, 70, true));
    assert_eq!(world.held(1), []);
    world.ticks(40);
    assert_eq!(world.running(), 1);
    world.done(11, &[2]);
    assert_eq!((world.running(), world.process(2).message), (2, 70));
}

// 25 RECEIVE_BUFFER

#[test]
fn receive_checks_unknown_then_start_mode_then_time_out() {
    let mut world = World::one();
    world.buffer(1);
    world.started(5);
    world.refused(3, 25, &[2, -2]);
    world.refused(3, 25, &[0, 0]);
    world.refused(5, 25, &[1, -2]);
    world.refused(5, 25, &[1, 0]);
    world.normal();
    world.refused(3, 25, &[2, 0]);
    world.refused(3, 25, &[1, -2]);
    world.refused(3, 25, &[1, 10_000_000]);
    world.refused(2, 25, &[1, 0]);
    world.done(24, &[1, 5, 0]);
    // A bad time-out is 3 although a message is held.
    world.refused(3, 25, &[1, 10_000_000]);
    assert_eq!(world.call(25, &[1, 0]), [0, 5, 0]);
    world.waits(25, &[1, 9_999_999]);
    let expected = (receiving(1), Some(9_999_999), 0, 0, false);
    assert_eq!(waiting(&world, 1), expected);
}

#[test]
fn a_receive_takes_the_first_message_whatever_the_time_out() {
    let mut world = group(3, 1);
    for message in [30, 10, 20] {
        world.done(24, &[1, message, 0]);
    }
    assert_eq!(world.call(25, &[1, -1]), [0, 30, 0]);
    assert_eq!(world.held(1), [10, 20]);
    world.done(24, &[1, 40, 0]);
    assert_eq!(world.call(25, &[1, 5]), [0, 10, 0]);
    assert_eq!(world.call(25, &[1, 0]), [0, 20, 0]);
    assert_eq!(world.call(25, &[1, 0]), [0, 40, 0]);
    world.refused(2, 25, &[1, 0]);
    // What was received at once stands in no record.
    assert_eq!(world.process(2).message, 0);
}

#[test]
fn receivers_wait_in_order_of_coming_whatever_their_priority() {
    let mut world = World::one();
    world.buffer(4);
    for priority in [1, 5, 9, 7] {
        world.started(priority);
    }
    world.normal();
    world.waits(25, &[1, -1]);
    world.waits(25, &[1, 6]);
    world.waits(25, &[1, -1]);
    assert_eq!(world.receivers(1), [3, 4, 2]);
    assert_eq!(waiting(&world, 4).1, Some(6));
    // One send ends one wait.
    world.done(24, &[1, 5, 0]);
    assert_eq!(world.receivers(1), [4, 2]);
    assert_eq!(world.arrival(), [1, 3]);
}

#[test]
fn a_receive_lets_the_first_waiting_sender_in_behind_those_held() {
    let mut world = group(2, 3);
    world.done(24, &[1, 10, 0]);
    world.done(24, &[1, 20, 0]);
    world.waits(24, &[1, 30, 9]);
    world.waits(24, &[1, 40, -1]);
    world.waits(24, &[1, 50, -1]);
    assert_eq!(world.call(25, &[1, 0]), [0, 10, 0]);
    assert_eq!(world.held(1), [20, 30]);
    assert_eq!(world.senders(1), [3, 4]);
    // The sender's wait ends with wake code 0, and nothing came into its record.
    assert_eq!(waiting(&world, 2), (Wait::None, None, 0, 0, false));
    assert_eq!(world.arrival(), [1, 2]);
    for (message, held) in [(20, vec![30, 40]), (30, vec![40, 50])] {
        assert_eq!(world.call(25, &[1, 0]), [0, message, 0]);
        assert_eq!(world.held(1), held);
    }
    assert_eq!(world.senders(1), []);
    assert_eq!(world.call(25, &[1, 0]), [0, 40, 0]);
    assert_eq!(world.held(1), [50]);
}

#[test]
fn a_receive_from_a_full_buffer_of_limit_1_leaves_it_full() {
    let mut world = group(1, 2);
    world.done(24, &[1, 10, 0]);
    world.waits(24, &[1, 20, -1]);
    world.waits(24, &[1, 30, -1]);
    assert_eq!(world.event([1, 25, 1, 0, 0, 0]), [0, 10, 0, 0, 1, 2]);
    assert_eq!((world.held(1), world.senders(1)), (vec![20], vec![3]));
    // There is no room for the one that is woken.
    world.refused(2, 24, &[1, 40, 0]);
    assert_eq!(world.call(25, &[1, 0]), [0, 20, 0]);
    assert_eq!(world.call(25, &[1, 0]), [0, 30, 0]);
    world.refused(2, 25, &[1, 0]);
}

#[test]
fn a_suspended_sender_is_let_in_and_stays_suspended() {
    let mut world = group(1, 1);
    world.done(24, &[1, 10, 0]);
    world.waits(24, &[1, 20, 30]);
    world.done(7, &[2]);
    assert_eq!(waiting(&world, 2).0, sending(1, 20));
    assert_eq!(world.event([1, 25, 1, 0, 0, 0]), [0, 10, 0, 0, 1, 1]);
    assert_eq!(world.held(1), [20]);
    assert_eq!(waiting(&world, 2), (Wait::None, None, 0, 0, true));
    world.ticks(40);
    assert_eq!((world.running(), world.held(1)), (1, vec![20]));
    world.done(11, &[2]);
    assert_eq!(world.running(), 2);
}

#[test]
fn equal_messages_each_come_out() {
    let mut world = group(3, 1);
    for message in [7, 7, 8] {
        world.done(24, &[1, message, 0]);
    }
    world.waits(24, &[1, 7, -1]);
    for message in [7, 7, 8, 7] {
        assert_eq!(world.call(25, &[1, 0]), [0, message, 0]);
    }
    world.refused(2, 25, &[1, 0]);
}

#[test]
fn message_0_is_a_message() {
    let mut world = group(1, 2);
    world.done(24, &[1, 0, 0]);
    assert_eq!(world.held(1), [0]);
    world.refused(2, 24, &[1, 0, 0]);
    assert_eq!(world.call(25, &[1, 0]), [0, 0, 0]);
    world.refused(2, 25, &[1, 0]);
    // Handed over it takes the place of an earlier one.
    world.waits(25, &[1, -1]);
    world.done(24, &[1, 5, 0]);
    world.waits(25, &[1, -1]);
    world.done(24, &[1, 0, 0]);
    assert_eq!(waiting(&world, 2), (Wait::None, None, 0, 0, false));
    // Shown it is read, and it is not the empty blackboard.
    world.done(27, &[1, 0]);
    assert_eq!(world.shown(1), Some(0));
    assert_eq!(world.call(28, &[1, 0]), [0, 0, 0]);
}

#[test]
fn buffers_are_apart() {
    let mut world = World::one();
    world.buffer(1);
    world.buffer(2);
    world.started(1);
    world.started(9);
    world.started(8);
    world.normal();
    world.waits(25, &[1, -1]);
    world.done(24, &[2, 5, 0]);
    assert_eq!((world.receivers(1), world.held(2)), (vec![2], vec![5]));
    world.done(24, &[2, 6, 0]);
    world.waits(24, &[2, 7, -1]);
    world.done(24, &[1, 8, 0]);
    assert_eq!(world.process(2).message, 8);
    assert_eq!((world.senders(1), world.senders(2)), (vec![], vec![3]));
    assert_eq!((world.held(1), world.held(2)), (vec![], vec![5, 6]));
}

// Time-outs, STOP, SUSPEND, RESUME, modes

#[test]
fn a_senders_time_out_takes_its_message_with_it() {
    let mut world = group(1, 3);
    world.done(24, &[1, 10, 0]);
    world.waits(24, &[1, 20, 5]);
    world.waits(24, &[1, 30, 3]);
    world.waits(24, &[1, 40, -1]);
    world.ticks(3);
    assert_eq!(waiting(&world, 3), (Wait::None, None, 6, 0, false));
    assert_eq!(world.senders(1), [2, 4]);
    assert_eq!(world.held(1), [10]);
    world.waits(9, &[50]);
    for message in [10, 20, 40] {
        assert_eq!(world.call(25, &[1, 0]), [0, message, 0]);
        world.ticks(1);
    }
    assert_eq!(world.held(1), []);
}

#[test]
fn stop_of_a_waiting_sender_takes_its_message_with_it() {
    let mut world = group(1, 3);
    world.done(24, &[1, 10, 0]);
    world.waits(24, &[1, 20, -1]);
    world.waits(24, &[1, 30, 50]);
    world.waits(24, &[1, 40, -1]);
    world.done(7, &[3]);
    world.done(5, &[2]);
    world.done(5, &[3]);
    for id in [2, 3] {
        assert!(world.process(id).dormant());
        assert_eq!(waiting(&world, id), (Wait::None, None, 0, 0, false));
    }
    assert_eq!(world.senders(1), [4]);
    assert_eq!(world.call(25, &[1, 0]), [0, 10, 0]);
    assert_eq!(world.call(25, &[1, 0]), [0, 40, 0]);
    world.refused(2, 25, &[1, 0]);
}

#[test]
fn receivers_and_readers_time_out_with_6_and_leave_their_queues() {
    let mut world = group(1, 3);
    world.waits(25, &[1, 2]);
    world.waits(28, &[1, 2]);
    world.waits(25, &[1, 3]);
    world.ticks(2);
    for id in [2, 3] {
        assert_eq!(waiting(&world, id), (Wait::None, None, 6, 0, false));
    }
    assert_eq!(world.arrival(), [1, 2, 3]);
    assert_eq!((world.receivers(1), world.readers(1)), (vec![4], vec![]));
    // The message goes to the one that is still there.
    world.done(24, &[1, 5, 0]);
    assert_eq!(waiting(&world, 4), (Wait::None, None, 0, 5, false));
}

#[test]
fn stop_of_a_waiting_receiver_or_reader_leaves_the_queue() {
    let mut world = group(1, 2);
    world.waits(25, &[1, -1]);
    world.waits(28, &[1, -1]);
    world.done(5, &[2]);
    world.done(5, &[3]);
    assert_eq!((world.receivers(1), world.readers(1)), (vec![], vec![]));
    // A later message finds nobody.
    world.done(24, &[1, 5, 0]);
    world.done(27, &[1, 6]);
    assert_eq!((world.held(1), world.shown(1)), (vec![5], Some(6)));
    assert_eq!((world.process(2).message, world.process(3).message), (0, 0));
}

#[test]
fn suspended_waiters_time_out_with_6_and_keep_the_mark() {
    let mut world = World::one();
    world.buffer(1);
    world.buffer(1);
    world.blackboard();
    for priority in [1, 9, 8, 7] {
        world.started(priority);
    }
    world.normal();
    world.done(24, &[1, 10, 0]);
    world.waits(24, &[1, 20, 2]);
    world.waits(25, &[2, 2]);
    world.waits(28, &[1, 2]);
    for id in [2, 3, 4] {
        world.done(7, &[id]);
    }
    world.ticks(2);
    for id in [2, 3, 4] {
        assert_eq!(waiting(&world, id), (Wait::None, None, 6, 0, true));
    }
    assert_eq!((world.senders(1), world.receivers(2)), (vec![], vec![]));
    assert_eq!((world.readers(1), world.held(1)), (vec![], vec![10]));
    assert_eq!(world.arrival(), [1]);
    // RESUME without a wait clears the wake code.
    world.done(11, &[2]);
    assert_eq!((world.running(), world.process(2).wake_code), (2, 0));
}

#[test]
fn suspend_and_resume_leave_a_waiter_in_its_place() {
    let mut world = group(1, 3);
    world.done(24, &[1, 10, 0]);
    for (id, message) in [(2, 20), (3, 30), (4, 40)] {
        assert_eq!(world.running(), id);
        world.waits(24, &[1, message, 50]);
    }
    world.done(7, &[3]);
    world.refused(1, 7, &[3]);
    assert_eq!(waiting(&world, 3), (sending(1, 30), Some(50), 0, 0, true));
    world.done(11, &[3]);
    assert_eq!(waiting(&world, 3), (sending(1, 30), Some(50), 0, 0, false));
    assert_eq!(world.senders(1), [2, 3, 4]);
    assert_eq!(world.call(13, &[3]), [0, 3, -1]);
}

#[test]
fn a_periodic_process_may_wait_to_send_to_receive_and_to_read() {
    let mut world = World::one();
    world.buffer(1);
    world.buffer(1);
    world.blackboard();
    for _ in 0..3 {
        let id = world.create(5, 10, 4);
        world.done(3, &[id]);
    }
    world.started(1);
    world.normal();
    world.ticks(10);
    world.done(24, &[1, 10, 0]);
    world.waits(24, &[1, 20, 7]);
    world.waits(25, &[2, 7]);
    world.waits(28, &[1, 7]);
    for (id, wait) in [
        (1, sending(1, 20)),
        (2, receiving(2)),
        (3, Wait::Blackboard(1)),
    ] {
        let process = world.process(id);
        assert_eq!((process.wait, process.wake), (wait, Some(17)));
        assert_eq!((process.release, process.deadline), (Some(10), Some(14)));
    }
    // A deadline is missed while waiting, and the wait goes on.
    world.ticks(4);
    assert!(world.process(1).missed);
    assert_eq!(world.process(1).wait, sending(1, 20));
}

#[test]
fn modes_0_1_and_2_erase_buffers_and_blackboards() {
    for mode in [0, 1, 2] {
        let mut world = group(1, 3);
        world.waits(25, &[1, -1]);
        world.waits(28, &[1, -1]);
        assert_eq!(world.event([1, 1, mode, 0, 0, 0]), [0, 0, 0, 0, 1, 0]);
        let partition = world.partition();
        assert!(partition.buffers.is_empty() && partition.blackboards.is_empty());
        assert!(partition.processes.is_empty() && partition.arrival.is_empty());
    }
}

#[test]
fn after_a_restart_ids_count_from_1_again_and_nothing_is_held_or_shown() {
    let mut world = group(1, 1);
    world.done(24, &[1, 10, 0]);
    world.done(27, &[1, 20]);
    world.done(1, &[2]);
    world.refused(3, 27, &[1, 5]);
    world.refused(3, 29, &[1]);
    assert_eq!(world.call(23, &[9, 2]), [0, 1, 0]);
    assert_eq!(world.call(26, &[9]), [0, 1, 0]);
    world.started(5);
    world.normal();
    world.refused(2, 25, &[1, 0]);
    world.refused(2, 28, &[1, 0]);
    assert_eq!(world.process(1).message, 0);
}

#[test]
fn entering_normal_keeps_what_is_shown() {
    let mut world = World::one();
    world.blackboard();
    world.done(27, &[1, 20]);
    world.started(5);
    world.normal();
    assert_eq!(world.call(28, &[1, 0]), [0, 20, 0]);
}

// 27 SHOW, 28 READ_BLACKBOARD, 29 CLEAR

#[test]
fn show_checks_unknown_then_message_and_works_in_start_modes() {
    let mut world = World::one();
    world.blackboard();
    for id in [0, -1, 2, 999_999_999] {
        world.refused(3, 27, &[id, 5]);
    }
    world.refused(3, 27, &[1, -1]);
    world.refused(3, 27, &[1, 10_000_000]);
    assert_eq!(world.shown(1), None);
    world.done(27, &[1, 9_999_999]);
    assert_eq!(world.shown(1), Some(9_999_999));
    world.done(27, &[1, 0]);
    assert_eq!(world.shown(1), Some(0));
    world.started(5);
    world.normal();
    world.refused(3, 27, &[2, 5]);
    world.refused(3, 27, &[1, 10_000_000]);
    world.done(27, &[1, 5]);
    assert_eq!(world.shown(1), Some(5));
}

#[test]
fn show_ends_every_wait_in_queue_order_and_goes_on_showing() {
    let mut world = World::one();
    world.blackboard();
    for priority in [1, 5, 9, 7] {
        world.started(priority);
    }
    world.normal();
    world.waits(28, &[1, -1]);
    world.waits(28, &[1, 8]);
    world.waits(28, &[1, -1]);
    assert_eq!(world.readers(1), [3, 4, 2]);
    assert_eq!(waiting(&world, 4).0, Wait::Blackboard(1));
    assert_eq!(waiting(&world, 4).1, Some(8));
    world.done(7, &[4]);
    assert_eq!(world.event([1, 27, 1, 60, 0, 0]), [0, 0, 0, 0, 1, 3]);
    assert_eq!((world.readers(1), world.shown(1)), (vec![], Some(60)));
    assert_eq!(world.arrival(), [1, 3, 2]);
    for id in [2, 3, 4] {
        let suspended = id == 4;
        assert_eq!(waiting(&world, id), (Wait::None, None, 0, 60, suspended));
    }
    assert_eq!(world.process(1).message, 0);
    assert_eq!(world.call(28, &[1, 0]), [0, 60, 0]);
}

#[test]
fn show_over_a_message_replaces_it() {
    let mut world = group(1, 1);
    world.waits(28, &[1, -1]);
    world.done(27, &[1, 5]);
    world.done(27, &[1, 6]);
    assert_eq!(world.call(28, &[1, -1]), [0, 6, 0]);
    world.done(27, &[1, 6]);
    assert_eq!(world.call(28, &[1, 0]), [0, 6, 0]);
    // Who has been given a message keeps it, and reading at once leaves it.
    assert_eq!(world.process(2).message, 5);
}

#[test]
fn read_checks_unknown_then_start_mode_then_time_out() {
    let mut world = World::one();
    world.blackboard();
    world.done(27, &[1, 5]);
    world.started(5);
    world.refused(3, 28, &[2, -2]);
    world.refused(5, 28, &[1, -2]);
    world.refused(5, 28, &[1, 0]);
    world.normal();
    world.refused(3, 28, &[0, 0]);
    // A bad time-out is 3 although a message is shown.
    world.refused(3, 28, &[1, -2]);
    world.refused(3, 28, &[1, 10_000_000]);
    assert_eq!(world.call(28, &[1, 0]), [0, 5, 0]);
    assert_eq!(world.call(28, &[1, 9_999_999]), [0, 5, 0]);
    world.done(29, &[1]);
    world.refused(3, 28, &[1, 10_000_000]);
    world.refused(2, 28, &[1, 0]);
    world.waits(28, &[1, 4]);
    let expected = (Wait::Blackboard(1), Some(4), 0, 0, false);
    assert_eq!(waiting(&world, 1), expected);
}

#[test]
fn clear_empties_knows_its_ids_and_works_in_start_modes() {
    let mut world = World::one();
    world.blackboard();
    for id in [0, -1, 2, 999_999_999] {
        world.refused(3, 29, &[id]);
    }
    world.done(29, &[1]);
    world.done(27, &[1, 5]);
    world.done(29, &[1]);
    assert_eq!(world.shown(1), None);
    world.done(29, &[1]);
    assert_eq!(world.shown(1), None);
}

#[test]
fn clear_leaves_those_who_wait_and_those_who_were_given_a_message() {
    let mut world = group(1, 2);
    world.waits(28, &[1, 30]);
    world.done(29, &[1]);
    assert_eq!(world.readers(1), [2]);
    world.done(27, &[1, 5]);
    world.done(29, &[1]);
    assert_eq!(waiting(&world, 2), (Wait::None, None, 0, 5, false));
    world.waits(28, &[1, -1]);
    assert_eq!(world.readers(1), [2]);
    assert_eq!(world.process(2).message, 5);
}

// The message in the process record

#[test]
fn the_message_in_the_record_stays_till_the_next() {
    let mut world = group(1, 1);
    world.waits(25, &[1, -1]);
    world.done(24, &[1, 70, 0]);
    assert_eq!(world.process(2).message, 70);
    // A receive and a read at once.
    world.done(24, &[1, 71, 0]);
    assert_eq!(world.call(25, &[1, 0]), [0, 71, 0]);
    world.done(27, &[1, 72]);
    assert_eq!(world.call(28, &[1, 0]), [0, 72, 0]);
    assert_eq!(world.process(2).message, 70);
    // A time-out.
    world.waits(25, &[1, 1]);
    world.tick();
    let expected = (Wait::None, None, 6, 70, false);
    assert_eq!(waiting(&world, 2), expected);
    // STOP_SELF and START, in which the wake code is cleared.
    world.done(6, &[]);
    assert_eq!(waiting(&world, 2), expected);
    world.done(3, &[2]);
    assert_eq!(waiting(&world, 2), (Wait::None, None, 0, 70, false));
    // The next.
    world.waits(25, &[1, -1]);
    assert_eq!(world.process(2).message, 70);
    world.done(24, &[1, 73, 0]);
    assert_eq!(world.process(2).message, 73);
}

#[test]
fn a_sender_keeps_the_message_that_was_handed_over_to_it() {
    let mut world = group(1, 1);
    world.waits(25, &[1, -1]);
    world.done(24, &[1, 70, 0]);
    world.done(24, &[1, 80, 0]);
    world.waits(24, &[1, 90, -1]);
    assert_eq!(waiting(&world, 2), (sending(1, 90), None, 0, 70, false));
    assert_eq!(world.call(25, &[1, 0]), [0, 80, 0]);
    assert_eq!(waiting(&world, 2), (Wait::None, None, 0, 70, false));
    assert_eq!(world.held(1), [90]);
}

//! Calls 30 and 31, queuing channels: every rule, the order of the checks, and
//! what restarts of either end do (document 02, b).

mod common;

use common::{line, World};
use separate::record::{Process, QueueId, Wait};
use separate::Six;

/// Windows of 4 ticks for partitions 1, 2 and 3. Queuing channels: 1 from 1 to
/// 2 (two messages), 2 back (one), 4 from 2 to 3 (one), 5 from 1 to 2 (one).
/// Channel 3 from 1 to 2 is a sampling one.
const TABLE: [Six; 9] = [
    [12, 3, 3, 5, 0, 0],
    [0, 4, 1, 1, 0, 0],
    [4, 4, 2, 1, 0, 0],
    [8, 4, 3, 1, 0, 0],
    [1, 2, 5, 1, 2, 0],
    [2, 1, 5, 1, 1, 0],
    [1, 2, 5, 0, 0, 0],
    [2, 3, 5, 1, 1, 0],
    [1, 2, 5, 1, 1, 0],
];

/// A call of the current partition.
fn call(world: &mut World, call: i64, fields: &[i64]) -> [i64; 3] {
    let own = world.module.current() as i64;
    world.outcome(line(own, call, fields))
}

fn done(world: &mut World, number: i64, fields: &[i64]) {
    let outcome = call(world, number, fields);
    assert_eq!(outcome, [0, 0, 0], "call {number} {fields:?}");
}

fn waits(world: &mut World, number: i64, fields: &[i64]) {
    let outcome = call(world, number, fields);
    assert_eq!(outcome, [7, 0, 0], "call {number} {fields:?}");
}

fn refused(world: &mut World, code: i64, call: i64, fields: &[i64]) {
    let own = world.module.current() as i64;
    world.refused_event(code, line(own, call, fields));
}

/// Ticks until the partition is current.
fn reach(world: &mut World, partition: usize) {
    while world.module.current() != partition {
        world.ticks(1);
    }
}

/// A partition with processes of these priorities, in NORMAL.
fn populate(world: &mut World, partition: usize, priorities: &[i64]) {
    reach(world, partition);
    for (id, &priority) in (1..).zip(priorities) {
        assert_eq!(call(world, 2, &[id, priority, -1, -1]), [0, id, 0]);
        done(world, 3, &[id]);
    }
    done(world, 1, &[3]);
}

/// Partitions 1 and 2 in NORMAL; process 1 of each runs last, the others in
/// the order of their ids.
fn pair(others: i64) -> World {
    let mut world = World::new(&TABLE);
    let priorities: Vec<i64> = [1]
        .into_iter()
        .chain((0..others).map(|n| 100 - n))
        .collect();
    populate(&mut world, 1, &priorities);
    populate(&mut world, 2, &priorities);
    world
}

fn process(world: &World, partition: usize, id: usize) -> &Process {
    world.module.partition(partition).process(id)
}

/// Wait, wake time, wake code, message and suspended mark of a process.
fn waiting(world: &World, partition: usize, id: usize) -> (Wait, Option<i64>, i64, i64, bool) {
    let it = process(world, partition, id);
    (it.wait, it.wake, it.wake_code, it.message, it.suspended)
}

const SERVED: (Wait, Option<i64>, i64, i64, bool) = (Wait::None, None, 0, 0, false);

fn sending(channel: usize, message: i64) -> Wait {
    let to = QueueId::Channel(channel);
    Wait::Sending { to, message }
}

fn receiving(channel: usize) -> Wait {
    Wait::Receiving(QueueId::Channel(channel))
}

fn held(world: &World, channel: usize) -> Vec<i64> {
    let queue = world.module.channels()[channel - 1].queue();
    queue.expect("a queuing channel").messages.clone().into()
}

/// Those who wait at a channel's end in the partition.
fn port(world: &World, partition: usize, channel: usize) -> Vec<usize> {
    world.module.partition(partition).ports[channel - 1]
        .clone()
        .into()
}

fn arrival(world: &World, partition: usize) -> Vec<usize> {
    world.module.partition(partition).arrival.clone().into()
}

// Checks

#[test]
fn send_checks_channel_then_end_then_start_mode_then_message_and_time_out() {
    let mut world = World::new(&TABLE);
    let bad = [-1, 10_000_000];
    // No such channel, a sampling one, one of other partitions.
    for channel in [0, -1, 6, 999_999_999, 3, 4] {
        refused(&mut world, 3, 30, &[channel, bad[0], bad[1]]);
    }
    // Partition 1 is channel 2's destination; that comes before the start mode
    // too, which has the same code.
    refused(&mut world, 5, 30, &[2, bad[0], bad[1]]);
    refused(&mut world, 5, 30, &[1, bad[0], bad[1]]);
    refused(&mut world, 5, 30, &[1, 5, 0]);
    populate(&mut world, 1, &[5]);
    for channel in [0, 6, 3, 4] {
        refused(&mut world, 3, 30, &[channel, 5, 0]);
    }
    refused(&mut world, 5, 30, &[2, bad[0], bad[1]]);
    // Bad fields are 3 although there is room.
    for (message, time_out) in [(-1, 0), (10_000_000, 0), (5, -2), (5, 10_000_000)] {
        refused(&mut world, 3, 30, &[1, message, time_out]);
    }
    done(&mut world, 30, &[5, 5, 0]);
    // And they come before 2.
    refused(&mut world, 3, 30, &[5, 10_000_000, 0]);
    refused(&mut world, 3, 30, &[5, 5, 10_000_000]);
    refused(&mut world, 2, 30, &[5, 5, 0]);
    waits(&mut world, 30, &[5, 9_999_999, 9_999_999]);
    let expected = (sending(5, 9_999_999), Some(9_999_999), 0, 0, false);
    assert_eq!(waiting(&world, 1, 1), expected);
}

#[test]
fn receive_checks_channel_then_end_then_start_mode_then_time_out() {
    let mut world = World::new(&TABLE);
    for channel in [0, -1, 6, 999_999_999, 3, 4] {
        refused(&mut world, 3, 31, &[channel, 10_000_000]);
    }
    refused(&mut world, 5, 31, &[1, 10_000_000]);
    refused(&mut world, 5, 31, &[2, 10_000_000]);
    refused(&mut world, 5, 31, &[2, 0]);
    populate(&mut world, 1, &[1, 9]);
    refused(&mut world, 3, 31, &[4, 0]);
    refused(&mut world, 5, 31, &[1, 10_000_000]);
    refused(&mut world, 3, 31, &[2, -2]);
    refused(&mut world, 3, 31, &[2, 10_000_000]);
    refused(&mut world, 2, 31, &[2, 0]);
    populate(&mut world, 2, &[5]);
    done(&mut world, 30, &[2, 70, 0]);
    reach(&mut world, 1);
    // A bad time-out is 3 although a message is held.
    refused(&mut world, 3, 31, &[2, 10_000_000]);
    assert_eq!(call(&mut world, 31, &[2, 0]), [0, 70, 0]);
    waits(&mut world, 31, &[2, 9_999_999]);
    let expected = (receiving(2), Some(12 + 9_999_999), 0, 0, false);
    assert_eq!(waiting(&world, 1, 2), expected);
}

#[test]
fn write_and_read_of_a_queuing_channel_are_3_as_of_no_such_channel() {
    // In a start mode and in NORMAL, at either end, with a bad message too.
    for normal in [false, true] {
        let mut world = World::new(&TABLE);
        if normal {
            populate(&mut world, 1, &[5]);
        }
        for channel in [1, 2, 4, 5] {
            refused(&mut world, 3, 21, &[channel, 5]);
            refused(&mut world, 3, 21, &[channel, -1]);
            refused(&mut world, 3, 22, &[channel]);
        }
        done(&mut world, 21, &[3, 5]);
        refused(&mut world, 5, 22, &[3]);
    }
}

// Sending and receiving

#[test]
fn messages_pass_first_in_first_out_whatever_the_time_outs() {
    let mut world = pair(0);
    reach(&mut world, 1);
    done(&mut world, 30, &[1, 30, -1]);
    done(&mut world, 30, &[1, 10, 7]);
    refused(&mut world, 2, 30, &[1, 20, 0]);
    assert_eq!(held(&world, 1), [30, 10]);
    reach(&mut world, 2);
    assert_eq!(call(&mut world, 31, &[1, -1]), [0, 30, 0]);
    assert_eq!(call(&mut world, 31, &[1, 3]), [0, 10, 0]);
    refused(&mut world, 2, 31, &[1, 0]);
    // What was received at once stands in no record.
    assert_eq!(waiting(&world, 2, 1), SERVED);
}

#[test]
fn an_old_message_is_received_like_a_new_one() {
    let mut world = pair(0);
    reach(&mut world, 1);
    done(&mut world, 30, &[5, 70, 0]);
    // Refresh is 5; queue entries carry no time.
    world.ticks(100);
    reach(&mut world, 2);
    assert_eq!(call(&mut world, 31, &[5, 0]), [0, 70, 0]);
}

#[test]
fn a_partition_in_a_start_mode_is_sent_to() {
    let mut world = World::new(&TABLE);
    populate(&mut world, 1, &[1, 9]);
    done(&mut world, 30, &[5, 70, 0]);
    waits(&mut world, 30, &[5, 80, -1]);
    reach(&mut world, 2);
    refused(&mut world, 5, 31, &[5, 0]);
    populate(&mut world, 2, &[5]);
    // Entering NORMAL changes no channel.
    assert_eq!((held(&world, 5), port(&world, 1, 5)), (vec![70], vec![2]));
    assert_eq!(call(&mut world, 31, &[5, 0]), [0, 70, 0]);
}

#[test]
fn a_send_goes_straight_into_the_first_waiting_receivers_record() {
    let mut world = World::new(&TABLE);
    populate(&mut world, 1, &[1]);
    populate(&mut world, 2, &[1, 5, 9, 7]);
    waits(&mut world, 31, &[1, 20]);
    waits(&mut world, 31, &[1, -1]);
    waits(&mut world, 31, &[1, 40]);
    // In order of coming: 3, 4, 2 by their priorities.
    assert_eq!(port(&world, 2, 1), [3, 4, 2]);
    assert_eq!(waiting(&world, 2, 3), (receiving(1), Some(24), 0, 0, false));
    reach(&mut world, 1);
    assert_eq!(world.event([1, 30, 1, 70, 0, 0]), [0, 0, 0, 12, 1, 1]);
    // The other partition's record changes at once.
    assert_eq!(waiting(&world, 2, 3), (Wait::None, None, 0, 70, false));
    assert_eq!((port(&world, 2, 1), held(&world, 1)), (vec![4, 2], vec![]));
    assert_eq!(arrival(&world, 2), [1, 3]);
    done(&mut world, 30, &[1, 80, -1]);
    assert_eq!(waiting(&world, 2, 4), (Wait::None, None, 0, 80, false));
    assert_eq!(arrival(&world, 2), [1, 3, 4]);
    done(&mut world, 30, &[1, 90, 0]);
    done(&mut world, 30, &[1, 60, 0]);
    assert_eq!((port(&world, 2, 1), held(&world, 1)), (vec![], vec![60]));
    reach(&mut world, 2);
    assert_eq!(world.module.running(), 3);
}

#[test]
fn a_receive_lets_the_first_waiting_sender_in_behind_those_held() {
    let mut world = pair(3);
    reach(&mut world, 1);
    done(&mut world, 30, &[1, 10, 0]);
    done(&mut world, 30, &[1, 20, 0]);
    for (message, time_out) in [(30, 9), (40, -1), (50, -1)] {
        waits(&mut world, 30, &[1, message, time_out]);
    }
    assert_eq!(port(&world, 1, 1), [2, 3, 4]);
    reach(&mut world, 2);
    assert_eq!(call(&mut world, 31, &[1, 0]), [0, 10, 0]);
    // The wait ends with wake code 0, and nothing comes into the record.
    assert_eq!(waiting(&world, 1, 2), SERVED);
    assert_eq!(
        (held(&world, 1), port(&world, 1, 1)),
        (vec![20, 30], vec![3, 4])
    );
    assert_eq!(arrival(&world, 1), [1, 2]);
    for (message, later) in [(20, vec![30, 40]), (30, vec![40, 50]), (40, vec![50])] {
        assert_eq!(call(&mut world, 31, &[1, -1]), [0, message, 0]);
        assert_eq!(held(&world, 1), later);
    }
    assert_eq!(
        (port(&world, 1, 1), arrival(&world, 1)),
        (vec![], vec![1, 2, 3, 4])
    );
}

#[test]
fn senders_wait_in_order_of_coming_whatever_their_priority() {
    let mut world = World::new(&TABLE);
    populate(&mut world, 1, &[1, 5, 9, 7]);
    done(&mut world, 30, &[5, 90, 0]);
    waits(&mut world, 30, &[5, 93, -1]);
    waits(&mut world, 30, &[5, 94, 40]);
    waits(&mut world, 30, &[5, 92, 3]);
    assert_eq!(port(&world, 1, 5), [3, 4, 2]);
    assert_eq!(
        waiting(&world, 1, 4),
        (sending(5, 94), Some(40), 0, 0, false)
    );
}

/// A pair in which process 2 of partition 2 waits to receive on channel 1 and
/// process 2 of partition 1 to send 20 on channel 5, which holds 10, with these
/// time-outs, both suspended.
fn suspended_at_both_ends(receiver: i64, sender: i64) -> World {
    let mut world = pair(1);
    waits(&mut world, 31, &[1, receiver]);
    done(&mut world, 7, &[2]);
    reach(&mut world, 1);
    done(&mut world, 30, &[5, 10, 0]);
    waits(&mut world, 30, &[5, 20, sender]);
    done(&mut world, 7, &[2]);
    world
}

#[test]
fn suspended_waiters_of_both_ends_are_served_and_stay_suspended() {
    let mut world = suspended_at_both_ends(30, 30);
    done(&mut world, 30, &[1, 70, 0]);
    assert_eq!(waiting(&world, 2, 2), (Wait::None, None, 0, 70, true));
    reach(&mut world, 2);
    assert_eq!(call(&mut world, 31, &[5, 0]), [0, 10, 0]);
    assert_eq!(waiting(&world, 1, 2), (Wait::None, None, 0, 0, true));
    assert_eq!(held(&world, 5), [20]);
    assert_eq!((arrival(&world, 1), arrival(&world, 2)), (vec![1], vec![1]));
    // Only RESUME makes them READY.
    world.ticks(60);
    done(&mut world, 11, &[2]);
    assert_eq!(
        (world.module.running(), process(&world, 2, 2).message),
        (2, 70)
    );
}

#[test]
fn message_0_and_equal_messages_are_messages() {
    let mut world = pair(1);
    waits(&mut world, 31, &[5, -1]);
    reach(&mut world, 1);
    done(&mut world, 30, &[5, 8, 0]);
    done(&mut world, 30, &[5, 0, 0]);
    refused(&mut world, 2, 30, &[5, 0, 0]);
    done(&mut world, 30, &[1, 0, 0]);
    done(&mut world, 30, &[1, 0, 0]);
    waits(&mut world, 30, &[1, 0, -1]);
    assert_eq!(waiting(&world, 1, 2).0, sending(1, 0));
    reach(&mut world, 2);
    assert_eq!(process(&world, 2, 2).message, 8);
    for _ in 0..3 {
        assert_eq!(call(&mut world, 31, &[1, 0]), [0, 0, 0]);
    }
    refused(&mut world, 2, 31, &[1, 0]);
    assert_eq!(call(&mut world, 31, &[5, 0]), [0, 0, 0]);
    // Handed over, 0 takes the place of an earlier message.
    waits(&mut world, 31, &[5, -1]);
    reach(&mut world, 1);
    done(&mut world, 30, &[5, 0, 0]);
    assert_eq!(waiting(&world, 2, 2), SERVED);
}

#[test]
fn channels_between_the_same_partitions_are_apart() {
    let mut world = pair(2);
    waits(&mut world, 31, &[1, -1]);
    waits(&mut world, 31, &[5, -1]);
    reach(&mut world, 1);
    done(&mut world, 30, &[5, 50, 0]);
    assert_eq!((port(&world, 2, 1), port(&world, 2, 5)), (vec![2], vec![]));
    assert_eq!(process(&world, 2, 3).message, 50);
    done(&mut world, 30, &[5, 51, 0]);
    waits(&mut world, 30, &[5, 52, -1]);
    done(&mut world, 30, &[1, 10, 0]);
    assert_eq!((held(&world, 1), held(&world, 5)), (vec![], vec![51]));
    assert_eq!((port(&world, 1, 1), port(&world, 1, 5)), (vec![], vec![2]));
    // The way back is another channel.
    refused(&mut world, 2, 31, &[2, 0]);
}

#[test]
fn a_partition_waits_to_send_and_to_receive_at_once() {
    let mut world = pair(2);
    reach(&mut world, 1);
    done(&mut world, 30, &[5, 50, 0]);
    waits(&mut world, 30, &[5, 51, -1]);
    waits(&mut world, 31, &[2, -1]);
    assert_eq!((port(&world, 1, 5), port(&world, 1, 2)), (vec![2], vec![3]));
    reach(&mut world, 2);
    // Arrival in the order of the events: 3 by the hand-over, then 2.
    done(&mut world, 30, &[2, 20, 0]);
    assert_eq!(call(&mut world, 31, &[5, 0]), [0, 50, 0]);
    assert_eq!(arrival(&world, 1), [1, 3, 2]);
}

// Time-outs, STOP, SUSPEND

#[test]
fn waits_time_out_with_6_in_any_window_and_messages_go_with_them() {
    let mut world = pair(2);
    waits(&mut world, 31, &[1, 5]);
    waits(&mut world, 31, &[1, -1]);
    reach(&mut world, 1);
    // Timed out at t 9, in partition 3's window.
    assert_eq!(waiting(&world, 2, 2), (Wait::None, None, 6, 0, false));
    assert_eq!(port(&world, 2, 1), [3]);
    done(&mut world, 30, &[5, 10, 0]);
    waits(&mut world, 30, &[5, 20, 6]);
    waits(&mut world, 30, &[5, 30, 7]);
    world.ticks(6);
    assert_eq!(waiting(&world, 1, 2), (Wait::None, None, 6, 0, false));
    assert_eq!((port(&world, 1, 5), held(&world, 5)), (vec![3], vec![10]));
    assert_eq!(call(&mut world, 31, &[5, 0]), [0, 10, 0]);
    assert_eq!(call(&mut world, 31, &[5, 0]), [0, 30, 0]);
    refused(&mut world, 2, 31, &[5, 0]);
}

#[test]
fn timers_of_a_restarted_partition_are_gone() {
    let mut world = pair(1);
    waits(&mut world, 31, &[1, 20]);
    done(&mut world, 1, &[2]);
    populate(&mut world, 2, &[1, 9]);
    world.ticks(30);
    assert_eq!(waiting(&world, 2, 2), SERVED);
}

#[test]
fn stop_takes_a_waiter_out_of_its_queue_and_its_message_with_it() {
    let mut world = pair(3);
    for _ in 0..3 {
        waits(&mut world, 31, &[1, -1]);
    }
    done(&mut world, 7, &[3]);
    done(&mut world, 5, &[3]);
    assert_eq!(port(&world, 2, 1), [2, 4]);
    assert!(process(&world, 2, 3).dormant());
    reach(&mut world, 1);
    done(&mut world, 30, &[5, 10, 0]);
    for message in [20, 30, 40] {
        waits(&mut world, 30, &[5, message, 50]);
    }
    done(&mut world, 5, &[2]);
    assert_eq!(waiting(&world, 1, 2), SERVED);
    assert_eq!(port(&world, 1, 5), [3, 4]);
    reach(&mut world, 2);
    for message in [10, 30, 40] {
        assert_eq!(call(&mut world, 31, &[5, 0]), [0, message, 0]);
    }
    refused(&mut world, 2, 31, &[5, 0]);
}

#[test]
fn suspended_waiters_time_out_with_6_and_keep_the_mark() {
    let mut world = suspended_at_both_ends(20, 9);
    refused(&mut world, 1, 7, &[2]);
    world.ticks(12);
    for partition in [1, 2] {
        assert_eq!(
            waiting(&world, partition, 2),
            (Wait::None, None, 6, 0, true)
        );
    }
    assert_eq!((port(&world, 1, 5), port(&world, 2, 1)), (vec![], vec![]));
}

#[test]
fn a_periodic_process_may_wait_to_send_and_to_receive() {
    let mut world = World::new(&TABLE);
    for id in 1..=2 {
        assert_eq!(call(&mut world, 2, &[id, 5, 12, 4]), [0, id, 0]);
        done(&mut world, 3, &[id]);
    }
    populate(&mut world, 1, &[]);
    world.ticks(12);
    done(&mut world, 30, &[5, 10, 0]);
    waits(&mut world, 30, &[5, 20, 7]);
    waits(&mut world, 31, &[2, 7]);
    for (id, wait) in [(1, sending(5, 20)), (2, receiving(2))] {
        let it = process(&world, 1, id);
        assert_eq!((it.wait, it.wake), (wait, Some(19)));
        assert_eq!((it.release, it.deadline), (Some(12), Some(16)));
    }
    world.ticks(4);
    assert!(process(&world, 1, 1).missed && process(&world, 1, 2).missed);
}

// The message in the process record

#[test]
fn the_message_in_the_record_is_the_last_handed_over_by_buffer_or_channel() {
    let mut world = World::new(&TABLE);
    populate(&mut world, 1, &[1]);
    reach(&mut world, 2);
    assert_eq!(call(&mut world, 23, &[1, 1]), [0, 1, 0]);
    populate(&mut world, 2, &[1, 9]);
    waits(&mut world, 25, &[1, -1]);
    done(&mut world, 24, &[1, 60, 0]);
    assert_eq!(process(&world, 2, 2).message, 60);
    waits(&mut world, 31, &[1, -1]);
    assert_eq!(process(&world, 2, 2).message, 60);
    reach(&mut world, 1);
    done(&mut world, 30, &[1, 70, 0]);
    assert_eq!(process(&world, 2, 2).message, 70);
    // Received at once: the record keeps what it has.
    done(&mut world, 30, &[1, 80, 0]);
    reach(&mut world, 2);
    assert_eq!(call(&mut world, 31, &[1, 0]), [0, 80, 0]);
    waits(&mut world, 31, &[1, 1]);
    world.ticks(1);
    assert_eq!(waiting(&world, 2, 2), (Wait::None, None, 6, 70, false));
}

// Restarts

/// Channel 1 holds 10 and 11 and channel 5 holds 50; processes 2 to 5 of
/// partition 1 wait to send 12, 51, 13, 52; partition 2 is current.
fn full() -> World {
    let mut world = pair(4);
    reach(&mut world, 1);
    for (channel, message) in [(1, 10), (1, 11), (5, 50)] {
        done(&mut world, 30, &[channel, message, 0]);
    }
    for (channel, message) in [(1, 12), (5, 51), (1, 13), (5, 52)] {
        waits(&mut world, 30, &[channel, message, -1]);
    }
    assert_eq!(
        (port(&world, 1, 1), port(&world, 1, 5)),
        (vec![2, 4], vec![3, 5])
    );
    reach(&mut world, 2);
    world
}

#[test]
fn modes_0_1_and_2_of_the_destination_empty_the_queues_and_let_senders_in() {
    for mode in [0, 1, 2] {
        let mut world = full();
        done(&mut world, 1, &[mode]);
        assert_eq!((held(&world, 1), held(&world, 5)), (vec![12, 13], vec![51]));
        assert_eq!((port(&world, 1, 1), port(&world, 1, 5)), (vec![], vec![5]));
        // Channel 1's senders come before channel 5's.
        assert_eq!(arrival(&world, 1), [1, 2, 4, 3]);
        for id in [2, 3, 4] {
            assert_eq!(waiting(&world, 1, id), SERVED);
        }
        assert_eq!(waiting(&world, 1, 5).0, sending(5, 52));
    }
}

#[test]
fn a_second_restart_of_the_destination_empties_again() {
    let mut world = full();
    done(&mut world, 1, &[2]);
    // The mode stays the same.
    done(&mut world, 1, &[2]);
    assert_eq!((held(&world, 1), held(&world, 5)), (vec![], vec![52]));
    assert_eq!(arrival(&world, 1), [1, 2, 4, 3, 5]);
    done(&mut world, 1, &[1]);
    assert_eq!((held(&world, 1), held(&world, 5)), (vec![], vec![]));
}

#[test]
fn a_refused_mode_of_the_destination_changes_nothing() {
    let mut world = full();
    for (code, mode) in [(3, -1), (3, 4), (1, 3)] {
        refused(&mut world, code, 1, &[mode]);
    }
    done(&mut world, 1, &[1]);
    refused(&mut world, 5, 1, &[2]);
    refused(&mut world, 5, 1, &[3]);
}

#[test]
fn a_suspended_sender_let_in_by_a_restart_stays_suspended() {
    let mut world = full();
    reach(&mut world, 1);
    done(&mut world, 7, &[2]);
    reach(&mut world, 2);
    done(&mut world, 1, &[2]);
    assert_eq!(waiting(&world, 1, 2), (Wait::None, None, 0, 0, true));
    assert_eq!(arrival(&world, 1), [1, 4, 3]);
    assert_eq!(held(&world, 1), [12, 13]);
}

#[test]
fn senders_fewer_than_the_places_leave_room() {
    let mut world = pair(1);
    reach(&mut world, 1);
    for message in [10, 11] {
        done(&mut world, 30, &[1, message, 0]);
    }
    waits(&mut world, 30, &[1, 12, 30]);
    reach(&mut world, 2);
    done(&mut world, 1, &[2]);
    assert_eq!((held(&world, 1), port(&world, 1, 1)), (vec![12], vec![]));
    // Its time-out does not come any more.
    world.ticks(40);
    assert_eq!(waiting(&world, 1, 2), SERVED);
}

#[test]
fn a_restart_of_the_destination_removes_its_receivers() {
    let mut world = pair(2);
    waits(&mut world, 31, &[1, -1]);
    waits(&mut world, 31, &[5, 30]);
    done(&mut world, 1, &[2]);
    assert_eq!((port(&world, 2, 1), port(&world, 2, 5)), (vec![], vec![]));
    populate(&mut world, 2, &[1]);
    reach(&mut world, 1);
    // A later message finds nobody and is held.
    done(&mut world, 30, &[1, 70, 0]);
    assert_eq!(held(&world, 1), [70]);
    assert_eq!(waiting(&world, 2, 1), SERVED);
}

#[test]
fn a_restart_of_the_source_removes_its_senders_and_their_messages_only() {
    for mode in [0, 1, 2] {
        let mut world = full();
        reach(&mut world, 1);
        done(&mut world, 1, &[mode]);
        assert_eq!((port(&world, 1, 1), port(&world, 1, 5)), (vec![], vec![]));
        // What was let in before stays and comes out.
        assert_eq!((held(&world, 1), held(&world, 5)), (vec![10, 11], vec![50]));
        reach(&mut world, 2);
        for message in [10, 11] {
            assert_eq!(call(&mut world, 31, &[1, 0]), [0, message, 0]);
        }
        refused(&mut world, 2, 31, &[1, 0]);
    }
}

#[test]
fn a_restart_of_the_source_leaves_waiting_receivers() {
    let mut world = pair(2);
    waits(&mut world, 31, &[1, -1]);
    waits(&mut world, 31, &[1, 90]);
    reach(&mut world, 1);
    done(&mut world, 1, &[2]);
    assert_eq!(port(&world, 2, 1), [2, 3]);
    populate(&mut world, 1, &[1]);
    done(&mut world, 30, &[1, 70, 0]);
    assert_eq!(waiting(&world, 2, 2), (Wait::None, None, 0, 70, false));
    assert_eq!(port(&world, 2, 1), [3]);
}

#[test]
fn both_ends_restart_one_after_the_other() {
    // The source first: then the destination finds messages and no sender.
    let mut world = full();
    reach(&mut world, 1);
    done(&mut world, 1, &[2]);
    reach(&mut world, 2);
    done(&mut world, 1, &[2]);
    assert_eq!((held(&world, 1), held(&world, 5)), (vec![], vec![]));
    // The destination first: what was let in outlives its sender.
    let mut world = full();
    done(&mut world, 1, &[2]);
    reach(&mut world, 1);
    done(&mut world, 1, &[2]);
    assert_eq!((held(&world, 1), held(&world, 5)), (vec![12, 13], vec![51]));
    assert_eq!(port(&world, 1, 5), []);
    populate(&mut world, 2, &[1]);
    assert_eq!(call(&mut world, 31, &[5, 0]), [0, 51, 0]);
    refused(&mut world, 2, 31, &[5, 0]);
}

#[test]
fn a_restart_keeps_what_a_partition_sent_and_erases_what_was_sent_to_it() {
    let mut world = pair(1);
    done(&mut world, 30, &[2, 20, 0]);
    done(&mut world, 30, &[4, 40, 0]);
    reach(&mut world, 1);
    done(&mut world, 30, &[1, 10, 0]);
    done(&mut world, 21, &[3, 30]);
    reach(&mut world, 2);
    done(&mut world, 1, &[1]);
    assert_eq!((held(&world, 2), held(&world, 4)), (vec![20], vec![40]));
    assert_eq!((held(&world, 1), world.message(3)), (vec![], None));
}

#[test]
fn a_restart_is_of_all_the_channels_ends_of_the_partition() {
    // Partition 2 waits to send to 1 and to 3 and to receive from 1; its
    // restart lets nobody of its own in.
    let mut world = pair(3);
    done(&mut world, 30, &[2, 20, 0]);
    done(&mut world, 30, &[4, 40, 0]);
    waits(&mut world, 30, &[2, 21, -1]);
    waits(&mut world, 30, &[4, 41, 90]);
    waits(&mut world, 31, &[1, -1]);
    done(&mut world, 1, &[2]);
    assert_eq!((held(&world, 2), held(&world, 4)), (vec![20], vec![40]));
    for channel in 1..=5 {
        assert_eq!(port(&world, 2, channel), []);
    }
    // Partition 3 restarts: channel 4 is emptied, and no sender is left.
    reach(&mut world, 3);
    done(&mut world, 1, &[1]);
    assert_eq!(held(&world, 4), []);
    assert_eq!(held(&world, 2), [20]);
}

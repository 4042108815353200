//! The dump format.

mod common;

use common::{text, World, CHANNELS, ONE, TWO};
use separate::dump;
use separate::replay::final_record;
use separate::Module;

#[test]
fn a_refused_table_is_the_line_empty() {
    assert_eq!(dump::text(&Module::empty()), "empty\n");
    assert_eq!(dump::text(&final_record(&b""[..])), "empty\n");
    assert_eq!(dump::text(&final_record(&text(&TWO)[..61])), "empty\n");
}

#[test]
fn a_fresh_record() {
    let expected = "\
module t 0 current 1 running 0 frame 10 partitions 3 windows 3 channels 3
window 1 start 0 duration 4 partition 1 flag 1
window 2 start 4 duration 3 partition 2 flag 1
window 3 start 7 duration 1 partition 3 flag 1
channel 1 source 1 destination 2 refresh 5 message -1 written -1
channel 2 source 2 destination 1 refresh 5 message -1 written -1
channel 3 source 2 destination 3 refresh 5 message -1 written -1
partition 1 mode 1 processes 0 semaphores 0 events 0 buffers 0 blackboards 0 level 0 holder 0
arrival
partition 2 mode 1 processes 0 semaphores 0 events 0 buffers 0 blackboards 0 level 0 holder 0
arrival
partition 3 mode 1 processes 0 semaphores 0 events 0 buffers 0 blackboards 0 level 0 holder 0
arrival
";
    assert_eq!(dump::text(&World::new(&CHANNELS).module), expected);
}

#[test]
fn the_worked_example_at_t_6() {
    let mut world = World::new(&TWO);
    for event in [[1, 2, 7, 50, -1, 5], [1, 3, 1, 0, 0, 0], [1, 1, 3, 0, 0, 0]] {
        world.event(event);
    }
    world.event([1, 9, 4, 0, 0, 0]);
    world.ticks(6);
    let expected = "\
module t 6 current 2 running 0 frame 10 partitions 2 windows 2 channels 0
window 1 start 0 duration 6 partition 1 flag 1
window 2 start 6 duration 4 partition 2 flag 1
partition 1 mode 3 processes 1 semaphores 0 events 0 buffers 0 blackboards 0 level 0 holder 0
process 1 name 7 base 50 current 50 period -1 capacity 5 release -1 deadline -1 wake -1 delay 0 \
suspended 0 missed 1 code 0 message 0 started 1 wait none
arrival 1
partition 2 mode 1 processes 0 semaphores 0 events 0 buffers 0 blackboards 0 level 0 holder 0
arrival
";
    assert_eq!(dump::text(&world.module), expected);
}

#[test]
fn every_kind_of_wait_has_its_word() {
    let mut world = World::one();
    world.semaphore(0, 2);
    world.semaphore(1, 1);
    world.flag();
    world.flag();
    for priority in [1, 9, 8, 7, 6] {
        world.started(priority);
    }
    world.create(5, -1, 30);
    world.create(4, 10, 3);
    world.create(3, -1, -1);
    world.done(4, &[6, 9]);
    world.done(3, &[7]);
    world.done(18, &[2]);
    world.normal();
    world.waits(15, &[1, -1]);
    world.waits(15, &[1, 20]);
    world.waits(20, &[1, 5]);
    world.waits(9, &[4]);
    world.done(7, &[3]);
    world.done(12, &[1, 2]);
    let expected = "\
module t 0 current 1 running 1 frame 10 partitions 1 windows 1 channels 0
window 1 start 0 duration 10 partition 1 flag 1
partition 1 mode 3 processes 8 semaphores 2 events 2 buffers 0 blackboards 0 level 0 holder 0
process 1 name 1 base 1 current 2 period -1 capacity -1 release -1 deadline -1 wake -1 delay 0 \
suspended 0 missed 0 code 0 message 0 started 1 wait none
process 2 name 2 base 9 current 9 period -1 capacity -1 release -1 deadline -1 wake -1 delay 0 \
suspended 0 missed 0 code 0 message 0 started 1 wait semaphore 1
process 3 name 3 base 8 current 8 period -1 capacity -1 release -1 deadline -1 wake 20 delay 0 \
suspended 1 missed 0 code 0 message 0 started 1 wait semaphore 1
process 4 name 4 base 7 current 7 period -1 capacity -1 release -1 deadline -1 wake 5 delay 0 \
suspended 0 missed 0 code 0 message 0 started 1 wait event 1
process 5 name 5 base 6 current 6 period -1 capacity -1 release -1 deadline -1 wake 4 delay 0 \
suspended 0 missed 0 code 0 message 0 started 1 wait timed
process 6 name 6 base 5 current 5 period -1 capacity 30 release -1 deadline 39 wake 9 delay 9 \
suspended 0 missed 0 code 0 message 0 started 1 wait delay
process 7 name 7 base 4 current 4 period 10 capacity 3 release 10 deadline 13 wake 10 delay 0 \
suspended 0 missed 0 code 0 message 0 started 1 wait period
process 8 name 8 base 3 current 0 period -1 capacity -1 release -1 deadline -1 wake -1 delay 0 \
suspended 0 missed 0 code 0 message 0 started 0 wait none
semaphore 1 name 1 value 0 max 2
semaphore 2 name 2 value 1 max 1
event 1 name 1 up 0
event 2 name 2 up 1
arrival 1
waiters semaphore 1 2 3
waiters semaphore 2
waiters event 1 4
waiters event 2
";
    assert_eq!(dump::text(&world.module), expected);
}

#[test]
fn buffers_and_blackboards_with_their_waiters_and_messages() {
    let mut world = World::one();
    world.semaphore(0, 1);
    world.flag();
    for limit in [2, 16] {
        world.buffer(limit);
    }
    world.blackboard();
    assert_eq!(world.call(26, &[255]), [0, 2, 0]);
    for priority in [1, 9, 8, 7, 6, 5] {
        world.started(priority);
    }
    world.done(27, &[2, 0]);
    world.normal();
    world.waits(25, &[1, -1]);
    world.waits(25, &[2, 4]);
    world.waits(28, &[1, -1]);
    world.done(24, &[1, 33, 0]);
    world.done(24, &[1, 0, 0]);
    world.done(24, &[1, 9_999_999, 0]);
    world.waits(24, &[1, 55, 7]);
    world.waits(24, &[1, 44, -1]);
    world.waits(25, &[2, -1]);
    let expected = "\
module t 0 current 1 running 1 frame 10 partitions 1 windows 1 channels 0
window 1 start 0 duration 10 partition 1 flag 1
partition 1 mode 3 processes 6 semaphores 1 events 1 buffers 2 blackboards 2 level 0 holder 0
process 1 name 1 base 1 current 1 period -1 capacity -1 release -1 deadline -1 wake -1 delay 0 \
suspended 0 missed 0 code 0 message 0 started 1 wait none
process 2 name 2 base 9 current 9 period -1 capacity -1 release -1 deadline -1 wake 7 delay 0 \
suspended 0 missed 0 code 0 message 33 started 1 wait sending 1 55
process 3 name 3 base 8 current 8 period -1 capacity -1 release -1 deadline -1 wake 4 delay 0 \
suspended 0 missed 0 code 0 message 0 started 1 wait receiving 2
process 4 name 4 base 7 current 7 period -1 capacity -1 release -1 deadline -1 wake -1 delay 0 \
suspended 0 missed 0 code 0 message 0 started 1 wait blackboard 1
process 5 name 5 base 6 current 6 period -1 capacity -1 release -1 deadline -1 wake -1 delay 0 \
suspended 0 missed 0 code 0 message 0 started 1 wait sending 1 44
process 6 name 6 base 5 current 5 period -1 capacity -1 release -1 deadline -1 wake -1 delay 0 \
suspended 0 missed 0 code 0 message 0 started 1 wait receiving 2
semaphore 1 name 1 value 0 max 1
event 1 name 1 up 0
buffer 1 name 1 limit 2 messages 0 9999999
buffer 2 name 2 limit 16 messages
blackboard 1 name 1 message -1
blackboard 2 name 255 message 0
arrival 1
waiters semaphore 1
waiters event 1
waiters sending 1 2 5
waiters sending 2
waiters receiving 1
waiters receiving 2 3 6
waiters blackboard 1 4
waiters blackboard 2
";
    assert_eq!(dump::text(&world.module), expected);
}

/// Two partitions with queuing channels there and back, with held messages and
/// waiters of both ends.
fn queuing() -> World {
    let table = [
        [10, 2, 2, 4, 0, 0],
        [0, 5, 1, 1, 0, 0],
        [5, 5, 2, 1, 0, 0],
        [1, 2, 9, 1, 2, 0],
        [2, 1, 9, 1, 8, 0],
        [1, 2, 9, 0, 0, 0],
        [1, 2, 9, 1, 1, 0],
    ];
    let mut world = World::new(&table);
    for priority in [1, 9, 8, 7] {
        world.started(priority);
    }
    world.normal();
    for message in [0, 9_999_999] {
        world.done(30, &[1, message, 0]);
    }
    world.waits(30, &[1, 55, 7]);
    world.waits(31, &[2, -1]);
    world.waits(30, &[1, 44, -1]);
    world.ticks(5);
    for event in [
        [2, 2, 1, 5, -1, -1],
        [2, 3, 1, 0, 0, 0],
        [2, 1, 3, 0, 0, 0],
        [2, 31, 4, 6, 0, 0],
    ] {
        world.event(event);
    }
    world
}

#[test]
fn queuing_channels_with_their_messages_and_the_waiters_of_both_ends() {
    let expected = "\
module t 5 current 2 running 0 frame 10 partitions 2 windows 2 channels 4
window 1 start 0 duration 5 partition 1 flag 1
window 2 start 5 duration 5 partition 2 flag 1
channel 1 source 1 destination 2 refresh 9 limit 2 messages 0 9999999
channel 2 source 2 destination 1 refresh 9 limit 8 messages
channel 3 source 1 destination 2 refresh 9 message -1 written -1
channel 4 source 1 destination 2 refresh 9 limit 1 messages
partition 1 mode 3 processes 4 semaphores 0 events 0 buffers 0 blackboards 0 level 0 holder 0
process 1 name 1 base 1 current 1 period -1 capacity -1 release -1 deadline -1 wake -1 delay 0 \
suspended 0 missed 0 code 0 message 0 started 1 wait none
process 2 name 2 base 9 current 9 period -1 capacity -1 release -1 deadline -1 wake 7 delay 0 \
suspended 0 missed 0 code 0 message 0 started 1 wait sending channel 1 55
process 3 name 3 base 8 current 8 period -1 capacity -1 release -1 deadline -1 wake -1 delay 0 \
suspended 0 missed 0 code 0 message 0 started 1 wait receiving channel 2
process 4 name 4 base 7 current 7 period -1 capacity -1 release -1 deadline -1 wake -1 delay 0 \
suspended 0 missed 0 code 0 message 0 started 1 wait sending channel 1 44
arrival 1
waiters sending channel 1 2 4
waiters sending channel 4
waiters receiving channel 2 3
partition 2 mode 3 processes 1 semaphores 0 events 0 buffers 0 blackboards 0 level 0 holder 0
process 1 name 1 base 5 current 5 period -1 capacity -1 release -1 deadline -1 wake 11 delay 0 \
suspended 0 missed 0 code 0 message 0 started 1 wait receiving channel 4
arrival
waiters sending channel 2
waiters receiving channel 1
waiters receiving channel 4 1
";
    assert_eq!(dump::text(&queuing().module), expected);
}

#[test]
fn waiting_for_normal_and_two_in_the_arrival_list() {
    let mut world = World::one();
    world.started(5);
    let waiting = dump::text(&world.module);
    assert!(waiting.contains(" started 1 wait normal\n"));
    world.started(5);
    world.normal();
    assert!(dump::text(&world.module).contains("\narrival 1 2\n"));
}

#[test]
fn a_lock_shows_its_level_and_its_holder() {
    let mut world = World::one();
    world.started(5);
    world.started(9);
    world.normal();
    world.done(32, &[]);
    world.done(12, &[1, 10]);
    let partition =
        "\npartition 1 mode 3 processes 2 semaphores 0 events 0 buffers 0 blackboards 0";
    let locked = dump::text(&world.module);
    assert!(locked.contains(&format!("{partition} level 1 holder 2\n")));
    assert!(locked.starts_with("module t 0 current 1 running 2 "));
    for _ in 1..16 {
        world.done(32, &[]);
    }
    assert!(dump::text(&world.module).contains(&format!("{partition} level 16 holder 2\n")));
    for _ in 0..16 {
        world.done(33, &[]);
    }
    let open = dump::text(&world.module);
    assert!(open.contains(&format!("{partition} level 0 holder 0\n")));
    assert!(open.starts_with("module t 0 current 1 running 1 "));
}

#[test]
fn a_message_shows_its_value_and_time() {
    let mut world = World::new(&CHANNELS);
    world.ticks(2);
    world.done(21, &[1, 77]);
    let line = "\nchannel 1 source 1 destination 2 refresh 5 message 77 written 2\n";
    assert!(dump::text(&world.module).contains(line));
}

#[test]
fn bad_event_lines_step_nothing() {
    let mut input = text(&ONE);
    input.extend(text(&[[0; 6]]));
    let one_tick = dump::text(&final_record(input.as_slice()));
    input.extend(b"\nbad\n");
    input.extend(&text(&[[0; 6]])[..60]);
    assert_eq!(dump::text(&final_record(input.as_slice())), one_tick);
    assert!(one_tick.starts_with("module t 1 current 1 "));
}

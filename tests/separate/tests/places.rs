//! The places of check in their order, and the six numbers of an answer.

mod common;

use common::{line, World, CHANNELS, TWO};
use separate::machine::USED;
use separate::{Event, Module};

/// Example table with a running process in partition 1.
fn running() -> World {
    let mut world = World::new(&TWO);
    world.started(50);
    world.normal();
    world
}

#[test]
fn the_empty_record_answers_13_to_everything() {
    let mut empty = Module::empty();
    for event in [
        [0; 6],
        [1, 1, 3, 0, 0, 0],
        [0, 5, 0, 0, 0, 0],
        [-1, 99, 1, 2, 3, 4],
    ] {
        assert_eq!(
            empty.step(&Event::from_six(event)).six(),
            [13, 0, 0, 0, 0, 0]
        );
        assert!(empty == Module::empty());
    }
}

#[test]
fn a_partition_not_0_to_p_is_13() {
    let mut world = running();
    for partition in [-1, 3, 9, i64::MIN, i64::MAX] {
        for call in [0, 1, 34] {
            world.refused_event(13, line(partition, call, &[]));
        }
    }
}

#[test]
fn a_call_not_0_to_34_is_13() {
    let mut world = running();
    for call in [-1, 35, i64::MIN, i64::MAX] {
        for partition in [0, 1, 2] {
            world.refused_event(13, line(partition, call, &[]));
        }
    }
}

#[test]
fn just_one_of_partition_and_call_0_is_13() {
    let mut world = running();
    for call in 1..=34 {
        world.refused_event(13, line(0, call, &[]));
    }
    world.refused_event(13, line(1, 0, &[]));
    world.refused_event(13, line(2, 0, &[]));
}

#[test]
fn an_unused_field_not_0_is_13() {
    let used = [
        0, 1, 4, 1, 2, 1, 0, 1, 1, 1, 0, 1, 2, 1, 3, 2, 1, 1, 1, 1, 2, 2, 1, 2, 3, 2, 1, 2, 2, 1,
        3, 2, 0, 0, 0,
    ];
    assert_eq!(USED, used);
    let mut world = running();
    for (call, &used) in used.iter().enumerate() {
        let partition = i64::from(call != 0);
        for field in used..4 {
            for value in [1, -1, i64::MIN, i64::MAX] {
                let mut event = line(partition, call as i64, &[]);
                event[2 + field] = value;
                world.refused_event(13, event);
            }
        }
    }
}

#[test]
fn a_used_field_never_gets_13() {
    for (call, &used) in USED.iter().enumerate().skip(1) {
        for field in 0..used {
            for value in [1, -1, i64::MIN, i64::MAX] {
                let mut world = running();
                let mut event = line(1, call as i64, &[]);
                event[2 + field] = value;
                assert_ne!(world.code(event), 13, "call {call} field {field}");
            }
        }
    }
}

#[test]
fn place_13_comes_before_8_9_and_the_body() {
    let mut world = World::new(&TWO);
    // Partition 2 is not current, partition 1 is IDLE: 13 all the same.
    world.done(1, &[0]);
    world.refused_event(13, [2, 1, 9, 1, 0, 0]);
    world.refused_event(13, [1, 1, 9, 1, 0, 0]);
}

#[test]
fn place_8_comes_before_9_and_the_body() {
    let mut world = World::new(&TWO);
    world.done(1, &[0]);
    world.ticks(6);
    // Partition 1 is IDLE and not current; the mode 9 does not exist.
    world.refused_event(8, [1, 1, 9, 0, 0, 0]);
    world.refused_event(8, [1, 3, 99, 0, 0, 0]);
}

#[test]
fn place_9_comes_before_the_body() {
    let mut world = World::one();
    world.done(1, &[0]);
    for call in 1..=34 {
        world.refused(9, call, &[]);
    }
    world.refused(9, 1, &[9]);
    world.refused(9, 3, &[99]);
}

#[test]
fn normal_with_nothing_running_is_9() {
    let mut world = World::one();
    world.create(5, -1, -1);
    world.normal();
    for call in 1..=34 {
        world.refused(9, call, &[]);
    }
    world.ticks(25);
    world.refused(9, 3, &[1]);
}

#[test]
fn unknown_id_is_3_before_start_mode_5() {
    let mut world = World::one();
    for call in [15, 20, 24, 25, 28, 30, 31] {
        world.refused(3, call, &[1, 0]);
    }
    world.semaphore(0, 1);
    world.flag();
    world.buffer(1);
    world.blackboard();
    for call in [15, 20, 24, 25, 28] {
        world.refused(5, call, &[1, 0]);
    }
}

#[test]
fn no_partition_is_current_in_a_gap() {
    let mut world = World::new(&CHANNELS);
    world.ticks(8);
    assert_eq!(world.event([1, 1, 1, 0, 0, 0]), [8, 0, 0, 8, 0, 0]);
    assert_eq!(world.tick(), [0, 0, 0, 9, 0, 0]);
    assert_eq!(world.tick(), [0, 0, 0, 10, 1, 0]);
}

#[test]
fn the_window_rule_is_start_up_to_before_its_end() {
    let mut world = World::new(&CHANNELS);
    let mut owners = vec![world.module.current()];
    for _ in 0..20 {
        owners.push(world.tick()[4] as usize);
    }
    assert_eq!(
        owners,
        [1, 1, 1, 1, 2, 2, 2, 3, 0, 0, 1, 1, 1, 1, 2, 2, 2, 3, 0, 0, 1]
    );
}

#[test]
fn running_shows_where_the_events_partition_is_0_or_current() {
    let mut world = running();
    // Refusals of the current partition show it: 3, 5, 1, 13.
    assert_eq!(world.event([1, 3, 9, 0, 0, 0]), [3, 0, 0, 0, 1, 1]);
    assert_eq!(world.event([1, 10, 0, 0, 0, 0]), [5, 0, 0, 0, 1, 1]);
    assert_eq!(world.event([1, 1, 3, 0, 0, 0]), [1, 0, 0, 0, 1, 1]);
    assert_eq!(world.event([1, 10, 1, 0, 0, 0]), [13, 0, 0, 0, 1, 1]);
    assert_eq!(world.event([1, 0, 0, 0, 0, 0]), [13, 0, 0, 0, 1, 1]);
    assert_eq!(world.event([1, 35, 0, 0, 0, 0]), [13, 0, 0, 0, 1, 1]);
    // Partition 0 shows it whatever the code.
    assert_eq!(world.event([0, 5, 0, 0, 0, 0]), [13, 0, 0, 0, 1, 1]);
    assert_eq!(world.event([0, 0, 0, 0, 0, 7]), [13, 0, 0, 0, 1, 1]);
    assert_eq!(world.tick(), [0, 0, 0, 1, 1, 1]);
}

#[test]
fn running_is_0_where_the_events_partition_is_neither_0_nor_current() {
    let mut world = running();
    assert_eq!(world.event([2, 13, 1, 0, 0, 0]), [8, 0, 0, 0, 1, 0]);
    assert_eq!(world.event([2, 10, 1, 0, 0, 0]), [13, 0, 0, 0, 1, 0]);
    assert_eq!(world.event([2, 0, 0, 0, 0, 0]), [13, 0, 0, 0, 1, 0]);
    assert_eq!(world.event([-1, 1, 0, 0, 0, 0]), [13, 0, 0, 0, 1, 0]);
    assert_eq!(world.event([3, 1, 0, 0, 0, 0]), [13, 0, 0, 0, 1, 0]);
}

#[test]
fn a_partition_in_start_mode_shows_no_running_process() {
    let mut world = World::one();
    world.started(5);
    assert_eq!(world.tick(), [0, 0, 0, 1, 1, 0]);
    assert_eq!(world.running(), 0);
}

#[test]
fn the_running_process_is_the_greatest_priority_then_the_first_arrived() {
    let mut world = World::one();
    for priority in [3, 9, 9, 4] {
        world.started(priority);
    }
    world.normal();
    assert_eq!(world.arrival(), [1, 2, 3, 4]);
    assert_eq!(world.running(), 2);
    world.done(9, &[0]);
    assert_eq!(world.arrival(), [1, 3, 4, 2]);
    assert_eq!(world.running(), 3);
    world.done(12, &[4, 10]);
    assert_eq!(world.running(), 4);
}

#[test]
fn a_bad_line_answers_11_with_running_0_and_steps_nothing() {
    let mut world = running();
    world.ticks(3);
    let before = world.module.clone();
    assert_eq!(world.module.bad_line().six(), [11, 0, 0, 3, 1, 0]);
    assert!(world.module == before);
}

#[test]
fn time_ends_at_99_999_999_with_10() {
    let mut world = World::one();
    world.started(5);
    world.normal();
    world.waits(9, &[9_999_999]);
    for _ in 0..99_999_998 {
        world.module.step(&Event::TICK);
    }
    assert_eq!(world.tick(), [0, 0, 0, 99_999_999, 1, 1]);
    let before = world.module.clone();
    assert_eq!(world.tick(), [10, 0, 0, 99_999_999, 1, 1]);
    assert_eq!(world.tick(), [10, 0, 0, 99_999_999, 1, 1]);
    assert!(world.module == before);
    // 13 comes before 10, and calls go on.
    world.refused_event(13, [0, 0, 1, 0, 0, 0]);
    assert_eq!(
        world.event([1, 13, 1, 0, 0, 0]),
        [0, 2, -1, 99_999_999, 1, 1]
    );
    world.waits(9, &[9_999_999]);
    assert_eq!(world.process(1).wake, Some(109_999_998));
}

#[test]
fn the_latest_deadline_of_all_still_fits_an_answer_line() {
    // Of all M, 9990 gives the latest d: time ends at the start of the only
    // window with flag 1, the next one is M later, at 100,009,989, and the
    // greatest period gives the greatest delay and capacity.
    let table = [[9990, 1, 1, 0, 0, 0], [99, 1, 1, 1, 0, 0]];
    let mut world = World::new(&table);
    for _ in 0..99_999_999 {
        world.module.step(&Event::TICK);
    }
    assert_eq!(world.module.t(), 99_999_999);
    assert_eq!(world.call(2, &[1, 1, 9_999_990, 9_999_990]), [0, 1, 0]);
    assert_eq!(world.call(2, &[2, 1, -1, -1]), [0, 2, 0]);
    world.done(4, &[1, 9_999_989]);
    world.done(3, &[2]);
    world.normal();
    assert_eq!(world.process(1).release, Some(110_009_978));
    let answer = world.event([1, 13, 1, 0, 0, 0]);
    assert_eq!(answer, [0, 3, 120_009_968, 99_999_999, 1, 2]);
    assert!(separate::line::write(&answer, &mut [0; 61]).is_ok());
}

#[test]
fn a_list_of_event_records_keeps_each_answer_in_its_record() {
    let events = [
        [1, 2, 7, 50, -1, 5],
        [1, 3, 1, 0, 0, 0],
        [1, 1, 3, 0, 0, 0],
        [0; 6],
    ];
    let mut records: Vec<_> = events
        .iter()
        .map(|&six| separate::EventRecord {
            event: Event::from_six(six),
            answer: None,
        })
        .collect();
    let mut list = World::new(&TWO);
    list.module.run(&mut records);
    let mut single = World::new(&TWO);
    for (record, six) in records.iter().zip(events) {
        assert_eq!(record.answer.expect("an answer").six(), single.event(six));
    }
    assert!(list.module == single.module);
}

/// Fields of a call that is not refused for them, in a partition that has one
/// of each object, at the source of channels 1 (sampling) and 3 (queuing) and
/// at the destination of 2 and 4.
fn good_fields(call: i64) -> [i64; 4] {
    match call {
        2 => [2, 5, -1, -1],
        14 => [2, 1, 1, 0],
        22 => [2, 0, 0, 0],
        23 => [2, 1, 0, 0],
        30 => [3, 1, 1, 0],
        31 => [4, 1, 0, 0],
        _ => {
            let mut fields = [1; 4];
            fields[USED[call as usize]..].fill(0);
            fields
        }
    }
}

#[test]
fn numbers_that_no_line_holds_are_judged_by_the_same_rules() {
    let mut table = TWO.to_vec();
    table[0][3] = 4;
    for kind in [0, 1] {
        table.extend([[1, 2, 5, kind, kind, 0], [2, 1, 5, kind, kind, 0]]);
    }
    let mut world = World::new(&table);
    world.one_of_each();
    for call in 1..=34i64 {
        for field in 0..USED[call as usize] {
            for value in [
                i64::MIN,
                i64::MIN + 1,
                -2,
                1_000_000_000,
                i64::MAX - 1,
                i64::MAX,
            ] {
                let mut fields = good_fields(call);
                fields[field] = value;
                world.refused(3, call, &fields);
            }
        }
    }
}

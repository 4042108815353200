//! The release of a periodic process that takes the start rule (document 02,
//! d): the earliest start of a window with flag 1, of its partition, strictly
//! after t, plus the delay.

mod common;

use common::{World, ONE};
use separate::events::Events;
use separate::record::{Module, Process, Wait};
use separate::{Event, Six};

/// Partition 1 has the flag at 0 and 10 and lacks it at 5 and 16; partition 2
/// has it at 3, 7 and 14; nobody owns 19.
const DRIVE: [Six; 8] = [
    [20, 2, 7, 0, 0, 0],
    [0, 3, 1, 1, 0, 0],
    [3, 2, 2, 1, 0, 0],
    [5, 2, 1, 0, 0, 0],
    [7, 3, 2, 1, 0, 0],
    [10, 4, 1, 1, 0, 0],
    [14, 2, 2, 1, 0, 0],
    [16, 3, 1, 0, 0, 0],
];

/// One flag, at 5, with windows without it at 1, 4 and 8.
const SINGLE: [Six; 5] = [
    [10, 1, 4, 0, 0, 0],
    [1, 2, 1, 0, 0, 0],
    [4, 1, 1, 0, 0, 0],
    [5, 2, 1, 1, 0, 0],
    [8, 2, 1, 0, 0, 0],
];

/// Three flags, at 2, 4 and 7; the windows at 2 and 4 touch.
const THREE: [Six; 5] = [
    [10, 1, 4, 0, 0, 0],
    [0, 1, 1, 0, 0, 0],
    [2, 2, 1, 1, 0, 0],
    [4, 2, 1, 1, 0, 0],
    [7, 1, 1, 1, 0, 0],
];

/// How process 2 comes to take the start rule, with the delay if it has one.
#[derive(Clone, Copy, Debug)]
enum By {
    Start,
    DelayedStart(i64),
    Normal(i64),
}

impl By {
    fn delay(self) -> i64 {
        match self {
            By::Start => 0,
            By::DelayedStart(delay) | By::Normal(delay) => delay,
        }
    }
}

/// Delays of nothing, of one tick, over further windows and over frames.
const WAYS: [By; 9] = [
    By::Start,
    By::DelayedStart(0),
    By::DelayedStart(1),
    By::DelayedStart(9),
    By::DelayedStart(59),
    By::Normal(0),
    By::Normal(1),
    By::Normal(9),
    By::Normal(59),
];

fn tick_to(world: &mut World, t: i64) {
    while world.module.t() < t {
        world.tick();
    }
}

/// Process 2 of partition 1, of period 60, takes the start rule at t. Process
/// 1 is there to call.
fn started(table: &[Six], t: i64, by: By, capacity: i64) -> World {
    let mut world = World::new(table);
    while world.module.current() != 1 {
        world.tick();
    }
    world.started(1);
    world.create(9, 60, capacity);
    match by {
        By::Normal(0) => world.done(3, &[2]),
        By::Normal(delay) => world.done(4, &[2, delay]),
        By::Start | By::DelayedStart(_) => world.normal(),
    }
    tick_to(&mut world, t);
    match by {
        By::Start => world.done(3, &[2]),
        By::DelayedStart(delay) => world.done(4, &[2, delay]),
        By::Normal(_) => world.normal(),
    }
    world
}

fn times(process: &Process) -> [Option<i64>; 3] {
    [process.release, process.wake, process.deadline]
}

/// Started at each t, in every way, process 2 is released at the start beside
/// it plus the delay; its deadline counts from there.
fn check(table: &[Six], expected: &[(i64, i64)]) {
    for &(t, start) in expected {
        for by in WAYS {
            let world = started(table, t, by, 7);
            let release = start + by.delay();
            let process = world.process(2);
            let expected = [Some(release), Some(release), Some(release + 7)];
            assert_eq!(times(process), expected, "t {t} {by:?}");
            assert_eq!(process.wait, Wait::Period);
            let world = started(table, t, by, -1);
            let expected = [Some(release), Some(release), None];
            assert_eq!(times(world.process(2)), expected, "t {t} {by:?}");
        }
    }
}

#[test]
fn before_a_flagged_window_of_the_same_frame_the_release_is_its_start() {
    check(&DRIVE, &[(1, 10), (2, 10), (21, 30), (42, 50)]);
    check(&SINGLE, &[(1, 5), (2, 5), (11, 15)]);
    check(
        &THREE,
        &[(0, 2), (3, 4), (5, 7), (10, 12), (13, 14), (15, 17)],
    );
}

#[test]
fn at_a_flagged_start_the_release_is_the_next_one() {
    check(&DRIVE, &[(0, 10), (20, 30)]);
    check(&THREE, &[(2, 4), (4, 7), (12, 14), (14, 17)]);
}

#[test]
fn at_the_last_flagged_start_of_a_frame_or_past_it_the_release_is_in_the_next() {
    check(&DRIVE, &[(10, 20), (11, 20), (13, 20), (30, 40)]);
    check(&THREE, &[(7, 12), (17, 22)]);
}

#[test]
fn with_a_single_flagged_window_its_start_or_later_gives_the_next_frame() {
    check(&SINGLE, &[(5, 15), (6, 15), (9, 15), (15, 25), (19, 25)]);
    check(&ONE, &[(0, 10), (1, 10), (9, 10), (10, 20)]);
}

#[test]
fn windows_without_the_flag_are_passed_over() {
    // The window at 4 from 2 on; those at 8, 11 and 14 from 6 on.
    check(&SINGLE, &[(2, 5), (4, 5), (6, 15), (8, 15)]);
    // The window at 5, from its own start on too; the one at 16 likewise.
    check(&DRIVE, &[(1, 10), (5, 10), (6, 10), (25, 30)]);
    check(&DRIVE, &[(11, 20), (16, 20), (17, 20), (18, 20), (36, 40)]);
}

#[test]
fn flagged_windows_of_other_partitions_are_passed_over() {
    // 3 and 7 are of partition 2, and so is 14.
    check(&DRIVE, &[(2, 10), (6, 10), (13, 20)]);
    // Partition 2 has its own: process 1 of it starts at 4, in its window at 3.
    let mut world = World::new(&DRIVE);
    world.ticks(4);
    assert_eq!(world.outcome([2, 2, 1, 5, 20, 6]), [0, 1, 0]);
    assert_eq!(world.outcome([2, 4, 1, 2, 0, 0]), [0, 0, 0]);
    assert_eq!(world.outcome([2, 1, 3, 0, 0, 0]), [0, 0, 0]);
    let process = world.module.partition(2).process(1);
    assert_eq!(times(process), [Some(9), Some(9), Some(15)]);
}

#[test]
fn a_frame_of_one_tick_releases_at_the_next_tick() {
    let table = [[1, 1, 1, 0, 0, 0], [0, 1, 1, 1, 0, 0]];
    check(&table, &[(0, 1), (1, 2), (7, 8)]);
}

#[test]
fn a_process_started_in_the_first_flagged_window_runs_in_the_second() {
    for by in [By::Start, By::DelayedStart(0), By::Normal(0)] {
        let mut world = started(&DRIVE, 1, by, 7);
        tick_to(&mut world, 6);
        assert_eq!((world.module.current(), world.running()), (1, 1));
        tick_to(&mut world, 9);
        assert_eq!(world.arrival(), [1]);
        assert_eq!(world.tick(), [0, 0, 0, 10, 1, 2]);
        let process = world.process(2);
        assert_eq!(times(process), [Some(10), None, Some(17)]);
        assert_eq!((process.wait, process.wake_code), (Wait::None, 0));
        world.ticks(7);
        assert!(world.process(2).missed);
    }
}

#[test]
fn entering_normal_takes_each_process_with_its_own_delay() {
    let mut world = World::new(&DRIVE);
    for capacity in [-1, 20, 3] {
        world.create(5, 20, capacity);
    }
    world.done(3, &[1]);
    world.done(4, &[2, 6]);
    world.done(4, &[3, 19]);
    world.ticks(5);
    world.normal();
    assert_eq!(times(world.process(1)), [Some(10), Some(10), None]);
    assert_eq!(times(world.process(2)), [Some(16), Some(16), Some(36)]);
    assert_eq!(times(world.process(3)), [Some(29), Some(29), Some(32)]);
    let delays = [1, 2, 3].map(|id| world.process(id).delay);
    assert_eq!(delays, [0, 6, 19]);
}

#[test]
fn periodic_wait_after_a_release_inside_a_frame_adds_the_period() {
    for by in [By::Start, By::DelayedStart(0), By::Normal(0)] {
        let mut world = started(&DRIVE, 2, by, 7);
        tick_to(&mut world, 11);
        assert_eq!(world.event([1, 10, 0, 0, 0, 0]), [7, 0, 0, 11, 1, 1]);
        // Not 20, the next start with the flag.
        assert_eq!(times(world.process(2)), [Some(70), Some(70), Some(77)]);
        tick_to(&mut world, 69);
        assert_eq!(world.tick(), [0, 0, 0, 70, 1, 2]);
    }
}

#[test]
fn a_stopped_process_is_released_anew() {
    let mut world = started(&DRIVE, 1, By::Start, 7);
    world.done(5, &[2]);
    assert_eq!(times(world.process(2)), [None, None, None]);
    tick_to(&mut world, 12);
    world.done(4, &[2, 3]);
    assert_eq!(times(world.process(2)), [Some(23), Some(23), Some(30)]);
}

#[test]
fn an_aperiodic_process_waits_for_no_window() {
    let mut world = World::new(&DRIVE);
    world.started(1);
    world.create(9, -1, 7);
    world.create(9, -1, 7);
    world.normal();
    world.tick();
    world.done(4, &[2, 3]);
    assert_eq!(times(world.process(2)), [None, Some(4), Some(11)]);
    world.done(3, &[3]);
    assert_eq!(times(world.process(3)), [None, None, Some(8)]);
    assert_eq!(world.running(), 3);
}

#[test]
fn the_last_release_of_all_time_is_at_its_last_tick() {
    // Time ends at 9 of a frame, where the second flagged window starts.
    let table = [[10, 1, 2, 0, 0, 0], [3, 6, 1, 1, 0, 0], [9, 1, 1, 1, 0, 0]];
    let mut world = World::new(&table);
    world.ticks(3);
    world.started(1);
    for _ in 0..2 {
        world.create(9, 10, 4);
    }
    world.normal();
    while world.module.t() < 99_999_998 {
        world.module.step(&Event::TICK);
    }
    world.done(3, &[2]);
    let last = Some(99_999_999);
    assert_eq!(times(world.process(2)), [last, last, Some(100_000_003)]);
    assert_eq!(world.tick(), [0, 0, 0, 99_999_999, 1, 2]);
    // At that start the next one is 3 of a frame that never comes.
    world.done(4, &[3, 5]);
    let never = Some(100_000_008);
    assert_eq!(times(world.process(3)), [never, never, Some(100_000_012)]);
    world.waits(10, &[]);
    let later = Some(100_000_009);
    assert_eq!(times(world.process(2)), [later, later, Some(100_000_013)]);
    assert_eq!(world.tick(), [10, 0, 0, 99_999_999, 1, 1]);
}

/// The first tick after t at which a window with flag 1 of the partition
/// starts, found tick by tick.
fn next_flagged(module: &Module, partition: usize) -> i64 {
    let starts = |t: i64| {
        module.windows().iter().any(|window| {
            window.partition == partition && window.flag && window.start == t % module.frame()
        })
    };
    (module.t() + 1..).find(|&t| starts(t)).expect("a start")
}

/// Counts the processes that an event gave a release by the start rule, each
/// as it has to be.
fn check_releases(before: &Module, event: &Event, after: &Module) -> usize {
    let own = event.partition as usize;
    let (old, new) = (before.partition(own), after.partition(own));
    let pairs = old.processes.iter().zip(&new.processes);
    let mut released = 0;
    for (process, later) in
        pairs.filter(|(old, new)| old.release.is_none() && new.release.is_some())
    {
        let delay = match event.call {
            1 => process.delay,
            3 => 0,
            4 => event.fields[1],
            call => panic!("a release by call {call}"),
        };
        let release = next_flagged(before, own) + delay;
        assert_eq!(later.release, Some(release));
        assert_eq!(later.wake, Some(release));
        assert_eq!(later.deadline, later.capacity.map(|it| release + it));
        released += 1;
    }
    released
}

/// How many releases so many made-up events gave.
fn releases_of(mut events: Events, count: usize) -> usize {
    let mut released = 0;
    for _ in 0..count {
        let before = events.module.clone();
        let (event, answer) = events.next_event();
        if answer.code == 0 && event.call != 0 {
            released += check_releases(&before, &event, &events.module);
        }
    }
    released
}

#[test]
fn every_release_of_made_up_events_is_the_next_flagged_start_plus_the_delay() {
    let mut released = 0;
    for seed in 0..100 {
        released += releases_of(Events::with_table(seed).1, 500);
        released += releases_of(Events::of_starts(seed).1, 500);
    }
    assert!(released > 2_000, "{released}");
}

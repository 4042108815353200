//! The window lookup with the ticks left, and call 34 (document 02, f).

mod common;

use common::{every_table, line, World, CHANNELS, END, ONE, SHAPES, TWO};
use separate::events::Events;
use separate::record::Mode;
use separate::rng::Rng;
use separate::{tables, Event, Module, Six};

fn module(table: &[Six]) -> Module {
    tables::module(table).expect("an accepted table")
}

// The lookup

/// For each tick of a frame the number of the window that owns it, 0 if none.
fn owners(module: &Module) -> Vec<usize> {
    let mut owners = vec![0; module.frame() as usize];
    for (window, n) in module.windows().iter().zip(1..) {
        owners[window.start as usize..][..window.duration as usize].fill(n);
    }
    owners
}

/// The lookup found tick by tick: ticks are counted while the owner stays the
/// same window and that window does not start anew.
fn counted(module: &Module, t: i64) -> (usize, i64) {
    let owners = owners(module);
    let place = |t: i64| (t % module.frame()) as usize;
    let here = owners[place(t)];
    let window = here.checked_sub(1).map(|at| &module.windows()[at]);
    let starts = |t: i64| window.is_some_and(|it| it.start as usize == place(t));
    let mut ticks = 1;
    while owners[place(t + ticks)] == here && !starts(t + ticks) {
        ticks += 1;
    }
    (window.map_or(0, |it| it.partition), ticks)
}

/// What holds of the lookup at any t.
fn check_laws(module: &Module, t: i64) {
    let (partition, left) = module.window_lookup(t);
    assert!((1..=module.frame()).contains(&left), "t {t} {module:?}");
    for j in 0..left {
        let later = module.window_lookup(t + j);
        assert_eq!(later, (partition, left - j), "t {t} j {j} {module:?}");
    }
    let place = (t + left) % module.frame();
    let windows = module.windows().iter();
    let starts = windows.clone().any(|window| window.start == place);
    let covered = windows
        .clone()
        .any(|window| (window.start..window.end()).contains(&place));
    assert!(starts || !covered, "t {t} {module:?}");
    // After a gap a window starts.
    assert!(starts || partition != 0, "t {t} {module:?}");
}

#[test]
fn on_every_small_table_the_lookup_is_the_one_counted_tick_by_tick() {
    let mut tables = 0;
    for frame in 1..=6 {
        every_table(frame, |module| {
            tables += 1;
            for t in 0..2 * frame {
                assert_eq!(module.window_lookup(t), counted(module, t), "{module:?}");
            }
        });
    }
    assert!(tables > 10_000, "{tables}");
}

#[test]
fn on_every_small_table_the_laws_of_the_lookup_hold() {
    for frame in 1..=6 {
        every_table(frame, |module| {
            for t in 0..2 * frame {
                check_laws(module, t);
            }
        });
    }
}

#[test]
fn on_every_small_table_flags_do_not_count() {
    for frame in 1..=5 {
        every_table(frame, |some_flagged| {
            let partitions = some_flagged.partitions().len() as i64;
            let windows = some_flagged.windows().len() as i64;
            let mut table = vec![[frame, partitions, windows, 0, 0, 0]];
            for window in some_flagged.windows() {
                let partition = window.partition as i64;
                table.push([window.start, window.duration, partition, 1, 0, 0]);
            }
            let all_flagged = module(&table);
            for t in 0..frame {
                assert_eq!(all_flagged.window_lookup(t), some_flagged.window_lookup(t));
            }
        });
    }
}

#[test]
fn on_made_up_tables_up_to_the_greatest_frame_the_lookup_holds_at_any_time() {
    for seed in 0..200 {
        let mut rng = Rng::new(seed);
        let table = match seed % 2 {
            0 => tables::accepted(&mut rng),
            _ => tables::windows_and_gaps(&mut rng),
        };
        let module = module(&table);
        let frame = module.frame();
        let edges = module.windows().iter();
        let mut times: Vec<i64> = edges
            .flat_map(|window| [window.start, window.end() - 1, window.end()])
            .collect();
        times.extend([0, frame - 1, frame, 9_999_999, END - frame, END - 1, END]);
        times.extend([rng.range(0, END), rng.range(0, 3 * frame)]);
        for t in times {
            let found = module.window_lookup(t);
            assert_eq!(found, counted(&module, t), "seed {seed} t {t}");
            assert_eq!(found, module.window_lookup(t % frame));
            assert!((1..=frame).contains(&found.1));
        }
        check_laws(&module, rng.range(0, END));
    }
}

#[test]
fn gaps_and_adjacent_windows_tick_by_tick() {
    let module = module(&SHAPES);
    let expected = [
        (0, 2),
        (0, 1),
        // Two windows of partition 1, then one of partition 2.
        (1, 3),
        (1, 2),
        (1, 1),
        (1, 1),
        (2, 3),
        (2, 2),
        (2, 1),
        (0, 2),
        (0, 1),
        (2, 3),
        (2, 2),
        (2, 1),
        (1, 2),
        (1, 1),
        // Into the next frame, up to its tick 2.
        (0, 6),
        (0, 5),
        (0, 4),
        (0, 3),
    ];
    for frame in [0, 1, 2, 4_999_999] {
        for (t, pair) in (20 * frame..).zip(expected) {
            assert_eq!(module.window_lookup(t), pair, "t {t}");
        }
    }
}

#[test]
fn a_gap_at_the_frames_end_counts_into_the_next_frame() {
    // The only window starts at 3: 1 tick of it, then 9 of the gap.
    let single = module(&[[10, 1, 1, 0, 0, 0], [3, 1, 1, 1, 0, 0]]);
    assert_eq!(single.window_lookup(3), (1, 1));
    for (t, left) in (4..13).zip((1..=9).rev()) {
        assert_eq!(single.window_lookup(t), (0, left), "t {t}");
    }
    // The next frame begins with a window.
    let first = module(&[[10, 1, 1, 0, 0, 0], [0, 4, 1, 1, 0, 0]]);
    assert_eq!(first.window_lookup(4), (0, 6));
    assert_eq!(first.window_lookup(9), (0, 1));
    assert_eq!(first.window_lookup(END), (0, 1));
}

#[test]
fn the_next_start_is_of_any_window_of_any_partition() {
    // Partition 2 follows without the flag, partition 1 after it.
    let table = [
        [10, 2, 3, 0, 0, 0],
        [4, 2, 2, 0, 0, 0],
        [6, 1, 1, 1, 0, 0],
        [8, 1, 2, 1, 0, 0],
    ];
    let module = module(&table);
    assert_eq!(module.window_lookup(0), (0, 4));
    assert_eq!(module.window_lookup(7), (0, 1));
    assert_eq!(module.window_lookup(9), (0, 5));
}

#[test]
fn a_window_that_fills_the_frame_ends_with_it() {
    for frame in [1, 2, 7, 10_000] {
        let module = module(&[[frame, 1, 1, 0, 0, 0], [0, frame, 1, 1, 0, 0]]);
        for t in (0..2 * frame).chain([9_999_999, END]) {
            assert_eq!(module.window_lookup(t), (1, frame - t % frame));
        }
    }
}

#[test]
fn the_longest_gap_lasts_9_999_ticks() {
    for start in [0, 1, 5_000, 9_999] {
        let module = module(&[[10_000, 1, 1, 0, 0, 0], [start, 1, 1, 1, 0, 0]]);
        assert_eq!(module.window_lookup(start), (1, 1));
        assert_eq!(module.window_lookup(start + 1), (0, 9_999));
        assert_eq!(module.window_lookup(start + 9_999), (0, 1));
        assert_eq!(module.window_lookup(start + 10_000), (1, 1));
    }
}

#[test]
fn the_empty_record_gives_partition_0_and_0_ticks() {
    let mut empty = Module::empty();
    for t in [0, 1, 9_999_999, END] {
        assert_eq!(empty.window_lookup(t), (0, 0));
    }
    assert_eq!((empty.current(), empty.ticks_left()), (0, 0));
    for partition in [0, 1] {
        let event = Event::from_six(line(partition, 34, &[]));
        assert_eq!(empty.step(&event).six(), [13, 0, 0, 0, 0, 0]);
    }
    assert!(empty == Module::empty());
}

#[test]
fn every_step_has_the_pair_of_its_time() {
    for table in [&SHAPES[..], &CHANNELS[..], &TWO[..], &ONE[..]] {
        let mut world = World::new(table);
        for t in 0..50 {
            let module = &world.module;
            let pair = (module.current(), module.ticks_left());
            assert_eq!(pair, counted(module, t));
            assert_eq!(world.tick()[0], 0);
        }
    }
}

// 34 GET_TICKS_LEFT

/// A call of partition 1 that gives the ticks left and leaves the record.
fn left(world: &mut World) -> i64 {
    let before = world.module.clone();
    let [code, value, extra] = world.call(34, &[]);
    assert_eq!((code, extra), (0, 0));
    assert!(world.module == before, "the record changed");
    value
}

#[test]
fn places_13_8_and_9_come_before_it() {
    let mut world = World::new(&TWO);
    for field in 0..4 {
        for value in [1, -1, 999_999_999, i64::MIN, i64::MAX] {
            for partition in [0, 1, 2] {
                let mut event = line(partition, 34, &[]);
                event[2 + field] = value;
                world.refused_event(13, event);
            }
        }
    }
    for partition in [0, -1, 3] {
        world.refused_event(13, line(partition, 34, &[]));
    }
    world.refused_event(8, line(2, 34, &[]));
    world.create(5, -1, -1);
    world.normal();
    // NORMAL and nothing runs.
    world.refused(9, 34, &[]);
    world.refused(13, 34, &[1]);
    world.ticks(6);
    world.refused_event(8, line(1, 34, &[]));
    assert_eq!(world.event([2, 34, 0, 0, 0, 0]), [0, 4, 0, 6, 2, 0]);
    assert_eq!(world.code([2, 1, 0, 0, 0, 0]), 0);
    // IDLE.
    world.refused_event(9, line(2, 34, &[]));
    world.refused_event(13, line(2, 34, &[0, 0, 0, 1]));
    world.ticks(4);
    world.refused_event(8, line(2, 34, &[]));
}

#[test]
fn in_a_gap_every_partition_gets_8() {
    let mut world = World::new(&SHAPES);
    for _ in 0..2 {
        world.refused_event(8, line(1, 34, &[]));
        world.refused_event(8, line(2, 34, &[]));
        world.refused_event(13, line(1, 34, &[1]));
        world.tick();
    }
    assert_eq!(left(&mut world), 3);
}

#[test]
fn the_last_call_is_34_and_35_is_none() {
    let mut world = World::one();
    assert_eq!(world.call(34, &[]), [0, 10, 0]);
    world.refused(13, 35, &[]);
}

/// Partition 1 of the table in each mode in which it can ask, with the process
/// that its answers show.
fn askers(table: &[Six]) -> [(World, i64); 3] {
    let cold = || {
        let mut world = World::new(table);
        while world.module.current() != 1 {
            world.tick();
        }
        world.started(5);
        world.started(7);
        world
    };
    let normal = || {
        let mut world = cold();
        world.normal();
        world
    };
    let mut warm = normal();
    warm.done(1, &[2]);
    [(cold(), 0), (warm, 0), (normal(), 2)]
}

#[test]
fn at_every_tick_of_its_windows_it_gives_the_ticks_left_in_every_mode() {
    for table in [&SHAPES[..], &CHANNELS[..], &TWO[..], &ONE[..]] {
        let modes = [Mode::ColdStart, Mode::WarmStart, Mode::Normal];
        for ((mut world, running), mode) in askers(table).into_iter().zip(modes) {
            assert_eq!(world.partition().mode, mode);
            for _ in 0..3 * table[0][0] {
                let t = world.module.t();
                let (partition, expected) = counted(&world.module, t);
                let answer = world.event([1, 34, 0, 0, 0, 0]);
                let current = partition as i64;
                if partition == 1 {
                    assert_eq!(answer, [0, expected, 0, t, 1, running]);
                    assert_eq!(left(&mut world), expected);
                } else {
                    assert_eq!(answer, [8, 0, 0, t, current, 0]);
                }
                world.tick();
            }
        }
    }
}

#[test]
fn each_partition_gets_the_ticks_of_its_own_window() {
    let mut world = World::new(&CHANNELS);
    let expected = [4, 3, 2, 1, 3, 2, 1, 1];
    for (t, value) in (0..).zip(expected) {
        for partition in 1..=3 {
            let current = world.module.current() as i64;
            let answer = match partition == current {
                true => [0, value, 0, t, current, 0],
                false => [8, 0, 0, t, current, 0],
            };
            assert_eq!(world.event([partition, 34, 0, 0, 0, 0]), answer);
        }
        world.tick();
    }
}

#[test]
fn an_adjacent_window_of_the_same_partition_is_not_joined() {
    let mut world = World::new(&SHAPES);
    world.ticks(2);
    world.started(5);
    world.normal();
    let mut values = Vec::new();
    for _ in 2..6 {
        values.push(left(&mut world));
        world.tick();
    }
    assert_eq!(values, [3, 2, 1, 1]);
    // Nor over the frame's end.
    let table = [[6, 1, 2, 0, 0, 0], [0, 2, 1, 1, 0, 0], [4, 2, 1, 0, 0, 0]];
    let mut world = World::new(&table);
    world.ticks(4);
    for (t, value) in (4..).zip([2, 1, 2, 1]) {
        assert_eq!(world.event([1, 34, 0, 0, 0, 0]), [0, value, 0, t, 1, 0]);
        world.tick();
    }
}

#[test]
fn a_lock_waits_and_mode_changes_leave_the_ticks_left() {
    let mut world = World::new(&TWO);
    world.started(5);
    world.started(9);
    assert_eq!(left(&mut world), 6);
    world.normal();
    assert_eq!(left(&mut world), 6);
    world.tick();
    world.waits(9, &[3]);
    assert_eq!(left(&mut world), 5);
    world.done(32, &[]);
    world.ticks(3);
    assert_eq!((left(&mut world), world.running()), (2, 1));
    world.done(33, &[]);
    assert_eq!((left(&mut world), world.running()), (2, 2));
    for mode in [2, 1] {
        world.done(1, &[mode]);
        assert_eq!(left(&mut world), 2);
    }
}

#[test]
fn the_status_of_the_running_process_stays_2_with_its_deadline() {
    let mut world = World::new(&TWO);
    let id = world.create(5, -1, 3);
    world.done(3, &[id]);
    world.started(4);
    world.normal();
    for (t, deadline) in [(0, 3), (1, 3), (2, 3), (3, -1), (4, -1)] {
        let status = [0, 2, deadline, t, 1, 1];
        assert_eq!(world.event([1, 13, 1, 0, 0, 0]), status);
        assert_eq!(left(&mut world), 6 - t);
        assert_eq!(world.event([1, 13, 1, 0, 0, 0]), status);
        assert_eq!(world.call(13, &[2]), [0, 1, -1]);
        world.tick();
    }
}

#[test]
fn at_the_end_of_time_it_gives_the_ticks_until_the_window_would_end() {
    // 99,999,999 is tick 1 of a frame of 7.
    let mut world = World::new(&[[7, 1, 1, 0, 0, 0], [0, 7, 1, 1, 0, 0]]);
    world.started(5);
    world.normal();
    while world.module.t() < END - 1 {
        world.module.step(&Event::TICK);
    }
    assert_eq!(world.event([1, 34, 0, 0, 0, 0]), [0, 7, 0, END - 1, 1, 1]);
    assert_eq!(world.tick(), [0, 0, 0, END, 1, 1]);
    for _ in 0..2 {
        assert_eq!(world.event([1, 34, 0, 0, 0, 0]), [0, 6, 0, END, 1, 1]);
        assert_eq!(world.tick(), [10, 0, 0, END, 1, 1]);
    }
}

/// How often made-up events got the ticks left, each as counted.
fn check_values(mut events: Events, count: usize) -> usize {
    let mut given = 0;
    for _ in 0..count {
        let before = events.module.clone();
        let (event, answer) = events.next_event();
        let module = &events.module;
        let pair = (module.current(), module.ticks_left());
        assert_eq!(pair, module.window_lookup(module.t()));
        if event.call == 34 {
            assert!(*module == before, "{event:?} changed the record");
            assert!([0, 8, 9, 13].contains(&answer.code), "{event:?}");
            if answer.code == 0 {
                let (partition, left) = counted(module, module.t());
                assert_eq!((answer.value, answer.extra), (left, 0));
                assert_eq!(partition as i64, event.partition);
                given += 1;
            }
        }
    }
    given
}

#[test]
fn every_value_of_made_up_events_is_the_one_counted_tick_by_tick() {
    let (mut given, mut mostly) = (0, 0);
    for seed in 0..100 {
        given += check_values(Events::with_table(seed).1, 500);
        mostly += check_values(Events::of_ticks_left(seed).1, 500);
    }
    assert!(given > 200 && mostly > 5_000, "{given} {mostly}");
}

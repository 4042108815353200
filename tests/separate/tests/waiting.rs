//! The waiting time, asked outside events (document 02, g).

mod common;

use common::{every_table, searched, CHANNELS, END, ONE, SHAPES, TWO};
use separate::events::Events;
use separate::rng::Rng;
use separate::waiting::Waiting;
use separate::{tables, Event, Module, Six};
use std::ops::{Range, RangeInclusive};

const REFUSED: Waiting = Waiting { code: 13, n: 0 };

fn module(table: &[Six]) -> Module {
    tables::module(table).expect("an accepted table")
}

/// The partitions of a module, by number.
fn partitions(module: &Module) -> RangeInclusive<i64> {
    1..=module.partitions().len() as i64
}

/// The n of a question that gets one.
fn given(module: &Module, t: i64, partition: i64) -> i64 {
    let waiting = module.waiting_time(t, partition);
    assert_eq!(waiting.code, 0, "t {t} partition {partition} {module:?}");
    waiting.n
}

/// The answer is the first n, from 1 on, that is a start.
fn check(module: &Module, t: i64, partition: i64) {
    let n = given(module, t, partition);
    let least = searched(module, t, partition);
    assert_eq!(n, least, "t {t} partition {partition} {module:?}");
    assert!((1..=module.frame()).contains(&n));
}

/// A made-up table, of small and large frames.
fn made_up(rng: &mut Rng) -> Module {
    let table = match rng.below(3) {
        0 => tables::accepted(rng),
        1 => tables::windows_and_gaps(rng),
        _ => tables::near_and_far_starts(rng),
    };
    module(&table)
}

/// Times around every start and every end of a window in frame 0 and in the
/// last whole frame, around the ends of the frame and of time, and some others.
fn times(rng: &mut Rng, module: &Module) -> Vec<i64> {
    let frame = module.frame();
    let windows = module.windows().iter();
    let mut edges: Vec<i64> = windows
        .flat_map(|window| [window.start, window.end()])
        .collect();
    edges.extend([0, frame, rng.range(0, 3 * frame)]);
    let last_frame = END / frame * frame - frame;
    let mut times: Vec<i64> = edges
        .iter()
        .flat_map(|edge| [edge - 1, *edge, edge + 1])
        .flat_map(|t| [t, last_frame + t])
        .filter(|t| (0..=END).contains(t))
        .collect();
    times.extend([END - 1, END, rng.range(0, END)]);
    times
}

// The least n

#[test]
fn on_fixed_tables_it_is_the_first_n_that_is_a_start() {
    for table in [&ONE[..], &TWO[..], &CHANNELS[..], &SHAPES[..]] {
        let module = module(table);
        for partition in partitions(&module) {
            for t in (0..3 * module.frame()).chain(END - 2 * module.frame()..=END) {
                check(&module, t, partition);
            }
        }
    }
}

#[test]
fn on_every_small_table_it_is_the_first_n_that_is_a_start() {
    let mut tables = 0;
    for frame in 1..=6 {
        every_table(frame, |module| {
            tables += 1;
            for partition in partitions(module) {
                for t in 0..2 * frame {
                    check(module, t, partition);
                }
            }
        });
    }
    assert!(tables > 10_000, "{tables}");
}

#[test]
fn on_made_up_tables_up_to_the_greatest_frame_it_is_the_first_n_that_is_a_start() {
    let mut greatest = 0;
    for seed in 0..150 {
        let mut rng = Rng::new(seed);
        let module = made_up(&mut rng);
        greatest = greatest.max(module.frame());
        for t in times(&mut rng, &module) {
            check(&module, t, rng.range(1, *partitions(&module).end()));
        }
    }
    assert_eq!(greatest, 10_000);
}

#[test]
fn tick_by_tick() {
    let module = module(&SHAPES);
    // Partition 1 starts at 2, 5 and 14, partition 2 at 6 and 11.
    let of_1 = [2, 1, 3, 2, 1, 9, 8, 7, 6, 5, 4, 3, 2, 1, 8, 7, 6, 5, 4, 3];
    let of_2 = [
        6, 5, 4, 3, 2, 1, 5, 4, 3, 2, 1, 15, 14, 13, 12, 11, 10, 9, 8, 7,
    ];
    for frame in [0, 1, 2, 4_999_999] {
        for (t, (n1, n2)) in (20 * frame..).zip(of_1.into_iter().zip(of_2)) {
            assert_eq!(given(&module, t, 1), n1, "t {t}");
            assert_eq!(given(&module, t, 2), n2, "t {t}");
        }
    }
}

#[test]
fn the_start_at_t_itself_does_not_count() {
    let module = module(&TWO);
    assert_eq!(given(&module, 0, 1), 10);
    assert_eq!(given(&module, 16, 2), 10);
    assert_eq!(given(&module, 15, 2), 1);
    assert_eq!(given(&module, 17, 2), 9);
}

#[test]
fn it_is_m_just_where_the_only_start_is_at_t() {
    for frame in 1..=5 {
        every_table(frame, |module| {
            for partition in partitions(module) {
                let windows = module.windows().iter();
                let own = windows.filter(|window| window.partition as i64 == partition);
                let starts: Vec<i64> = own.map(|window| window.start).collect();
                for t in 0..2 * frame {
                    let n = given(module, t, partition);
                    assert_eq!(n == frame, starts == [t % frame], "t {t} {module:?}");
                }
            }
        });
    }
}

#[test]
fn in_a_frame_of_1_it_is_always_1() {
    let module = module(&[[1, 1, 1, 0, 0, 0], [0, 1, 1, 1, 0, 0]]);
    for t in [0, 1, 2, 9_999_999, END - 1, END] {
        assert_eq!(given(&module, t, 1), 1);
    }
}

#[test]
fn in_the_greatest_frame_it_goes_up_to_10_000() {
    for start in [0, 1, 5_000, 9_999] {
        let module = module(&[[10_000, 1, 1, 0, 0, 0], [start, 1, 1, 1, 0, 0]]);
        assert_eq!(given(&module, start, 1), 10_000);
        assert_eq!(given(&module, start + 1, 1), 9_999);
        assert_eq!(given(&module, start + 9_999, 1), 1);
        assert_eq!(given(&module, start + 10_000, 1), 10_000);
    }
}

#[test]
fn a_window_without_flag_1_counts() {
    let module = module(&[[10, 1, 2, 0, 0, 0], [2, 1, 1, 0, 0, 0], [6, 1, 1, 1, 0, 0]]);
    assert_eq!(given(&module, 0, 1), 2);
    assert_eq!(given(&module, 2, 1), 4);
    assert_eq!(given(&module, 6, 1), 6);
}

#[test]
fn on_every_small_table_flags_do_not_count() {
    for frame in 1..=5 {
        every_table(frame, |some_flagged| {
            let count = some_flagged.partitions().len() as i64;
            let windows = some_flagged.windows().len() as i64;
            let mut table = vec![[frame, count, windows, 0, 0, 0]];
            for window in some_flagged.windows() {
                let partition = window.partition as i64;
                table.push([window.start, window.duration, partition, 1, 0, 0]);
            }
            let all_flagged = module(&table);
            for (t, partition) in (0..frame).flat_map(|t| [(t, 1), (t, 2)]) {
                let expected = some_flagged.waiting_time(t, partition);
                assert_eq!(all_flagged.waiting_time(t, partition), expected);
            }
        });
    }
}

#[test]
fn a_start_past_the_last_time_counts() {
    // 99,999,999 is tick 1 of a frame of 7; partition 1 starts at 0, 2 at 3.
    let module = module(&[[7, 2, 2, 0, 0, 0], [0, 2, 1, 1, 0, 0], [3, 4, 2, 1, 0, 0]]);
    assert_eq!(given(&module, END, 1), 6);
    assert_eq!(given(&module, END, 2), 2);
    assert_eq!(given(&module, END - 1, 1), 7);
    assert_eq!(given(&module, END - 2, 1), 1);
}

#[test]
fn in_a_gap_the_ticks_left_are_the_least_waiting_time() {
    for frame in 1..=5 {
        every_table(frame, |module| {
            for t in 0..2 * frame {
                let (current, left) = module.window_lookup(t);
                let least = partitions(module).map(|own| given(module, t, own)).min();
                if current == 0 {
                    assert_eq!(Some(left), least, "t {t} {module:?}");
                }
            }
        });
    }
}

// Refusals

#[test]
fn time_or_partition_out_of_range_is_13_with_n_0() {
    let module = module(&TWO);
    let far = [
        i64::MIN,
        i64::MIN + 1,
        -1_000_000_000,
        1_000_000_000,
        i64::MAX,
    ];
    let times = [-2, -1, 0, 1, END - 1, END, END + 1, END + 2, 999_999_999];
    let numbers = [-2, -1, 0, 1, 2, 3, 4, 8, 9, END, 999_999_999];
    for t in times.into_iter().chain(far) {
        for partition in numbers.into_iter().chain(far) {
            let waiting = module.waiting_time(t, partition);
            if (0..=END).contains(&t) && [1, 2].contains(&partition) {
                assert_eq!(waiting.n, searched(&module, t, partition));
                assert_eq!(waiting.code, 0);
            } else {
                assert_eq!(waiting, REFUSED, "t {t} partition {partition}");
            }
        }
    }
}

#[test]
fn the_partitions_that_may_be_asked_for_are_1_to_p() {
    for count in 1..=8 {
        let mut table = vec![[10, count, count, 0, 0, 0]];
        table.extend((1..=count).map(|partition| [partition, 1, partition, 1, 0, 0]));
        let module = module(&table);
        for partition in 1..=count {
            assert_eq!(given(&module, 0, partition), partition);
        }
        for partition in [-1, 0, count + 1, 9] {
            assert_eq!(module.waiting_time(0, partition), REFUSED);
        }
    }
}

#[test]
fn the_empty_record_has_no_waiting_time() {
    let edges = [i64::MIN, -1, 0, 1, 8, END, END + 1, i64::MAX];
    for t in edges {
        for partition in edges {
            assert_eq!(Module::empty().waiting_time(t, partition), REFUSED);
        }
    }
}

// Beside events

/// Made-up runs on tables of every kind.
fn runs(seeds: Range<u64>) -> impl Iterator<Item = Events> {
    seeds.flat_map(|seed| {
        [
            Events::with_table(seed).1,
            Events::of_starts(seed).1,
            Events::of_ticks_left(seed).1,
        ]
    })
}

#[test]
fn asking_leaves_the_record() {
    for mut events in runs(0..20) {
        for _ in 0..50 {
            events.next_event();
            let before = events.module.clone();
            for (t, partition) in [(0, 1), (7, 2), (END, 1), (-1, 1), (before.t(), 0)] {
                events.module.waiting_time(t, partition);
            }
            assert!(events.module == before);
        }
    }
}

#[test]
fn no_event_changes_the_answer() {
    for (mut events, seed) in runs(0..30).zip(0..) {
        let mut rng = Rng::new(seed);
        let last = *partitions(&events.module).end();
        let near = 2 * events.module.frame();
        let asked: Vec<(i64, i64, Waiting)> = (0..30)
            .map(|_| {
                let t = rng.pick(&[rng.clone().range(-1, near), rng.clone().range(0, END + 1)]);
                let partition = rng.range(0, last + 1);
                (t, partition, events.module.waiting_time(t, partition))
            })
            .collect();
        for n in 0..600 {
            events.next_event();
            let (t, partition, answer) = asked[n % asked.len()];
            assert_eq!(events.module.waiting_time(t, partition), answer);
        }
    }
}

/// What was current at each time of a run, from 0 on, and each partition's
/// waiting time asked then.
struct Passed {
    current: Vec<i64>,
    asked: Vec<Vec<i64>>,
}

/// So many made-up events, every third a tick.
fn passed(mut events: Events, count: usize) -> Passed {
    let (mut current, mut asked): (Vec<i64>, Vec<Vec<i64>>) = (Vec::new(), Vec::new());
    for n in 0..count {
        let module = &mut events.module;
        if module.t() == current.len() as i64 {
            let waits = partitions(module).map(|own| given(module, module.t(), own));
            asked.push(waits.collect());
            current.push(module.current() as i64);
        }
        if n % 3 == 0 {
            module.step(&Event::TICK);
        } else {
            events.next_event();
        }
    }
    Passed { current, asked }
}

#[test]
fn n_ticks_later_the_partition_is_current_and_a_sleeping_one_not_before() {
    let (mut later, mut slept) = (0, 0);
    for events in runs(0..60) {
        let Passed { current, asked } = passed(events, 900);
        for (t, waits) in asked.iter().enumerate() {
            for (&n, own) in waits.iter().zip(1..) {
                let start = t + n as usize;
                if start < current.len() {
                    assert_eq!(current[start], own, "t {t} n {n}");
                    later += 1;
                }
                if current[t] != own {
                    let until = &current[t..start.min(current.len())];
                    assert!(!until.contains(&own), "t {t} n {n}");
                    slept += 1;
                }
            }
        }
    }
    assert!(later > 20_000 && slept > 20_000, "{later} {slept}");
}

#[test]
fn while_ticks_pass_it_counts_down() {
    let mut compared = 0;
    for events in runs(0..60) {
        let Passed { asked, .. } = passed(events, 600);
        for (t, waits) in asked.iter().enumerate() {
            for (&n, own) in waits.iter().zip(0..) {
                let until = (t + n as usize).min(asked.len());
                for (later, j) in asked[t..until].iter().zip(0..) {
                    assert_eq!(later[own], n - j, "t {t} j {j}");
                    compared += 1;
                }
            }
        }
    }
    assert!(compared > 100_000, "{compared}");
}

#[test]
fn asked_j_ticks_later_it_is_j_less() {
    for seed in 0..40 {
        let mut rng = Rng::new(seed);
        let module = made_up(&mut rng);
        for _ in 0..4 {
            let partition = rng.range(1, *partitions(&module).end());
            let times = [0, END - module.frame(), END, rng.clone().range(0, END)];
            let t = rng.pick(&times);
            let n = given(&module, t, partition);
            for j in (0..n).take_while(|j| t + j <= END) {
                assert_eq!(given(&module, t + j, partition), n - j, "t {t} j {j}");
            }
        }
    }
}

//! The generator reaches what it is there to reach.

use separate::calls::WAITING;
use separate::coverage::WAITS;
use separate::coverage::{Coverage, CHANGES, CORNERS, REASONS, RELEASES, SHAPES, STARTS, TABLES};
use separate::coverage::{QuestionCoverage, ASKED, LOCKED, LOCKS, MODES, PLACES, REFUSED, WAITED};
use separate::generate::{generate, Kind};
use separate::line::{self, Line};
use separate::replay::{final_record, read_table, replay, Lines};

fn input(seed: u64, kind: Kind, count: u64) -> Vec<u8> {
    let mut out = Vec::new();
    generate(seed, kind, count, &mut out).expect("a vector takes every byte");
    out
}

fn output(input: &[u8]) -> Vec<u8> {
    let mut out = Vec::new();
    replay(input, &mut out).expect("a vector takes every byte");
    out
}

/// The codes of the answers to an input.
fn codes(input: &[u8]) -> Vec<i64> {
    output(input)
        .chunks_exact(61)
        .map(|bytes| match line::read(bytes) {
            Line::Six(six) => six[0],
            Line::Bad => panic!("an answer that is no line"),
        })
        .collect()
}

#[test]
fn every_pair_of_call_and_code_but_10_is_reached_within_200_seeds() {
    let coverage = Coverage::of_seeds(1, 200, 1000);
    assert_eq!(coverage.missing(), []);
    assert_eq!(coverage.unforeseen(), []);
    let unreached = |names: &[&'static str], counts: &[u64]| -> Vec<&str> {
        names
            .iter()
            .zip(counts)
            .filter(|(_, &count)| count == 0)
            .map(|(name, _)| *name)
            .collect()
    };
    assert_eq!(unreached(&REASONS, &coverage.reasons), Vec::<&str>::new());
    assert_eq!(unreached(&CORNERS, &coverage.corners), Vec::<&str>::new());
    assert_eq!(unreached(&SHAPES, &coverage.shapes), Vec::<&str>::new());
    assert_eq!(unreached(&TABLES, &coverage.tables), Vec::<&str>::new());
}

#[test]
fn every_wait_begins_and_ends_in_every_way_it_can() {
    let coverage = Coverage::of_seeds(1, 200, 1000);
    assert_eq!(coverage.missing_waits(), []);
    assert_eq!(coverage.unforeseen_waits(), []);
    // began, suspended, resumed; by signal, by time, by stop, by NORMAL, by
    // restart, erased; the same six while suspended
    let for_normal = [1, 1, 1, 0, 0, 1, 1, 0, 1, 0, 0, 1, 1, 0, 1];
    let for_a_time = [1, 1, 1, 0, 1, 1, 0, 0, 1, 0, 1, 1, 0, 0, 1];
    let for_release = [1, 0, 0, 0, 1, 1, 0, 0, 1, 0, 0, 0, 0, 0, 0];
    let in_a_queue = [1, 1, 1, 1, 1, 1, 0, 0, 1, 1, 1, 1, 0, 0, 1];
    let to_a_channel = [1, 1, 1, 1, 1, 1, 0, 1, 1, 1, 1, 1, 0, 1, 1];
    let mark_alone = [1, 0, 1, 0, 1, 1, 0, 0, 1, 0, 0, 0, 0, 0, 0];
    let possible = [
        for_normal,
        for_a_time,
        for_a_time,
        for_release,
        in_a_queue,
        in_a_queue,
        in_a_queue,
        in_a_queue,
        in_a_queue,
        to_a_channel,
        in_a_queue,
        mark_alone,
    ];
    for ((wait, counts), possible) in WAITS.iter().zip(coverage.waits).zip(possible) {
        assert_eq!(counts.map(|count| u8::from(count > 0)), possible, "{wait}");
    }
}

#[test]
fn a_run_of_nothing_names_every_wait_as_missing() {
    let missing = Coverage::new().missing_waits();
    // All but by signal where there is no queue, by time for NORMAL, by
    // NORMAL for others, by restart for all but senders to a channel, and the
    // mark of those that cannot be suspended.
    assert_eq!(missing.len(), 91 + 13 + 11);
    assert!(missing.contains(&("sending", "by stop, suspended")));
    assert!(missing.contains(&("blackboard", "erased, suspended")));
    assert!(missing.contains(&("sending channel", "by restart, suspended")));
    assert!(!missing.contains(&("period", "by time, suspended")));
    assert!(!missing.contains(&("receiving channel", "by restart")));
    assert_eq!(CHANGES.len() * WAITS.len(), 180);
}

#[test]
fn every_sort_of_release_is_reached_by_every_way_to_start() {
    let coverage = Coverage::of_seeds(1, 200, 1000);
    assert_eq!(coverage.missing_releases(), []);
    // Where partitions mostly start and stop, each comes up several times.
    let mut coverage = Coverage::of_starts(3301, 3360, 1000);
    for count in coverage.releases.iter_mut().flatten() {
        *count = count.saturating_sub(4);
    }
    assert_eq!(coverage.missing_releases(), []);
}

#[test]
fn a_run_of_nothing_names_every_release_as_missing() {
    let missing = Coverage::new().missing_releases();
    // START has no delay.
    assert_eq!(missing.len(), RELEASES.len() * STARTS.len() - 2);
    let second_window = "more: in this frame, at a later flagged start";
    for start in STARTS {
        assert!(missing.contains(&(start, second_window)));
    }
    assert!(!missing.contains(&("START", "in this frame, with a delay")));
}

#[test]
fn everything_that_can_happen_under_a_lock_is_reached() {
    for coverage in [
        Coverage::of_seeds(1, 200, 1000),
        Coverage::of_locks(3401, 3460, 1000),
    ] {
        assert_eq!(coverage.missing_locks(), []);
        assert_eq!(coverage.unforeseen_locks(), []);
    }
}

#[test]
fn where_partitions_mostly_lock_each_of_it_is_reached_several_times() {
    let mut coverage = Coverage::of_locks(3401, 3460, 1000);
    let of_locks =
        |&(call, _): &(usize, usize)| [32, 33].contains(&call) || WAITING.contains(&(call as i64));
    assert_eq!(coverage.missing().into_iter().find(of_locks), None);
    assert_eq!(coverage.unforeseen(), []);
    assert_eq!(coverage.unforeseen_waits(), []);
    let counts = coverage.locked.iter_mut().flatten();
    for count in counts.chain(&mut coverage.locks) {
        *count = count.saturating_sub(3);
    }
    assert_eq!(coverage.missing_locks(), []);
}

#[test]
fn a_run_of_nothing_names_everything_under_a_lock_as_missing() {
    let missing = Coverage::new().missing_locks();
    // SUSPEND_SELF 4, TIMED_WAIT 3, PERIODIC_WAIT 2, calls for objects 4 each,
    // calls for channels 5 each.
    assert_eq!(missing.len(), 4 + 3 + 2 + 5 * 4 + 2 * 5 + LOCKS.len());
    assert!(missing.contains(&("TIMED_WAIT", "5 by the lock, time 0")));
    assert!(!missing.contains(&("TIMED_WAIT", "0")));
    assert!(missing.contains(&("lock", "level 16")));
    assert!(missing.iter().all(|&(_, way)| way != "7"));
    assert!(LOCKED.contains(&"7"));
}

#[test]
fn everything_that_asking_for_the_ticks_left_gets_is_reached() {
    let mut coverage = Coverage::of_ticks_left(3501, 3540, 1000);
    let of_asking = |&(call, _): &(usize, usize)| call == 34;
    assert_eq!(coverage.missing().into_iter().find(of_asking), None);
    assert_eq!(coverage.unforeseen(), []);
    assert_eq!(coverage.unforeseen_asked(), []);
    // Several times each.
    for count in coverage.asked.iter_mut().flatten() {
        *count = count.saturating_sub(3);
    }
    assert_eq!(coverage.missing_asked(), []);
}

#[test]
fn where_partitions_do_anything_they_ask_for_the_ticks_left_in_every_mode() {
    let coverage = Coverage::of_seeds(1, 200, 1000);
    assert_eq!(coverage.unforeseen_asked(), []);
    let missing = coverage.missing_asked();
    assert!(!missing.contains(&("IDLE", "9")));
    // Few tables of this kind have a window that fills the frame.
    for value in [ASKED[0], ASKED[1], ASKED[3]] {
        for mode in &MODES[1..] {
            assert!(!missing.contains(&(mode, value)), "{mode}: {value}");
        }
    }
}

#[test]
fn a_run_of_nothing_names_everything_that_asking_gets_as_missing() {
    let missing = Coverage::new().missing_asked();
    // IDLE gets no value, start modes no 9.
    assert_eq!(missing.len(), ASKED.len() * MODES.len() - 12 - 2);
    assert!(missing.contains(&("IDLE", "9")));
    assert!(missing.contains(&("NORMAL", "M, of a window that fills the frame")));
    assert!(!missing.contains(&("IDLE", "in between")));
    assert!(!missing.contains(&("WARM_START", "9")));
}

#[test]
fn every_sort_of_question_is_reached_wherever_t_can_lie() {
    let mut coverage = QuestionCoverage::of_seeds(3601, 3640, 300);
    assert_eq!(coverage.questions, 40 * 300);
    assert_eq!(coverage.unforeseen(), []);
    // Several times each.
    let counts = coverage.waited.iter_mut().flatten();
    for count in counts.chain(&mut coverage.refused) {
        *count = count.saturating_sub(3);
    }
    assert_eq!(coverage.missing(), []);
}

#[test]
fn a_run_of_nothing_names_every_sort_of_question_as_missing() {
    let missing = QuestionCoverage::new().missing();
    // n is M, and M is 1, only at a start of its own; only there and inside a
    // window of its own the next one can follow it, in three ways.
    let impossible = 4 + 4 + 3 * 3;
    let sorts = WAITED.len() * PLACES.len() + REFUSED.len();
    assert_eq!(missing.len(), sorts - impossible);
    assert!(missing.contains(&("at a start of its own", "n = M, M above 1")));
    assert!(missing.contains(&("in a gap", "n = 1, M above 1")));
    assert!(!missing.contains(&("in a gap", "n = M, M above 1")));
    assert!(missing.contains(&("refused", "11, the last line without LF")));
}

#[test]
fn questions_are_an_accepted_table_and_count_lines_most_of_them_good() {
    let mut good = 0;
    for seed in 0..100 {
        let bytes = input(seed, Kind::Questions, 100);
        let mut lines = Lines::new(bytes.as_slice());
        read_table(&mut lines).expect("an accepted table");
        let lines: Vec<Line> = std::iter::from_fn(|| lines.next_line()).collect();
        assert_eq!(lines.len(), 100, "seed {seed}");
        good += lines.iter().filter(|&&line| line != Line::Bad).count();
    }
    assert!((9_000..10_000).contains(&good), "{good}");
}

#[test]
fn one_seed_gives_one_input() {
    for kind in [
        Kind::Table,
        Kind::Events,
        Kind::Releases,
        Kind::Locks,
        Kind::Left,
        Kind::Busy,
        Kind::Passing,
        Kind::Queuing,
        Kind::Ticks,
        Kind::Damaged,
        Kind::Questions,
    ] {
        assert_eq!(input(5, kind, 200), input(5, kind, 200));
        assert_ne!(input(5, kind, 200), input(6, kind, 200));
    }
}

#[test]
fn events_print_an_accepted_table_and_count_good_lines() {
    let kinds = [Kind::Events, Kind::Releases, Kind::Locks, Kind::Left];
    for (seed, kind) in (0..50).flat_map(|seed| kinds.map(|kind| (seed, kind))) {
        let bytes = input(seed, kind, 100);
        let mut lines = Lines::new(bytes.as_slice());
        let module = read_table(&mut lines).expect("an accepted table");
        let table = 1 + module.windows().len() + module.channels().len();
        assert_eq!(bytes.len(), (table + 100) * 61);
        let codes = codes(&bytes);
        assert_eq!(codes.len(), 100);
        assert!(codes.iter().all(|&code| code != 11));
    }
}

#[test]
fn busy_lines_are_mostly_accepted_calls() {
    let codes = codes(&input(3, Kind::Busy, 20_000));
    let accepted = codes.iter().filter(|&&code| code == 0 || code == 7).count();
    assert!(accepted * 10 > codes.len() * 8);
    assert!(codes.iter().all(|code| ![8, 9, 11, 13].contains(code)));
}

/// FNV-1a of an input.
fn sum(bytes: &[u8]) -> u64 {
    bytes.iter().fold(0xCBF2_9CE4_8422_2325, |sum, &byte| {
        (sum ^ u64::from(byte)).wrapping_mul(0x0100_0000_01B3)
    })
}

#[test]
fn the_inputs_for_timing_stay_the_same_from_version_to_version() {
    assert_eq!(sum(&input(1, Kind::Busy, 20_000)), 0xB496_D446_653C_9947);
    assert_eq!(sum(&input(2, Kind::Ticks, 20_000)), 0x4EE9_173D_D80D_2EAE);
    assert_eq!(sum(&input(3, Kind::Passing, 20_000)), 0x9B57_FB32_EE54_A6A2);
    assert_eq!(sum(&input(4, Kind::Queuing, 20_000)), 0x1103_8D93_1EA3_D613);
}

/// Every line is accepted, most are of these calls, and many wait.
fn assert_mostly(kind: Kind, calls: &[i64]) {
    let bytes = input(3, kind, 20_000);
    let codes = codes(&bytes);
    assert!(codes.iter().all(|code| [0, 7].contains(code)));
    let of_these = bytes
        .chunks_exact(61)
        .filter(|bytes| match line::read(bytes) {
            Line::Six(six) => calls.contains(&six[1]),
            Line::Bad => panic!("a line that is no line"),
        });
    assert!(of_these.count() * 10 > codes.len() * 7);
    assert!(codes.iter().filter(|&&code| code == 7).count() > 2_000);
}

#[test]
fn passing_lines_are_accepted_and_mostly_pass_messages() {
    assert_mostly(Kind::Passing, &[24, 25, 27, 28]);
}

#[test]
fn queuing_lines_are_accepted_and_mostly_send_and_receive() {
    assert_mostly(Kind::Queuing, &[30, 31]);
}

#[test]
fn ticks_follow_a_set_up_where_every_partition_is_in_normal() {
    let bytes = input(3, Kind::Ticks, 5_000);
    assert!(codes(&bytes).iter().all(|&code| code == 0));
    let module = final_record(bytes.as_slice());
    assert!(module.t() >= 5_000);
    for partition in module.partitions() {
        assert_eq!(
            (partition.mode.number(), partition.processes.len()),
            (3, 16)
        );
        assert!(partition
            .processes
            .iter()
            .all(|process| process.wake.is_some()));
    }
}

#[test]
fn damaged_input_has_bad_and_good_lines() {
    let mut bad = 0;
    for seed in 0..40 {
        let codes = codes(&input(seed, Kind::Damaged, 200));
        bad += codes.iter().filter(|&&code| code == 11).count();
        assert!(codes.iter().any(|&code| code != 11));
    }
    assert!(bad > 1000);
}

#[test]
fn made_up_tables_are_accepted_and_refused() {
    let (mut accepted, mut by_11, mut by_12) = (0, 0, 0);
    for seed in 0..400 {
        let bytes = input(seed, Kind::Table, 0);
        match read_table(&mut Lines::new(bytes.as_slice())) {
            Ok(_) => accepted += 1,
            Err(refusal) if refusal.code == 11 => by_11 += 1,
            Err(_) => by_12 += 1,
        }
    }
    assert!(
        accepted > 30 && by_11 > 60 && by_12 > 60,
        "{accepted} {by_11} {by_12}"
    );
}

//! "Left and Right": what partitions outside a closed set do leaves no trace
//! inside it.

use separate::events::Events;
use separate::line::Line;
use separate::record::Channel;
use separate::replay::{read_table, Lines};
use separate::rng::Rng;
use separate::{tables, Answer, Event, Module, Six};

/// True if a set may be closed as far as this channel goes: a sampling channel
/// with its destination in the set has its source there; a queuing one has
/// both ends in it or neither.
fn is_closed(channel: &Channel, set: &[bool]) -> bool {
    let (source, destination) = (set[channel.source], set[channel.destination]);
    match channel.queue() {
        Some(_) => source == destination,
        None => source || !destination,
    }
}

/// The least closed set around some partitions.
fn close(module: &Module, set: &mut [bool]) {
    let channels = module.channels();
    while let Some(channel) = channels.iter().find(|it| !is_closed(it, set)) {
        set[channel.source] = true;
        if channel.queue().is_some() {
            set[channel.destination] = true;
        }
    }
}

fn in_set(set: &[bool], partition: i64) -> bool {
    usize::try_from(partition).is_ok_and(|number| set.get(number) == Some(&true))
}

/// A tick or an event of a partition in the set, refused or not.
fn common(set: &[bool], event: &Event) -> bool {
    event.partition == 0 && event.call == 0 || in_set(set, event.partition)
}

/// What both runs must agree on of a common event's answer.
fn visible(set: &[bool], event: &Event, mut answer: Six) -> Six {
    if event.partition == 0 && !in_set(set, answer[4]) {
        answer[5] = 0;
    }
    answer
}

fn assert_same_inside(left: &Module, right: &Module, set: &[bool]) {
    assert_eq!((left.t(), left.current()), (right.t(), right.current()));
    for partition in (1..set.len()).filter(|&partition| set[partition]) {
        assert_eq!(left.partition(partition), right.partition(partition));
    }
    // A sampling channel's message and time, a queuing one's messages; who
    // waits at an end stands in the partition's record.
    for (one, other) in left.channels().iter().zip(right.channels()) {
        assert!(!set[one.destination] || one == other);
    }
    if set[left.current()] {
        assert_eq!(left.running(), right.running());
    }
}

/// How many events did something.
#[derive(Default)]
struct Done {
    /// Free events of each run.
    free: [usize; 2],
    /// Calls 23 to 31 among the free events of the first run and among the
    /// common events.
    messages: [usize; 2],
    /// Calls 30 and 31 among these, where not all events are common.
    queuing: [usize; 2],
    /// Calls 32 and 33 likewise.
    locks: [usize; 2],
    /// Call 34 likewise.
    asked: [usize; 2],
}

fn is_accepted(answer: &Answer) -> bool {
    answer.code == 0 || answer.code == 7
}

impl Done {
    /// An event of the first run that was accepted.
    fn take(&mut self, event: &Event, set: &[bool]) {
        let place = usize::from(common(set, event));
        self.free[0] += 1 - place;
        let all = !set[1..].contains(&false);
        self.messages[place] += usize::from((23..=31).contains(&event.call));
        let counts = match event.call {
            30 | 31 => &mut self.queuing,
            32 | 33 => &mut self.locks,
            34 => &mut self.asked,
            _ => return,
        };
        counts[place] += usize::from(!all);
    }
}

/// A table and events for its module.
type Source = fn(u64) -> (Vec<Six>, Events);

/// Runs both lists and adds up what they did.
fn compare(source: Source, seed: u64, count: usize, done: &mut Done) {
    let mut rng = Rng::new(seed);
    let (numbers, mut left) = source(seed);
    let module = tables::module(&numbers).expect("an accepted table");
    let mut set = vec![false; module.partitions().len() + 1];
    set.iter_mut()
        .skip(1)
        .for_each(|inside| *inside = rng.percent(40));
    close(&module, &mut set);
    let mut right = source(!seed).1;
    right.module = module;
    for _ in 0..count {
        let (event, answer) = left.next_event();
        if is_accepted(&answer) {
            done.take(&event, &set);
        }
        if common(&set, &event) {
            let other = right.module.step(&event);
            assert_eq!(
                visible(&set, &event, answer.six()),
                visible(&set, &event, other.six()),
                "seed {seed} event {event:?}"
            );
        }
        for _ in 0..rng.below(3) {
            let event = right.choose();
            if !common(&set, &event) {
                let answer = right.module.step(&event);
                done.free[1] += usize::from(is_accepted(&answer));
            }
        }
    }
    assert_same_inside(&left.module, &right.module, &set);
}

/// The table and the events of a hand-made case.
fn case(name: &str) -> (Module, Vec<Event>) {
    let folder = concat!(env!("CARGO_MANIFEST_DIR"), "/../cases");
    let input = std::fs::read(format!("{folder}/{name}.in")).expect("a case");
    let mut lines = Lines::new(input.as_slice());
    let module = read_table(&mut lines).expect("an accepted table");
    let mut events = Vec::new();
    while let Some(Line::Six(six)) = lines.next_line() {
        events.push(Event::from_six(six));
    }
    (module, events)
}

/// The common events of a case with what must agree of their answers.
fn common_answers(name: &str, set: &[bool]) -> Vec<(Event, Six)> {
    let (mut module, events) = case(name);
    let mut answers = Vec::new();
    for event in events {
        let answer = module.step(&event);
        if common(set, &event) {
            answers.push((event, visible(set, &event, answer.six())));
        }
    }
    answers
}

#[test]
fn a_queuing_channel_with_one_end_in_the_set_lets_answers_differ() {
    let (left, right) = ("queuing-closed-needed-left", "queuing-closed-needed-right");
    let set = [false, true, false];
    let (module, _) = case(left);
    assert_eq!(module, case(right).0);
    // The source alone: a sampling channel would leave the set closed.
    let [channel] = module.channels() else {
        panic!("one channel");
    };
    assert!(set[channel.source] && !set[channel.destination]);
    assert!(channel.queue().is_some() && !is_closed(channel, &set));
    let (mut one, mut other) = (common_answers(left, &set), common_answers(right, &set));
    let ends = (one.pop().expect("events"), other.pop().expect("events"));
    assert_eq!(one, other);
    assert_eq!(ends.0 .0, ends.1 .0);
    assert_eq!((ends.0 .1[0], ends.1 .1[0]), (0, 2));
}

#[test]
fn common_events_get_the_same_answers_and_leave_the_same_records() {
    let mut done = Done::default();
    for seed in 0..1000 {
        compare(Events::with_table, seed, 900, &mut done);
    }
    // Both sides had many different free events that changed something.
    assert!(done.free.iter().all(|&free| free > 10_000));
    assert!(done.messages.iter().all(|&calls| calls > 5_000));
    assert!(done.queuing.iter().all(|&calls| calls > 2_000));
    assert!(done.locks.iter().all(|&calls| calls > 2_000));
}

#[test]
fn they_do_so_where_partitions_mostly_lock() {
    let mut done = Done::default();
    for seed in 0..500 {
        compare(Events::of_locks, seed, 900, &mut done);
    }
    assert!(done.locks.iter().all(|&calls| calls > 2_000));
    assert!(done.free.iter().all(|&free| free > 5_000));
}

#[test]
fn they_do_so_where_partitions_mostly_ask_for_the_ticks_left() {
    let mut done = Done::default();
    for seed in 0..300 {
        compare(Events::of_ticks_left, seed, 900, &mut done);
    }
    assert!(done.asked.iter().all(|&calls| calls > 2_000));
    assert!(done.free.iter().all(|&free| free > 5_000));
}

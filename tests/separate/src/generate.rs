//! Made-up inputs for the replay program and for `waits`, fixed by a seed.

use crate::asking::Questions;
use crate::damage::LINE_DAMAGES;
use crate::events::Events;
use crate::line;
use crate::rng::Rng;
use crate::tables::{self, NUMBER_DAMAGES};
use crate::timing::{print_busy, print_passing, print_queuing, print_ticks};
use std::io::{self, Write};

#[derive(Clone, Copy, Debug, PartialEq, Eq)]
pub enum Kind {
    Table,
    Events,
    Releases,
    Locks,
    Left,
    Busy,
    Passing,
    Queuing,
    Ticks,
    Damaged,
    Questions,
}

impl Kind {
    pub fn from_name(name: &str) -> Option<Kind> {
        match name {
            "table" => Some(Kind::Table),
            "events" => Some(Kind::Events),
            "releases" => Some(Kind::Releases),
            "locks" => Some(Kind::Locks),
            "left" => Some(Kind::Left),
            "busy" => Some(Kind::Busy),
            "passing" => Some(Kind::Passing),
            "queuing" => Some(Kind::Queuing),
            "ticks" => Some(Kind::Ticks),
            "damaged" => Some(Kind::Damaged),
            "questions" => Some(Kind::Questions),
            _ => None,
        }
    }
}

/// Prints an input of the kind to `out`.
pub fn generate(seed: u64, kind: Kind, count: u64, out: &mut impl Write) -> io::Result<()> {
    match kind {
        Kind::Table => out.write_all(&table(seed)),
        Kind::Events => print_events(Events::with_table(seed), count, out),
        Kind::Releases => print_events(Events::of_starts(seed), count, out),
        Kind::Locks => print_events(Events::of_locks(seed), count, out),
        Kind::Left => print_events(Events::of_ticks_left(seed), count, out),
        Kind::Busy => print_busy(seed, count, out),
        Kind::Passing => print_passing(seed, count, out),
        Kind::Queuing => print_queuing(seed, count, out),
        Kind::Ticks => print_ticks(seed, count, out),
        Kind::Damaged => print_damaged(seed, count, out),
        Kind::Questions => print_questions(seed, count, out),
    }
}

/// One table, accepted or damaged in up to two places.
pub fn table(seed: u64) -> Vec<u8> {
    let mut rng = Rng::new(seed);
    let mut numbers = tables::accepted(&mut rng);
    let kind = rng.below(8);
    if matches!(kind, 1..=4) {
        let last = NUMBER_DAMAGES[NUMBER_DAMAGES.len() - 1];
        let (_, damage) = if rng.percent(10) {
            last
        } else {
            rng.pick(&NUMBER_DAMAGES)
        };
        damage(&mut rng, &mut numbers);
    }
    let mut lines = tables::text(&numbers);
    if matches!(kind, 4..=6) {
        let at = rng.below(lines.len());
        let (_, damage) = rng.pick(&LINE_DAMAGES);
        damage(&mut rng, &mut lines[at]);
    }
    if kind == 7 {
        cut_table(&mut rng, &mut lines);
    }
    lines.concat()
}

/// Missing table lines, empty input, a last line without its LF.
fn cut_table(rng: &mut Rng, lines: &mut Vec<Vec<u8>>) {
    match rng.below(4) {
        0 => lines.clear(),
        1 => lines.truncate(rng.below(lines.len())),
        _ => {
            lines.truncate(1 + rng.below(lines.len()));
            if let Some(last) = lines.last_mut() {
                let missing = rng.pick(&[1, 1, 2, 30]);
                last.truncate(line::LENGTH - missing);
            }
        }
    }
}

pub(crate) fn print_table(numbers: &[line::Six], out: &mut impl Write) -> io::Result<()> {
    numbers
        .iter()
        .try_for_each(|six| out.write_all(&line::text(six)))
}

fn print_events(
    (numbers, mut events): (Vec<line::Six>, Events),
    count: u64,
    out: &mut impl Write,
) -> io::Result<()> {
    print_table(&numbers, out)?;
    for _ in 0..count {
        let (event, _) = events.next_event();
        out.write_all(&line::text(&event.six()))?;
    }
    Ok(())
}

/// Events with damaged lines in between; the last line may lack its LF.
fn print_damaged(seed: u64, count: u64, out: &mut impl Write) -> io::Result<()> {
    let (numbers, mut events) = Events::with_table(seed);
    print_table(&numbers, out)?;
    for _ in 0..count {
        if events.rng.percent(70) {
            let (event, _) = events.next_event();
            out.write_all(&line::text(&event.six()))?;
            continue;
        }
        let mut bytes = line::text(&events.choose().six()).to_vec();
        let (_, damage) = events.rng.pick(&LINE_DAMAGES);
        damage(&mut events.rng, &mut bytes);
        events.take_lines(&bytes);
        out.write_all(&bytes)?;
    }
    if events.rng.percent(30) {
        let bytes = line::text(&events.choose().six());
        let kept = line::LENGTH - events.rng.pick(&[1, 1, 2, 60]);
        out.write_all(&bytes[..kept])?;
    }
    Ok(())
}

/// Questions for waiting times with damaged lines in between; the last line may
/// lack its LF.
fn print_questions(seed: u64, count: u64, out: &mut impl Write) -> io::Result<()> {
    let (numbers, mut questions) = Questions::with_table(seed);
    print_table(&numbers, out)?;
    let mut lines = questions.lines(count);
    lines.try_for_each(|bytes| out.write_all(&bytes))
}

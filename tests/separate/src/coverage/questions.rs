//! What questions for waiting times are like, and what they get (document 02,
//! g).

use super::{place, print_list, print_named};
use crate::asking;
use crate::line::{self, Line, Six};
use crate::questions::answer;
use crate::record::{Id, Module, Window, LAST_TIME};
use crate::table::MOST_FRAME;
use std::io::{self, Write};

/// Where the t of a question lies.
pub const PLACES: [&str; 5] = [
    "at a start of its own",
    "inside a window of its own",
    "at a start of another",
    "inside a window of another",
    "in a gap",
];

/// What a waiting time, its start and its window can be like.
pub const WAITED: [&str; 26] = [
    "n = M, M above 1",
    "n = 1, M above 1",
    "1 < n < M",
    "M = 1",
    "M = 10,000",
    "partition P",
    "t in frame 0",
    "t in a later frame",
    "t = 99,999,999",
    "the start in the frame of t",
    "the start in the next frame",
    "the start at 99,999,999",
    "the start past 99,999,999",
    "a window with flag 1",
    "without flag 1, one with it later in the same frame",
    "without flag 1, the nearest one with it a frame later",
    "the only start",
    "the first of several starts in the table",
    "a middle one of several starts in the table",
    "the last of several starts in the table",
    "no other partition's start before it",
    "one start of another partition before it",
    "several starts of others before it",
    "at once behind another own window that covers t",
    "at once behind such a window, over the frame's end",
    "at once behind itself, a window that fills the frame",
];

/// Why a question gets no waiting time.
pub const REFUSED: [&str; 14] = [
    "13, t -1",
    "13, t 100,000,000",
    "13, t above 100,000,000",
    "13, partition -1",
    "13, partition 0",
    "13, partition P + 1",
    "13, partition above P + 1",
    "13, the third number not 0",
    "13, the fourth number not 0",
    "13, the fifth number not 0",
    "13, the sixth number not 0",
    "13, several of these",
    "11, a line with its LF",
    "11, the last line without LF",
];

/// True if the rules let this hold of a t that lies there. n is M only where
/// the one start of the partition is at t.
fn may_hold(place: &str, name: &str) -> bool {
    match name {
        "n = M, M above 1" | "M = 1" => place == "at a start of its own",
        _ if name.starts_with("at once behind") => place.ends_with("of its own"),
        _ => true,
    }
}

/// A question that got a waiting time.
struct Given<'a> {
    module: &'a Module,
    t: i64,
    partition: Id,
    n: i64,
}

impl Given<'_> {
    /// The window that covers t, if any.
    fn covering(&self) -> Option<&Window> {
        let at = self.t % self.module.frame();
        let mut windows = self.module.windows().iter();
        windows.find(|window| (window.start..window.end()).contains(&at))
    }

    fn place(&self) -> &'static str {
        let at = self.t % self.module.frame();
        let Some(window) = self.covering() else {
            return "in a gap";
        };
        match (window.partition == self.partition, window.start == at) {
            (true, true) => "at a start of its own",
            (true, false) => "inside a window of its own",
            (false, true) => "at a start of another",
            (false, false) => "inside a window of another",
        }
    }

    /// How many windows of other partitions start after t and before the start
    /// that was found.
    fn others_before(&self) -> usize {
        let windows = self.module.windows().iter();
        let others = windows.filter(|window| window.partition != self.partition);
        others
            .filter(|window| self.module.ticks_until_start(self.t, window) < self.n)
            .count()
    }

    /// Which of `WAITED` hold.
    fn holds(&self) -> [bool; WAITED.len()] {
        let start = (self.t + self.n) % self.module.frame();
        let others = self.others_before();
        let mut holds = Vec::new();
        holds.extend(self.of_numbers());
        holds.extend(self.of_window(start));
        holds.extend([others == 0, others == 1, others > 1]);
        holds.extend(self.behind_own(start));
        holds.try_into().expect("one for each name")
    }

    /// What holds of n, M, P, t and t + n.
    fn of_numbers(&self) -> [bool; 13] {
        let (n, t, frame) = (self.n, self.t, self.module.frame());
        [
            frame > 1 && n == frame,
            frame > 1 && n == 1,
            1 < n && n < frame,
            frame == 1,
            frame == MOST_FRAME,
            self.partition == self.module.partitions().len(),
            t < frame,
            t >= frame,
            t == LAST_TIME,
            (t + n) / frame == t / frame,
            (t + n) / frame > t / frame,
            t + n == LAST_TIME,
            t + n > LAST_TIME,
        ]
    }

    /// What holds of the window found among those of its partition.
    fn of_window(&self, start: i64) -> [bool; 7] {
        let windows = self.module.windows().iter();
        let own: Vec<&Window> = windows
            .filter(|window| window.partition == self.partition)
            .collect();
        let at = own
            .iter()
            .position(|window| window.start == start)
            .expect("a start of the partition");
        let (flag, later) = (own[at].flag, &own[at + 1..]);
        let flagged_later = later.iter().any(|window| window.flag);
        [
            flag,
            !flag && flagged_later,
            !flag && !flagged_later,
            own.len() == 1,
            at == 0 && !later.is_empty(),
            at > 0 && !later.is_empty(),
            at > 0 && later.is_empty(),
        ]
    }

    /// Whether the own window that covers t ends where the one found starts.
    fn behind_own(&self, start: i64) -> [bool; 3] {
        let frame = self.module.frame();
        let is_before = |window: &&Window| window.end() % frame == start;
        match self.covering().filter(is_before) {
            Some(window) if window.partition == self.partition => [
                window.start != start && window.end() < frame,
                window.start != start && window.end() == frame,
                window.start == start,
            ],
            _ => [false; 3],
        }
    }
}

/// Why six numbers get 13.
fn reason(module: &Module, [t, partition, unused @ ..]: Six) -> &'static str {
    let above = module.partitions().len() as i64 + 1;
    let of_ranges = [
        t < 0,
        t == LAST_TIME + 1,
        t > LAST_TIME + 1,
        partition < 0,
        partition == 0,
        partition == above,
        partition > above,
    ];
    let holds = of_ranges
        .into_iter()
        .chain(unused.map(|number| number != 0));
    let mut reasons = REFUSED.into_iter().zip(holds).filter(|(_, holds)| *holds);
    let (first, _) = reasons.next().expect("a reason for 13");
    match reasons.next() {
        None => first,
        Some(_) => "13, several of these",
    }
}

/// Counts what made-up questions reach.
#[derive(Clone, Debug)]
pub struct QuestionCoverage {
    /// By the place of t.
    pub waited: [[u64; WAITED.len()]; PLACES.len()],
    pub refused: [u64; REFUSED.len()],
    pub questions: u64,
}

impl QuestionCoverage {
    pub fn new() -> QuestionCoverage {
        QuestionCoverage {
            waited: [[0; WAITED.len()]; PLACES.len()],
            refused: [0; REFUSED.len()],
            questions: 0,
        }
    }

    /// Runs the generator over seeds from..=to with `count` questions each.
    pub fn of_seeds(from: u64, to: u64, count: u64) -> QuestionCoverage {
        let mut coverage = QuestionCoverage::new();
        for seed in from..=to {
            let (_, mut questions) = asking::Questions::with_table(seed);
            let module = questions.module.clone();
            for bytes in questions.lines(count) {
                coverage.take_line(&module, &bytes);
            }
        }
        coverage
    }

    /// Counts one line with the answer to it.
    pub fn take_line(&mut self, module: &Module, bytes: &[u8]) {
        self.questions += 1;
        let line = line::read(bytes);
        let [code, n, ..] = answer(module, line);
        let refusal = match line {
            Line::Six([t, partition, ..]) if code == 0 => {
                let partition = partition as Id;
                return self.take_given(&Given {
                    module,
                    t,
                    partition,
                    n,
                });
            }
            Line::Six(six) => reason(module, six),
            Line::Bad if bytes.ends_with(b"\n") => "11, a line with its LF",
            Line::Bad => "11, the last line without LF",
        };
        self.refused[place(&REFUSED, refusal)] += 1;
    }

    fn take_given(&mut self, given: &Given) {
        let counts = &mut self.waited[place(&PLACES, given.place())];
        for (count, holds) in counts.iter_mut().zip(given.holds()) {
            *count += u64::from(holds);
        }
    }

    /// What the rules let a question be like or get and what was not met, by
    /// the place of t.
    pub fn missing(&self) -> Vec<(&'static str, &'static str)> {
        let mut missing = self.waited_where(|may_hold, met| may_hold && !met);
        for (name, count) in REFUSED.into_iter().zip(self.refused) {
            if count == 0 {
                missing.push(("refused", name));
            }
        }
        missing
    }

    /// What was met though the rules do not have it.
    pub fn unforeseen(&self) -> Vec<(&'static str, &'static str)> {
        self.waited_where(|may_hold, met| !may_hold && met)
    }

    fn waited_where(&self, wanted: fn(bool, bool) -> bool) -> Vec<(&'static str, &'static str)> {
        let mut found = Vec::new();
        for (place, counts) in PLACES.into_iter().zip(self.waited) {
            for (name, count) in WAITED.into_iter().zip(counts) {
                if wanted(may_hold(place, name), count > 0) {
                    found.push((place, name));
                }
            }
        }
        found
    }

    pub fn print(&self, out: &mut impl Write) -> io::Result<()> {
        writeln!(out, "questions {}", self.questions)?;
        writeln!(out, "\nwaiting times, by the place of t")?;
        for (place, counts) in PLACES.into_iter().zip(self.waited) {
            for (name, count) in WAITED.into_iter().zip(counts) {
                if may_hold(place, name) {
                    writeln!(out, "  {place}: {name}: {count}")?;
                }
            }
        }
        print_list(out, "refused", &REFUSED, &self.refused)?;
        let unreached = self.missing();
        print_named(out, "questions: possible and not reached", &unreached)?;
        let unforeseen = self.unforeseen();
        print_named(out, "questions: reached and not possible", &unforeseen)
    }
}

impl Default for QuestionCoverage {
    fn default() -> QuestionCoverage {
        QuestionCoverage::new()
    }
}

//! Made-up questions for waiting times, most of them at the edges of windows,
//! of frames and of what may be asked.

use crate::damage::ONE_LINE_DAMAGES;
use crate::line::{self, Six};
use crate::record::{Id, Module, Window, LAST_TIME};
use crate::rng::Rng;
use crate::tables;

/// A number that no question takes, as far out as a line goes.
const FAR: i64 = line::GREATEST;

/// A module and a source of lines that ask about it.
pub struct Questions {
    pub module: Module,
    rng: Rng,
}

impl Questions {
    /// An accepted table and a source of questions for its module.
    pub fn with_table(seed: u64) -> (Vec<Six>, Questions) {
        let mut rng = Rng::new(seed);
        let numbers = tables::near_and_far_starts(&mut rng);
        let module = tables::module(&numbers).expect("an accepted table");
        (numbers, Questions { module, rng })
    }

    /// So many lines; at times the last one is cut off before its LF.
    pub fn lines(&mut self, count: u64) -> impl Iterator<Item = Vec<u8>> + '_ {
        let cut = self.rng.percent(40);
        (1..=count).map(move |number| match cut && number == count {
            true => self.cut_line(),
            false => self.line(),
        })
    }

    fn line(&mut self) -> Vec<u8> {
        let mut bytes = line::text(&self.question()).to_vec();
        if self.rng.percent(5) {
            let (_, damage) = self.rng.pick(ONE_LINE_DAMAGES);
            damage(&mut self.rng, &mut bytes);
        }
        bytes
    }

    fn cut_line(&mut self) -> Vec<u8> {
        let kept = line::LENGTH - self.rng.pick(&[1, 1, 2, 60]);
        line::text(&self.question())[..kept].to_vec()
    }

    /// t, partition and four 0; now and then an unused number is not 0.
    fn question(&mut self) -> Six {
        let partition = self.partition();
        let mut six = [self.time(partition), partition, 0, 0, 0, 0];
        if self.rng.percent(6) {
            six[2 + self.rng.below(4)] = self.rng.pick(&[1, -1, FAR]);
        }
        six
    }

    fn partition(&mut self) -> i64 {
        let last = self.module.partitions().len() as i64;
        match self.rng.percent(8) {
            true => self.rng.pick(&[-1, 0, last + 1, FAR]),
            false => self.rng.range(1, last),
        }
    }

    /// A time at an edge of some frame, at the ends of time, or past them.
    fn time(&mut self, partition: i64) -> i64 {
        let far_edges = [-1, 0, LAST_TIME - 1, LAST_TIME, LAST_TIME + 1, FAR];
        match self.rng.below(16) {
            0..=1 => self.rng.pick(&far_edges),
            2..=3 => LAST_TIME - self.rng.range(0, self.module.frame()),
            _ => (self.frame_start() + self.edge(partition)).clamp(0, LAST_TIME),
        }
    }

    /// The start of the first frame, of one soon after it, of one of the last
    /// two, or of any.
    fn frame_start(&mut self) -> i64 {
        let last = LAST_TIME / self.module.frame();
        let number = match self.rng.below(8) {
            0..=2 => 0,
            3 => self.rng.range(1, 3),
            4..=5 => last - self.rng.range(0, 1),
            _ => self.rng.range(0, last),
        };
        number * self.module.frame()
    }

    /// Just before, at or just after a start or an end of a window, or an end
    /// of the frame; now and then any tick of it.
    fn edge(&mut self, partition: i64) -> i64 {
        let frame = self.module.frame();
        let (start, end) = self.window(partition);
        let edge = match self.rng.below(10) {
            0..=5 => start,
            6 => end,
            7 => self.rng.pick(&[0, frame]),
            _ => return self.rng.range(0, frame - 1),
        };
        edge + self.rng.range(-1, 1)
    }

    /// Start and end of a window, more often of the partition's own if it has
    /// any.
    fn window(&mut self, partition: i64) -> (i64, i64) {
        let windows = self.module.windows().iter();
        let is_own = |window: &&Window| Id::try_from(partition) == Ok(window.partition);
        let own: Vec<&Window> = windows.clone().filter(is_own).collect();
        let any: Vec<&Window> = windows.collect();
        let chosen = match own.is_empty() || self.rng.percent(40) {
            true => self.rng.pick(&any),
            false => self.rng.pick(&own),
        };
        (chosen.start, chosen.end())
    }
}

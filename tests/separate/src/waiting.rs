//! The waiting time, asked outside events: exactly the least number (document
//! 02, g).

use crate::record::{Id, Module, Window, LAST_TIME};

/// Code 0 with n in 1..M, or 13 with n 0.
#[derive(Clone, Copy, Debug, PartialEq, Eq)]
pub struct Waiting {
    pub code: i64,
    pub n: i64,
}

impl Waiting {
    /// t or partition out of range.
    pub const REFUSED: Waiting = Waiting { code: 13, n: 0 };
}

impl Module {
    /// The least n in 1..M such that a window of the partition, whatever its
    /// flag, starts at (t + n) mod M.
    pub fn waiting_time(&self, t: i64, partition: i64) -> Waiting {
        if !self.may_ask(t, partition) {
            return Waiting::REFUSED;
        }
        let n = self
            .windows
            .iter()
            .filter(|window| window.partition == partition as Id)
            .map(|window| self.ticks_until_start(t, window))
            .min()
            .expect("every partition has a window with flag 1");
        Waiting { code: 0, n }
    }

    fn may_ask(&self, t: i64, partition: i64) -> bool {
        (0..=LAST_TIME).contains(&t) && (1..=self.partitions.len() as i64).contains(&partition)
    }

    /// The ticks from t until the window starts, in 1..M: a start at t itself
    /// does not count.
    pub(crate) fn ticks_until_start(&self, t: i64, window: &Window) -> i64 {
        (window.start - t % self.frame - 1).rem_euclid(self.frame) + 1
    }
}

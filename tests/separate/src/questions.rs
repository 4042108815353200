//! The program `waits`: table, then a line of t, partition and four 0 for each
//! question; one line of code, n and four 0 for each answer.

use crate::line::{Line, Six};
use crate::record::Module;
use crate::replay::answer_lines;
use crate::waiting::Waiting;
use std::io::{self, Read, Write};

/// The answer to a line: 11 where it is no six numbers, 13 where an unused
/// number is not 0, both with n 0; else the waiting time.
pub fn answer(module: &Module, line: Line) -> Six {
    let Waiting { code, n } = match line {
        Line::Bad => Waiting { code: 11, n: 0 },
        Line::Six([t, partition, 0, 0, 0, 0]) => module.waiting_time(t, partition),
        Line::Six(_) => Waiting::REFUSED,
    };
    [code, n, 0, 0, 0, 0]
}

/// The program `waits` from an input to an output.
pub fn waits(input: impl Read, output: impl Write) -> io::Result<()> {
    answer_lines(input, output, |module, line| answer(module, line))
}

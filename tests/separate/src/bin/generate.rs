//! generate SEED KIND COUNT: prints a made-up input.

use separate::generate::{generate, Kind};
use std::io::{self, BufWriter, Write};
use std::process::ExitCode;

fn main() -> ExitCode {
    let arguments: Vec<String> = std::env::args().skip(1).collect();
    let [seed, kind, count] = arguments.as_slice() else {
        return usage();
    };
    let (Ok(seed), Some(kind), Ok(count)) = (seed.parse(), Kind::from_name(kind), count.parse())
    else {
        return usage();
    };
    let mut out = BufWriter::with_capacity(1 << 16, io::stdout().lock());
    // A closed pipe ends the program quietly.
    let _ = generate(seed, kind, count, &mut out).and_then(|()| out.flush());
    ExitCode::SUCCESS
}

fn usage() -> ExitCode {
    eprintln!(
        "generate SEED \
         table|events|releases|locks|left|busy|passing|queuing|ticks|damaged|questions COUNT"
    );
    ExitCode::FAILURE
}

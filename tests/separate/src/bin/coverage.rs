//! coverage FROM TO COUNT [KIND]: what the generator reaches over seeds FROM to
//! TO with COUNT events each, of the kind events, releases, locks or left, or
//! with COUNT questions each, of the kind questions.

use separate::coverage::{Coverage, QuestionCoverage};
use std::io;
use std::process::ExitCode;

fn main() -> ExitCode {
    let arguments: Vec<String> = std::env::args().skip(1).collect();
    let (numbers, kind) = arguments.split_at(arguments.len().min(3));
    let numbers = numbers.iter().map(|number| number.parse().ok());
    let numbers: Option<Vec<u64>> = numbers.collect();
    let Some(&[from, to, count]) = numbers.as_deref() else {
        return usage();
    };
    let kind = match kind {
        [] => "events",
        [kind] => kind,
        _ => return usage(),
    };
    let out = &mut io::stdout().lock();
    let printed = match kind {
        "events" => Coverage::of_seeds(from, to, count).print(out),
        "releases" => Coverage::of_starts(from, to, count).print(out),
        "locks" => Coverage::of_locks(from, to, count).print(out),
        "left" => Coverage::of_ticks_left(from, to, count).print(out),
        "questions" => QuestionCoverage::of_seeds(from, to, count).print(out),
        _ => return usage(),
    };
    // A closed pipe ends the program quietly.
    let _ = printed;
    ExitCode::SUCCESS
}

fn usage() -> ExitCode {
    eprintln!("coverage FROM TO COUNT [events|releases|locks|left|questions]");
    ExitCode::FAILURE
}

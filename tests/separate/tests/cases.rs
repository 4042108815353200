//! The hand-made cases beside this package, input by input.

use separate::coverage::ALLOWED;
use separate::dump;
use separate::line::{self, Line};
use separate::questions::waits;
use separate::replay::{final_record, replay};
use std::fs;
use std::io;
use std::path::{Path, PathBuf};

/// The inputs of a folder next to this package, by name.
fn inputs(folder: &str) -> Vec<PathBuf> {
    let folder = Path::new(env!("CARGO_MANIFEST_DIR"))
        .join("..")
        .join(folder);
    let entries = fs::read_dir(&folder).expect("the folder of cases");
    let paths = entries.map(|entry| entry.expect("an entry").path());
    let mut inputs: Vec<_> = paths
        .filter(|path| path.extension().is_some_and(|end| end == "in"))
        .collect();
    inputs.sort();
    inputs
}

fn contents(input: &Path, extension: &str) -> Vec<u8> {
    let path = input.with_extension(extension);
    fs::read(&path).unwrap_or_else(|error| panic!("{}: {error}", path.display()))
}

/// A program from an input to an output.
type Program = fn(&[u8], &mut Vec<u8>) -> io::Result<()>;

/// Runs every input and compares with the output worked out by hand.
fn check(folder: &str, least: usize, program: Program) {
    let inputs = inputs(folder);
    assert!(inputs.len() >= least, "{} cases in {folder}", inputs.len());
    for input in inputs {
        let mut answers = Vec::new();
        program(&contents(&input, "in"), &mut answers).expect("a vector takes it");
        let expected = contents(&input, "out");
        assert_eq!(
            String::from_utf8_lossy(&answers),
            String::from_utf8_lossy(&expected),
            "{}",
            input.display()
        );
        let reason = contents(&input, "txt");
        let lines = reason.iter().filter(|&&byte| byte == b'\n').count();
        assert!((1..=5).contains(&lines), "{}", input.display());
    }
}

#[test]
fn the_cases_give_the_answers_worked_out_by_hand() {
    check("cases", 160, |input, output| replay(input, output));
}

#[test]
fn the_damaged_lines_and_tables_give_the_answers_worked_out_by_hand() {
    check("damaged", 70, |input, output| replay(input, output));
}

#[test]
fn the_questions_get_the_answers_worked_out_by_hand() {
    check("questions", 20, |input, output| waits(input, output));
}

#[test]
fn the_records_worked_out_by_hand() {
    let mut compared = 0;
    for input in inputs("cases") {
        if input.with_extension("dump").exists() {
            let record = final_record(contents(&input, "in").as_slice());
            let expected = contents(&input, "dump");
            assert_eq!(
                dump::text(&record),
                String::from_utf8_lossy(&expected),
                "{}",
                input.display()
            );
            compared += 1;
        }
    }
    assert!(compared >= 50, "{compared} records");
}

/// The numbers of each line; `None` for a bad one.
fn lines(bytes: &[u8]) -> Vec<Option<separate::Six>> {
    let lines = bytes.split_inclusive(|&byte| byte == b'\n');
    lines
        .map(|line| match line::read(line) {
            Line::Six(six) => Some(six),
            Line::Bad => None,
        })
        .collect()
}

#[test]
fn every_call_and_every_code_but_10_appears_in_the_cases() {
    let mut calls = [false; 35];
    let mut codes = [false; 14];
    for folder in ["cases", "damaged"] {
        for input in inputs(folder) {
            for [_, call, ..] in lines(&contents(&input, "in")).into_iter().flatten() {
                if (0..35).contains(&call) {
                    calls[call as usize] = true;
                }
            }
            for answer in lines(&contents(&input, "out")) {
                let [code, ..] = answer.unwrap_or_else(|| panic!("{}", input.display()));
                codes[code as usize] = true;
            }
        }
    }
    assert_eq!(calls, [true; 35]);
    // 6 is a wake code and no answer; 10 needs the end of time.
    let missing: Vec<_> = (0..14).filter(|&code| !codes[code]).collect();
    assert_eq!(missing, [6, 10]);
}

#[test]
fn every_code_of_calls_23_to_34_appears_in_the_cases() {
    let mut met = [[false; 14]; 35];
    for input in inputs("cases") {
        let answers = lines(&contents(&input, "out"));
        let lines = lines(&contents(&input, "in"));
        // The last lines are the events, one for each answer.
        let events = &lines[lines.len() - answers.len()..];
        for (event, answer) in events.iter().zip(answers) {
            if let (Some([_, call @ 0..35, ..]), Some([code, ..])) = (event, answer) {
                met[*call as usize][code as usize] = true;
            }
        }
    }
    for call in 23..35 {
        let codes: Vec<_> = (0..14).filter(|&code| met[call][code]).collect();
        assert_eq!(codes, ALLOWED[call], "call {call}");
    }
}

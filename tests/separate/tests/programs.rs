//! The programs from standard input to standard output.

mod common;

use common::{plain_lines, text, Pieces, ONE, TWO};
use separate::generate::{generate, Kind};
use separate::replay::replay;
use std::io::{BufRead, BufReader, Write};
use std::process::{Child, Command, Output, Stdio};

const REPLAY: &str = env!("CARGO_BIN_EXE_replay");
const WAITS: &str = env!("CARGO_BIN_EXE_waits");
const DUMP: &str = env!("CARGO_BIN_EXE_dump");
const GENERATE: &str = env!("CARGO_BIN_EXE_generate");
const COVERAGE: &str = env!("CARGO_BIN_EXE_coverage");

fn start(program: &str, arguments: &[&str]) -> Child {
    Command::new(program)
        .args(arguments)
        .stdin(Stdio::piped())
        .stdout(Stdio::piped())
        .stderr(Stdio::piped())
        .spawn()
        .expect("the program starts")
}

fn run(program: &str, arguments: &[&str], input: &[u8]) -> Output {
    let mut child = start(program, arguments);
    let mut stdin = child.stdin.take().expect("a pipe");
    let input = input.to_vec();
    let writer = std::thread::spawn(move || stdin.write_all(&input));
    let output = child.wait_with_output().expect("the program ends");
    // A program that ends early closes its input.
    let _ = writer.join().expect("the writer ends");
    output
}

/// What a program prints that ends with status 0 and writes nothing else.
fn printed(program: &str, input: &[u8]) -> String {
    let output = run(program, &[], input);
    assert!(output.status.success());
    assert_eq!(output.stderr, b"");
    String::from_utf8(output.stdout).expect("ASCII")
}

fn replayed(input: &[u8]) -> String {
    printed(REPLAY, input)
}

fn waited(input: &[u8]) -> String {
    printed(WAITS, input)
}

fn lines(six: &[[i64; 6]]) -> String {
    String::from_utf8(text(six)).expect("ASCII")
}

/// A good table and some event bytes.
fn with_table(table: &[[i64; 6]], events: &[u8]) -> Vec<u8> {
    let mut input = text(table);
    input.extend_from_slice(events);
    input
}

#[test]
fn the_worked_example_byte_by_byte() {
    let events = [
        [1, 2, 7, 50, -1, 5],
        [1, 3, 1, 0, 0, 0],
        [1, 1, 3, 0, 0, 0],
        [2, 1, 3, 0, 0, 0],
        [1, 9, 4, 0, 0, 0],
        [0, 0, 0, 0, 0, 0],
    ];
    let expected = "         0         1         0         0         1         0
         0         0         0         0         1         0
         0         0         0         0         1         1
         8         0         0         0         1         0
         7         0         0         0         1         0
         0         0         0         1         1         0
";
    assert_eq!(replayed(&with_table(&TWO, &text(&events))), expected);
}

#[test]
fn a_table_alone_prints_nothing() {
    assert_eq!(replayed(&text(&TWO)), "");
    assert_eq!(waited(&text(&TWO)), "");
}

#[test]
fn a_bad_table_prints_one_line_and_ends_with_status_0() {
    let mut overlapping = TWO;
    overlapping[2][0] = 5;
    let mut unflagged = TWO;
    unflagged[1][3] = 0;
    let more = text(&[[0; 6]; 3]);
    for (input, refusal) in [
        (with_table(&overlapping, &more), [12, 3, 0, 0, 0, 0]),
        (Vec::new(), [11, 1, 0, 0, 0, 0]),
        (text(&TWO)[..122].to_vec(), [11, 3, 0, 0, 0, 0]),
        (with_table(&unflagged, &more), [12, 0, 0, 0, 0, 0]),
    ] {
        assert_eq!(replayed(&input), lines(&[refusal]));
        assert_eq!(waited(&input), lines(&[refusal]));
    }
}

#[test]
fn a_bad_line_runs_to_its_own_lf_and_costs_one_11() {
    let tick = lines(&[[0; 6]]);
    let events = format!("{tick}short\n\n{tick}{}\n{tick}", "x".repeat(200));
    let expected = [
        [0, 0, 0, 1, 1, 0],
        [11, 0, 0, 1, 1, 0],
        [11, 0, 0, 1, 1, 0],
        [0, 0, 0, 2, 1, 0],
        [11, 0, 0, 2, 1, 0],
        [0, 0, 0, 3, 1, 0],
    ];
    assert_eq!(
        replayed(&with_table(&ONE, events.as_bytes())),
        lines(&expected)
    );
}

#[test]
fn sixty_good_columns_at_the_end_are_11() {
    let tick = text(&[[0; 6]]);
    assert_eq!(
        replayed(&with_table(&ONE, &tick[..60])),
        lines(&[[11, 0, 0, 0, 1, 0]])
    );
    assert_eq!(
        replayed(&with_table(&ONE, b"x")),
        lines(&[[11, 0, 0, 0, 1, 0]])
    );
}

#[test]
fn a_bad_line_shows_no_running_process() {
    let events = [[1, 2, 7, 50, -1, 5], [1, 3, 1, 0, 0, 0], [1, 1, 3, 0, 0, 0]];
    let mut bytes = text(&events);
    bytes.extend(b"\n");
    let answers = replayed(&with_table(&TWO, &bytes));
    assert!(answers.ends_with(&lines(&[[0, 0, 0, 0, 1, 1], [11, 0, 0, 0, 1, 0]])));
}

#[test]
fn lines_of_any_length_are_one_line() {
    for length in [60, 61, 62, 122, 65_535, 65_536, 65_537, 3_000_000] {
        let tick = lines(&[[0; 6]]);
        let events = format!("{}\n{tick}", " ".repeat(length));
        let expected = lines(&[[11, 0, 0, 0, 1, 0], [0, 0, 0, 1, 1, 0]]);
        assert_eq!(
            replayed(&with_table(&ONE, events.as_bytes())),
            expected,
            "{length}"
        );
        let unended = " ".repeat(length);
        let expected = lines(&[[11, 0, 0, 0, 1, 0]]);
        assert_eq!(
            replayed(&with_table(&ONE, unended.as_bytes())),
            expected,
            "{length}"
        );
    }
}

#[test]
fn the_answers_do_not_depend_on_how_the_input_arrives() {
    for seed in 0..20 {
        let mut input = Vec::new();
        generate(seed, Kind::Damaged, 300, &mut input).expect("a vector takes every byte");
        let mut whole = Vec::new();
        replay(input.as_slice(), &mut whole).expect("a vector takes every byte");
        for size in [1, 7, 60, 61, 62, 1000] {
            let mut pieces = Vec::new();
            replay(
                Pieces {
                    bytes: &input,
                    size,
                },
                &mut pieces,
            )
            .expect("a vector takes it");
            assert!(pieces == whole, "seed {seed} in pieces of {size}");
        }
    }
}

#[test]
fn the_input_splits_into_lines_at_each_lf() {
    for seed in 0..50 {
        let mut input = Vec::new();
        generate(seed, Kind::Damaged, 200, &mut input).expect("a vector takes every byte");
        let mut lines = separate::replay::Lines::new(input.as_slice());
        let mut read = Vec::new();
        while let Some(line) = lines.next_line() {
            read.push(line);
        }
        assert_eq!(read, plain_lines(&input));
    }
}

/// Gives a table and a line, then a bad line, and takes each answer at once.
fn answers_while_open(program: &str, line: [i64; 6], answers: [[i64; 6]; 2]) {
    let mut child = start(program, &[]);
    let mut stdin = child.stdin.take().expect("a pipe");
    let mut stdout = BufReader::new(child.stdout.take().expect("a pipe"));
    let inputs = [with_table(&ONE, &text(&[line])), b"bad\n".to_vec()];
    for (input, expected) in inputs.iter().zip(answers) {
        stdin.write_all(input).expect("open");
        let mut answer = String::new();
        stdout.read_line(&mut answer).expect("an answer");
        assert_eq!(answer, lines(&[expected]));
    }
    drop(stdin);
    assert!(child.wait().expect("the program ends").success());
}

#[test]
fn answers_come_while_the_input_is_still_open() {
    let replayed = [[0, 0, 0, 1, 1, 0], [11, 0, 0, 1, 1, 0]];
    answers_while_open(REPLAY, [0; 6], replayed);
    let waited = [[0, 6, 0, 0, 0, 0], [11, 0, 0, 0, 0, 0]];
    answers_while_open(WAITS, [4, 1, 0, 0, 0, 0], waited);
}

#[test]
fn a_closed_pipe_ends_the_program_quietly() {
    for program in [REPLAY, WAITS] {
        let mut child = start(program, &[]);
        drop(child.stdout.take());
        let mut stdin = child.stdin.take().expect("a pipe");
        let zeros = text(&[[0; 6]; 5000]);
        // The program stops reading at some point, so the write may fail.
        let _ = stdin.write_all(&with_table(&ONE, &zeros));
        drop(stdin);
        let output = child.wait_with_output().expect("the program ends");
        assert!(output.status.success());
        assert_eq!(output.stderr, b"");
    }
}

#[test]
fn waits_prints_one_line_for_each_question_byte_by_byte() {
    let questions = [
        [0, 1, 0, 0, 0, 0],
        [3, 1, 0, 0, 0, 0],
        [3, 2, 0, 0, 0, 0],
        [99_999_999, 2, 0, 0, 0, 0],
        [100_000_000, 2, 0, 0, 0, 0],
        [3, 3, 0, 0, 0, 0],
        [3, 2, 0, 0, 1, 0],
    ];
    let expected = "         0        10         0         0         0         0
         0         7         0         0         0         0
         0         3         0         0         0         0
         0         7         0         0         0         0
        13         0         0         0         0         0
        13         0         0         0         0         0
        13         0         0         0         0         0
";
    assert_eq!(waited(&with_table(&TWO, &text(&questions))), expected);
}

#[test]
fn waits_answers_a_bad_line_by_one_11_and_reads_on() {
    let question = lines(&[[4, 1, 0, 0, 0, 0]]);
    let (given, bad) = ([0, 6, 0, 0, 0, 0], [11, 0, 0, 0, 0, 0]);
    let short = format!("{question}short\n\n{question}{}", &question[..60]);
    assert_eq!(
        waited(&with_table(&ONE, short.as_bytes())),
        lines(&[given, bad, bad, given, bad])
    );
    for length in [60, 61, 122, 65_536, 3_000_000] {
        let long = " ".repeat(length);
        let asked = format!("{long}\n{question}{long}");
        assert_eq!(
            waited(&with_table(&ONE, asked.as_bytes())),
            lines(&[bad, given, bad]),
            "{length}"
        );
    }
}

#[test]
fn waits_answers_as_many_questions_as_there_are() {
    let questions: Vec<[i64; 6]> = (0..50_000).map(|t| [t, 2, 0, 0, 0, 0]).collect();
    let answers: Vec<[i64; 6]> = (0..50_000)
        .map(|t| [0, [6, 5, 4, 3, 2, 1, 10, 9, 8, 7][t % 10], 0, 0, 0, 0])
        .collect();
    assert!(waited(&with_table(&TWO, &text(&questions))) == lines(&answers));
}

#[test]
fn dump_prints_the_record_at_the_end() {
    let output = run(DUMP, &[], &with_table(&ONE, &text(&[[0; 6]; 3])));
    assert!(output.status.success());
    let expected = "\
module t 3 current 1 running 0 frame 10 partitions 1 windows 1 channels 0
window 1 start 0 duration 10 partition 1 flag 1
partition 1 mode 1 processes 0 semaphores 0 events 0 buffers 0 blackboards 0 level 0 holder 0
arrival
";
    assert_eq!(String::from_utf8(output.stdout).expect("ASCII"), expected);
    assert_eq!(run(DUMP, &[], b"\n").stdout, b"empty\n");
}

#[test]
fn generate_prints_what_the_library_makes() {
    for (name, kind) in [
        ("events", Kind::Events),
        ("locks", Kind::Locks),
        ("left", Kind::Left),
        ("damaged", Kind::Damaged),
        ("passing", Kind::Passing),
        ("queuing", Kind::Queuing),
        ("questions", Kind::Questions),
    ] {
        let mut expected = Vec::new();
        generate(9, kind, 50, &mut expected).expect("a vector takes every byte");
        let output = run(GENERATE, &["9", name, "50"], b"");
        assert!(output.status.success() && output.stdout == expected);
    }
}

#[test]
fn generate_and_coverage_refuse_other_arguments() {
    for arguments in [
        &["1", "events"][..],
        &["x", "events", "1"],
        &["1", "other", "1"],
    ] {
        let output = run(GENERATE, arguments, b"");
        assert!(!output.status.success() && output.stdout.is_empty());
    }
    for arguments in [
        &["1", "2"][..],
        &["1", "2", "x"],
        &["1", "2", "0", "busy"],
        &["1", "2", "0", "events", "1"],
    ] {
        assert!(!run(COVERAGE, arguments, b"").status.success());
    }
}

#[test]
fn coverage_names_what_was_not_reached() {
    let output = run(COVERAGE, &["1", "1", "0"], b"");
    let printed = String::from_utf8(output.stdout).expect("ASCII");
    assert!(printed.contains("  call 22 READ code 5\n"));
    assert!(printed.contains("  call 0 tick code 13\n"));
    assert!(printed.contains("  call 24 SEND_BUFFER code 7\n"));
    assert!(printed.contains("  sending: by stop, suspended\n"));
    assert!(printed.contains("  call 31 RECEIVE code 7\n"));
    assert!(printed.contains("  sending channel: by restart\n"));
    assert!(printed.contains("  source's restart with receivers waiting: 0\n"));
    assert!(printed.contains("  START: more: in this frame, at a later flagged start\n"));
    assert!(printed.contains("  call 32 LOCK_PREEMPTION code 4\n"));
    assert!(printed.contains("  PERIODIC_WAIT: 5 by the lock\n"));
    assert!(printed.contains("  lock: ended by mode 2\n"));
    assert!(printed.contains("  call 34 GET_TICKS_LEFT code 9\n"));
    assert!(printed.contains("  WARM_START: then a gap\n"));
}

#[test]
fn coverage_of_questions_names_what_was_not_reached() {
    let output = run(COVERAGE, &["1", "1", "0", "questions"], b"");
    let printed = String::from_utf8(output.stdout).expect("ASCII");
    assert!(printed.starts_with("questions 0\n"));
    assert!(printed.contains("  at a start of its own: n = M, M above 1\n"));
    assert!(printed.contains("  in a gap: the start past 99,999,999\n"));
    assert!(printed.contains("  refused: 13, partition 0\n"));
    let output = run(COVERAGE, &["3601", "3640", "300", "questions"], b"");
    let printed = String::from_utf8(output.stdout).expect("ASCII");
    assert!(printed.contains("\nquestions: possible and not reached: 0\n"));
    assert!(printed.contains("\nquestions: reached and not possible: 0\n"));
}

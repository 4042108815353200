//! Answers to lines with questions for waiting times.

mod common;

use common::{plain_lines, searched, text, Pieces, World, END, ONE, TWO};
use separate::generate::{generate, Kind};
use separate::line::Line;
use separate::questions::{answer, waits};
use separate::{Module, Six};

const REFUSED: Six = [13, 0, 0, 0, 0, 0];

fn answered(input: &[u8]) -> Vec<u8> {
    let mut answers = Vec::new();
    waits(input, &mut answers).expect("a vector takes every byte");
    answers
}

#[test]
fn six_numbers_of_which_the_last_four_are_0_get_the_waiting_time() {
    let module = World::new(&TWO).module;
    let ask = |t, partition| answer(&module, Line::Six([t, partition, 0, 0, 0, 0]));
    assert_eq!(ask(0, 1), [0, 10, 0, 0, 0, 0]);
    assert_eq!(ask(9, 1), [0, 1, 0, 0, 0, 0]);
    assert_eq!(ask(0, 2), [0, 6, 0, 0, 0, 0]);
    assert_eq!(ask(END, 2), [0, 7, 0, 0, 0, 0]);
    for (t, partition) in [(-1, 1), (END + 1, 1), (0, -1), (0, 0), (0, 3)] {
        assert_eq!(ask(t, partition), REFUSED);
    }
}

#[test]
fn an_unused_number_that_is_not_0_gets_13_in_each_place() {
    let module = World::new(&TWO).module;
    for place in 2..6 {
        for number in [1, -1, 999_999_999, i64::MIN, i64::MAX] {
            for (t, partition) in [(0, 1), (END, 2), (-1, 1), (0, 3)] {
                let mut six = [t, partition, 0, 0, 0, 0];
                six[place] = number;
                assert_eq!(answer(&module, Line::Six(six)), REFUSED);
            }
        }
    }
}

#[test]
fn a_bad_line_gets_11() {
    for module in [World::new(&ONE).module, Module::empty()] {
        assert_eq!(answer(&module, Line::Bad), [11, 0, 0, 0, 0, 0]);
    }
}

#[test]
fn the_empty_record_refuses_every_question() {
    for six in [[0, 0, 0, 0, 0, 0], [0, 1, 0, 0, 0, 0], [0, 1, 1, 0, 0, 0]] {
        assert_eq!(answer(&Module::empty(), Line::Six(six)), REFUSED);
    }
}

/// The answer by the rules, with the least n found by a search.
fn expected(module: &Module, line: Line) -> Six {
    let Line::Six([t, partition, unused @ ..]) = line else {
        return [11, 0, 0, 0, 0, 0];
    };
    let partitions = 1..=module.partitions().len() as i64;
    if unused == [0; 4] && (0..=END).contains(&t) && partitions.contains(&partition) {
        [0, searched(module, t, partition), 0, 0, 0, 0]
    } else {
        REFUSED
    }
}

#[test]
fn made_up_questions_get_one_line_each_with_the_least_n() {
    for seed in 0..60 {
        let mut input = Vec::new();
        generate(seed, Kind::Questions, 200, &mut input).expect("a vector takes every byte");
        let lines = plain_lines(&input);
        let (table, questions) = lines.split_at(lines.len() - 200);
        let mut table = table.iter().copied();
        let module = separate::table::read(|| table.next()).expect("an accepted table");
        assert_eq!(table.next(), None);
        let answers: Vec<Six> = questions
            .iter()
            .map(|&line| expected(&module, line))
            .collect();
        assert!(answered(&input) == text(&answers), "seed {seed}");
    }
}

#[test]
fn the_answers_do_not_depend_on_how_the_input_arrives() {
    for seed in 0..20 {
        let mut input = Vec::new();
        generate(seed, Kind::Questions, 100, &mut input).expect("a vector takes every byte");
        let whole = answered(&input);
        for size in [1, 7, 60, 61, 62, 1000] {
            let bytes = input.as_slice();
            let mut pieces = Vec::new();
            waits(Pieces { bytes, size }, &mut pieces).expect("a vector takes it");
            assert!(pieces == whole, "seed {seed} in pieces of {size}");
        }
    }
}

#[test]
fn a_refused_table_prints_what_the_replay_prints() {
    for seed in 0..400 {
        let mut input = Vec::new();
        generate(seed, Kind::Table, 0, &mut input).expect("a vector takes every byte");
        let mut replayed = Vec::new();
        separate::replay::replay(input.as_slice(), &mut replayed).expect("a vector takes it");
        // An accepted table alone prints nothing.
        assert_eq!(answered(&input), replayed, "seed {seed}");
    }
}

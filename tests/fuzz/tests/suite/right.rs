//! What a run without a difference has to show.

use crate::common::{Whole, fuzz};
use fuzz::batch::Batch;
use fuzz::compare::expected;
use fuzz::fixed::Fixed;
use fuzz::fuzz::{LINES_FOR_ALL_PLACES, Run};
use fuzz::generator::Generator;
use fuzz::random::Random;
use twin::Replay;

#[test]
fn a_right_replay_passes_and_every_place_is_reached() {
    let run = fuzz(&Whole(|_, _, _| {}), LINES_FOR_ALL_PLACES);
    assert!(run.finding.is_none());
    assert_eq!(run.missed(), Vec::<String>::new());
}

#[test]
fn a_place_not_reached_is_named_in_a_long_run_only() {
    let run = |lines| Run {
        lines,
        ..Run::default()
    };
    assert!(
        run(LINES_FOR_ALL_PLACES)
            .missed()
            .contains(&"Kinds: kept".to_string())
    );
    assert!(run(LINES_FOR_ALL_PLACES - 1).missed().is_empty());
}

#[test]
fn a_seed_gives_the_same_lines_again() {
    let input = |seed, number| Batch::new(seed, number).input;
    assert_eq!(input(7, 3), input(7, 3));
    assert_ne!(input(7, 3), input(8, 3));
    assert_ne!(input(7, 3), input(7, 4));
}

#[test]
fn the_twin_answers_lines_as_it_answers_inputs() {
    let mut generator = Generator::new(Random::new(1));
    generator.unborn(100);
    for _ in 0..100 {
        generator.history(200);
    }
    let (mut replay, mut answers) = (Replay::new(), Vec::new());
    let lines = generator.input.strip_suffix(b"\n").expect("ended");
    for line in lines.split(|byte| *byte == b'\n') {
        replay.answer(line, &mut answers);
    }
    assert!(expected(&generator.input) == answers);
}

#[test]
fn the_fixed_lines_are_few_and_reach_much() {
    let fixed = Fixed::new(4000);
    assert!((3900..=4010).contains(&fixed.lines));
    assert!(fixed.input.len() < 600_000);
    assert!(!fixed.input.ends_with(b"\n"));
    let answers = fixed.answers();
    let count = answers.iter().filter(|byte| **byte == b'\n').count();
    assert_eq!(count as u64, fixed.lines);
    assert_eq!(fixed.missed(), Vec::<String>::new());
}

//! The command line.

use std::path::PathBuf;
use std::time::Duration;

use crate::fixed;
use crate::fuzz::Bounds;

pub const USAGE: &str = "\
usage: tests/fuzz/run [--seconds S] [--lines N] [--seed N] [--replay PROGRAM]
       tests/fuzz/run --fixed N [--answers | --check LINES ANSWERS]
       tests/fuzz/run --help";

pub enum Task {
    Help,
    Fuzz(Bounds),
    PrintLines(u64),
    PrintAnswers(u64),
    Check {
        lines: u64,
        input: PathBuf,
        answers: PathBuf,
    },
}

pub struct Args {
    pub task: Task,
    pub replay: PathBuf,
}

/// Reads the arguments after the program's name, or says what is wrong.
pub fn read(mut words: impl Iterator<Item = String>) -> Result<Args, String> {
    let mut bounds = Bounds {
        seed: 5227,
        time: Duration::from_secs(60),
        lines: u64::MAX,
    };
    let mut replay = PathBuf::from("crates/replay/out/replay");
    let mut fixed_lines = None;
    let mut answers = false;
    let mut check = None;
    let mut help = false;
    while let Some(word) = words.next() {
        let mut value = || words.next().ok_or(format!("{word} lacks its value"));
        match word.as_str() {
            "--seconds" => bounds.time = Duration::from_secs(number(&word, &value()?)?),
            "--lines" => bounds.lines = number(&word, &value()?)?,
            "--seed" => bounds.seed = number(&word, &value()?)?,
            "--replay" => replay = PathBuf::from(value()?),
            "--fixed" => fixed_lines = Some(number(&word, &value()?)?),
            "--answers" => answers = true,
            "--check" => check = Some((PathBuf::from(value()?), PathBuf::from(value()?))),
            "--help" => help = true,
            _ => return Err(format!("unknown option {word}")),
        }
    }
    let lines = fixed_lines.unwrap_or(fixed::LINES);
    let task = match check {
        _ if help => Task::Help,
        Some((input, answers)) => Task::Check {
            lines,
            input,
            answers,
        },
        None if answers => Task::PrintAnswers(lines),
        None if fixed_lines.is_some() => Task::PrintLines(lines),
        None => Task::Fuzz(bounds),
    };
    Ok(Args { task, replay })
}

fn number(option: &str, text: &str) -> Result<u64, String> {
    text.replace([',', '_'], "")
        .parse()
        .map_err(|_| format!("{option}: {text} is not a whole number"))
}

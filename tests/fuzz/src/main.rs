//! The command; README.md says how to use it.

use std::fs;
use std::io::{self, ErrorKind, Write};
use std::path::{self, Path, PathBuf};
use std::process::ExitCode;

use fuzz::args::{self, Args, Task};
use fuzz::fixed::Fixed;
use fuzz::fuzz::{Bounds, LINES_FOR_ALL_PLACES, Run, run};
use fuzz::program::OnDisk;
use fuzz::report;

fn main() -> ExitCode {
    let args = match args::read(std::env::args().skip(1)) {
        Ok(args) => args,
        Err(what) => {
            eprintln!("{what}\n{}", args::USAGE);
            return ExitCode::from(2);
        }
    };
    let mut out = io::stdout();
    let done = perform(args, &mut out).and_then(|status| out.flush().map(|()| status));
    done.unwrap_or_else(|error| {
        // Where nobody reads any more, nobody needs to be told.
        if error.kind() != ErrorKind::BrokenPipe {
            eprintln!("fuzz: cannot write standard output: {error}");
        }
        ExitCode::from(2)
    })
}

/// Fails only where the output can't be written.
fn perform(args: Args, out: &mut impl Write) -> io::Result<ExitCode> {
    match args.task {
        Task::Help => print(format!("{}\n", args::USAGE).as_bytes(), out),
        Task::Fuzz(bounds) => fuzz_program(args.replay, &bounds, out),
        Task::PrintLines(lines) => print_lines(&Fixed::new(lines), out),
        Task::PrintAnswers(lines) => print(&Fixed::new(lines).answers(), out),
        Task::Check {
            lines,
            input,
            answers,
        } => check(lines, &input, &answers, out),
    }
}

fn fuzz_program(program: PathBuf, bounds: &Bounds, out: &mut impl Write) -> io::Result<ExitCode> {
    // A name without a slash would be looked for in PATH when it is started.
    let program = path::absolute(&program).unwrap_or(program);
    if !program.is_file() {
        eprintln!("There is no replay program at {}.", program.display());
        eprintln!("Build it with `rt run < stdin` in crates/replay, or name another with --replay PROGRAM.");
        return Ok(ExitCode::from(2));
    }
    let run = run(&OnDisk { program }, bounds);
    if run.batches == 0 {
        eprintln!("Nothing was compared: with these bounds not one batch is run.");
        eprintln!("Give more --seconds or --lines.");
        return Ok(ExitCode::from(2));
    }
    summary(&run, bounds.seed, out)
}

fn summary(run: &Run, seed: u64, out: &mut impl Write) -> io::Result<ExitCode> {
    let file = format!("difference-{seed}.lines");
    let saved = match &run.finding {
        Some(finding) => fs::write(&file, &finding.input),
        None => Ok(()),
    };
    let seconds = run.elapsed.as_secs_f64();
    write!(out, "{}", run.coverage.text())?;
    writeln!(
        out,
        "seed {seed}: {} lines, {} bytes, {} {} in {seconds:.1} s: {:.0} lines a second",
        run.lines,
        run.bytes,
        run.batches,
        if run.batches == 1 { "batch" } else { "batches" },
        run.lines as f64 / seconds
    )?;
    if let Some(finding) = &run.finding {
        if let Err(error) = saved {
            writeln!(out, "{file} can't be written: {error}")?;
        }
        write!(out, "{}", report::text(finding, seed, &file))?;
        return Ok(ExitCode::FAILURE);
    }
    let missed = run.missed();
    for place in &missed {
        writeln!(out, "not reached: {place}")?;
    }
    if run.lines < LINES_FOR_ALL_PLACES {
        writeln!(out, "places not judged: fewer than 200,000 lines")?;
    }
    if missed.is_empty() {
        writeln!(out, "no difference")?;
        return Ok(ExitCode::SUCCESS);
    }
    Ok(ExitCode::FAILURE)
}

fn print_lines(fixed: &Fixed, out: &mut impl Write) -> io::Result<ExitCode> {
    eprintln!("{} lines, {} bytes", fixed.lines, fixed.input.len());
    for place in fixed.missed() {
        eprintln!("not reached: {place}");
    }
    print(&fixed.input, out)
}

fn print(bytes: &[u8], out: &mut impl Write) -> io::Result<ExitCode> {
    out.write_all(bytes)?;
    Ok(ExitCode::SUCCESS)
}

/// Whether the two files are what the fuzzer and the twin give.
fn check(lines: u64, input: &Path, answers: &Path, out: &mut impl Write) -> io::Result<ExitCode> {
    let fixed = Fixed::new(lines);
    let command = format!("tests/fuzz/run --fixed {lines}");
    let same_input = same(input, &fixed.input, &command, out)?;
    let command = format!("{command} --answers");
    let same_answers = same(answers, &fixed.answers(), &command, out)?;
    if same_input && same_answers {
        Ok(ExitCode::SUCCESS)
    } else {
        Ok(ExitCode::FAILURE)
    }
}

/// The command is the one that makes the file.
fn same(file: &Path, wanted: &[u8], command: &str, out: &mut impl Write) -> io::Result<bool> {
    let found = fs::read(file);
    let file = file.display();
    match &found {
        Ok(bytes) if bytes == wanted => writeln!(out, "{file}: the same")?,
        Ok(_) => writeln!(
            out,
            "{file}: differs from what the fuzzer makes now; to renew it: {command} > {file}"
        )?,
        Err(error) => writeln!(out, "{file}: cannot be read: {error}")?,
    }
    Ok(found.is_ok_and(|bytes| bytes == wanted))
}

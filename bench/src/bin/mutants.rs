//! Shows that the harness can fail: each mutant must be found.
//!
//! Runs `differential`, `simulation` and `isolation`, built with the feature `mutants` and
//! standing beside this program, once without a mutant and once with each of them.

use std::io;
use std::path::{Path, PathBuf};
use std::process::{Command, ExitCode};

use bench::mutants::journal;
use bench::mutants::list::MUTANTS;

const RUNS: &str = "20000";
const UNITS: &str = "4000";
const PAIRS: &str = "4000";

/// The programs that stand beside this one.
struct Programs {
    differential: PathBuf,
    simulation: PathBuf,
    isolation: PathBuf,
    journal: PathBuf,
}

/// What a program said: whether it went through, and about what it found.
struct Verdict {
    passed: bool,
    difference: Option<String>,
}

fn main() -> io::Result<ExitCode> {
    let here = std::env::current_exe()?;
    let beside = |name| here.with_file_name(name);
    let programs = Programs {
        differential: beside("differential"),
        simulation: beside("simulation"),
        isolation: beside("isolation"),
        journal: beside("model_journal"),
    };
    let unnoticed =
        without_mutant(&programs)? + mutants_of_calls(&programs)? + mutants_of_journals(&programs)?;
    println!("{} mutants, {unnoticed} wrong verdicts", MUTANTS.len() + journal::MUTANTS.len());
    Ok(if unnoticed == 0 { ExitCode::SUCCESS } else { ExitCode::FAILURE })
}

/// Without a mutant all programs must pass.
fn without_mutant(programs: &Programs) -> io::Result<usize> {
    let journal = programs.journal.as_os_str();
    let verdicts = [
        run(Command::new(&programs.differential).arg(RUNS).env("JOURNAL", journal))?,
        run(Command::new(&programs.simulation).arg(UNITS))?,
        run(Command::new(&programs.isolation).arg(PAIRS))?,
    ];
    for verdict in &verdicts {
        println!("no mutant: {}", if verdict.passed { "passed" } else { "NOT PASSED" });
    }
    Ok(verdicts.iter().filter(|verdict| !verdict.passed).count())
}

/// The differential must find each mutant, the others those that show in them.
fn mutants_of_calls(programs: &Programs) -> io::Result<usize> {
    let mut unnoticed = 0;
    for (place, (_, what, shown)) in MUTANTS.iter().enumerate() {
        let number = (place + 1).to_string();
        println!("mutant {number}: {what}");
        let with_mutant =
            |program: &Path, amount| run(Command::new(program).arg(amount).env("MUTANT", &number));
        let found = with_mutant(&programs.differential, RUNS)?;
        unnoticed += report("differential", true, found);
        let found = with_mutant(&programs.simulation, UNITS)?;
        unnoticed += report("simulation", shown.in_simulation, found);
        let found = with_mutant(&programs.isolation, PAIRS)?;
        unnoticed += report("isolation", shown.in_isolation, found);
    }
    Ok(unnoticed)
}

/// The differential must find each mutant of the journal program.
fn mutants_of_journals(programs: &Programs) -> io::Result<usize> {
    let mut unnoticed = 0;
    for (place, what) in journal::MUTANTS.iter().enumerate() {
        let number = (place + 1).to_string();
        println!("journal mutant {number}: {what}");
        let verdict = run(Command::new(&programs.differential)
            .arg(RUNS)
            .env("JOURNAL", &programs.journal)
            .env("JOURNAL_MUTANT", &number))?;
        unnoticed += report("differential", true, verdict);
    }
    Ok(unnoticed)
}

/// Prints a verdict; 1 if it must find the mutant and did not.
fn report(program: &str, must_find: bool, verdict: Verdict) -> usize {
    match verdict.difference {
        Some(line) => {
            println!("  {program}: {}", shortened(&line));
            0
        }
        None if must_find => {
            println!("  {program}: NOT FOUND");
            1
        }
        None => {
            println!("  {program}: does not show there");
            0
        }
    }
}

fn shortened(line: &str) -> String {
    line.chars().take(110).collect()
}

fn run(command: &mut Command) -> io::Result<Verdict> {
    let output = command.output()?;
    let text = String::from_utf8_lossy(&output.stdout);
    let difference = text.lines().find(|line| line.starts_with("DIFFERENCE"));
    Ok(Verdict { passed: output.status.success(), difference: difference.map(str::to_string) })
}

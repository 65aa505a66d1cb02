//! Compares the analyser's C interface with an independent flow solver, on random flat drawings and damaged sheets, and plays sessions of two parties on them:
//! against a model that keeps lists, and in pairs of runs that a party must not be able to tell apart.
//!
//!     compare [--seed N] [--count N | --seconds N] [--from N] [--sheets FOLDER] [--questions FOLDER [--program PATH]] [--fault NAME] [--corpus FILE]
//!
//! --sheets compares the sheets of a folder first: its file cases.txt has a line for each, with its name, counts, ends and largest value (see bench/sheets).
//! --questions runs the program key on the files *.question of a folder, and compares what it prints; files *.page are pages, with their answers.
//! --corpus writes every call of the library with what it was lent and left, for tests/machines.
//! The same seed and count give the same run. A drawing is made from the seed and its number alone: --from N begins with that number. --fault shows how a
//! deliberate fault is caught (any other word lists them). It ends with 'N compared, 0 wrong' and status 0, or with the drawing and the difference and status 1.
#[allow(dead_code)]
mod abi;
mod capture;
mod chance;
mod check;
mod corpus;
mod damage;
mod dimacs;
mod drawing;
mod faults;
mod flow;
mod grid;
mod grow;
mod judge;
mod levels;
mod pairs;
#[cfg(test)]
mod paper;
mod program;
mod progress;
mod session_faults;
mod sessions;
mod unit;

use capture::CaptureFault;
use check::{compare_drawing, compare_sheet, Tally, Wrong};
use drawing::Drawing;
use faults::{Fault, Library};
use grow::Grown;
use program::{compare_pages, compare_program};
use progress::Progress;
use std::process::ExitCode;
use std::time::{Duration, Instant};

struct Switches {
    seed: u64,
    first: u64,
    count: u64,
    seconds: Option<u64>,
    sheets: Option<String>,
    questions: Option<String>,
    program: String,
    fault: Option<Fault>,
    capture_fault: Option<CaptureFault>,
    corpus: Option<String>,
}

const USAGE: &str =
    "compare [--seed N] [--count N | --seconds N] [--from N] [--sheets FOLDER] [--questions FOLDER [--program PATH]] [--fault NAME] [--corpus FILE]";

fn switches() -> Result<Switches, String> {
    let mut switches = Switches {
        seed: 1,
        first: 0,
        count: 1000,
        seconds: None,
        sheets: None,
        questions: None,
        program: "target/bin/key".to_string(),
        fault: None,
        capture_fault: None,
        corpus: None,
    };
    let words: Vec<String> = std::env::args().skip(1).collect();
    for pair in words.chunks(2) {
        let [name, value] = pair else { return Err(USAGE.to_string()) };
        let number = || value.parse::<u64>().map_err(|_| format!("{name} {value}: no number\n{USAGE}"));
        match name.as_str() {
            "--seed" => switches.seed = number()?,
            "--from" => switches.first = number()?,
            "--count" => (switches.count, switches.seconds) = (number()?, None),
            "--seconds" => switches.seconds = Some(number()?),
            "--questions" => switches.questions = Some(value.clone()),
            "--program" => switches.program = value.clone(),
            "--sheets" => switches.sheets = Some(value.clone()),
            "--corpus" => switches.corpus = Some(value.clone()),
            "--fault" => match capture::FAULTS.into_iter().find(|fault| format!("{fault:?}") == *value) {
                Some(fault) => switches.capture_fault = Some(fault),
                None => switches.fault = Some(fault(value)?),
            },
            _ => return Err(USAGE.to_string()),
        }
    }
    Ok(switches)
}

fn fault(name: &str) -> Result<Fault, String> {
    let known = faults::ALL.iter().find(|(fault, _)| format!("{fault:?}") == name);
    known.map(|(fault, _)| *fault).ok_or_else(|| faults::ALL.iter().map(|(fault, says)| format!("{fault:?}: {says}\n")).collect())
}

fn main() -> ExitCode {
    let switches = match switches() {
        Ok(switches) => switches,
        Err(text) => {
            eprintln!("{}", text.trim_end());
            return ExitCode::from(2);
        }
    };
    println!("seed {}", switches.seed);
    if let Some(Err(error)) = switches.corpus.as_deref().map(corpus::begin) {
        eprintln!("{}: {error}", switches.corpus.unwrap_or_default());
        return ExitCode::from(2);
    }
    let library = Library { fault: switches.fault };
    let mut tally = Tally::default();
    let mut kept = switches.sheets.iter().try_for_each(|folder| stored(&library, folder, &mut tally));
    if kept.is_ok() {
        kept = switches.questions.iter().try_for_each(|folder| compare_program(&library, &switches.program, folder, &mut tally));
    }
    if kept.is_ok() {
        kept = switches.questions.iter().try_for_each(|folder| compare_pages(&library, folder, &mut tally));
    }
    if let Err(wrong) = kept {
        println!("{}{} compared, 1 wrong", wrong.0, tally.compared() + 1);
        return ExitCode::FAILURE;
    }
    let start = Instant::now();
    let mut number = switches.first;
    let goes_on = |number: u64| match switches.seconds {
        Some(seconds) => start.elapsed() < Duration::from_secs(seconds),
        None => number - switches.first < switches.count,
    };
    let mut progress = Progress::new();
    while goes_on(number) {
        progress.tell(number - switches.first, tally.compared());
        let compared = compare_drawing(&library, switches.seed, number, &mut tally);
        if let Err(wrong) = compared.and_then(|()| capture::compare(switches.capture_fault, switches.seed, number, &mut tally)) {
            progress.end();
            println!("{}{} compared, 1 wrong", wrong.0, tally.compared() + 1);
            return ExitCode::FAILURE;
        }
        number += 1;
    }
    progress.end();
    print_counts(&tally);
    if switches.seconds.is_some() {
        let drawings = number - switches.first;
        println!(
            "{} drawings a second; the same run: --seed {} --from {} --count {drawings}",
            (drawings as f64 / start.elapsed().as_secs_f64()).round(),
            switches.seed,
            switches.first
        );
    }
    if let Some(path) = &switches.corpus {
        match corpus::end() {
            Ok(calls) => println!("{path}: {calls} calls"),
            Err(error) => {
                eprintln!("{path}: {error}");
                return ExitCode::from(2);
            }
        }
    }
    println!("{} compared, 0 wrong", tally.compared());
    ExitCode::SUCCESS
}

/// The sheets of a folder, each with the ends and the largest value that its file cases.txt says: sheet nodes channels faces headgate outfall largest.
fn stored(library: &Library, folder: &str, tally: &mut Tally) -> Result<(), Wrong> {
    let missing = |what: String| Wrong(format!("{folder}: {what}\n"));
    let cases = std::fs::read_to_string(format!("{folder}/cases.txt")).map_err(|error| missing(format!("cases.txt: {error}")))?;
    for line in cases.lines().filter(|line| !line.starts_with('#')) {
        let words: Vec<&str> = line.split_whitespace().collect();
        let [name, _, _, _, source, sink, largest] = words[..] else { return Err(missing(format!("cases.txt: {line}"))) };
        let bytes = std::fs::read(format!("{folder}/{name}.sheet")).map_err(|error| missing(format!("{name}: {error}")))?;
        let drawing = Drawing::of_bytes(&bytes).ok_or_else(|| missing(format!("{name} is no sheet")))?;
        let node = |word: &str| word.parse::<usize>().map_err(|_| missing(format!("cases.txt: {line}")));
        let grown = Grown { name: "stored", drawing, source: node(source)?, sink: node(sink)? };
        compare_sheet(library, name, &grown, largest.parse().ok(), tally)?;
    }
    Ok(())
}

fn print_counts(tally: &Tally) {
    let shapes: Vec<String> = tally.drawings.iter().map(|(name, count)| format!("{name} {count}")).collect();
    println!("drawings {}: {}", tally.drawings.values().sum::<u64>(), shapes.join(", "));
    let mut names: Vec<&str> = tally.answers.keys().map(|key| key.0).collect();
    names.dedup();
    for name in names {
        let of = tally.answers.iter().filter(|(key, _)| key.0 == name);
        let counts: Vec<String> =
            of.map(|(key, count)| if key.1 == 0 { format!("{} {count}", key.2) } else { format!("refused {}: {count}", key.1) }).collect();
        println!("{name}: {}", counts.join(", "));
    }
}

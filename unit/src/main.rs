//! Every operation of the unit as a command: `tools/unit --help`. Nothing is decided here: the proved library answers, and this shows it.
#[cfg(feature = "unlinked")]
mod again;
mod answer;
mod capture;
mod class;
mod commands;
mod csv;
mod dimacs;
mod hints;
mod json;
mod library;
mod lists;
mod packing;
mod picture;
mod planar;
mod progress;
mod refusals;
mod session;
mod sheets;
mod table;
mod text;
mod words;

use crate::answer::{Answer, Failure};
use crate::json::Json;
use crate::library::Refusal;
use crate::text::{fault, system, Fault, Parsed};
use crate::words::{Wanted, Words};
use std::io::Write;
use std::process::ExitCode;

const REFUSED: u8 = 1;
const BAD_USE: u8 = 2;

fn main() -> ExitCode {
    #[cfg(feature = "unlinked")]
    again::begin();
    let arguments: Vec<String> = std::env::args_os().skip(1).map(|word| word.to_string_lossy().into_owned()).collect();
    match words::parse(arguments).and_then(done) {
        Ok(status) => ExitCode::from(status),
        Err(Fault(what)) => {
            // Where nobody hears it the status still tells.
            let _ = writeln!(std::io::stderr(), "tools/unit: {what}");
            ExitCode::from(BAD_USE)
        }
    }
}

fn done(wanted: Wanted) -> Parsed<u8> {
    let words = match wanted {
        Wanted::Help(command) => return say(table::help(command).as_bytes()).map(|_| 0),
        Wanted::Version => return say(format!("tools/unit {}\n", bindings::VERSION).as_bytes()).map(|_| 0),
        Wanted::Run(words) => words,
    };
    match progress::during(words.command.operation, || (words.command.run)(&words)) {
        Ok(answer) => answered(&words, answer),
        Err(Failure::Fault(fault)) => Err(fault),
        Err(Failure::Refusal(refusal)) => refused(&words, refusal),
    }
}

fn refused(words: &Words, refusal: Refusal) -> Parsed<u8> {
    let hint = words.kept.get().and_then(|sheet| hints::of(sheet, refusal));
    let name = words.command.name;
    let text = if words.json {
        let mut fields = answer::refusal_json(refusal, name);
        fields.extend(hint.map(|hint| ("hint", hint.as_str().into())));
        line(words, fields, &[])
    } else {
        answer::refusal_text(refusal, name) + &hint.map_or(String::new(), |hint| format!("hint: {hint}\n"))
    };
    say(text.as_bytes()).map(|_| REFUSED)
}

/// The answer first: it is said whether or not a picture of it can be made.
fn answered(words: &Words, answer: Answer) -> Parsed<u8> {
    let status = if answer.refused { REFUSED } else { 0 };
    let text = if words.json { line(words, answer.json, &answer.notes) } else { answer.text + &noted(&answer.notes) };
    match (&words.out, answer.bytes) {
        (None, Some(bytes)) if answer.raw && !words.json => say(&bytes)?,
        (None, _) => say(text.as_bytes())?,
        (Some(file), Some(bytes)) => keep(file, &bytes)?,
        (Some(_), None) => return fault(words.command.name, "it has no --out"),
    }
    let Some(file) = &words.picture else {
        return Ok(status);
    };
    if answer.views.is_empty() {
        return fault(words.command.name, "there is nothing to see, so no picture");
    }
    let views = if words.exam { answer.views.into_iter().map(|view| view.exam(words.title())).collect() } else { answer.views };
    let drawn = progress::during("drawing", || picture::draw(&views))?;
    keep(file, &drawn).map(|_| status)
}

fn noted(notes: &[String]) -> String {
    notes.iter().map(|note| format!("note {note}\n")).collect()
}

fn line(words: &Words, mut fields: Vec<(&'static str, Json)>, notes: &[String]) -> String {
    fields.insert(0, ("operation", words.command.operation.into()));
    if !notes.is_empty() {
        fields.push(("notes", Json::texts(notes)));
    }
    format!("{}\n", Json::Object(fields))
}

fn keep(file: &str, bytes: &[u8]) -> Parsed<()> {
    std::fs::write(file, bytes).or_else(|error| fault(file, system(&error)))
}

fn say(bytes: &[u8]) -> Parsed<()> {
    let mut out = std::io::stdout();
    out.write_all(bytes).and_then(|_| out.flush()).or_else(|error| fault("standard output", system(&error)))
}

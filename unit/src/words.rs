//! The words of a call: which command, its options, the rest.
use crate::sheets::{Question, Sheet};
use crate::table::{Command, COMMANDS};
use crate::text::{fault, long, short, Fault, Field, Parsed};

pub struct Words {
    pub command: &'static Command,
    pub given: Vec<String>,
    pub json: bool,
    pub csv: bool,
    pub picture: Option<String>,
    /// Whether the picture is an exam page.
    pub exam: bool,
    pub out: Option<String>,
    /// The sheet that was read, for a hint where it is refused.
    pub kept: std::cell::OnceCell<Sheet>,
}

pub enum Wanted {
    Run(Words),
    Help(Option<&'static Command>),
    Version,
}

pub fn parse(arguments: Vec<String>) -> Parsed<Wanted> {
    let mut rest = vec![];
    let (mut json, mut csv, mut help, mut picture, mut style, mut out) = (false, false, false, None, None, None);
    let mut arguments = arguments.into_iter();
    while let Some(word) = arguments.next() {
        match word.as_str() {
            "--json" => json = true,
            "--csv" => csv = true,
            "--help" | "-h" => help = true,
            "--version" => return Ok(Wanted::Version),
            "--picture" => picture = Some(file_behind(&word, arguments.next())?),
            "--style" => style = Some(arguments.next().unwrap_or_default()),
            "--out" => out = Some(file_behind(&word, arguments.next())?),
            _ if word.starts_with("--") => return bad(format!("no option {word}")),
            _ => rest.push(word),
        }
    }
    if rest.is_empty() {
        return if help { Ok(Wanted::Help(None)) } else { bad("no command".to_string()) };
    }
    let name = rest.remove(0);
    let Some(command) = COMMANDS.iter().find(|command| command.name == name) else { return bad(format!("no command {name}")) };
    if help {
        return Ok(Wanted::Help(Some(command)));
    }
    let words = Words { command, given: rest, json, csv, exam: exam(&name, style, picture.is_some())?, picture, out, kept: Default::default() };
    words.check()?;
    Ok(Wanted::Run(words))
}

fn bad<T>(what: String) -> Parsed<T> {
    Err(Fault(format!("{what}; 'tools/unit --help' lists the commands and their options")))
}

/// Commands whose picture can be an exam page: it has what is asked, and no answer.
const EXAMS: [&str; 6] = ["read", "write", "practice", "solve", "key", "page"];

fn exam(name: &str, style: Option<String>, drawn: bool) -> Parsed<bool> {
    match style.as_deref() {
        None => Ok(false),
        Some("key" | "exam") if !drawn => fault(name, "--style is of a picture: give --picture FILE too"),
        Some("key") => Ok(false),
        Some("exam") if EXAMS.contains(&name) => Ok(true),
        Some("exam") => fault(name, format!("--style exam is of {}", EXAMS.join(", "))),
        Some(_) => bad("--style needs key or exam behind it".to_string()),
    }
}

fn file_behind(option: &str, word: Option<String>) -> Parsed<String> {
    word.filter(|word| !word.is_empty()).ok_or(Fault(format!("{option} needs the name of a file behind it")))
}

impl Words {
    fn check(&self) -> Parsed<()> {
        let Command { name, words, counts, .. } = self.command;
        if !counts.contains(&self.given.len()) {
            return fault(name, format!("use: tools/unit {name} {words}"));
        }
        if self.csv && (*name != "class" || self.json) {
            return fault(name, "--csv is of class, and not with --json");
        }
        if self.given.iter().filter(|word| *word == "-").count() > 1 {
            return fault(name, "standard input can be one file only");
        }
        Ok(())
    }

    pub fn last(&self) -> &str {
        &self.given[self.given.len() - 1]
    }

    /// The name of the sheet without folder and ending, as on the examiner's page.
    pub fn title(&self) -> String {
        let file = self.given[0].rsplit('/').next().unwrap_or_default();
        let (name, ending) = file.rsplit_once('.').unwrap_or((file, ""));
        let name = if ending.bytes().all(|byte| byte.is_ascii_lowercase()) { name } else { file };
        if matches!(name, "" | "-") || self.command.name == "practice" { "drawing" } else { name }.to_string()
    }

    pub fn number(&self, at: usize, field: &Field) -> Parsed<i64> {
        field.number(self.command.name, &self.given[at])
    }

    pub fn sheet(&self) -> Parsed<Sheet> {
        let sheet = Sheet::read(&self.given[0])?;
        Ok(self.kept.get_or_init(|| sheet).clone())
    }

    /// A sheet and a question on it: the one behind the name of the sheet, or the sheet's own. `behind` words follow in either case.
    pub fn question(&self, behind: usize) -> Parsed<(Sheet, Question)> {
        let sheet = self.sheet()?;
        let given = self.given.len() - 1 - behind;
        let question = match (given, sheet.question) {
            (0, Some(question)) => question,
            (0, None) => return fault(&sheet.name, "it has no question: give one behind the sheet"),
            _ => Question {
                headgate: self.number(1, &short("headgate"))? as u16,
                outfall: self.number(2, &short("outfall"))? as u16,
                delivery: if given == 3 { self.number(3, &long("delivery"))? as i32 } else { 0 },
            },
        };
        Ok((sheet, question))
    }
}

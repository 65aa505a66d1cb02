//! Lists from files: settings and levels one to a line, the nodes of a set, the questions of a page.
use crate::sheets::{Question, QUESTION};
use crate::text::{long, short, Field, File, Line, Parsed};

/// Words that begin a line which is not part of a list of numbers: what the command itself prints around settings and levels.
const AROUND: [&str; 9] = ["can", "cannot", "largest", "least", "limit", "none", "note", "set", "value"];

/// One number a line, in order, or its place in the order before it: so what a command prints is a list for the next one.
fn numbered(name: &str, place: &str, what: &'static str) -> Parsed<Vec<i32>> {
    let file = File::read(name)?;
    parse_numbered(&file, place, &long(what))
}

fn parse_numbered(file: &File, place: &str, field: &Field) -> Parsed<Vec<i32>> {
    let mut found = vec![];
    for line in file.lines()?.iter().filter(|line| !AROUND.contains(&line.words[0])) {
        let number = match line.words.len() {
            1 => line.number(field, 0)?,
            2 if line.words[0] == found.len().to_string() => line.number(field, 1)?,
            2 => return line.fault(format!("{place} {}, where {place} {} is due", line.words[0], found.len())),
            _ => return line.fault(format!("a line has a {0}, or a {place} and a {0}, here are {1} words", field.name, line.words.len())),
        };
        found.push(number as i32);
    }
    Ok(found)
}

pub fn settings(name: &str) -> Parsed<Vec<i32>> {
    numbered(name, "channel", "setting")
}

pub fn levels(name: &str) -> Parsed<Vec<i32>> {
    numbered(name, "face", "level")
}

/// What is said of numbers behind those that there is a place for, such as `channels` of a sheet.
pub fn surplus(given: usize, what: &str, places: usize, place: &str) -> Vec<String> {
    if given > places {
        vec![format!("{given} {what} were given, and the sheet has {places} {place}: the last {} were passed over", given - places)]
    } else {
        vec![]
    }
}

/// The words of a set: nodes, as many on a line as there are, behind the word `set` or not.
pub fn set(name: &str) -> Parsed<Vec<u64>> {
    parse_set(&File::read(name)?)
}

fn parse_set(file: &File) -> Parsed<Vec<u64>> {
    let lines = file.lines()?;
    let told = lines.iter().any(|line| line.words[0] == "set");
    let mut nodes = vec![];
    for line in lines.iter().filter(|line| !told || line.words[0] == "set") {
        nodes.extend(nodes_of(line, told as usize)?);
    }
    Ok(words_of(&nodes))
}

const NODE: Field = short("node");

fn nodes_of(line: &Line, from: usize) -> Parsed<Vec<u16>> {
    (from..line.words.len()).map(|at| Ok(line.number(&NODE, at)? as u16)).collect()
}

/// Nine words at least, as the largest drawing needs, and more where a node lies beyond: the unit passes over those bits.
pub fn words_of(nodes: &[u16]) -> Vec<u64> {
    let most = nodes.iter().max().map_or(0, |&node| node as usize / 64 + 1);
    let mut words = vec![0; most.max(crate::library::SET_WORDS)];
    for &node in nodes {
        words[node as usize / 64] |= 1 << (node % 64);
    }
    words
}

/// The questions of a page: `question HEADGATE OUTFALL DELIVERY`. What stands behind a colon is passed over, and so is a line `sheet NAME`.
pub fn questions(name: &str) -> Parsed<Vec<Question>> {
    parse_questions(&File::read(name)?)
}

fn parse_questions(file: &File) -> Parsed<Vec<Question>> {
    let mut found = vec![];
    for mut line in file.lines()? {
        if line.words[0] == "sheet" {
            continue;
        }
        if line.words[0] != "question" {
            return line.fault("no line 'question HEADGATE OUTFALL DELIVERY'");
        }
        if let Some(at) = line.words.iter().position(|word| word.ends_with(':')) {
            line.words.truncate(at + 1);
            line.words[at] = line.words[at].trim_end_matches(':');
        }
        found.push(Question::from(&line.numbers("a question", 1, &QUESTION)?));
    }
    Ok(found)
}

#[cfg(test)]
mod tests {
    use super::*;
    use crate::text::{file, Fault};

    #[test]
    fn settings_stand_alone_or_behind_their_channel() {
        let list = |text: &str| parse_numbered(&file(text), "channel", &long("setting"));
        for text in ["5\n-3\n4\n", "can 6\n0 5\n1 -3\n2 4\n", "0 5\n-3\n2 4\nset 0 1\n"] {
            assert_eq!(list(text), Ok(vec![5, -3, 4]), "{text}");
        }
        assert_eq!(list("0 5\n2 4\n"), Err(Fault("f:2: channel 2, where channel 1 is due".to_string())));
        assert_eq!(list("1 2 3\n"), Err(Fault("f:1: a line has a setting, or a channel and a setting, here are 3 words".to_string())));
        assert_eq!(list("x\n"), Err(Fault("f:1: setting: 'x' is no number from -2147483648 to 2147483647".to_string())));
    }

    #[test]
    fn a_set_is_nodes_or_a_line_of_an_answer() {
        let words = |text: &str| parse_set(&file(text)).unwrap();
        assert_eq!(words("0 65\n3\n")[..3], [9, 2, 0]);
        assert_eq!(words("cannot 13\nset 0 65\nsize 2\n")[..2], [1, 2]);
        assert_eq!(words("set\n"), vec![0; 9]);
        assert_eq!(words("65535\n").len(), 1024);
    }

    #[test]
    fn a_page_may_have_its_answers() {
        let found = parse_questions(&file("sheet a\nquestion 0 3 -5: can 2 3\nquestion 1 2 3\n")).unwrap();
        assert_eq!(found, [Question { headgate: 0, outfall: 3, delivery: -5 }, Question { headgate: 1, outfall: 2, delivery: 3 }]);
        assert_eq!(parse_questions(&file("0 1 2\n")), Err(Fault("f:1: no line 'question HEADGATE OUTFALL DELIVERY'".to_string())));
    }
}

//! A class of papers (document 02, Job 14) and its points. A paper is a line `NAME: SETTING .. | CLAIM | NODE ..`, or a row of a CSV file with the columns
//! name, settings, claim and set. A part that cannot be read, or that no sheet could have, earns nothing and is named in a note; the other parts are marked.
use crate::answer::{number, Answer, Outcome};
use crate::commands::ends_of;
use crate::csv;
use crate::json::Json;
use crate::library::{self, told, Ends, Told};
use crate::lists::words_of;
use crate::progress;
use crate::text::{fault, long, short, Field, File, Parsed};
use crate::words::Words;
use bindings::analyser_examine;

/// A paper as it was handed in: its place in the file, its name, and the words of its parts where it has them.
struct Given {
    place: String,
    name: String,
    parts: [Option<String>; 3],
    notes: Vec<String>,
}

/// A paper as it is marked. Settings, claim and set are those of a wrong answer where a part could not be read.
#[derive(Clone, Debug, PartialEq)]
struct Paper {
    name: String,
    settings: Vec<i32>,
    /// The largest delivery claimed; none, where it says that nothing can be delivered.
    claim: Option<i32>,
    /// As many words as the sheet's nodes need.
    set: Vec<u64>,
    notes: Vec<String>,
}

const FORM: &str = "'NAME: SETTING .. | CLAIM | NODE ..'";
const SETTING: Field = long("setting");
const NODE: Field = short("node");
const CLAIM: Field = long("claim");
/// No limit lets this setting pass, and no largest delivery is so great.
const WRONG: i32 = i32::MAX;

/// How many channels and nodes the sheet has.
#[derive(Clone, Copy)]
struct Counts {
    channels: usize,
    nodes: usize,
}

impl Counts {
    fn words(&self) -> usize {
        self.nodes.div_ceil(64)
    }
}

fn numbers(field: &Field, text: &str) -> Result<Vec<i64>, String> {
    text.split_whitespace().map(|word| field.number("", word).map_err(|fault| fault.0.trim_start_matches(": ").to_string())).collect()
}

fn settings_of(text: &str, counts: Counts) -> Result<Vec<i32>, String> {
    let found = numbers(&SETTING, text)?;
    if found.len() != counts.channels {
        return Err(format!("settings: here are {}, and the sheet has {} channels", found.len(), counts.channels));
    }
    Ok(found.into_iter().map(|number| number as i32).collect())
}

fn claim_of(text: &str) -> Result<Option<i32>, String> {
    match text.split_whitespace().collect::<Vec<_>>()[..] {
        [word] if word.eq_ignore_ascii_case("none") => Ok(None),
        [word] => Ok(Some(numbers(&CLAIM, word)?[0] as i32)),
        [] => Err("claim: there is none; it is a number or 'none'".to_string()),
        _ => Err("claim: more than one word; it is a number or 'none'".to_string()),
    }
}

fn set_of(text: &str, counts: Counts) -> Result<Vec<u64>, String> {
    let nodes: Vec<u16> = numbers(&NODE, text)?.into_iter().map(|number| number as u16).collect();
    match nodes.iter().find(|&&node| node as usize >= counts.nodes) {
        Some(node) => Err(format!("set: there is no node {node}, the last is {}", counts.nodes - 1)),
        None => Ok(words_of(&nodes)[..counts.words()].to_vec()),
    }
}

impl Given {
    fn paper(self, counts: Counts) -> Paper {
        let Given { place, name, parts: [settings, claim, set], mut notes } = self;
        let missing = |what: &str| format!("{what}: the part is missing");
        let settings = settings.ok_or(missing("settings")).and_then(|text| settings_of(&text, counts));
        let claim = claim.ok_or(missing("claim")).and_then(|text| claim_of(&text));
        let set = set.ok_or(missing("set")).and_then(|text| set_of(&text, counts));
        notes.extend([settings.as_ref().err(), claim.as_ref().err(), set.as_ref().err()].into_iter().flatten().cloned());
        Paper {
            settings: settings.unwrap_or(vec![WRONG; counts.channels]),
            claim: claim.unwrap_or(Some(WRONG)),
            set: set.unwrap_or(vec![0; counts.words()]),
            notes: notes.into_iter().map(|what| format!("{place}: {name}: {what}")).collect(),
            name,
        }
    }
}

/// The papers of a file, a CSV or one paper to a line. It is no class at all where it is no text, or where no line has a name or parts.
fn given(file: &File) -> Parsed<Vec<Given>> {
    if file.data.contains(&0) {
        return file.fault("this is no text, so no class");
    }
    // a name may be in the letters of an older program: every byte is then a letter of Latin-1
    let text = String::from_utf8(file.data.clone()).unwrap_or_else(|_| file.data.iter().map(|&byte| char::from(byte)).collect());
    let text = text.trim_start_matches('\u{feff}');
    match csv::mark_of(text) {
        Some(mark) => of_rows(file, &csv::rows(text, mark)),
        None => of_lines(file, text),
    }
}

fn of_lines(file: &File, text: &str) -> Parsed<Vec<Given>> {
    let lines = text.split('\n').enumerate().map(|(at, line)| (at + 1, line.split('#').next().unwrap_or("").trim()));
    let lines: Vec<(usize, &str)> = lines.filter(|(_, line)| !line.is_empty()).collect();
    match lines.first() {
        Some((at, _)) if !lines.iter().any(|(_, line)| line.contains([':', '|'])) => fault(&format!("{}:{at}", file.name), format!("not {FORM}, so no class")),
        _ => Ok(lines.into_iter().map(|(at, line)| of_line(file, at, line)).collect()),
    }
}

fn of_line(file: &File, at: usize, line: &str) -> Given {
    let (name, rest) = line.split_once(':').unwrap_or(("", line));
    let mut parts = rest.split('|').map(str::to_string);
    let parts_of_it = [parts.next(), parts.next(), parts.next()];
    let mut notes = vec![];
    if name.trim().is_empty() {
        notes.push(format!("no name: not {FORM}"));
    }
    if parts.next().is_some() {
        notes.push("what stands behind the third part is passed over".to_string());
    }
    let name = if name.trim().is_empty() { format!("line {at}") } else { name.trim().to_string() };
    Given { place: format!("{}:{at}", file.name), name, parts: parts_of_it, notes }
}

const COLUMNS: [&str; 4] = ["name", "settings", "claim", "set"];

fn of_rows(file: &File, rows: &[(usize, Vec<String>)]) -> Parsed<Vec<Given>> {
    let [head, rows @ ..] = rows else { return Ok(vec![]) };
    let mut columns = [0; 4];
    for (column, name) in columns.iter_mut().zip(COLUMNS) {
        match head.1.iter().position(|cell| cell.trim().eq_ignore_ascii_case(name)) {
            Some(at) => *column = at,
            None => return fault(&format!("{}:{}", file.name, head.0), format!("no column '{name}', so no class: it has {}", COLUMNS.join(", "))),
        }
    }
    Ok(rows.iter().map(|(at, cells)| of_row(file, *at, cells, columns)).collect())
}

fn of_row(file: &File, at: usize, cells: &[String], [name, settings, claim, set]: [usize; 4]) -> Given {
    let name = cells.get(name).map_or("", |cell| cell.trim());
    let notes = if name.is_empty() { vec!["no name".to_string()] } else { vec![] };
    let name = if name.is_empty() { format!("line {at}") } else { name.to_string() };
    Given { place: format!("{}:{at}", file.name), name, parts: [settings, claim, set].map(|column| cells.get(column).cloned()), notes }
}

/// What a class comes to; without papers there is no least and no greatest.
#[derive(Default)]
struct Class {
    points: Vec<u8>,
    papers: u16,
    sum: u16,
    least: u8,
    greatest: u8,
}

/// A class to be marked on a sheet.
struct Desk<'a> {
    sheet: &'a [u8],
    ends: Ends,
    delivery: i32,
}

impl Desk<'_> {
    /// The claim of a paper is a number, or none where its kind is 1. Each paper has its stretch of the settings and of the sets.
    #[rustfmt::skip]
    fn examine(&self, papers: &[Paper]) -> Told<Class> {
        let claims: Vec<i32> = papers.iter().map(|paper| paper.claim.unwrap_or(0)).collect();
        let kinds: Vec<u8> = papers.iter().map(|paper| paper.claim.is_none() as u8).collect();
        let settings: Vec<i32> = papers.iter().flat_map(|paper| paper.settings.iter().copied()).collect();
        let sets: Vec<u64> = papers.iter().flat_map(|paper| paper.set.iter().copied()).collect();
        let mut class = Class { points: vec![0; papers.len()], ..Class::default() };
        told(|place| unsafe {
            analyser_examine(self.sheet.as_ptr(), self.sheet.len(), self.ends.0, self.ends.1, self.delivery, claims.as_ptr(), claims.len(),
                kinds.as_ptr(), kinds.len(), settings.as_ptr(), settings.len(), sets.as_ptr(), sets.len(), class.points.as_mut_ptr(), class.points.len(),
                &mut class.papers, &mut class.sum, &mut class.least, &mut class.greatest, place)
        })?;
        Ok(class)
    }

    /// The points of settings, claim and set, by the same operation: of three papers that have one part each, and a wrong answer for the others. Where nothing
    /// can be delivered claim and set earn 6 together, which are shown as 3 each.
    fn parts(&self, papers: &[Paper], points: &[u8]) -> Told<Vec<[u8; 3]>> {
        let mut found = vec![];
        for (some, earned) in papers.chunks(STRETCH).zip(points.chunks(STRETCH)) {
            progress::step(found.len(), papers.len());
            let apart: Vec<Paper> = some.iter().flat_map(Paper::apart).collect();
            let class = self.examine(&apart)?;
            found.extend(class.points.chunks(3).zip(earned).map(|(parts, &all)| {
                let together = (all - parts.iter().sum::<u8>()) / 2;
                [parts[0], parts[1] + together, parts[2] + together]
            }));
        }
        Ok(found)
    }
}

/// Papers of which the parts are asked at a time: a third of a class, so that there is progress to show.
const STRETCH: usize = 100;

impl Paper {
    fn apart(&self) -> [Paper; 3] {
        let wrong = Paper { settings: vec![WRONG; self.settings.len()], claim: Some(WRONG), set: vec![0; self.set.len()], ..self.clone() };
        let settings = Paper { settings: self.settings.clone(), ..wrong.clone() };
        [settings, Paper { claim: self.claim, ..wrong.clone() }, Paper { set: self.set.clone(), ..wrong }]
    }
}

pub fn command(words: &Words) -> Outcome {
    let (sheet, question) = words.question(1)?;
    let given = given(&File::read(words.last())?)?;
    // A refused sheet has no number of channels to count settings by: the class is then refused before its papers are looked at.
    let drawing = library::read(&sheet.bytes)?;
    let counts = Counts { channels: drawing.channels as usize, nodes: drawing.nodes as usize };
    let papers: Vec<Paper> = given.into_iter().map(|one| one.paper(counts)).collect();
    let desk = Desk { sheet: &sheet.bytes, ends: ends_of(&question), delivery: question.delivery };
    progress::step(0, papers.len());
    let class = desk.examine(&papers)?;
    let parts = desk.parts(&papers, &class.points)?;
    Ok(if words.csv { table(&papers, &class, &parts) } else { marked(&papers, &class, &parts) })
}

fn marked(marked: &[Paper], class: &Class, parts: &[[u8; 3]]) -> Answer {
    let Class { points, papers, sum, least, greatest } = class;
    let mut lines = String::new();
    for ((paper, points), [settings, claim, set]) in marked.iter().zip(points).zip(parts) {
        lines += &format!("paper {}: {points} = {settings} + {claim} + {set}\n", paper.name);
        lines += &paper.notes.iter().map(|note| format!("note {note}\n")).collect::<String>();
    }
    let figures = if *papers == 0 { String::new() } else { format!("least {least}\ngreatest {greatest}\nmean {sum}/{papers}\n") };
    let some = |number: &u8| Some(*number).filter(|_| *papers > 0).into();
    Answer {
        text: format!("{lines}papers {papers}\nsum {sum}\n{figures}"),
        json: vec![
            ("answer", "class".into()),
            ("names", Json::List(marked.iter().map(|paper| paper.name.as_str().into()).collect())),
            ("points", Json::numbers(points)),
            ("parts", Json::List(parts.iter().map(|three| Json::numbers(three)).collect())),
            ("notes", Json::List(marked.iter().map(|paper| Json::texts(&paper.notes)).collect())),
            ("papers", number(*papers)),
            ("sum", number(*sum)),
            ("least", some(least)),
            ("greatest", some(greatest)),
            ("mean", if *papers == 0 { Json::Null } else { Json::numbers(&[*sum, *papers]) }),
        ],
        ..Answer::default()
    }
}

fn table(marked: &[Paper], class: &Class, parts: &[[u8; 3]]) -> Answer {
    let mut text = "name,points,settings,claim,set,notes\n".to_string();
    for ((paper, points), [settings, claim, set]) in marked.iter().zip(&class.points).zip(parts) {
        text += &format!("{},{points},{settings},{claim},{set},{}\n", csv::cell(&paper.name), csv::cell(&paper.notes.join("; ")));
    }
    Answer { bytes: Some(text.clone().into_bytes()), text, ..Answer::default() }
}

#[cfg(test)]
mod tests {
    use super::*;
    use crate::text::{file, Fault};

    const COUNTS: Counts = Counts { channels: 3, nodes: 70 };

    fn papers(text: &str) -> Vec<Paper> {
        given(&file(text)).unwrap().into_iter().map(|one| one.paper(COUNTS)).collect()
    }

    fn paper(name: &str, settings: &[i32], claim: Option<i32>, nodes: &[u16]) -> Paper {
        Paper { name: name.to_string(), settings: settings.to_vec(), claim, set: words_of(nodes)[..2].to_vec(), notes: vec![] }
    }

    #[test]
    fn a_paper_is_a_line_or_a_row() {
        let due = [paper("Ada L.", &[0, 2, 4], Some(12), &[0, 64]), paper("Ben", &[1, -1, 0], None, &[])];
        assert_eq!(papers("# A\nAda L.: 0 2 4 | 12 | 0 64\n\nBen:1 -1 0|none|\n"), due);
        assert_eq!(papers("name,settings,claim,set\n\"Ada L.\",0 2 4,12,0 64\r\nBen,1 -1 0,none,\n"), due);
        assert_eq!(papers("\u{feff}set;x;Claim;Settings;Name\n0 64;;12;\"0 2\n4\";Ada L.\n;1;None;1 -1 0;Ben\n"), due);
        assert_eq!(papers("# nobody came\n"), []);
    }

    #[test]
    fn a_part_that_cannot_be_read_is_noted_and_the_rest_is_read() {
        let wrong = [WRONG; 3];
        for (text, due, note) in [
            ("Ada: 0 2 | 12 | 0\n", paper("Ada", &wrong, Some(12), &[0]), "settings: here are 2, and the sheet has 3 channels"),
            ("Ada: 0 2 4 5 | 12 | 0\n", paper("Ada", &wrong, Some(12), &[0]), "settings: here are 4, and the sheet has 3 channels"),
            ("Ada: 0 2 x | 12 | 0\n", paper("Ada", &wrong, Some(12), &[0]), "setting: 'x' is no number from -2147483648 to 2147483647"),
            ("Ada: 0 2 4 | | 0\n", paper("Ada", &[0, 2, 4], Some(WRONG), &[0]), "claim: there is none; it is a number or 'none'"),
            ("Ada: 0 2 4 | 1 2 | 0\n", paper("Ada", &[0, 2, 4], Some(WRONG), &[0]), "claim: more than one word; it is a number or 'none'"),
            ("Ada: 0 2 4 | some | 0\n", paper("Ada", &[0, 2, 4], Some(WRONG), &[0]), "claim: 'some' is no number from -2147483648 to 2147483647"),
            ("Ada: 0 2 4 | 12 | 0 70\n", paper("Ada", &[0, 2, 4], Some(12), &[]), "set: there is no node 70, the last is 69"),
            ("Ada: 0 2 4 | 12 | -1\n", paper("Ada", &[0, 2, 4], Some(12), &[]), "node: '-1' is no number from 0 to 65535"),
            ("Ada: 0 2 4 | 12\n", paper("Ada", &[0, 2, 4], Some(12), &[]), "set: the part is missing"),
            ("Ada: 0 2 4 | 12 | 0 | 7\n", paper("Ada", &[0, 2, 4], Some(12), &[0]), "what stands behind the third part is passed over"),
            (": 0 2 4 | 12 | 0\n", paper("line 1", &[0, 2, 4], Some(12), &[0]), "no name: not 'NAME: SETTING .. | CLAIM | NODE ..'"),
        ] {
            let notes = vec![format!("f:1: {}: {note}", due.name)];
            assert_eq!(papers(text), [Paper { notes, ..due }], "{text}");
        }
        assert_eq!(papers("hello\nAda: 0 2 4 | 12 | 0\n")[0].notes.len(), 4);
    }

    #[test]
    fn what_is_no_class_is_refused() {
        let said = |data: &[u8]| given(&File { name: "f".to_string(), data: data.to_vec() }).map(|_| ()).unwrap_err();
        assert_eq!(said(b"nodes 2\n0 1 2 5 5 0\n"), Fault("f:1: not 'NAME: SETTING .. | CLAIM | NODE ..', so no class".to_string()));
        assert_eq!(said(b"\x03\0\0\x01"), Fault("f: this is no text, so no class".to_string()));
        assert_eq!(said(b"name,claim,set\nAda,1,2\n"), Fault("f:1: no column 'settings', so no class: it has name, settings, claim, set".to_string()));
        assert_eq!(papers("x: | |\n").len() + given(&File { name: "f".to_string(), data: b"Zo\xeb: 0 2 4 | 1 |\n".to_vec() }).unwrap().len(), 2);
    }
}

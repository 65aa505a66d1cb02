//! A capture of the recorder (document 02, Job 10): as its bytes, or as text with a line `TICK CHANNEL LIMIT` for each record. The limits after a record, and
//! Largest on them.
use crate::answer::{number, refusal_json, Answer, Outcome};
use crate::commands::{ends_of, largest_of, none, spaced};
use crate::json::Json;
use crate::library::{settings_room, told, written, Ends, Extreme, Found, Refusal, Told, SET_WORDS};
use crate::progress;
use crate::sheets::Record;
use crate::text::{long, short, unsigned, Field, File, Parsed};
use crate::words::Words;
use bindings::analyser_largest_after;

pub const KIND: u8 = 5;
const RECORD_BYTES: usize = 11;
const RECORD: [Field; 3] = [unsigned("tick"), short("channel"), long("forward limit")];

/// The recorder's bytes, right or wrong: told from a text by the first byte, as a sheet is.
pub fn read(name: &str) -> Parsed<Vec<u8>> {
    let file = File::read(name)?;
    if file.is_text() {
        parse(&file)
    } else {
        Ok(file.data)
    }
}

pub fn parse(file: &File) -> Parsed<Vec<u8>> {
    let mut bytes = vec![];
    for line in &file.lines()? {
        let fields = line.numbers("a record", 0, &RECORD)?;
        bytes.push(KIND);
        bytes.extend((fields[0] as u32).to_le_bytes());
        bytes.extend((fields[1] as u16).to_le_bytes());
        bytes.extend((fields[2] as i32).to_le_bytes());
    }
    Ok(bytes)
}

/// The text of the recorder's bytes.
pub fn text(file: &File) -> Parsed<String> {
    let record = Record { kind: KIND, name: "a record", size: RECORD_BYTES };
    let mut text = String::new();
    for start in (0..file.data.len()).step_by(RECORD_BYTES) {
        let body = record.body(&file.data, start).or_else(|what| file.fault(what))?;
        let [tick, limit] = [0, 6].map(|at| [body[at], body[at + 1], body[at + 2], body[at + 3]]);
        text += &format!("{} {} {}\n", u32::from_le_bytes(tick), u16::from_le_bytes([body[4], body[5]]), i32::from_le_bytes(limit));
    }
    Ok(text)
}

/// The forward limits after a record, and Largest on them.
#[rustfmt::skip]
fn largest_after(sheet: &[u8], capture: &[u8], window: u16, named: u64, ends: Ends) -> Told<(Vec<i32>, Found<Extreme>)> {
    let (mut limits, mut settings, mut set) = (settings_room(), settings_room(), vec![0; SET_WORDS]);
    let (mut found, mut value) = (0, 0);
    told(|place| unsafe {
        analyser_largest_after(sheet.as_ptr(), sheet.len(), capture.as_ptr(), capture.len(), window, named, ends.0, ends.1,
            limits.as_mut_ptr(), limits.len(), settings.as_mut_ptr(), settings.len(), set.as_mut_ptr(), set.len(), &mut found, &mut value, place)
    })?;
    let found = if found == 1 { Found::Some(Extreme { value, settings: written(settings), set }) } else { Found::None(set) };
    Ok((written(limits), found))
}

pub fn command(words: &Words) -> Outcome {
    let (sheet, question) = words.question(3)?;
    let [name, window, record] = [3, 2, 1].map(|behind| words.given.len() - behind);
    let capture = read(&words.given[name])?;
    let window = words.number(window, &short("window"))? as u16;
    let ends = ends_of(&question);
    if words.given[record] == "all" {
        return all(&sheet.bytes, &capture, window, ends, words);
    }
    let record = words.number(record, &unsigned("record"))? as u64;
    let (limits, found) = largest_after(&sheet.bytes, &capture, window, record, ends)?;
    one(&with_limits(&sheet.bytes, &limits), ends, &limits, found)
}

/// The sheet with other forward limits, for the picture.
fn with_limits(sheet: &[u8], limits: &[i32]) -> Vec<u8> {
    limits.iter().enumerate().fold(sheet.to_vec(), |sheet, (channel, &limit)| crate::commands::with_limit(&sheet, channel as u16, limit))
}

fn one(sheet: &[u8], ends: Ends, limits: &[i32], found: Found<Extreme>) -> Outcome {
    let told = ("limits", Json::numbers(limits));
    let mut answer = match found {
        Found::None(set) => none(sheet, ends, &set)?,
        Found::Some(found) => largest_of(sheet, ends, &found)?,
    };
    answer.text = format!("{}\n{}", spaced("limits", limits), answer.text);
    answer.json.insert(1, told);
    Ok(answer)
}

/// The records that an answer after this one looks at, and which of them it is: those before the window change nothing.
fn within(capture: &[u8], window: u16, record: usize) -> (&[u8], u64) {
    let first = (record + 1).saturating_sub(window as usize);
    (&capture[first * RECORD_BYTES..(record + 1) * RECORD_BYTES], (record - first) as u64)
}

/// Every record in turn. The limits found are judged anew after each (6 and 7); whatever else is refused is refused after the first, for which the whole
/// capture is handed over.
fn all(sheet: &[u8], capture: &[u8], window: u16, ends: Ends, words: &Words) -> Outcome {
    let records = (capture.len() / RECORD_BYTES).max(1);
    let (mut text, mut list) = (String::new(), vec![]);
    for record in 0..records {
        progress::step(record, records);
        let (some, at) = if record == 0 { (capture, 0) } else { within(capture, window, record) };
        let (said, mut json) = match largest_after(sheet, some, window, at, ends) {
            Ok((_, Found::Some(found))) => (format!("largest {}", found.value), vec![("answer", "largest".into()), ("largest", number(found.value))]),
            Ok((_, Found::None(_))) => ("none".to_string(), vec![("answer", "none".into())]),
            Err(refusal @ Refusal { number: 6 | 7, .. }) => (format!("refused {}", refusal.number), refusal_json(refusal, "capture")),
            Err(refusal) => return Err(refusal.into()),
        };
        text += &format!("record {record}: {said}\n");
        if words.json {
            json.insert(0, ("record", number(record as u32)));
            list.push(Json::Object(json));
        }
    }
    Ok(Answer { text, json: vec![("answer", "records".into()), ("records", Json::List(list))], ..Answer::default() })
}

#[cfg(test)]
mod tests {
    use super::*;
    use crate::text::{file, Fault};

    #[test]
    fn a_record_is_eleven_bytes() {
        let bytes = parse(&file("4294967295 1 -2 # the last tick\n\n7 513 1\n")).unwrap();
        assert_eq!(bytes, [5, 255, 255, 255, 255, 1, 0, 254, 255, 255, 255, 5, 7, 0, 0, 0, 1, 2, 1, 0, 0, 0]);
    }

    #[test]
    fn a_record_has_three_numbers() {
        let said = |text: &str| parse(&file(text)).unwrap_err();
        assert_eq!(said("1 2\n"), Fault("f:1: a record has 3 numbers (tick, channel, forward limit), here are 2".to_string()));
        assert_eq!(said("1 2 3\n-1 2 3\n"), Fault("f:2: tick: '-1' is no number from 0 to 4294967295".to_string()));
    }
}

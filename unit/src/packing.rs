//! Text to bytes and back: sheets, with a question before them or not, and captures. Nothing is judged: a wrong sheet must be writable too.
use crate::answer::{number, Answer, Outcome};
use crate::capture;
use crate::json::Json;
use crate::sheets::SheetText;
use crate::text::{fault, one_line, system, File, Parsed};
use crate::words::Words;

/// A capture's text has records of three numbers; a sheet's lines have six, or begin with a word.
fn packed(file: &File) -> Parsed<Vec<u8>> {
    let numbers = |words: &[&str]| words.len() == 3 && words[0].bytes().all(|byte| byte.is_ascii_digit());
    if file.lines()?.first().is_some_and(|line| numbers(&line.words)) {
        capture::parse(file)
    } else {
        Ok(SheetText::parse(file)?.packed())
    }
}

fn unpacked(file: &File) -> Parsed<String> {
    if file.data.first() == Some(&capture::KIND) {
        capture::text(file)
    } else {
        Ok(SheetText::unpack(file)?.text())
    }
}

fn given(words: &Words) -> Parsed<File> {
    File::read(words.given.first().map_or("-", String::as_str))
}

pub fn pack(words: &Words) -> Outcome {
    let bytes = packed(&given(words)?)?;
    let json = vec![("answer", "bytes".into()), ("length", number(bytes.len() as u32)), ("bytes", Json::numbers(&bytes))];
    Ok(Answer { json, bytes: Some(bytes), raw: true, ..Answer::default() })
}

pub fn unpack(words: &Words) -> Outcome {
    let text = unpacked(&given(words)?)?;
    Ok(Answer { json: vec![("answer", "text".into()), ("text", text.as_str().into())], bytes: Some(text.clone().into_bytes()), text, ..Answer::default() })
}

/// The names of a folder without the ending, of the files that have one of two endings, sorted.
fn names(folder: &str, endings: [&str; 2]) -> Parsed<Vec<String>> {
    let entries = std::fs::read_dir(folder).or_else(|error| fault(&one_line(folder), system(&error)))?;
    let files = entries.filter_map(|entry| entry.ok()?.file_name().into_string().ok());
    let mut names: Vec<String> = files.filter_map(|file| endings.iter().find_map(|ending| Some(file.strip_suffix(ending)?.to_string()))).collect();
    names.sort();
    names.dedup();
    Ok(names)
}

/// The text and the bytes of each name agree, both ways; how many names there are.
fn agree(folder: &str, endings: [&str; 2]) -> Parsed<usize> {
    let names = names(folder, endings)?;
    for name in &names {
        let [text, bytes] = endings.map(|ending| File::read(&format!("{folder}/{name}{ending}")));
        let (text, bytes) = (text?, bytes?);
        let (made, written) = (packed(&text)?, unpacked(&bytes)?);
        if made != bytes.data || written.as_bytes() != text.data {
            let mut pairs = text.data.split(|&byte| byte == b'\n').zip(written.as_bytes().split(|&byte| byte == b'\n'));
            let line = pairs.position(|(mine, its)| mine != its).map_or(1, |at| at + 1);
            return fault(&format!("{}:{line}", text.name), format!("not what {} holds", bytes.name));
        }
    }
    Ok(names.len())
}

pub fn check(words: &Words) -> Outcome {
    let folder = &words.given[0];
    let (samples, captures) = (agree(folder, [".txt", ".question"])?, agree(folder, [".records", ".capture"])?);
    if samples + captures == 0 {
        return Ok(fault(&one_line(folder), "it has no .txt, .question, .records or .capture file")?);
    }
    Ok(Answer {
        text: format!("{samples} samples and {captures} captures agree with their text\n"),
        json: vec![("answer", "agree".into()), ("samples", number(samples as u32)), ("captures", number(captures as u32))],
        ..Answer::default()
    })
}

//! Readable text: files, lines, words and numbers, and the one line that says what is wrong with them.
use std::io::Read;

/// Bad use: one line, which names the file, the line where there is one, and the fault.
#[derive(Debug, PartialEq)]
pub struct Fault(pub String);

pub type Parsed<T> = Result<T, Fault>;

pub fn fault<T>(place: &str, what: impl std::fmt::Display) -> Parsed<T> {
    Err(Fault(format!("{place}: {what}")))
}

/// The most bytes of a file: more than any file that is taken has, and a stream without end is refused.
const MOST: u64 = 1 << 25;

/// A file's name as it is said in a fault, unless it would break the line.
pub fn one_line(name: &str) -> String {
    if name.is_empty() || name.chars().any(char::is_control) {
        format!("{name:?}")
    } else {
        name.to_string()
    }
}

/// What standard input had, for a call that is made once more.
#[cfg(feature = "unlinked")]
pub static INPUT: std::sync::OnceLock<Vec<u8>> = std::sync::OnceLock::new();

/// A file that was read: `-` is standard input.
pub struct File {
    pub name: String,
    pub data: Vec<u8>,
}

pub struct Line<'a> {
    place: String,
    /// Its number in the file, from 1.
    pub number: usize,
    pub words: Vec<&'a str>,
}

impl File {
    pub fn read(name: &str) -> Parsed<File> {
        let mut data = vec![];
        let (said, done) = if name == "-" {
            ("standard input".to_string(), std::io::stdin().take(MOST + 1).read_to_end(&mut data))
        } else {
            let open = std::fs::File::open(name);
            (one_line(name), open.and_then(|file| file.take(MOST + 1).read_to_end(&mut data)))
        };
        #[cfg(feature = "unlinked")]
        if name == "-" {
            let _ = INPUT.set(data.clone());
        }
        match done {
            Err(error) => fault(&said, system(&error)),
            Ok(_) if data.len() as u64 > MOST => fault(&said, format!("it is longer than {MOST} bytes")),
            Ok(_) => Ok(File { name: said, data }),
        }
    }

    /// Whether it is to be read as text: its first byte is one that a text begins with, and no kind of a record.
    pub fn is_text(&self) -> bool {
        self.data.first().is_some_and(|&byte| byte >= b' ' || byte.is_ascii_whitespace())
    }

    /// The lines that have words. Blanks and tabs part words, after # is a comment, a return before a line's end belongs to it.
    pub fn lines(&self) -> Parsed<Vec<Line<'_>>> {
        let mut found = vec![];
        for (number, bytes) in self.data.split(|&byte| byte == b'\n').enumerate() {
            let place = format!("{}:{}", self.name, number + 1);
            let Ok(line) = std::str::from_utf8(bytes) else { return fault(&place, "this is no UTF-8 text") };
            let line = line.strip_suffix('\r').unwrap_or(line).split('#').next().unwrap_or("");
            let words: Vec<&str> = line.split([' ', '\t']).filter(|word| !word.is_empty()).collect();
            if !words.is_empty() {
                found.push(Line { place, number: number + 1, words });
            }
        }
        Ok(found)
    }

    pub fn fault<T>(&self, what: impl std::fmt::Display) -> Parsed<T> {
        fault(&self.name, what)
    }
}

impl Line<'_> {
    pub fn fault<T>(&self, what: impl std::fmt::Display) -> Parsed<T> {
        fault(&self.place, what)
    }

    /// The words from `from` on as numbers, one to each field.
    pub fn numbers(&self, what: &str, from: usize, fields: &[Field]) -> Parsed<Vec<i64>> {
        let words = &self.words[from..];
        if words.len() != fields.len() {
            let names: Vec<&str> = fields.iter().map(|field| field.name).collect();
            return self.fault(format!("{what} has {} numbers ({}), here are {}", fields.len(), names.join(", "), words.len()));
        }
        words.iter().zip(fields).map(|(word, field)| field.number(&self.place, word)).collect()
    }

    pub fn number(&self, field: &Field, at: usize) -> Parsed<i64> {
        self.parsed(field, self.words[at])
    }

    /// A word of the line, or a part of one.
    pub fn parsed(&self, field: &Field, word: &str) -> Parsed<i64> {
        field.number(&self.place, word)
    }
}

/// A field that a number must fit. Whether the number is a right one is the unit's to say.
pub struct Field {
    pub name: &'static str,
    pub least: i64,
    pub most: i64,
}

pub const fn short(name: &'static str) -> Field {
    Field { name, least: 0, most: u16::MAX as i64 }
}

pub const fn long(name: &'static str) -> Field {
    Field { name, least: i32::MIN as i64, most: i32::MAX as i64 }
}

pub const fn unsigned(name: &'static str) -> Field {
    Field { name, least: 0, most: u32::MAX as i64 }
}

impl Field {
    /// At most ten ASCII digits, after a minus or not.
    pub fn number(&self, place: &str, word: &str) -> Parsed<i64> {
        let digits = word.strip_prefix('-').unwrap_or(word);
        let formed = (1..=10).contains(&digits.len()) && digits.bytes().all(|byte| byte.is_ascii_digit());
        match word.parse() {
            Ok(number) if formed && (self.least..=self.most).contains(&number) => Ok(number),
            _ => fault(place, format!("{}: {} is no number from {} to {}", self.name, shown(word), self.least, self.most)),
        }
    }
}

/// A word of an input in quotes, short, and in ASCII.
pub fn shown(word: &str) -> String {
    let short: String = word.chars().take(40).collect();
    let more = if short.len() < word.len() { ".." } else { "" };
    format!("'{}{more}'", short.escape_default().to_string().replace("\\'", "'"))
}

/// What the system says, without the number that Rust puts behind it.
pub fn system(error: &std::io::Error) -> String {
    let said = error.to_string();
    said.split(" (os error").next().unwrap_or_default().to_string()
}

#[cfg(test)]
pub fn file(text: &str) -> File {
    File { name: "f".to_string(), data: text.as_bytes().to_vec() }
}

#[cfg(test)]
mod tests {
    use super::*;

    #[test]
    fn lines_have_words_and_places() {
        let text = file("a b # c\n\n\t7\r\n#\nlast");
        let lines = text.lines().unwrap();
        let found: Vec<(&str, &[&str])> = lines.iter().map(|line| (line.place.as_str(), line.words.as_slice())).collect();
        assert_eq!(found, [("f:1", &["a", "b"][..]), ("f:3", &["7"]), ("f:5", &["last"])]);
    }

    #[test]
    fn numbers_fit_their_field() {
        for (word, number) in [("0", 0), ("65535", 65535), ("007", 7), ("-0", 0)] {
            assert_eq!(short("n").number("f:1", word), Ok(number));
        }
        for word in ["-1", "65536", "", "-", "+1", "1.5", "0x1", "12345678901", "a", "\u{661}"] {
            assert!(short("n").number("f:1", word).is_err(), "{word}");
        }
        assert_eq!(long("n").number("f:1", "-2147483649"), fault("f:1", "n: '-2147483649' is no number from -2147483648 to 2147483647"));
    }

    #[test]
    fn a_text_is_told_from_records() {
        for (data, text) in [("nodes 2", true), ("# x", true), ("\n", true), ("\u{1}\u{2}", false), ("\u{4}", false), ("", false)] {
            assert_eq!(file(data).is_text(), text, "{data:?}");
        }
    }
}

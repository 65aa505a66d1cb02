//! A sheet, with a question before it or not: as text, as bytes, and each turned into the other.
use crate::library::Drawing;
use crate::picture;
use crate::text::{long, short, Field, File, Line, Parsed};

#[derive(Clone, Copy, Debug, PartialEq)]
pub struct Question {
    pub headgate: u16,
    pub outfall: u16,
    pub delivery: i32,
}

pub const QUESTION: [Field; 3] = [short("headgate"), short("outfall"), long("delivery")];
const CHANNEL: [Field; 6] = [short("tail"), short("head"), short("turn of its dart"), short("turn of the reverse"), long("forward limit"), long("back limit")];

impl Question {
    pub fn from(numbers: &[i64]) -> Question {
        Question { headgate: numbers[0] as u16, outfall: numbers[1] as u16, delivery: numbers[2] as i32 }
    }

    pub fn record(&self) -> Vec<u8> {
        let fields = [&[3], &self.headgate.to_le_bytes()[..], &self.outfall.to_le_bytes(), &self.delivery.to_le_bytes()];
        fields.concat()
    }
}

/// A kind of record: its number, its name, and how many bytes it has.
pub struct Record {
    pub kind: u8,
    pub name: &'static str,
    pub size: usize,
}

pub const QUESTION_RECORD: Record = Record { kind: 3, name: "a question", size: 9 };
pub const HEAD: Record = Record { kind: 1, name: "a head", size: 5 };
pub const OUTER_HEAD: Record = Record { kind: 4, name: "a head with an outer dart", size: 7 };
pub const CHANNEL_RECORD: Record = Record { kind: 2, name: "a channel", size: 17 };

impl Record {
    /// The body of the record that is due at a byte, or what is there instead.
    pub fn body<'a>(&self, data: &'a [u8], start: usize) -> Result<&'a [u8], String> {
        match data.get(start) {
            None => Err(format!("it ends after {} bytes, where {} is due", data.len(), self.name)),
            Some(&kind) if kind != self.kind => Err(format!("byte {start} is {kind}, where {} (kind {}) is due", self.name, self.kind)),
            Some(_) => data.get(start + 1..start + self.size).ok_or_else(|| format!("it ends after {} bytes, within {}", data.len(), self.name)),
        }
    }
}

/// The head that is due at a byte: of kind 4 where that stands there, else of kind 1.
pub fn head_at(data: &[u8], start: usize) -> Record {
    if data.get(start) == Some(&OUTER_HEAD.kind) {
        OUTER_HEAD
    } else {
        HEAD
    }
}

fn half(bytes: &[u8], at: usize) -> u16 {
    u16::from_le_bytes([bytes[at], bytes[at + 1]])
}

fn whole(bytes: &[u8], at: usize) -> i32 {
    i32::from_le_bytes([bytes[at], bytes[at + 1], bytes[at + 2], bytes[at + 3]])
}

/// What a file holds: the bytes of a sheet, right or wrong, and the question that stands before it, if one does.
#[derive(Clone)]
pub struct Sheet {
    /// The file, as a fault names it.
    pub name: String,
    pub question: Option<Question>,
    pub bytes: Vec<u8>,
    /// Of a text the line of each channel, and that of the head or of the outer dart.
    pub lines: Vec<usize>,
    pub head_line: usize,
}

impl Sheet {
    pub fn read(name: &str) -> Parsed<Sheet> {
        let file = File::read(name)?;
        if !file.is_text() {
            return Ok(Sheet::from_bytes(file.name, &file.data));
        }
        picture::remember(&file.data);
        Ok(SheetText::parse(&file)?.sheet(file.name))
    }

    fn from_bytes(name: String, data: &[u8]) -> Sheet {
        let (question, bytes) = match QUESTION_RECORD.body(data, 0) {
            Ok(body) => {
                let question = Question { headgate: half(body, 0), outfall: half(body, 2), delivery: whole(body, 4) };
                (Some(question), data[QUESTION_RECORD.size..].to_vec())
            }
            Err(_) => (None, data.to_vec()),
        };
        Sheet { name, question, bytes, lines: vec![], head_line: 0 }
    }
}

/// The text of a sheet: `question`, `nodes` and `outer` lines, and one line a channel.
#[derive(Debug, Default, PartialEq)]
pub struct SheetText {
    pub question: Option<Question>,
    pub nodes: u16,
    pub outer: Option<u16>,
    pub tails: Vec<u16>,
    pub turns: Vec<u16>,
    pub limits: Vec<i32>,
    /// How many channels a head announces: what follows may be fewer.
    pub channels: u16,
    pub lines: Vec<usize>,
    pub head_line: usize,
}

impl SheetText {
    pub fn parse(file: &File) -> Parsed<SheetText> {
        let mut text = SheetText::default();
        let mut nodes = None;
        for line in &file.lines()? {
            match line.words[0] {
                "question" => once(line, &mut text.question, Question::from(&line.numbers("a question", 1, &QUESTION)?))?,
                "nodes" => once(line, &mut nodes, line.numbers("'nodes'", 1, &[short("nodes")])?[0] as u16)?,
                "outer" => once(line, &mut text.outer, line.numbers("'outer'", 1, &[short("outer dart")])?[0] as u16)?,
                _ => text.channel(line)?,
            }
            if ["nodes", "outer"].contains(&line.words[0]) {
                text.head_line = line.number;
            }
        }
        match nodes {
            Some(nodes) => Ok(SheetText { nodes, ..text }),
            None => file.fault("no line 'nodes NODES'"),
        }
    }

    fn channel(&mut self, line: &Line) -> Parsed<()> {
        let fields = line.numbers("a channel", 0, &CHANNEL)?;
        if self.lines.len() == u16::MAX as usize {
            return line.fault("more than 65535 channels");
        }
        self.tails.extend([fields[0] as u16, fields[1] as u16]);
        self.turns.extend([fields[2] as u16, fields[3] as u16]);
        self.limits.extend([fields[4] as i32, fields[5] as i32]);
        self.lines.push(line.number);
        Ok(())
    }

    /// What bytes hold, a question before the sheet included.
    pub fn unpack(file: &File) -> Parsed<SheetText> {
        let (text, wrong) = SheetText::partial(&file.data);
        wrong.map_or(Ok(text), |what| file.fault(what))
    }

    /// What bytes hold as far as they are a sheet, and what is wrong with the rest.
    pub fn partial(data: &[u8]) -> (SheetText, Option<String>) {
        let Sheet { question, bytes, .. } = Sheet::from_bytes(String::new(), data);
        let mut text = SheetText { question, ..SheetText::default() };
        let mut at = data.len() - bytes.len();
        let record = head_at(data, at);
        let head = match record.body(data, at) {
            Ok(head) => head,
            Err(what) => return (text, Some(what)),
        };
        text.channels = half(head, 2);
        (text.nodes, text.outer) = (half(head, 0), (record.kind == OUTER_HEAD.kind).then(|| half(head, 4)));
        at += record.size;
        for channel in 0..text.channels {
            let body = match CHANNEL_RECORD.body(data, at) {
                Ok(body) => body,
                Err(what) => return (text, Some(format!("{what}: channel {channel}"))),
            };
            text.tails.extend([half(body, 0), half(body, 2)]);
            text.turns.extend([half(body, 4), half(body, 6)]);
            text.limits.extend([whole(body, 8), whole(body, 12)]);
            at += CHANNEL_RECORD.size;
        }
        let left = data.len() - at;
        (text, (left > 0).then(|| format!("bytes left over after the last channel: {left}")))
    }

    pub fn of(question: Option<Question>, outer: Option<u16>, drawing: &Drawing) -> SheetText {
        let Drawing { nodes, tails, turns, limits, .. } = drawing.clone();
        SheetText { question, nodes, outer, tails, turns, limits, ..SheetText::default() }
    }

    /// The sheet's bytes: a head of kind 4 where the text names an outer dart, else of kind 1.
    pub fn bytes(&self) -> Vec<u8> {
        let channels = (self.tails.len() / 2) as u16;
        let mut bytes = vec![if self.outer.is_some() { OUTER_HEAD.kind } else { HEAD.kind }];
        bytes.extend([self.nodes, channels].into_iter().chain(self.outer).flat_map(u16::to_le_bytes));
        for ((tails, turns), limits) in self.tails.chunks(2).zip(self.turns.chunks(2)).zip(self.limits.chunks(2)) {
            bytes.push(CHANNEL_RECORD.kind);
            bytes.extend(tails.iter().chain(turns).flat_map(|field| field.to_le_bytes()));
            bytes.extend(limits.iter().flat_map(|limit| limit.to_le_bytes()));
        }
        bytes
    }

    /// The bytes with the question before them, where there is one.
    pub fn packed(&self) -> Vec<u8> {
        [self.question.map_or(vec![], |question| question.record()), self.bytes()].concat()
    }

    pub fn sheet(self, name: String) -> Sheet {
        Sheet { name, question: self.question, bytes: self.bytes(), lines: self.lines, head_line: self.head_line }
    }

    pub fn text(&self) -> String {
        let mut lines = vec![];
        if let Some(Question { headgate, outfall, delivery }) = self.question {
            lines.push(format!("question {headgate} {outfall} {delivery}"));
        }
        lines.push(format!("nodes {}", self.nodes));
        lines.extend(self.outer.map(|dart| format!("outer {dart}")));
        for ((tails, turns), limits) in self.tails.chunks(2).zip(self.turns.chunks(2)).zip(self.limits.chunks(2)) {
            lines.push(format!("{} {} {} {} {} {}", tails[0], tails[1], turns[0], turns[1], limits[0], limits[1]));
        }
        lines.join("\n") + "\n"
    }
}

fn once<T>(line: &Line, kept: &mut Option<T>, new: T) -> Parsed<()> {
    if kept.is_some() {
        return line.fault(format!("a second line '{}'", line.words[0]));
    }
    *kept = Some(new);
    Ok(())
}

/// The bytes of a sheet in hex, one record a line, its fields parted by two blanks.
pub fn hex(sheet: &[u8]) -> String {
    let head = head_at(sheet, 0).size;
    let (first, channels) = sheet.split_at(head.min(sheet.len()));
    let fields = |record: &[u8], widths: &[usize]| {
        let mut at = 0;
        let mut said = vec![];
        for &width in widths {
            let bytes: Vec<String> = record[at..at + width].iter().map(|byte| format!("{byte:02x}")).collect();
            said.push(bytes.join(" "));
            at += width;
        }
        said.join("  ") + "\n"
    };
    let mut text = fields(first, if head == OUTER_HEAD.size { &[1, 2, 2, 2] } else { &[1, 2, 2] });
    for record in channels.chunks_exact(CHANNEL_RECORD.size) {
        text += &fields(record, &[1, 2, 2, 2, 2, 4, 4]);
    }
    text
}

#[cfg(test)]
mod tests {
    use super::*;
    use crate::text::{file, Fault};

    const A: &str = "question 0 1 6\nnodes 2\n0 1 2 5 5 0\n0 1 4 1 3 0\n0 1 0 3 4 0\n";

    fn bytes(data: &[u8]) -> File {
        File { name: "f".to_string(), data: data.to_vec() }
    }

    #[test]
    fn text_and_bytes_hold_the_same() {
        for text in [A.to_string(), A.replace("nodes 2\n", "nodes 2\nouter 5\n"), "nodes 0\n0 9 9 9 1000001 -5\n".to_string(), "nodes 2\n".to_string()] {
            let read = SheetText::parse(&file(&text)).unwrap();
            let packed = read.packed();
            assert_eq!(SheetText::unpack(&bytes(&packed)).unwrap().text(), text);
            let sheet = Sheet::from_bytes(String::new(), &packed);
            assert_eq!((sheet.question, sheet.bytes), (read.question, read.bytes()));
        }
        assert_eq!(SheetText::parse(&file(A)).unwrap().packed()[..16], [3, 0, 0, 1, 0, 6, 0, 0, 0, 1, 2, 0, 3, 0, 2, 0]);
    }

    #[test]
    fn bytes_that_are_no_sheet_are_named() {
        let packed = SheetText::parse(&file(A)).unwrap().packed();
        let said = |data: &[u8]| SheetText::unpack(&bytes(data)).unwrap_err().0;
        assert_eq!(said(b""), "f: it ends after 0 bytes, where a head is due");
        assert_eq!(said(&packed[..9]), "f: it ends after 9 bytes, where a head is due");
        assert_eq!(said(&packed[..8]), "f: byte 0 is 3, where a head (kind 1) is due");
        assert_eq!(said(&packed[..packed.len() - 1]), "f: it ends after 64 bytes, within a channel: channel 2");
        assert_eq!(said(&[&packed[..], b"\0\0"].concat()), "f: bytes left over after the last channel: 2");
        assert_eq!(said(&[&packed[..14], &[9], &packed[15..]].concat()), "f: byte 14 is 9, where a channel (kind 2) is due: channel 0");
    }

    #[test]
    fn a_line_too_many_is_named() {
        for (text, what) in [
            ("nodes 2\nnodes 2\n", "f:2: a second line 'nodes'"),
            ("# none\n", "f: no line 'nodes NODES'"),
            ("nodes 2\n0 1 2\n", "f:2: a channel has 6 numbers (tail, head, turn of its dart, turn of the reverse, forward limit, back limit), here are 3"),
        ] {
            assert_eq!(SheetText::parse(&file(text)).unwrap_err(), Fault(what.to_string()));
        }
    }
}

//! A session on a sheet that two parties share (document 02, Jobs 11 and 12), one call a line: `ask HEADGATE OUTFALL DELIVERY`, `commit`, `clear`. Before ask
//! and commit may stand the party, as in `1 ask 0 6 5`; without it they are of party 0.
use crate::answer::{number, refusal_json, refusal_text, Answer, Outcome, View};
use crate::commands::{delivers, ends_of, set_json, spaced};
use crate::json::Json;
use crate::library::{nodes_of, settings_room, told, written, Refusal, Solved, Told, SET_WORDS};
use crate::progress;
use crate::sheets::{Question, QUESTION};
use crate::text::{short, Field, File, Parsed};
use crate::words::Words;
use bindings::{analyser_session_ask, analyser_session_clear, analyser_session_commit, analyser_session_start, MAX_CHANNELS, MAX_DARTS};

#[derive(Clone, Copy, Debug, PartialEq)]
pub enum Call {
    Ask { party: u16, question: Question },
    Commit { party: u16 },
    Clear,
}

const PARTY: Field = short("party");

pub fn read(name: &str) -> Parsed<Vec<Call>> {
    parse(&File::read(name)?)
}

fn parse(file: &File) -> Parsed<Vec<Call>> {
    let mut calls = vec![];
    for line in &file.lines()? {
        let named = line.words[0].as_bytes()[0].is_ascii_digit();
        let party = if named { line.number(&PARTY, 0)? as u16 } else { 0 };
        let at = named as usize;
        calls.push(match line.words.get(at).copied() {
            Some("ask") => Call::Ask { party, question: Question::from(&line.numbers("'ask'", at + 1, &QUESTION)?) },
            Some("commit") if line.words.len() == at + 1 => Call::Commit { party },
            Some("clear") if line.words == ["clear"] => Call::Clear,
            _ => return line.fault("no line '[PARTY] ask HEADGATE OUTFALL DELIVERY', '[PARTY] commit' or 'clear'"),
        });
    }
    Ok(calls)
}

/// The library's session: its fields are handed on and never changed here.
struct Session {
    nodes: u16,
    channels: u16,
    outer: u16,
    standing: [u8; 2],
    tails: [u16; MAX_DARTS],
    turns: [u16; MAX_DARTS],
    limits: [i32; MAX_DARTS],
    left: [i32; MAX_DARTS],
    first: [i32; MAX_CHANNELS],
    second: [i32; MAX_CHANNELS],
}

/// Where a party stands, by its number, in words for the text and for the JSON.
const STANDINGS: [(&str, &str); 4] = [("has no offer", "none"), ("has an offer", "offer"), ("has a stale offer", "stale"), ("has committed", "committed")];

#[rustfmt::skip]
impl Session {
    fn start(sheet: &[u8]) -> Told<Session> {
        let mut new = Session {
            nodes: 0, channels: 0, outer: 0, standing: [0; 2], tails: [0; MAX_DARTS], turns: [0; MAX_DARTS], limits: [0; MAX_DARTS], left: [0; MAX_DARTS],
            first: [0; MAX_CHANNELS], second: [0; MAX_CHANNELS],
        };
        told(|place| unsafe {
            analyser_session_start(sheet.as_ptr(), sheet.len(), &mut new.nodes, &mut new.channels, &mut new.outer, new.tails.as_mut_ptr(),
                new.turns.as_mut_ptr(), new.limits.as_mut_ptr(), new.left.as_mut_ptr(), new.standing.as_mut_ptr(), new.first.as_mut_ptr(),
                new.second.as_mut_ptr(), place)
        })?;
        Ok(new)
    }

    fn ask(&mut self, party: u16, question: &Question) -> Told<Solved> {
        let (mut settings, mut set) = (settings_room(), vec![0; SET_WORDS]);
        let (mut can, mut size) = (0, 0);
        let (headgate, outfall) = ends_of(question);
        told(|place| unsafe {
            analyser_session_ask(party, self.nodes, self.channels, self.outer, self.tails.as_ptr(), self.turns.as_ptr(), self.limits.as_ptr(),
                self.left.as_ptr(), self.standing.as_mut_ptr(), self.first.as_mut_ptr(), self.second.as_mut_ptr(), headgate, outfall, question.delivery,
                settings.as_mut_ptr(), settings.len(), set.as_mut_ptr(), set.len(), &mut can, &mut size, place)
        })?;
        Ok(if can == 1 { Solved::Can(written(settings)) } else { Solved::Cannot { set, size } })
    }

    /// The limits left, one to a dart.
    fn left(&self) -> &[i32] {
        &self.left[..2 * self.channels as usize]
    }

    fn commit(&mut self, party: u16) -> Told<()> {
        told(|place| unsafe {
            analyser_session_commit(party, self.nodes, self.channels, self.outer, self.tails.as_ptr(), self.turns.as_ptr(), self.limits.as_ptr(),
                self.left.as_mut_ptr(), self.standing.as_mut_ptr(), self.first.as_ptr(), self.second.as_ptr(), place)
        })
    }

    fn clear(&mut self) {
        unsafe {
            analyser_session_clear(self.nodes, self.channels, self.outer, self.tails.as_ptr(), self.turns.as_ptr(), self.limits.as_ptr(),
                self.left.as_mut_ptr(), self.standing.as_mut_ptr(), self.first.as_ptr(), self.second.as_ptr())
        }
    }
}

/// What the library told a call.
enum Reply {
    Answered(Question, Solved),
    Done,
    Refused(Refusal),
}

fn reply(session: &mut Session, call: &Call) -> Reply {
    let told = match call {
        Call::Ask { party, question } => session.ask(*party, question).map(|solved| Reply::Answered(*question, solved)),
        Call::Commit { party } => session.commit(*party).map(|()| Reply::Done),
        Call::Clear => {
            session.clear();
            Ok(Reply::Done)
        }
    };
    told.unwrap_or_else(Reply::Refused)
}

/// A reply as text and in fields.
fn said(reply: &Reply) -> (String, Vec<(&'static str, Json)>) {
    match reply {
        Reply::Answered(_, Solved::Can(settings)) => (spaced("can", settings), vec![("answer", "can".into()), ("settings", Json::numbers(settings))]),
        Reply::Answered(_, Solved::Cannot { set, size }) => {
            (spaced("cannot", &nodes_of(set)), vec![("answer", "cannot".into()), ("set", set_json(set)), ("size", number(*size))])
        }
        Reply::Done => ("done".to_string(), vec![("answer", "done".into())]),
        Reply::Refused(refusal) => (refusal_text(*refusal, "session").trim_end().to_string(), refusal_json(*refusal, "session")),
    }
}

/// The picture of an answered question: the sheet's drawing with the limits left, which Ask leaves as they are.
fn view(sheet: &[u8], left: &[i32], call: &str, question: &Question, solved: &Solved) -> Told<View> {
    let (ends, delivery) = (ends_of(question), question.delivery);
    let drawn = |word: &str, caption: String| Ok(View::new(format!("{call}: {word} {delivery}"), caption, sheet, Some(ends))?.limits(left));
    Ok(match solved {
        Solved::Can(settings) => drawn("can", format!("on the limits left {}", delivers(ends, delivery)))?.settings(settings),
        Solved::Cannot { set, size } => {
            let proof = format!("on the limits left a set of size {size} proves it:");
            drawn("cannot", spaced(&proof, &nodes_of(set)))?.bare_set(set)
        }
    })
}

/// Whose call it is, and what it is called.
fn named(call: &Call) -> (Option<u16>, String) {
    match call {
        Call::Ask { party, question: Question { headgate, outfall, delivery } } => (Some(*party), format!("ask {headgate} {outfall} {delivery}")),
        Call::Commit { party } => (Some(*party), "commit".to_string()),
        Call::Clear => (None, "clear".to_string()),
    }
}

/// A refused start is the refusal of the whole; a call that is refused is told with the others.
pub fn command(words: &Words) -> Outcome {
    let sheet = words.sheet()?;
    let calls = read(words.last())?;
    let mut session = Session::start(&sheet.bytes)?;
    let (mut text, mut list, mut views) = (String::new(), vec![], vec![]);
    for (at, call) in calls.iter().enumerate() {
        progress::step(at, calls.len());
        let (party, name) = named(call);
        let whole = party.map_or(String::new(), |party| format!("{party} ")) + &name;
        let reply = reply(&mut session, call);
        // A session may be long, so that views are made only where they are wanted.
        if let (Some(_), Reply::Answered(question, solved)) = (&words.picture, &reply) {
            views.push(view(&sheet.bytes, session.left(), &whole, question, solved)?);
        }
        let (line, mut json) = said(&reply);
        text += &format!("{whole}: {line}\n");
        json.splice(0..0, [("party", party.into()), ("call", name.as_str().into())]);
        list.push(Json::Object(json));
    }
    let left = session.left();
    let lines: String = left.chunks(2).enumerate().map(|(channel, pair)| format!("{channel} {} {}\n", pair[0], pair[1])).collect();
    let standing = session.standing.map(|standing| STANDINGS[standing as usize]);
    let parties: String = standing.iter().enumerate().map(|(party, (words, _))| format!("party {party} {words}\n")).collect();
    Ok(Answer {
        text: format!("{text}{parties}left\n{lines}"),
        json: vec![
            ("answer", "session".into()),
            ("calls", Json::List(list)),
            ("parties", Json::List(standing.iter().map(|(_, word)| Json::from(*word)).collect())),
            ("left", Json::numbers(left)),
        ],
        views,
        ..Answer::default()
    })
}

#[cfg(test)]
mod tests {
    use super::*;
    use crate::text::{file, Fault};

    #[test]
    fn a_call_is_of_party_0_unless_said() {
        let question = Question { headgate: 0, outfall: 6, delivery: -5 };
        let calls = parse(&file("ask 0 6 -5\n1 ask 0 6 -5\ncommit\n7 commit\nclear\n"));
        assert_eq!(
            calls,
            Ok(vec![Call::Ask { party: 0, question }, Call::Ask { party: 1, question }, Call::Commit { party: 0 }, Call::Commit { party: 7 }, Call::Clear])
        );
    }

    #[test]
    fn other_lines_are_named() {
        let form = "no line '[PARTY] ask HEADGATE OUTFALL DELIVERY', '[PARTY] commit' or 'clear'";
        for text in ["1 clear", "commit 1", "1", "start", "-1 commit"] {
            assert_eq!(parse(&file(text)), Err(Fault(format!("f:1: {form}"))), "{text}");
        }
        assert_eq!(parse(&file("ask 0 6\n")), Err(Fault("f:1: 'ask' has 3 numbers (headgate, outfall, delivery), here are 2".to_string())));
    }
}

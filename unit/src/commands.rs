//! The commands: each reads its words, calls the library once, and shows what that said. The drawing of a picture is read again, and its set is totalled.
use crate::answer::{number, Answer, Outcome, View};
use crate::json::Json;
use crate::library::{self, nodes_of, Answered, Drawing, Ends, Found, Refusal, Solved};
use crate::lists;
use crate::sheets::{hex, Question, SheetText};
use crate::text::{short, unsigned, File};
use crate::words::Words;

pub fn ends_of(question: &Question) -> Ends {
    (question.headgate, question.outfall)
}

/// `PLACE NUMBER`, one to a line.
fn listed(numbers: &[i32]) -> String {
    numbers.iter().enumerate().map(|(place, number)| format!("{place} {number}\n")).collect()
}

fn set_line(set: &[u64]) -> String {
    nodes_of(set).iter().fold("set".to_string(), |line, node| format!("{line} {node}")) + "\n"
}

pub fn set_json(set: &[u64]) -> Json {
    Json::numbers(&nodes_of(set))
}

pub fn delivers(ends: Ends, value: i32) -> String {
    format!("node {} delivers {value} to node {}", ends.0, ends.1)
}

/// What the set of an impossible delivery says: its outward total, and what the delivery asks out of it.
fn against(sheet: &[u8], set: &[u64], ends: Ends, delivery: i32) -> Result<String, Refusal> {
    let (_, total) = library::totals(sheet, set)?;
    let inside = |node: u16| set[node as usize / 64] >> (node % 64) & 1;
    let asked = delivery as i64 * (inside(ends.0) as i64 - inside(ends.1) as i64);
    Ok(if asked > 0 {
        format!("the set lets out at most {total}, {asked} is asked")
    } else {
        format!("the set lets out at most {total}: it takes in at least {}, and {} is asked", -(total as i64), -asked)
    })
}

pub fn plain(sheet: &[u8], ends: Option<Ends>) -> Result<View, Refusal> {
    let Drawing { nodes, channels, outer, .. } = library::read(sheet)?;
    View::new("drawing".to_string(), format!("{nodes} nodes, {channels} channels, outer dart {outer}"), sheet, ends)
}

pub fn read(words: &Words) -> Outcome {
    let sheet = words.sheet()?;
    let drawing = library::read(&sheet.bytes)?;
    let Drawing { nodes, channels, outer, tails, turns, limits } = &drawing;
    Ok(Answer {
        text: SheetText::of(sheet.question, Some(*outer), &drawing).text(),
        json: vec![
            ("answer", "drawing".into()),
            ("nodes", number(*nodes)),
            ("channels", number(*channels)),
            ("outer", number(*outer)),
            ("tails", Json::numbers(tails)),
            ("turns", Json::numbers(turns)),
            ("limits", Json::numbers(limits)),
        ],
        views: vec![plain(&sheet.bytes, sheet.question.as_ref().map(ends_of))?.asks(sheet.question.map(|question| question.delivery))],
        ..Answer::default()
    })
}

pub fn write(words: &Words) -> Outcome {
    let file = File::read(&words.given[0])?;
    let text = SheetText::parse(&file)?;
    let written = library::write(text.nodes, text.outer.unwrap_or(0), &text.tails, &text.turns, &text.limits);
    let _ = words.kept.set(text.sheet(file.name));
    let bytes = written?;
    Ok(sheet_answer(hex(&bytes), bytes)?)
}

fn sheet_answer(text: String, bytes: Vec<u8>) -> Result<Answer, Refusal> {
    Ok(Answer {
        text,
        json: vec![("answer", "sheet".into()), ("length", number(bytes.len() as u16)), ("bytes", Json::numbers(&bytes))],
        views: vec![plain(&bytes, None)?],
        bytes: Some(bytes),
        ..Answer::default()
    })
}

fn can_view(sheet: &[u8], ends: Ends, title: String, value: i32, settings: &[i32]) -> Result<View, Refusal> {
    Ok(View::new(title, delivers(ends, value), sheet, Some(ends))?.settings(settings))
}

fn cannot_view(sheet: &[u8], ends: Ends, title: String, delivery: i32, set: &[u64]) -> Result<View, Refusal> {
    let caption = against(sheet, set, ends, delivery)?;
    View::new(title, caption, sheet, Some(ends))?.set(sheet, set)
}

/// The picture of Solve's answer.
fn solved_view(sheet: &[u8], ends: Ends, delivery: i32, solved: &Solved) -> Result<View, Refusal> {
    let view = match solved {
        Solved::Can(settings) => can_view(sheet, ends, format!("can {delivery}"), delivery, settings),
        Solved::Cannot { set, .. } => cannot_view(sheet, ends, format!("cannot {delivery}"), delivery, set),
    };
    Ok(view?.asks(Some(delivery)))
}

pub fn solve(words: &Words) -> Outcome {
    let (sheet, question) = words.question(0)?;
    let (ends, delivery) = (ends_of(&question), question.delivery);
    let solved = library::solve(&sheet.bytes, ends, delivery)?;
    let views = vec![solved_view(&sheet.bytes, ends, delivery, &solved)?];
    let (text, json) = match &solved {
        Solved::Can(settings) => (
            format!("can {delivery}\n{}", listed(settings)),
            vec![("answer", "can".into()), ("delivery", number(delivery)), ("settings", Json::numbers(settings))],
        ),
        Solved::Cannot { set, size } => (
            format!("cannot {delivery}\n{}size {size}\n", set_line(set)),
            vec![("answer", "cannot".into()), ("delivery", number(delivery)), ("set", set_json(set)), ("size", number(*size))],
        ),
    };
    Ok(Answer { text, json, views, ..Answer::default() })
}

/// No value at all: the set holds both ends or neither, so any delivery shows it.
pub fn none(sheet: &[u8], ends: Ends, set: &[u64]) -> Outcome {
    Ok(Answer {
        text: format!("none\n{}", set_line(set)),
        json: vec![("answer", "none".into()), ("set", set_json(set))],
        views: vec![cannot_view(sheet, ends, "none".to_string(), 0, set)?],
        ..Answer::default()
    })
}

/// The settings, and the set that proves that the next value cannot be: what it lets out, or takes in, is the value itself.
pub fn extreme_view(sheet: &[u8], ends: Ends, name: &str, found: &library::Extreme) -> Result<View, Refusal> {
    let (_, total) = library::totals(sheet, &found.set)?;
    let proof = if name == "least" { format!("takes in at least {}", -(total as i64)) } else { format!("lets out at most {total}") };
    let caption = format!("{}, and the set {proof}", delivers(ends, found.value));
    View::new(format!("{name} {}", found.value), caption, sheet, Some(ends))?.settings(&found.settings).set(sheet, &found.set)
}

pub fn extreme_text(name: &str, found: &library::Extreme) -> String {
    format!("{name} {}\n{}{}", found.value, listed(&found.settings), set_line(&found.set))
}

/// What Largest found, of the sheet or of the limits from a capture.
pub fn largest_of(sheet: &[u8], ends: Ends, found: &library::Extreme) -> Outcome {
    Ok(Answer {
        text: extreme_text("largest", found),
        json: vec![("answer", "largest".into()), ("largest", number(found.value)), ("settings", Json::numbers(&found.settings)), ("set", set_json(&found.set))],
        views: vec![extreme_view(sheet, ends, "largest", found)?],
        ..Answer::default()
    })
}

pub fn largest(words: &Words) -> Outcome {
    let (sheet, question) = words.question(0)?;
    let ends = ends_of(&question);
    match library::largest(&sheet.bytes, ends)? {
        Found::None(set) => none(&sheet.bytes, ends, &set),
        Found::Some(found) => largest_of(&sheet.bytes, ends, &found),
    }
}

pub fn range(words: &Words) -> Outcome {
    let (sheet, question) = words.question(0)?;
    let ends = ends_of(&question);
    match library::least_and_largest(&sheet.bytes, ends)? {
        Found::None(set) => none(&sheet.bytes, ends, &set),
        Found::Some([least, largest]) => Ok(Answer {
            text: extreme_text("least", &least) + &extreme_text("largest", &largest),
            json: vec![
                ("answer", "range".into()),
                ("least", number(least.value)),
                ("low", Json::numbers(&least.settings)),
                ("below", set_json(&least.set)),
                ("largest", number(largest.value)),
                ("high", Json::numbers(&largest.settings)),
                ("above", set_json(&largest.set)),
            ],
            views: vec![extreme_view(&sheet.bytes, ends, "least", &least)?, extreme_view(&sheet.bytes, ends, "largest", &largest)?],
            ..Answer::default()
        }),
    }
}

/// The sheet with another forward limit on a channel, for the picture.
pub fn with_limit(sheet: &[u8], channel: u16, limit: i32) -> Vec<u8> {
    let head = if sheet[0] == 4 { 7 } else { 5 };
    let at = head + 17 * channel as usize + 9;
    [&sheet[..at], &limit.to_le_bytes(), &sheet[at + 4..]].concat()
}

pub fn raise(words: &Words) -> Outcome {
    let (sheet, question) = words.question(1)?;
    let channel = words.number(words.given.len() - 1, &short("channel"))? as u16;
    let (ends, delivery) = (ends_of(&question), question.delivery);
    let found = library::raise_limit(&sheet.bytes, ends, delivery, channel)?;
    let (text, json, view) = match found {
        Found::Some(raised) => {
            let changed = with_limit(&sheet.bytes, channel, raised.limit);
            (
                format!("limit {}\n{}", raised.limit, listed(&raised.settings)),
                vec![("answer", "limit".into()), ("limit", number(raised.limit)), ("settings", Json::numbers(&raised.settings))],
                can_view(&changed, ends, format!("limit {} on channel {channel}", raised.limit), delivery, &raised.settings)?,
            )
        }
        Found::None(set) => {
            let changed = with_limit(&sheet.bytes, channel, 1_000_000);
            (
                format!("none\n{}", set_line(&set)),
                vec![("answer", "none".into()), ("set", set_json(&set))],
                cannot_view(&changed, ends, format!("no limit on channel {channel} will do"), delivery, &set)?,
            )
        }
    };
    Ok(Answer { text, json, views: vec![view], ..Answer::default() })
}

pub fn page(words: &Words) -> Outcome {
    let sheet = words.sheet()?;
    let questions = lists::questions(words.last())?;
    let asked: Vec<(Ends, i32)> = questions.iter().map(|question| (ends_of(question), question.delivery)).collect();
    let answers = library::page(&sheet.bytes, &asked)?;
    let mut answer = Answer::default();
    let mut list = vec![];
    for (&(ends, delivery), one) in asked.iter().zip(answers) {
        let (said, mut json) = match &one {
            Answered::Can(settings) => (spaced("can", settings), vec![("answer", "can".into()), ("settings", Json::numbers(settings))]),
            Answered::Cannot { set, size } => {
                (spaced("cannot", &nodes_of(set)), vec![("answer", "cannot".into()), ("set", set_json(set)), ("size", number(*size))])
            }
            Answered::Refused(refused) => (format!("refused {refused}"), crate::answer::refusal_json(Refusal { number: *refused, place: 0 }, "page")),
        };
        answer.text += &format!("question {} {} {delivery}: {said}\n", ends.0, ends.1);
        json.splice(0..0, [("headgate", number(ends.0)), ("outfall", number(ends.1)), ("delivery", number(delivery))]);
        list.push(Json::Object(json));
        match one {
            Answered::Can(settings) => answer.views.push(solved_view(&sheet.bytes, ends, delivery, &Solved::Can(settings))?),
            Answered::Cannot { mut set, size } => {
                set.resize(library::SET_WORDS, 0);
                answer.views.push(solved_view(&sheet.bytes, ends, delivery, &Solved::Cannot { set, size })?)
            }
            Answered::Refused(_) => {}
        }
    }
    answer.json = vec![("answer", "page".into()), ("answers", Json::List(list))];
    Ok(answer)
}

pub fn spaced<T: ToString>(word: &str, numbers: &[T]) -> String {
    numbers.iter().fold(word.to_string(), |line, number| line + " " + &number.to_string())
}

/// The settings of the sheet's channels, and a note where more were given.
fn of_channels(sheet: &[u8], mut settings: Vec<i32>) -> Result<(Vec<i32>, Vec<String>), Refusal> {
    let channels = library::read(sheet)?.channels as usize;
    let notes = lists::surplus(settings.len(), "settings", channels, "channels");
    settings.truncate(channels);
    Ok((settings, notes))
}

pub fn mark(words: &Words) -> Outcome {
    let (sheet, question) = words.question(1)?;
    let settings = lists::settings(words.last())?;
    let ends = ends_of(&question);
    let value = library::mark(&sheet.bytes, ends, &settings)?;
    let (settings, notes) = of_channels(&sheet.bytes, settings)?;
    Ok(Answer {
        text: format!("value {value}\n"),
        json: vec![("answer", "value".into()), ("value", number(value))],
        views: vec![can_view(&sheet.bytes, ends, format!("value {value}"), value, &settings)?],
        notes,
        ..Answer::default()
    })
}

fn leveled_view(sheet: &[u8], title: &str, settings: &[i32], levels: &[i32]) -> Result<View, Refusal> {
    let caption = "the setting of a channel is the level left of it less the level right of it".to_string();
    Ok(View::new(title.to_string(), caption, sheet, None)?.settings(settings).levels(levels))
}

pub fn levels(words: &Words) -> Outcome {
    let sheet = words.sheet()?;
    let settings = lists::settings(words.last())?;
    let levels = library::levels_from_settings(&sheet.bytes, &settings)?;
    let (settings, notes) = of_channels(&sheet.bytes, settings)?;
    Ok(Answer {
        text: listed(&levels),
        json: vec![("answer", "levels".into()), ("levels", Json::numbers(&levels))],
        notes,
        views: vec![leveled_view(&sheet.bytes, "levels from settings", &settings, &levels)?],
        ..Answer::default()
    })
}

pub fn settings(words: &Words) -> Outcome {
    let sheet = words.sheet()?;
    let mut levels = lists::levels(words.last())?;
    let settings = library::settings_from_levels(&sheet.bytes, &levels)?;
    // the settings are balanced, and have as many levels as there are faces
    let faces = library::levels_from_settings(&sheet.bytes, &settings)?.len();
    let notes = lists::surplus(levels.len(), "levels", faces, "faces");
    levels.truncate(faces);
    Ok(Answer {
        notes,
        text: listed(&settings),
        json: vec![("answer", "settings".into()), ("settings", Json::numbers(&settings))],
        views: vec![leveled_view(&sheet.bytes, "settings from levels", &settings, &levels)?],
        ..Answer::default()
    })
}

pub fn totals(words: &Words) -> Outcome {
    let sheet = words.sheet()?;
    let set = lists::set(words.last())?;
    let (subtotals, total) = library::totals(&sheet.bytes, &set)?;
    let mut nodes = nodes_of(&set);
    let none = nodes.split_off(subtotals.len());
    let last = library::read(&sheet.bytes)?.nodes - 1;
    let notes = if none.is_empty() { vec![] } else { vec![spaced(&format!("the last node of the sheet is {last}, and passed over was"), &none)] };
    let lines: String = nodes.iter().zip(&subtotals).map(|(node, subtotal)| format!("{node} {subtotal}\n")).collect();
    let caption = format!("the outward total of a set of {} nodes", nodes.len());
    Ok(Answer {
        notes,
        text: format!("{lines}total {total}\n"),
        json: vec![("answer", "totals".into()), ("nodes", Json::numbers(&nodes)), ("subtotals", Json::numbers(&subtotals)), ("total", number(total))],
        views: vec![View::new(format!("total {total}"), caption, &sheet.bytes, sheet.question.as_ref().map(ends_of))?.set(&sheet.bytes, &set)?],
        ..Answer::default()
    })
}

/// The bytes as they are, or with the question that is given before the sheet.
pub fn key(words: &Words) -> Outcome {
    let (input, asked) = if words.given.len() == 1 {
        let sheet = words.sheet()?;
        ([sheet.question.map_or(vec![], |question| question.record()), sheet.bytes.clone()].concat(), sheet.question.map(|question| (sheet, question)))
    } else {
        let (sheet, question) = words.question(0)?;
        ([question.record(), sheet.bytes.clone()].concat(), Some((sheet, question)))
    };
    let text = library::key_text(&input)?;
    let solved = asked.and_then(|(sheet, question)| {
        let (ends, delivery) = (ends_of(&question), question.delivery);
        let solved = library::solve(&sheet.bytes, ends, delivery).ok()?;
        solved_view(&sheet.bytes, ends, delivery, &solved).ok()
    });
    Ok(Answer {
        json: vec![("answer", "key".into()), ("text", text.as_str().into())],
        refused: text.starts_with("refused"),
        text,
        views: solved.into_iter().collect(),
        ..Answer::default()
    })
}

pub fn practice(words: &Words) -> Outcome {
    let (rows, columns) = (words.number(0, &short("rows"))? as u16, words.number(1, &short("columns"))? as u16);
    let bytes = library::practice_sheet(rows, columns, words.number(2, &unsigned("seed"))? as u32)?;
    Ok(sheet_answer(SheetText::of(None, None, &library::read(&bytes)?).text(), bytes)?)
}

//! DIMACS maximum flow texts: the unit's text of a sheet, and a text from elsewhere in words or as a sheet with a flat drawing that is found here. Such a text
//! has a problem line, a node line for source and sink each, and arcs in any order; nodes count from 1.
use crate::answer::{number, Answer, Outcome};
use crate::commands::{ends_of, plain};
use crate::json::Json;
use crate::library::{self, Found};
use crate::planar::{self, Subdivision};
use crate::sheets::{Question, SheetText};
use crate::text::{fault, Field, File, Parsed};
use crate::words::Words;
use bindings::{MAX_CHANNELS, MAX_NODES};

/// The greatest limit that the unit takes.
const MAX_LIMIT: i64 = 1_000_000;
const COUNT: i64 = i32::MAX as i64;
const CAPACITY: Field = Field { name: "capacity", least: 0, most: 9_999_999_999 };

#[derive(Clone, Debug, PartialEq)]
struct Arc {
    ends: planar::Ends,
    capacity: i64,
    line: usize,
}

/// Nodes count from 0 here.
#[derive(Debug, PartialEq)]
struct Problem {
    nodes: usize,
    source: usize,
    sink: usize,
    arcs: Vec<Arc>,
}

/// A channel: its ends, both limits, and the lines of its arcs.
#[derive(Debug, PartialEq)]
struct Channel {
    ends: planar::Ends,
    limits: [i64; 2],
    lines: [usize; 2],
}

fn counted(name: &'static str, least: i64, most: i64, place: &str, word: &str) -> Parsed<usize> {
    Ok(Field { name, least, most }.number(place, word)? as usize)
}

impl Problem {
    fn parse(file: &File) -> Parsed<Problem> {
        let (mut counts, mut ends, mut arcs) = (None, [None; 2], vec![]);
        for (at, line) in file.data.split(|&byte| byte == b'\n').enumerate() {
            let line = String::from_utf8_lossy(line); // a comment may be in any letters
            let place = format!("{}:{}", file.name, at + 1);
            let node = |word: &str| match counts {
                None => fault(&place, "before the problem line 'p max NODES ARCS'"),
                Some((nodes, _)) => Ok(counted("node", 1, nodes as i64, &place, word)? - 1),
            };
            match line.split_whitespace().collect::<Vec<_>>()[..] {
                [] | ["c", ..] => {}
                ["p", "max", nodes, size] if counts.is_none() => {
                    counts = Some((counted("nodes", 0, COUNT, &place, nodes)?, counted("arcs", 0, COUNT, &place, size)?))
                }
                ["p", kind, ..] if kind != "max" => return fault(&place, format!("a problem '{kind}', and only 'max', maximum flow, is read")),
                ["n", word, "s"] if ends[0].is_none() => ends[0] = Some(node(word)?),
                ["n", word, "t"] if ends[1].is_none() => ends[1] = Some(node(word)?),
                ["a", tail, head, word] => arcs.push(Arc { ends: (node(tail)?, node(head)?), capacity: CAPACITY.number(&place, word)?, line: at + 1 }),
                _ => return fault(&place, "neither a problem line, a node line, an arc line nor a comment, or said before"),
            }
        }
        match (counts, ends) {
            (None, _) => file.fault("no line 'p max NODES ARCS'"),
            (_, [None, _]) => file.fault("no line 'n NODE s', the source"),
            (_, [_, None]) => file.fault("no line 'n NODE t', the sink"),
            (Some((_, size)), _) if size != arcs.len() => file.fault(format!("{} arcs, where {size} are announced", arcs.len())),
            (_, [Some(source), Some(sink)]) if source == sink => file.fault("the source is the sink"),
            (Some((nodes, _)), [Some(source), Some(sink)]) => Ok(Problem { nodes, source, sink, arcs }),
        }
    }

    /// Two arcs with the same ends, one there and one back, are a channel: those that stand together first, then a later one for each that is left. An arc
    /// without a partner is a channel with back limit 0.
    fn channels(&self) -> Vec<Channel> {
        let arcs = &self.arcs;
        let back = |one: usize, other: usize| arcs[one].ends == (arcs[other].ends.1, arcs[other].ends.0);
        let mut partner = vec![None; arcs.len()];
        for at in 1..arcs.len() {
            if partner[at - 1].is_none() && back(at - 1, at) {
                (partner[at - 1], partner[at]) = (Some(at), Some(at - 1));
            }
        }
        let mut waiting: std::collections::HashMap<planar::Ends, Vec<usize>> = Default::default();
        for at in (0..arcs.len()).filter(|&at| partner[at].is_none()).collect::<Vec<_>>() {
            let (tail, head) = arcs[at].ends;
            match waiting.get_mut(&(head, tail)).filter(|list| !list.is_empty()).map(|list| list.remove(0)) {
                Some(first) => (partner[first], partner[at]) = (Some(at), Some(first)),
                None => waiting.entry((tail, head)).or_default().push(at),
            }
        }
        let firsts = (0..arcs.len()).filter(|&at| partner[at].is_none_or(|other| other > at));
        let channel = |at: usize| {
            let other = partner[at].map(|other| &arcs[other]);
            let (limit, line) = other.map_or((0, arcs[at].line), |arc| (arc.capacity, arc.line));
            Channel { ends: arcs[at].ends, limits: [arcs[at].capacity, limit], lines: [arcs[at].line, line] }
        };
        firsts.map(channel).collect()
    }

    /// Why the unit cannot take it, whatever the drawing.
    fn beyond(&self, name: &str, channels: &[Channel]) -> Option<String> {
        if !(2..=MAX_NODES).contains(&self.nodes) {
            return Some(format!("{name}: {} nodes, and the unit takes 2 to {MAX_NODES}", self.nodes));
        }
        if !(1..=MAX_CHANNELS).contains(&channels.len()) {
            return Some(format!("{name}: {} channels, and the unit takes 1 to {MAX_CHANNELS}", channels.len()));
        }
        let limits = channels.iter().flat_map(|channel| channel.limits.into_iter().zip(channel.lines));
        if let Some((limit, line)) = limits.into_iter().find(|(limit, _)| *limit > MAX_LIMIT) {
            return Some(format!("{name}:{line}: the capacity {limit}, and the unit takes at most {MAX_LIMIT}"));
        }
        let alone = (0..self.nodes).find(|&node| !channels.iter().any(|channel| channel.ends.0 == node || channel.ends.1 == node))?;
        Some(format!("{name}: no arc begins or ends at node {}, and every node of a drawing has a channel", alone + 1))
    }

    /// A sheet with a flat drawing, without a delivery; or why there is none.
    fn drawn(&self, name: &str) -> Result<SheetText, String> {
        let channels = self.channels();
        if let Some(why) = self.beyond(name, &channels) {
            return Err(why);
        }
        let ends: Vec<planar::Ends> = channels.iter().map(|channel| channel.ends).collect();
        let turns = planar::turns(self.nodes, &ends).map_err(|found| format!("{name}: no flat drawing has this graph: {}", reason(&found)))?;
        Ok(SheetText {
            question: Some(Question { headgate: self.source as u16, outfall: self.sink as u16, delivery: 0 }),
            nodes: self.nodes as u16,
            tails: ends.iter().flat_map(|&(tail, head)| [tail as u16, head as u16]).collect(),
            turns,
            limits: channels.iter().flat_map(|channel| channel.limits.map(|limit| limit as i32)).collect(),
            ..SheetText::default()
        })
    }

    fn parts(&self) -> usize {
        let mut above: Vec<usize> = (0..self.nodes).collect();
        fn top(above: &mut [usize], mut node: usize) -> usize {
            while above[node] != node {
                above[node] = above[above[node]];
                node = above[node];
            }
            node
        }
        for arc in &self.arcs {
            let (one, other) = (top(&mut above, arc.ends.0), top(&mut above, arc.ends.1));
            above[one] = other;
        }
        (0..self.nodes).filter(|&node| above[node] == node).count()
    }
}

/// The subdivision in words, nodes as the text counts them.
fn reason(found: &Subdivision) -> String {
    let said = |nodes: &[usize], mark: &str| nodes.iter().map(|node| (node + 1).to_string()).collect::<Vec<_>>().join(mark);
    let joined = match found.nodes.len() {
        5 => format!("nodes {} are joined each to each", said(&found.nodes, " ")),
        _ => format!("nodes {} are each joined to nodes {}", said(&found.nodes[..3], " "), said(&found.nodes[3..], " ")),
    };
    let paths: Vec<String> = found.paths.iter().map(|path| said(path, "-")).collect();
    format!("{joined}, by paths that meet nowhere between: {}", paths.join(", "))
}

fn given(words: &Words) -> Parsed<(String, Problem)> {
    let file = File::read(words.given.first().map_or("-", String::as_str))?;
    let problem = Problem::parse(&file)?;
    Ok((file.name, problem))
}

/// The largest delivery of the drawing, which the sheet then asks for.
fn largest(text: &mut SheetText) -> library::Told<i32> {
    let mut question = text.question.expect("a text names source and sink");
    let Found::Some(found) = library::largest(&text.bytes(), ends_of(&question))? else { unreachable!("nothing flows where no limit is below 0") };
    question.delivery = found.value;
    text.question = Some(question);
    Ok(found.value)
}

pub fn sheet(words: &Words) -> Outcome {
    let (name, problem) = given(words)?;
    let mut text = match problem.drawn(&name) {
        Ok(text) => text,
        Err(why) => return Err(crate::text::Fault(why).into()),
    };
    largest(&mut text)?;
    let said = text.text();
    Ok(Answer {
        json: vec![("answer", "sheet".into()), ("text", said.as_str().into())],
        bytes: Some(text.packed()),
        views: vec![plain(&text.bytes(), text.question.as_ref().map(ends_of))?],
        text: said,
        ..Answer::default()
    })
}

pub fn show(words: &Words) -> Outcome {
    let (name, problem) = given(words)?;
    let Problem { nodes, source, sink, arcs } = &problem;
    let channels = problem.channels();
    let [loops, zero] = [arcs.iter().filter(|arc| arc.ends.0 == arc.ends.1).count(), arcs.iter().filter(|arc| arc.capacity == 0).count()];
    let mut lines = vec![
        format!("{nodes} nodes, {} arcs, from node {} to node {}", arcs.len(), source + 1, sink + 1),
        format!("{} parts, {loops} arcs from a node to itself, {zero} arcs of capacity 0", problem.parts()),
    ];
    for (at, Channel { ends, limits, .. }) in channels.iter().enumerate() {
        lines.push(format!("channel {at}: {} -> {} {}, back {}", ends.0 + 1, ends.1 + 1, limits[0], limits[1]));
    }
    let (found, why) = match problem.drawn(&name) {
        Ok(mut text) => (Some(largest(&mut text)?), None),
        Err(why) => (None, Some(why)),
    };
    lines.push(why.as_ref().map_or(format!("largest {}", found.unwrap_or_default()), |why| format!("no sheet: {why}")));
    Ok(Answer {
        text: lines.join("\n") + "\n",
        json: vec![
            ("answer", "problem".into()),
            ("nodes", number(*nodes as u32)),
            ("source", number(*source as u32 + 1)),
            ("sink", number(*sink as u32 + 1)),
            ("channels", Json::List(channels.iter().map(Channel::json).collect())),
            ("largest", found.into()),
            ("why", why.map_or(Json::Null, |why| why.as_str().into())),
        ],
        ..Answer::default()
    })
}

impl Channel {
    fn json(&self) -> Json {
        Json::numbers(&[self.ends.0 as i64 + 1, self.ends.1 as i64 + 1, self.limits[0], self.limits[1]])
    }
}

/// The unit's text of a sheet.
pub fn write(words: &Words) -> Outcome {
    let (sheet, question) = words.question(0)?;
    let ends = ends_of(&question);
    let text = library::write_dimacs(&sheet.bytes, ends)?;
    Ok(Answer {
        json: vec![("answer", "dimacs".into()), ("text", text.as_str().into())],
        bytes: Some(text.clone().into_bytes()),
        text,
        views: vec![plain(&sheet.bytes, Some(ends))?],
        ..Answer::default()
    })
}

#[cfg(test)]
mod tests {
    use super::*;
    use crate::text::file;

    fn channels(arcs: &str) -> Vec<(usize, usize, i64, i64)> {
        let lines: String = arcs.split(", ").map(|arc| format!("a {arc}\n")).collect();
        let text = format!("c a college's\nn 2 t\np max 4 {}\n{lines}n 1 s\n", arcs.split(", ").count());
        let text = text.replacen("n 2 t\np", "p", 1).replace("n 1 s\n", "n 2 t\nc \u{e9} # 7\nn 1 s\n");
        Problem::parse(&file(&text)).unwrap().channels().iter().map(|one| (one.ends.0 + 1, one.ends.1 + 1, one.limits[0], one.limits[1])).collect()
    }

    #[test]
    fn arcs_find_their_partners() {
        assert_eq!(channels("1 2 5, 2 1 0, 1 2 3, 2 1 7"), [(1, 2, 5, 0), (1, 2, 3, 7)]);
        assert_eq!(channels("1 2 5, 3 4 1, 2 1 4"), [(1, 2, 5, 4), (3, 4, 1, 0)]);
        assert_eq!(channels("1 2 5, 1 2 3, 2 1 4"), [(1, 2, 5, 0), (1, 2, 3, 4)]);
        assert_eq!(channels("1 1 5, 2 2 3, 2 2 4, 1 2 1"), [(1, 1, 5, 0), (2, 2, 3, 4), (1, 2, 1, 0)]);
    }

    #[test]
    fn what_is_wrong_is_named() {
        let said = |text: &str| Problem::parse(&file(text)).unwrap_err().0;
        for (text, what) in [
            ("", "f: no line 'p max NODES ARCS'"),
            ("p max 2 1\nn 1 s\na 1 2 5\n", "f: no line 'n NODE t', the sink"),
            ("p max 2 2\nn 1 s\nn 2 t\na 1 2 5\n", "f: 1 arcs, where 2 are announced"),
            ("p max 2 1\nn 1 s\nn 1 t\na 1 2 5\n", "f: the source is the sink"),
            ("n 1 s\np max 2 1\n", "f:1: before the problem line 'p max NODES ARCS'"),
            ("p min 2 1\n", "f:1: a problem 'min', and only 'max', maximum flow, is read"),
            ("p max 2 1\na 1 3 5\n", "f:2: node: '3' is no number from 1 to 2"),
            ("p max 2 1\na 1 2 0.5\n", "f:2: capacity: '0.5' is no number from 0 to 9999999999"),
            ("p max 2 1\nn 1 s\nn 2 s\n", "f:3: neither a problem line, a node line, an arc line nor a comment, or said before"),
        ] {
            assert_eq!(said(text), what, "{text}");
        }
    }

    #[test]
    fn what_the_unit_does_not_take_is_told_before() {
        let why = |text: &str| Problem::parse(&file(text)).unwrap().drawn("f").unwrap_err();
        assert_eq!(why("p max 2 1\nn 1 s\nn 2 t\na 1 2 1000001\n"), "f:4: the capacity 1000001, and the unit takes at most 1000000");
        assert_eq!(why("p max 3 1\nn 1 s\nn 2 t\na 1 2 1\n"), "f: no arc begins or ends at node 3, and every node of a drawing has a channel");
        assert_eq!(why("p max 514 1\nn 1 s\nn 2 t\na 1 2 1\n"), "f: 514 nodes, and the unit takes 2 to 513");
        let many: String = (0..513).map(|_| "a 1 2 1\n").collect();
        assert_eq!(why(&format!("p max 2 513\nn 1 s\nn 2 t\n{many}")), "f: 513 channels, and the unit takes 1 to 512");
    }
}

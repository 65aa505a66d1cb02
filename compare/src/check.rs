//! The comparison: for each random drawing a list of calls, each held to what the judge, the flow solver and the face levels say of it. All memory that a call
//! can reach is compared, so what must stay as it was is seen to.
use crate::chance::Chance;
use crate::damage;
use crate::dimacs;
use crate::drawing::{count, Drawing, EDGE, HEAD, OUTER_HEAD};
use crate::faults::Library;
use crate::flow::{carry, least_limit, net_flows, range, MOST_LIMIT};
use crate::grow::{grow, Grown};
use crate::judge;
use crate::levels::{flows_of, highest, levels_of};
use crate::sessions::Player;
use crate::unit::{Call, Lent, PAGE};
use std::collections::BTreeMap;
use std::fmt::Write;

/// What was compared, by kind.
#[derive(Default)]
pub struct Tally {
    pub drawings: BTreeMap<&'static str, u64>,
    pub answers: BTreeMap<(&'static str, u8, &'static str), u64>,
}

impl Tally {
    pub fn compared(&self) -> u64 {
        self.answers.values().sum()
    }

    fn add(&mut self, call: &Call, result: u8, after: &Lent) {
        let answer = match (call, result) {
            (Call::Solve { .. }, 0) => ["cannot", "can"][after.can as usize],
            (Call::Largest { .. }, 0) if after.found == 1 && after.value < 0 => "value below 0",
            (Call::Largest { .. }, 0) => ["none", "value"][after.found as usize],
            (Call::LeastAndLargest { .. }, 0) => match (after.found, after.least, after.largest) {
                (0, ..) => "none",
                (_, _, ..=-1) => "values below 0",
                (_, 1.., _) => "values above 0",
                _ => "values",
            },
            (Call::RaiseLimit { .. }, 0) if after.found == 1 && after.value < 0 => "limit below 0",
            (Call::RaiseLimit { .. }, 0) => ["none", "limit"][after.found as usize],
            (Call::Mark { .. }, 0) => "value",
            (Call::Totals, 0) => ["total below 0", "total 0", "total"][(after.total.signum() + 1) as usize],
            (Call::KeyText, 0) => match after.text[3] {
                b' ' => "can",
                b'n' => "cannot",
                _ => "refused in the text",
            },
            (Call::Page { count: 0 }, 0) => "empty",
            (Call::Page { count: PAGE }, 0) => "of 64",
            (Call::Page { count }, 0) if [0, 1, 13, 14, 15].iter().all(|answer| after.answers[..*count].contains(answer)) => "with every answer",
            (Call::Page { .. }, 0) => "with some answers",
            (Call::Examine { .. }, 0) if after.number == 0 => "empty",
            (Call::Examine { .. }, 0) if after.number == 1000 => "of 1000",
            (Call::Examine { .. }, 0) => "class",
            (_, 0) => "done",
            _ => "refused",
        };
        *self.answers.entry((call.name(), result, answer)).or_default() += 1;
    }
}

/// What is counted of the channels whose limit is raised above the present one.
pub const RAISED: &str = "Raised above the present limit";

/// Where such a channel lies. A loop is never one: whatever its limit is, no delivery waits for it.
fn channel_kind(drawing: &Drawing, (source, sink): (u16, u16), edge: usize) -> &'static str {
    let (faces, parts) = (drawing.faces(), drawing.parts());
    let part = parts[drawing.tail(2 * edge)];
    match (parts[source as usize], parts[sink as usize]) {
        (from, to) if from != to => "with the ends apart",
        (from, _) if from != part => "in another part than the ends",
        _ if faces[2 * edge] == faces[2 * edge + 1] => "a bridge",
        _ => "another channel",
    }
}

/// A difference between the unit and this program, told with the drawing.
#[derive(Debug)]
pub struct Wrong(pub String);

type Check<T = ()> = Result<T, Wrong>;

/// Compares everything about the drawing of this number.
pub fn compare_drawing(library: &Library, seed: u64, number: u64, tally: &mut Tally) -> Check {
    let mut chance = Chance::new(seed, number);
    let mut grown = grow(&mut chance, number);
    if chance.one_in(2) {
        grown.drawing.outer = Some(chance.below(grown.drawing.darts()) as u16);
    }
    *tally.drawings.entry(grown.name).or_default() += 1;
    let mut checker = Checker { library, tally, chance };
    checker.all_of(&grown).map_err(|Wrong(text)| Wrong(format!("seed {seed}, drawing {number} ({})\n{text}", grown.name)))
}

/// Compares everything about a stored sheet; its largest value, which was found elsewhere, too.
pub fn compare_sheet(library: &Library, name: &str, grown: &Grown, largest: Option<i64>, tally: &mut Tally) -> Check {
    let told = |text: String| Wrong(format!("{name}\n{text}"));
    let found = range(&grown.drawing, grown.source, grown.sink).map(|(_, largest)| largest);
    if found != largest {
        return Err(told(format!("the largest is {found:?}, not {largest:?}\n")));
    }
    *tally.drawings.entry(grown.name).or_default() += 1;
    let chance = Chance::new(grown.drawing.darts() as u64, grown.source as u64);
    Checker { library, tally, chance }.all_of(grown).map_err(|Wrong(text)| told(text))
}

/// The key's text of these bytes, compared.
pub fn key_of(library: &Library, input: &[u8], tally: &mut Tally) -> Check<String> {
    let mut lent = Lent::new(input.to_vec());
    lent.text = vec![0; judge::TEXT];
    let after = Checker { library, tally, chance: Chance::new(0, 0) }.compare(Call::KeyText, &lent)?;
    Ok(String::from_utf8_lossy(&after.text[..after.length]).into_owned())
}

/// The answers to a page of these questions, compared, each in words: its settings or the nodes of its set behind "can" and "cannot".
pub fn page_of(library: &Library, sheet: &[u8], questions: &[(u16, u16, i32)], tally: &mut Tally) -> Check<Vec<String>> {
    let drawing = Drawing::of_bytes(sheet).ok_or_else(|| Wrong("no sheet\n".to_string()))?;
    let (edges, words, count) = (drawing.edges(), drawing.words(), questions.len());
    let mut lent = Lent::new(sheet.to_vec());
    lent.sources = questions.iter().map(|question| question.0).collect();
    lent.sinks = questions.iter().map(|question| question.1).collect();
    lent.values = questions.iter().map(|question| question.2).collect();
    lent.sources.resize(PAGE, 0);
    lent.sinks.resize(PAGE, 0);
    lent.values.resize(PAGE, 0);
    (lent.answers, lent.sizes) = (vec![0; PAGE], vec![0; PAGE]);
    (lent.flows, lent.set) = (vec![0; count * edges], vec![0; count * words]);
    let after = Checker { library, tally, chance: Chance::new(0, 0) }.compare(Call::Page { count }, &lent)?;
    let listed = |numbers: Vec<String>| numbers.join(" ");
    let told = |i: usize| match after.answers[i] {
        1 => format!("can {}", listed(after.flows[i * edges..][..edges].iter().map(i32::to_string).collect())),
        0 => format!("cannot {}", listed(judge::members(&drawing, &after.set[i * words..]).iter().map(usize::to_string).collect())),
        number => format!("refused {number}"),
    };
    Ok((0..count).map(told).collect())
}

/// What is due from a call. A set is any that proves what it is given for: for a value, or without one that nothing can be carried.
struct Due {
    result: u8,
    lent: Lent,
    proofs: Vec<Proof>,
}

/// A set, due in one slice or the same in two.
struct Proof {
    slices: &'static [Slice],
    /// How many sets stand before it in the slice: of a page, its question.
    before: usize,
    drawing: Drawing,
    source: u16,
    sink: u16,
    value: Option<i64>,
}

/// A slice for a set.
type Slice = fn(&mut Lent) -> &mut Vec<u64>;
const SET: Slice = |lent| &mut lent.set;
const BELOW: Slice = |lent| &mut lent.below;
const ABOVE: Slice = |lent| &mut lent.above;

struct Checker<'a> {
    library: &'a Library,
    tally: &'a mut Tally,
    chance: Chance,
}

impl Checker<'_> {
    fn all_of(&mut self, grown: &Grown) -> Check {
        let drawing = &grown.drawing;
        self.read_and_write(drawing)?;
        self.questions(drawing, grown.source, grown.sink)?;
        let nodes = drawing.nodes as usize;
        let source = self.chance.below(nodes);
        let sink = (source + 1 + self.chance.below(nodes - 1)) % nodes;
        self.questions(drawing, source, sink)?;
        self.levels(drawing, source, sink)?;
        self.totals(drawing, source, sink)?;
        self.wrong_questions(drawing)?;
        for _ in 0..3 {
            self.damaged(drawing)?;
        }
        self.practice()?;
        self.classes(drawing, grown.source, grown.sink)?;
        self.pages(drawing, grown.source, grown.sink)?;
        self.session(drawing, grown.source, grown.sink)
    }

    /// A sequence of calls of a session, and two runs that one party cannot tell apart; now and then on limits of zero, where every commit is of flows of zero.
    fn session(&mut self, drawing: &Drawing, source: usize, sink: usize) -> Check {
        let mut drawing = drawing.clone();
        if self.chance.one_in(12) {
            drawing.capacities.fill(0);
        }
        let mut player = Player::new(self.library, &mut self.chance, source, sink);
        let played = player.play(&drawing).and_then(|()| player.pair(&drawing));
        for key in std::mem::take(&mut player.met) {
            *self.tally.answers.entry(key).or_default() += 1;
        }
        played.map_err(|text| Wrong(format!("{}# a session from {source} to {sink}\n{text}", drawing.text())))
    }

    /// One call, and its answer if it is as it should be.
    fn compare(&mut self, call: Call, before: &Lent) -> Check<Lent> {
        let mut after = before.clone();
        let result = self.library.call(&call, &mut after);
        let mut due = self.due(&call, before)?;
        let mut differences = String::new();
        if result != due.result {
            writeln!(differences, "result: {result}, not {}", due.result).unwrap();
        }
        let mut objections = String::new();
        for proof in &due.proofs {
            let words = proof.drawing.words();
            let place = proof.before * words..(proof.before + 1) * words;
            let set = proof.slices[0](&mut after)[place.clone()].to_vec();
            proof.slices.iter().for_each(|slice| slice(&mut due.lent)[place.clone()].copy_from_slice(&set));
            let size = set.iter().map(|word| word.count_ones() as u16).sum();
            match call {
                Call::Solve { .. } => due.lent.size = size,
                Call::Page { .. } => due.lent.sizes[proof.before] = size,
                _ => {}
            }
            let objection = judge::objection(&proof.drawing, &set, proof.source, proof.sink, proof.value);
            objections.extend(objection.map(|text| text + "\n"));
        }
        differ(&mut differences, &after, &due.lent);
        differences += &objections;
        if !differences.is_empty() {
            return Err(Wrong(format!("{call:?}\n{}{differences}", picture(&call, before))));
        }
        self.tally.add(&call, result, &after);
        Ok(after)
    }

    fn due(&mut self, call: &Call, before: &Lent) -> Check<Due> {
        let mut due = Due { result: 0, lent: before.clone(), proofs: vec![] };
        let drawing = match judge::accept(call, before) {
            Ok(drawing) => drawing,
            Err(refusal) => {
                due.result = refusal.number;
                due.lent.place = refusal.place;
                return Ok(due);
            }
        };
        let lent = &mut due.lent;
        match *call {
            Call::Read => {
                lent.tails[..drawing.darts()].copy_from_slice(&drawing.tails);
                lent.rotations[..drawing.darts()].copy_from_slice(&drawing.rotations);
                lent.capacities[..drawing.darts()].copy_from_slice(&drawing.capacities);
                (lent.nodes, lent.edges, lent.outer) = (drawing.nodes, drawing.edges() as u16, drawing.outer_dart() as u16);
            }
            Call::Write { .. } | Call::PracticeSheet { .. } => {
                let bytes = drawing.bytes();
                lent.sheet[..bytes.len()].copy_from_slice(&bytes);
                lent.length = bytes.len();
            }
            Call::Solve { source, sink, value } => {
                let flows = solved(&drawing, source, sink, value);
                lent.can = flows.is_some() as u8;
                match flows {
                    Some(flows) => store(&mut lent.flows, &flows),
                    None => due.proofs = vec![Proof { slices: &[SET], before: 0, drawing, source, sink, value: Some(value as i64) }],
                }
            }
            Call::Page { count } => {
                for i in 0..count {
                    let (source, sink, value) = (before.sources[i], before.sinks[i], before.values[i]);
                    (lent.answers[i], lent.sizes[i]) = (0, 0);
                    if let Err(refusal) = judge::question(&drawing, source, sink, value) {
                        lent.answers[i] = refusal.number;
                    } else if let Some(flows) = solved(&drawing, source, sink, value) {
                        lent.answers[i] = 1;
                        store(&mut lent.flows[i * drawing.edges()..], &flows);
                    } else {
                        due.proofs.push(Proof { slices: &[SET], before: i, drawing: drawing.clone(), source, sink, value: Some(value as i64) });
                    }
                }
            }
            Call::Largest { source, sink } => {
                let largest = range(&drawing, source as usize, sink as usize).map(|(_, largest)| largest);
                lent.found = largest.is_some() as u8;
                if let Some(value) = largest {
                    let flows = carry(&drawing, source as usize, sink as usize, value).expect("the largest can be carried");
                    store(&mut lent.flows, &highest(&drawing, &drawing.faces(), &flows));
                    lent.value = value as i32;
                }
                due.proofs = vec![Proof { slices: &[SET], before: 0, drawing, source, sink, value: largest.map(|value| value + 1) }];
            }
            Call::LeastAndLargest { source, sink } => {
                let values = range(&drawing, source as usize, sink as usize);
                lent.found = values.is_some() as u8;
                let Some((least, largest)) = values else {
                    due.proofs = vec![Proof { slices: &[BELOW, ABOVE], before: 0, drawing, source, sink, value: None }];
                    return Ok(due);
                };
                let carried = |value: i64| carry(&drawing, source as usize, sink as usize, value).expect("the least and the largest can be carried");
                store(&mut lent.low, &highest(&drawing, &drawing.faces(), &carried(least)));
                store(&mut lent.high, &highest(&drawing, &drawing.faces(), &carried(largest)));
                (lent.least, lent.largest) = (least as i32, largest as i32);
                due.proofs = vec![
                    Proof { slices: &[BELOW], before: 0, drawing: drawing.clone(), source, sink, value: Some(least - 1) },
                    Proof { slices: &[ABOVE], before: 0, drawing, source, sink, value: Some(largest + 1) },
                ];
            }
            Call::RaiseLimit { source, sink, value, edge } => {
                let limit = least_limit(&drawing, source as usize, sink as usize, value as i64, edge as usize);
                let raised = drawing.with_limit(edge as usize, limit.unwrap_or(MOST_LIMIT));
                lent.found = limit.is_some() as u8;
                if let Some(limit) = limit {
                    let flows = carry(&raised, source as usize, sink as usize, value as i64).expect("the value can be carried with that limit");
                    store(&mut lent.flows, &highest(&raised, &raised.faces(), &flows));
                    lent.value = limit as i32;
                } else {
                    due.proofs = vec![Proof { slices: &[SET], before: 0, drawing: raised, source, sink, value: Some(value as i64) }];
                }
            }
            Call::Mark { source, .. } => lent.value = net_flows(&drawing, &judge::wide(&lent.flows))[source as usize] as i32,
            Call::LevelsFromSettings => {
                let faces = drawing.faces();
                store(&mut lent.levels, &levels_of(&faces, &drawing.zero_faces(), &judge::wide(&before.flows)));
            }
            Call::SettingsFromLevels => store(&mut lent.flows, &flows_of(&drawing.faces(), &judge::wide(&before.levels))),
            Call::Totals => {
                let (subtotals, total) = judge::totals(&drawing, &before.set);
                store(&mut lent.subtotals, &subtotals);
                lent.total = total as i32;
            }
            Call::Examine { source, sink, value } => {
                let largest = range(&drawing, source as usize, sink as usize).map(|(_, largest)| largest);
                let papers = before.claims.len();
                let points: Vec<u8> = (0..papers).map(|q| judge::paper(&drawing, before, (source, sink, value), largest, q, 0).points(largest)).collect();
                lent.points[..papers].copy_from_slice(&points);
                (lent.number, lent.sum) = (papers as u16, points.iter().map(|&one| one as u16).sum());
                if let (Some(&least), Some(&greatest)) = (points.iter().min(), points.iter().max()) {
                    (lent.least_points, lent.greatest_points) = (least, greatest);
                }
            }
            Call::WriteDimacs { source, sink } => {
                let text = dimacs::text(&drawing, source, sink);
                lent.text[..text.len()].copy_from_slice(text.as_bytes());
                lent.length = text.len();
            }
            Call::KeyText => {
                let text = self.key_text(&before.sheet)?;
                due.lent.text[..text.len()].copy_from_slice(text.as_bytes());
                due.lent.length = text.len();
            }
        }
        Ok(due)
    }

    /// What the key prints, from Solve's answer to the same question, which is compared too.
    fn key_text(&mut self, input: &[u8]) -> Check<String> {
        let (drawing, call) = match judge::key(input) {
            Ok(asked) => asked,
            Err(refusal) => return Ok(format!("refused {}\n", refusal.number)),
        };
        let mut lent = Lent::new(input[9..].to_vec());
        lent.flows = vec![0; drawing.edges()];
        lent.set = vec![0; drawing.words()];
        let after = self.compare(call, &lent)?;
        let Call::Solve { value, .. } = call else { unreachable!("the key asks Solve") };
        let mut text = String::new();
        if after.can == 1 {
            writeln!(text, "can {value}").unwrap();
            for (edge, flow) in after.flows.iter().enumerate() {
                writeln!(text, "{edge} {flow}").unwrap();
            }
            return Ok(text);
        }
        writeln!(text, "cannot {value} {}", after.size).unwrap();
        for node in (0..drawing.nodes as usize).filter(|node| after.set[node / 64] >> (node % 64) & 1 == 1) {
            writeln!(text, "{node}").unwrap();
        }
        Ok(text)
    }

    /// How long a slice is lent that needs so many elements: as long, longer, or too short if that may be.
    fn room(&mut self, needed: usize, short: bool) -> usize {
        match self.chance.below(6) {
            0 | 1 if short => needed.saturating_sub(1),
            2 if short => self.chance.below(needed + 1),
            3 => needed + 1 + self.chance.below(9),
            _ => needed,
        }
    }

    /// Memory for a call on a sheet; seldom too short.
    fn lend(&mut self, sheet: Vec<u8>, drawing: &Drawing) -> Lent {
        let short = self.chance.one_in(12);
        let mut lent = Lent::new(sheet);
        let lengths = [drawing.edges(), drawing.words(), count(&drawing.faces()), drawing.darts(), drawing.darts(), drawing.darts(), judge::TEXT];
        let [flows, set, levels, tails, rotations, capacities, text] = lengths.map(|needed| self.room(needed, short));
        let [low, high] = [drawing.edges(); 2].map(|needed| self.room(needed, short));
        let [below, above] = [drawing.words(); 2].map(|needed| self.room(needed, short));
        lent.flows = self.chance.junk(flows, |x| x as i32);
        lent.set = self.chance.junk(set, |x| x);
        lent.low = self.chance.junk(low, |x| x as i32);
        lent.below = self.chance.junk(below, |x| x);
        lent.high = self.chance.junk(high, |x| x as i32);
        lent.above = self.chance.junk(above, |x| x);
        lent.levels = self.chance.junk(levels, |x| x as i32);
        lent.subtotals = self.chance.junk(drawing.nodes as usize, |x| x as i32);
        lent.tails = self.chance.junk(tails, |x| x as u16);
        lent.rotations = self.chance.junk(rotations, |x| x as u16);
        lent.capacities = self.chance.junk(capacities, |x| x as i32);
        lent.text = self.chance.junk(text, |x| x as u8);
        lent
    }

    fn read_and_write(&mut self, drawing: &Drawing) -> Check {
        for _ in 0..2 {
            let lent = self.lend(drawing.bytes(), drawing);
            self.compare(Call::Read, &lent)?;
            self.write(drawing)?;
        }
        Ok(())
    }

    /// Write; seldom of slices of unequal or odd length.
    fn write(&mut self, drawing: &Drawing) -> Check {
        let short = self.chance.one_in(6);
        let length = self.room(OUTER_HEAD + EDGE * drawing.edges(), short);
        let mut lent = Lent::new(self.chance.junk(length, |x| x as u8));
        lent.tails = drawing.tails.clone();
        lent.rotations = drawing.rotations.clone();
        lent.capacities = drawing.capacities.clone();
        if self.chance.one_in(8) {
            let which = 1 + self.chance.below(7); // a set of slices, perhaps all: then the length is odd
            let longer = self.chance.one_in(2);
            let change = |length: usize| if longer { length + 1 } else { length.saturating_sub(1) };
            if which & 1 != 0 {
                lent.tails.resize(change(lent.tails.len()), 0);
            }
            if which & 2 != 0 {
                lent.rotations.resize(change(lent.rotations.len()), 0);
            }
            if which & 4 != 0 {
                lent.capacities.resize(change(lent.capacities.len()), 0);
            }
        }
        let outer = drawing.outer.unwrap_or(0);
        self.compare(Call::Write { nodes: drawing.nodes, outer }, &lent)?;
        Ok(())
    }

    /// Largest, Least and largest, Solve of several values, and Mark of what they give.
    fn questions(&mut self, drawing: &Drawing, source: usize, sink: usize) -> Check {
        let (from, to) = (source as u16, sink as u16);
        let lent = self.lend(drawing.bytes(), drawing);
        self.compare(Call::Largest { source: from, sink: to }, &lent)?;
        self.least_and_largest(drawing, from, to)?;
        self.dimacs(drawing, from, to)?;
        let (least, largest) = range(drawing, source, sink).unwrap_or((-3, 3));
        self.raise_limit(drawing, from, to, (least, largest))?;
        let mut values = vec![0, largest, largest + 1, -1, least, least - 1, 600_000_000, -600_000_000];
        values.extend([self.chance.between(least, largest), self.chance.between(least, largest), self.chance.between(-9, 9)]);
        let order = self.chance.shuffled(values.len());
        let some = if drawing.edges() > 60 { 3 } else { 7 };
        for at in order.into_iter().take(some) {
            let lent = self.lend(drawing.bytes(), drawing);
            let call = Call::Solve { source: from, sink: to, value: values[at] as i32 };
            let after = self.compare(call, &lent)?;
            if after.can == 1 {
                self.marks(drawing, from, to, &after.flows)?;
            }
            self.key(call, &lent.sheet)?;
        }
        Ok(())
    }

    /// Least and largest, beside Largest; then with each of its four slices, alone, one element too short.
    fn least_and_largest(&mut self, drawing: &Drawing, source: u16, sink: u16) -> Check {
        let mut lent = self.lend(drawing.bytes(), drawing);
        self.compare(Call::LeastAndLargest { source, sink }, &lent)?;
        lent.flows.resize(drawing.edges(), 0);
        lent.set.resize(drawing.words(), 0);
        (lent.low, lent.high) = (lent.flows.clone(), lent.flows.clone());
        (lent.below, lent.above) = (lent.set.clone(), lent.set.clone());
        let both = self.compare(Call::LeastAndLargest { source, sink }, &lent)?;
        let alone = self.compare(Call::Largest { source, sink }, &lent)?;
        if (both.found, &both.high) != (alone.found, &alone.flows) || both.found == 1 && both.largest != alone.value {
            return Err(Wrong(format!("Least and largest says {}, Largest {}\n{}", both.largest, alone.value, drawing.text())));
        }
        for which in 0..4 {
            let mut short = lent.clone();
            match which {
                0 => short.low.truncate(drawing.edges() - 1),
                1 => short.below.truncate(drawing.words() - 1),
                2 => short.high.truncate(drawing.edges() - 1),
                _ => short.above.truncate(drawing.words() - 1),
            }
            self.compare(Call::LeastAndLargest { source, sink }, &short)?;
        }
        Ok(())
    }

    /// Raise limit, of channels and values that are carried or not; then of a channel that is first closed as far as its back limit lets it be, perhaps below zero,
    /// for values of both signs that were carried before.
    fn raise_limit(&mut self, drawing: &Drawing, source: u16, sink: u16, (least, largest): (i64, i64)) -> Check {
        let more = self.chance.between(1, 40);
        let within = self.chance.between(least, largest);
        for value in [largest + 1, largest + more, within, least - 1, largest + 999_990 + more] {
            let edge = self.chance.below(drawing.edges());
            self.raise_one(drawing, (source, sink, value as i32), edge)?;
        }
        let edge = self.some_channel(drawing, source);
        let closed = drawing.with_limit(edge, -drawing.capacity(2 * edge + 1));
        let between = self.chance.between(least, largest);
        for value in [between, self.chance.pick(&[least, largest]), self.chance.pick(&[0, -between])] {
            self.raise_one(&closed, (source, sink, value as i32), edge)?;
        }
        Ok(())
    }

    /// Raise limit of one channel and value; then beside Solve on the sheet with the limit given, and with the one before it.
    fn raise_one(&mut self, drawing: &Drawing, (source, sink, value): (u16, u16, i32), edge: usize) -> Check {
        let lent = self.lend(drawing.bytes(), drawing);
        let after = self.compare(Call::RaiseLimit { source, sink, value, edge: edge as u16 }, &lent)?;
        if after.found != 1 {
            return Ok(());
        }
        let greater = (after.value as i64) > drawing.capacity(2 * edge);
        let mut lent = Lent::new(drawing.with_limit(edge, after.value as i64).bytes());
        (lent.flows, lent.set) = (vec![0; drawing.edges()], vec![0; drawing.words()]);
        let solved = self.compare(Call::Solve { source, sink, value }, &lent)?;
        let mut serves = solved.can == 1 && solved.flows == after.flows[..drawing.edges()];
        if greater {
            lent.sheet = drawing.with_limit(edge, after.value as i64 - 1).bytes();
            serves &= self.compare(Call::Solve { source, sink, value }, &lent)?.can == 0;
            *self.tally.answers.entry((RAISED, 0, channel_kind(drawing, (source, sink), edge))).or_default() += 1;
        }
        if !serves {
            return Err(Wrong(format!("Raise limit says {} of channel {edge} for {value}, Solve otherwise\n{}", after.value, drawing.text())));
        }
        Ok(())
    }

    /// A channel; often a bridge, a loop or one of another part than the node, where there is one.
    fn some_channel(&mut self, drawing: &Drawing, node: u16) -> usize {
        let (faces, parts) = (drawing.faces(), drawing.parts());
        let like = self.chance.below(5);
        let wanted: Vec<usize> = (0..drawing.edges())
            .filter(|&edge| match like {
                0 => faces[2 * edge] == faces[2 * edge + 1],
                1 => drawing.tail(2 * edge) == drawing.head(2 * edge),
                2 => parts[drawing.tail(2 * edge)] != parts[node as usize],
                _ => true,
            })
            .collect();
        if wanted.is_empty() {
            return self.chance.below(drawing.edges());
        }
        self.chance.pick(&wanted)
    }

    /// The DIMACS text of the drawing, which may have least flows, and of the drawing without them: in as much room as it needs, in more, and in a byte less.
    /// What is written is read back and solved by itself; its greatest flow is the largest value.
    fn dimacs(&mut self, drawing: &Drawing, source: u16, sink: u16) -> Check {
        let free = Drawing { capacities: drawing.capacities.iter().map(|&capacity| capacity.max(0)).collect(), ..drawing.clone() };
        let needed = dimacs::text(&free, source, sink).len();
        for drawing in [drawing, &free] {
            for length in [needed, needed + 1 + self.chance.below(9), needed - 1, self.chance.below(needed)] {
                let mut lent = Lent::new(drawing.bytes());
                lent.text = self.chance.junk(length, |x| x as u8);
                let after = self.compare(Call::WriteDimacs { source, sink }, &lent)?;
                if after.length == lent.length {
                    continue; // refused
                }
                let text = String::from_utf8_lossy(&after.text[..after.length]);
                let told = |what: String| Wrong(format!("the text of {source} to {sink}: {what}\n{}", drawing.text()));
                let greatest = dimacs::Problem::read(&text).map_err(&told)?.greatest();
                let largest = range(drawing, source as usize, sink as usize).map(|(_, largest)| largest);
                if largest != Some(greatest) {
                    return Err(told(format!("its greatest flow is {greatest}, the largest {largest:?}")));
                }
            }
        }
        Ok(())
    }

    fn marks(&mut self, drawing: &Drawing, source: u16, sink: u16, flows: &[i32]) -> Check {
        let mut lent = Lent::new(drawing.bytes());
        lent.flows = flows.to_vec();
        self.compare(Call::Mark { source, sink }, &lent)?;
        self.compare(Call::Mark { source: sink, sink: source }, &lent)?;
        self.compare(Call::Mark { source, sink: (sink + 1) % drawing.nodes }, &lent)?;
        for _ in 0..2 {
            self.spoil(drawing, &mut lent.flows);
            self.compare(Call::Mark { source, sink }, &lent)?;
        }
        if self.chance.one_in(6) {
            let length = self.chance.below(drawing.edges() + 1);
            lent.flows.truncate(length);
            self.compare(Call::Mark { source, sink }, &lent)?;
        }
        Ok(())
    }

    /// Flows changed here and there: within the capacities, or beyond them.
    fn spoil(&mut self, drawing: &Drawing, flows: &mut [i32]) {
        for _ in 0..1 + self.chance.below(3) {
            let edge = self.chance.below(drawing.edges());
            let (forward, back) = (drawing.capacities[2 * edge], drawing.capacities[2 * edge + 1]);
            flows[edge] = match self.chance.below(8) {
                0 => forward + 1,
                1 => -back - 1,
                2 => self.chance.pick(&[i32::MIN, i32::MAX]),
                3 => forward,
                4 => -back,
                5 => flows[edge].saturating_add(1),
                6 => flows[edge].saturating_sub(1),
                _ => self.chance.between(-back as i64, forward as i64) as i32,
            };
        }
    }

    /// Levels from settings and back, of balanced flows, of spoiled ones and of random levels.
    fn levels(&mut self, drawing: &Drawing, source: usize, sink: usize) -> Check {
        let faces = drawing.faces();
        if let Some(flows) = carry(drawing, source, sink, 0) {
            for flows in [highest(drawing, &faces, &flows), flows] {
                let mut lent = self.lend(drawing.bytes(), drawing);
                fill(&mut lent.flows, &flows);
                let after = self.compare(Call::LevelsFromSettings, &lent)?;
                lent.levels = after.levels;
                lent.flows = self.chance.junk(lent.flows.len(), |x| x as i32);
                self.compare(Call::SettingsFromLevels, &lent)?;
                let zero = self.chance.pick(&drawing.zero_faces());
                self.spoil_levels(zero, &mut lent.levels);
                self.compare(Call::SettingsFromLevels, &lent)?;
                lent.flows.resize(drawing.edges(), 0);
                fill(&mut lent.flows, &flows);
                self.spoil(drawing, &mut lent.flows);
                self.compare(Call::LevelsFromSettings, &lent)?;
            }
        }
        let most = self.chance.pick(&[0, 1, 5, 500_000, 600_000_000]);
        let mut levels: Vec<i64> = (0..count(&faces)).map(|_| self.chance.between(-most, most)).collect();
        for face in drawing.zero_faces() {
            levels[face] = 0;
        }
        let mut lent = self.lend(drawing.bytes(), drawing);
        fill(&mut lent.levels, &levels);
        let after = self.compare(Call::SettingsFromLevels, &lent)?;
        let mut lent = self.lend(drawing.bytes(), drawing);
        lent.flows = after.flows;
        self.compare(Call::LevelsFromSettings, &lent)?;
        Ok(())
    }

    /// Totals by node: of no node, of all and of some, also of bits past the last node, and of the set that Largest gives; with as many places as the set needs,
    /// with more, and with one too few.
    fn totals(&mut self, drawing: &Drawing, source: usize, sink: usize) -> Check {
        let mut lent = self.lend(drawing.bytes(), drawing);
        lent.flows.resize(drawing.edges(), 0);
        lent.set.resize(drawing.words(), 0);
        let proving = self.compare(Call::Largest { source: source as u16, sink: sink as u16 }, &lent)?.set;
        for which in 0..7 {
            let mut lent = self.lend(drawing.bytes(), drawing);
            let words = self.chance.junk(drawing.words(), |x| x);
            lent.set = match which {
                0 => vec![0; drawing.words()],
                1 => vec![u64::MAX; drawing.words()],
                2 => proving.clone(),
                3 => words.iter().zip(self.chance.junk(drawing.words(), |x| x)).map(|(one, other)| one & other).collect(),
                _ => words,
            };
            let needed = judge::members(drawing, &lent.set).len();
            let short = self.chance.one_in(3);
            let length = self.room(needed, short);
            lent.subtotals = self.chance.junk(length, |x| x as i32);
            if self.chance.one_in(6) {
                lent.set.truncate(self.chance.below(drawing.words() + 1));
            }
            self.compare(Call::Totals, &lent)?;
        }
        Ok(())
    }

    /// Classes of papers: each has Largest's value and set and the settings of the delivery asked, or something else in their place; also with ends, deliveries
    /// and slices that are refused, and now and then of 1,000 papers or more.
    fn classes(&mut self, drawing: &Drawing, source: usize, sink: usize) -> Check {
        let mut lent = self.lend(drawing.bytes(), drawing);
        lent.flows.resize(drawing.edges(), 0);
        lent.set.resize(drawing.words(), 0);
        lent.flows.truncate(drawing.edges());
        lent.set.truncate(drawing.words());
        let right = self.compare(Call::Largest { source: source as u16, sink: sink as u16 }, &lent)?;
        for which in 0..4 {
            let many = which == 0 && self.chance.one_in(60);
            let papers = if many { self.chance.pick(&[1000, 1001]) } else { self.chance.below(5) };
            let largest = if right.found == 1 { right.value } else { 0 };
            let value = if self.chance.one_in(4) { self.some_value() } else { largest };
            let mut lent = self.lend(drawing.bytes(), drawing);
            (lent.flows, lent.set) = (vec![], vec![]);
            for _ in 0..papers {
                lent.claims.push(largest.wrapping_add(self.chance.pick(&[0, 0, 0, 1, -1])));
                lent.kinds.push(self.chance.pick(&[1 - right.found, 1 - right.found, 0, 1, 2]));
                let mut flows = right.flows.clone();
                if self.chance.one_in(3) {
                    let edge = self.chance.below(flows.len());
                    flows[edge] = flows[edge].wrapping_add(self.chance.pick(&[1, -1, i32::MAX, i32::MIN]));
                }
                lent.flows.extend(flows);
                let mut set = right.set.clone();
                match self.chance.below(6) {
                    0 => set.iter_mut().for_each(|word| *word = !*word),
                    1 => set = self.chance.junk(drawing.words(), |x| x),
                    2 if drawing.nodes % 64 != 0 => *set.last_mut().unwrap() |= u64::MAX << (drawing.nodes % 64),
                    3 => {
                        let node = self.chance.below(drawing.nodes as usize);
                        set[node / 64] ^= 1 << (node % 64);
                    }
                    _ => {}
                }
                lent.set.extend(set);
            }
            lent.points = self.chance.junk(papers + which, |x| x as u8);
            if papers == 1001 && self.chance.one_in(2) {
                lent.points.truncate(9);
            }
            match self.chance.below(24) {
                0 => lent.kinds.truncate(papers.saturating_sub(1)),
                1 => lent.flows.truncate((papers * drawing.edges()).saturating_sub(1)),
                2 => lent.set.truncate((papers * drawing.words()).saturating_sub(1)),
                3 => lent.points.truncate(papers.saturating_sub(1)),
                _ => {}
            }
            let (mut from, mut into) = (source as u16, sink as u16);
            if self.chance.one_in(6) {
                (from, into) = (self.some_end(drawing), self.some_end(drawing));
            }
            self.compare(Call::Examine { source: from, sink: into, value }, &lent)?;
        }
        Ok(())
    }

    fn spoil_levels(&mut self, outer: usize, levels: &mut [i32]) {
        for _ in 0..1 + self.chance.below(3) {
            if !levels.is_empty() {
                let face = if self.chance.one_in(3) { outer } else { self.chance.below(levels.len()) };
                levels[face.min(levels.len() - 1)] = self.chance.pick(&[0, 1, -1, 600_000_000, -600_000_000, 600_000_001, -600_000_001, i32::MIN, i32::MAX]);
            }
        }
    }

    fn some_end(&mut self, drawing: &Drawing) -> u16 {
        let node = self.chance.below(drawing.nodes.max(1) as usize) as u16;
        self.chance.pick(&[0, 0, node, node, node, drawing.nodes.wrapping_sub(1), drawing.nodes, u16::MAX])
    }

    fn some_edge(&mut self, drawing: &Drawing) -> u16 {
        let edge = self.chance.below(drawing.edges().max(1)) as u16;
        self.chance.pick(&[0, edge, edge, drawing.edges().wrapping_sub(1) as u16, drawing.edges() as u16, drawing.edges() as u16, u16::MAX])
    }

    fn some_value(&mut self) -> i32 {
        let some = self.chance.between(-9, 9) as i32;
        self.chance.pick(&[some, some, some, 600_000_000, 600_000_001, -600_000_001, i32::MIN, i32::MAX])
    }

    /// Ends that are no nodes or equal, values out of range.
    fn wrong_questions(&mut self, drawing: &Drawing) -> Check {
        for _ in 0..3 {
            let (source, sink, value) = (self.some_end(drawing), self.some_end(drawing), self.some_value());
            let lent = self.lend(drawing.bytes(), drawing);
            self.compare(Call::Solve { source, sink, value }, &lent)?;
            self.key(Call::Solve { source, sink, value }, &lent.sheet)?;
            self.compare(Call::Largest { source, sink }, &lent)?;
            self.compare(Call::LeastAndLargest { source, sink }, &lent)?;
            let edge = self.some_edge(drawing);
            self.compare(Call::RaiseLimit { source, sink, value, edge }, &lent)?;
            self.compare(Call::Mark { source, sink }, &lent)?;
            self.compare(Call::WriteDimacs { source, sink }, &lent)?;
        }
        Ok(())
    }

    /// A practice sheet, seldom of a size or a seed that is refused; what was made is read, and small ones are asked from corner to corner.
    fn practice(&mut self) -> Check {
        let wrong = self.chance.one_in(4);
        let mut size = || match self.chance.below(if wrong { 3 } else { 1 }) {
            0 => 2 + self.chance.below(15) as u16,
            _ => self.chance.pick(&[0, 1, 2, 16, 17, 258, u16::MAX]),
        };
        let (rows, columns) = (size(), size());
        let seed = match self.chance.below(if wrong { 3 } else { 2 }) {
            0 => self.chance.pick(&[0, 1, 65_535, 65_536, (1 << 31) - 1]),
            1 => self.chance.next() as u32 >> 1,
            _ => self.chance.pick(&[(1 << 31) - 1, 1 << 31, (1 << 31) + 1, u32::MAX]),
        };
        let (high, wide) = (rows.clamp(1, 17) as usize, columns.clamp(1, 17) as usize);
        let short = self.chance.one_in(4);
        let length = self.room(HEAD + EDGE * (high * (wide - 1) + (high - 1) * wide), short);
        let lent = Lent::new(self.chance.junk(length, |x| x as u8));
        let after = self.compare(Call::PracticeSheet { rows, columns, seed }, &lent)?;
        let Some(drawing) = after.sheet.get(..after.length).and_then(Drawing::of_bytes) else { return Ok(()) };
        let lent = self.lend(drawing.bytes(), &drawing);
        self.compare(Call::Read, &lent)?;
        if drawing.edges() < 30 {
            self.questions(&drawing, 0, drawing.nodes as usize - 1)?;
        }
        Ok(())
    }

    /// Pages: one of questions between two nodes and of wrong ones, and one whose number of questions, room or sheet may be refused.
    fn pages(&mut self, drawing: &Drawing, source: usize, sink: usize) -> Check {
        let (least, largest) = range(drawing, source, sink).unwrap_or((-3, 3));
        let most = if drawing.edges() > 60 { 3 } else { 12 };
        let of_64 = drawing.edges() < 8 && self.chance.one_in(4);
        let count = if of_64 { PAGE } else { self.chance.below(most + 1) };
        let many = self.chance.pick(&[PAGE + 1, PAGE + 1, 2 * PAGE, usize::MAX]);
        for (count, damaged) in [(count, false), (self.chance.below(3), false), (many, false), (0, true), (2, true), (many, true)] {
            let bytes = if damaged { damage::bytes(&mut self.chance, drawing) } else { drawing.bytes() };
            let mut lent = Lent::new(bytes);
            for _ in 0..PAGE {
                let within = self.chance.between(least, largest);
                let wrong = self.chance.one_in(3);
                let (from, to) = if wrong { (self.some_end(drawing), self.some_end(drawing)) } else { (source as u16, sink as u16) };
                lent.sources.push(from);
                lent.sinks.push(to);
                lent.values.push(self.chance.pick(&[within, within, largest, largest + 1, least, least - 1, 0, 600_000_001]) as i32);
            }
            lent.answers = self.chance.junk(PAGE, |x| x as u8);
            lent.sizes = self.chance.junk(PAGE, |x| x as u16);
            let short = self.chance.one_in(3);
            let needed = count.min(PAGE + 1);
            let (flows, set) = (self.room(needed * drawing.edges(), short), self.room(needed * drawing.words(), short));
            lent.flows = self.chance.junk(flows, |x| x as i32);
            lent.set = self.chance.junk(set, |x| x);
            self.compare(Call::Page { count }, &lent)?;
        }
        Ok(())
    }

    /// A damaged sheet, to every operation, and damaged slices to Write.
    fn damaged(&mut self, whole: &Drawing) -> Check {
        let bytes = damage::bytes(&mut self.chance, whole);
        let (source, sink, value, edge) = (self.some_end(whole), self.some_end(whole), self.some_value(), self.some_edge(whole));
        let calls = [
            Call::Read,
            Call::Solve { source, sink, value },
            Call::Largest { source, sink },
            Call::LeastAndLargest { source, sink },
            Call::RaiseLimit { source, sink, value, edge },
            Call::Mark { source, sink },
            Call::LevelsFromSettings,
            Call::SettingsFromLevels,
            Call::Totals,
            Call::WriteDimacs { source, sink },
            Call::Examine { source, sink, value },
        ];
        for call in calls {
            let lent = self.lend(bytes.clone(), whole);
            self.compare(call, &lent)?;
        }
        self.key(calls[1], &bytes)?;
        let drawing = damage::drawing(&mut self.chance, whole);
        self.write(&drawing)
    }

    /// The key's text; seldom with a damaged question or too little room.
    fn key(&mut self, solve: Call, sheet: &[u8]) -> Check {
        let Call::Solve { source, sink, value } = solve else { unreachable!("the key asks Solve") };
        let mut input = vec![3];
        input.extend(source.to_le_bytes());
        input.extend(sink.to_le_bytes());
        input.extend(value.to_le_bytes());
        input.extend_from_slice(sheet);
        match self.chance.below(24) {
            0 => input.truncate(self.chance.below(12)),
            1 => input[0] = self.chance.pick(&[0, 1, 2, 4]),
            _ => {}
        }
        let short = self.chance.one_in(12);
        let length = self.room(judge::TEXT, short);
        let mut lent = Lent::new(input);
        lent.text = self.chance.junk(length, |x| x as u8);
        self.compare(Call::KeyText, &lent)?;
        Ok(())
    }
}

/// The highest flow of a value, where it can be carried.
fn solved(drawing: &Drawing, source: u16, sink: u16, value: i32) -> Option<Vec<i64>> {
    let flows = carry(drawing, source as usize, sink as usize, value as i64)?;
    Some(highest(drawing, &drawing.faces(), &flows))
}

/// Puts numbers into the first elements of a slice that has room for them.
fn store(slice: &mut [i32], numbers: &[i64]) {
    assert!(numbers.len() <= slice.len());
    fill(slice, numbers);
}

/// Puts as many of the numbers as there is room for.
fn fill(slice: &mut [i32], numbers: &[i64]) {
    for (element, &number) in slice.iter_mut().zip(numbers) {
        *element = i32::try_from(number).expect("a flow or level of 32 bits");
    }
}

/// Names the memory that differs.
fn differ(text: &mut String, got: &Lent, due: &Lent) {
    macro_rules! each {
        ($slices:ident: $($slice:ident)*; answers: $($answer:ident)*) => {
            $(if let Some(at) = (0..due.$slice.len()).find(|&at| got.$slice[at] != due.$slice[at]) {
                writeln!(text, "{}: {:?} at {at}, not {:?}", stringify!($slice), got.$slice[at], due.$slice[at]).unwrap();
            })*
            $(if got.$answer != due.$answer {
                writeln!(text, "{}: {:?}, not {:?}", stringify!($answer), got.$answer, due.$answer).unwrap();
            })*
        };
    }
    each!(slices: sheet flows set low below high above levels subtotals tails rotations capacities text sources sinks values answers sizes
        claims kinds points; answers: can found size value least largest total nodes edges outer length place number sum least_points greatest_points guards);
}

/// The drawing and what was lent with it: as text that tools/unit reads, else the bytes or slices.
fn picture(call: &Call, before: &Lent) -> String {
    let mut text = String::new();
    let (question, sheet) = match call {
        Call::KeyText => before.sheet.split_at(before.sheet.len().min(9)),
        _ => (&[][..], &before.sheet[..]),
    };
    if let Call::Solve { source, sink, value } = call {
        writeln!(text, "question {source} {sink} {value}").unwrap();
    }
    if let Call::RaiseLimit { source, sink, value, edge } = call {
        writeln!(text, "# channel {edge}\nquestion {source} {sink} {value}").unwrap();
    }
    if let Call::KeyText = call {
        writeln!(text, "# question {question:?}").unwrap();
    }
    match call {
        Call::PracticeSheet { .. } => {}
        Call::Write { .. } => writeln!(text, "tails {:?}\nrotations {:?}\ncapacities {:?}", before.tails, before.rotations, before.capacities).unwrap(),
        _ => text += &Drawing::of_bytes(sheet).map_or_else(|| format!("# bytes {sheet:?}\n"), |drawing| drawing.text()),
    }
    match call {
        Call::Mark { .. } | Call::LevelsFromSettings => writeln!(text, "# flows {:?}", before.flows).unwrap(),
        Call::SettingsFromLevels => writeln!(text, "# levels {:?}", before.levels).unwrap(),
        Call::Totals => writeln!(text, "# set {:?}, {} places", before.set, before.subtotals.len()).unwrap(),
        Call::Examine { source, sink, value } => writeln!(
            text,
            "# {value} from {source} to {sink}\n# claims {:?}\n# kinds {:?}\n# settings {:?}\n# sets {:?}\n# {} places",
            before.claims,
            before.kinds,
            before.flows,
            before.set,
            before.points.len()
        )
        .unwrap(),
        Call::Page { count } => {
            for i in 0..(*count).min(PAGE) {
                writeln!(text, "# question {i}: {} {} {}", before.sources[i], before.sinks[i], before.values[i]).unwrap();
            }
        }
        _ => {}
    }
    writeln!(text, "# lent: sheet {}, flows {}, set {}, levels {}", before.sheet.len(), before.flows.len(), before.set.len(), before.levels.len()).unwrap();
    if let Call::WriteDimacs { .. } = call {
        writeln!(text, "# and text {}", before.text.len()).unwrap();
    }
    if let Call::LeastAndLargest { .. } = call {
        writeln!(text, "# and low {}, below {}, high {}, above {}", before.low.len(), before.below.len(), before.high.len(), before.above.len()).unwrap();
    }
    text
}

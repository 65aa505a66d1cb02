//! Limits from a capture (document 02, Job 10), against a model that keeps every record in a list: the window is a part of the list, its least the least of those
//! of a channel, and what is largest on the limits found is decided by the other solver. Deliberate faults change what the library is given or what it gave.
use crate::abi::analyser_largest_after;
use crate::chance::Chance;
use crate::check::{Tally, Wrong};
use crate::damage;
use crate::drawing::Drawing;
use crate::flow::{carry, range};
use crate::grow::grow;
use crate::judge::{self, objection};
use crate::levels::highest;

/// The name under which the answers are counted.
const NAME: &str = "Limits from a capture";
const RECORD: usize = 11;

#[derive(Clone, Copy, Debug, PartialEq)]
pub enum CaptureFault {
    Latest,
    WindowLonger,
    WindowShorter,
    AfterUnchecked,
    EqualTicks,
    SheetKept,
    AnyFound,
    EndsFirst,
    LimitsOfNone,
    LimitsOnRefusal,
}

/// All of them, by name: `--fault NAME` shows how one is caught.
pub const FAULTS: [CaptureFault; 10] = {
    use CaptureFault::*;
    [Latest, WindowLonger, WindowShorter, AfterUnchecked, EqualTicks, SheetKept, AnyFound, EndsFirst, LimitsOfNone, LimitsOnRefusal]
};

#[derive(Clone, Debug)]
struct Asked {
    sheet: Vec<u8>,
    capture: Vec<u8>,
    window: u16,
    named: u64,
    source: u16,
    sink: u16,
}

/// All that may be written.
#[derive(Clone, Debug, PartialEq)]
struct Given {
    limits: Vec<i32>,
    flows: Vec<i32>,
    set: Vec<u64>,
    found: u8,
    value: i32,
    place: u16,
}

#[derive(Clone, Copy, Debug, PartialEq)]
struct Record {
    tick: u32,
    channel: u16,
    limit: i32,
}

fn bytes_of(records: &[Record]) -> Vec<u8> {
    let mut bytes = Vec::new();
    for record in records {
        bytes.push(5);
        bytes.extend(record.tick.to_le_bytes());
        bytes.extend(record.channel.to_le_bytes());
        bytes.extend(record.limit.to_le_bytes());
    }
    bytes
}

/// The records of a capture up to the first that is wrong, and that one's refusal.
fn records_of(bytes: &[u8], edges: usize) -> (Vec<Record>, Option<u8>) {
    let mut records: Vec<Record> = Vec::new();
    for chunk in bytes.chunks(RECORD) {
        if chunk[0] != 5 {
            return (records, Some(2));
        }
        if chunk.len() < RECORD {
            return (records, Some(1));
        }
        let word = |at: usize| u32::from_le_bytes(chunk[at..at + 4].try_into().expect("four bytes"));
        let record = Record { tick: word(1), channel: u16::from_le_bytes([chunk[5], chunk[6]]), limit: word(7) as i32 };
        if record.channel as usize >= edges {
            return (records, Some(25));
        }
        if records.last().is_some_and(|before| record.tick < before.tick) {
            return (records, Some(27));
        }
        records.push(record);
    }
    (records, None)
}

/// The drawing with the limits found, or the refusal that is due.
fn due(asked: &Asked, given: &Given) -> Result<Drawing, u8> {
    let drawing = judge::sheet(&asked.sheet).map_err(|refusal| refusal.number)?;
    if !(1..=256).contains(&asked.window) || asked.named >= (asked.capture.len() / RECORD) as u64 {
        return Err(26);
    }
    let (records, refusal) = records_of(&asked.capture, drawing.edges());
    if let Some(number) = refusal {
        return Err(number);
    }
    let end = asked.named as usize + 1;
    let window = &records[end.saturating_sub(asked.window as usize)..end];
    let mut found = drawing.clone();
    for edge in 0..drawing.edges() {
        if let Some(limit) = window.iter().filter(|record| record.channel as usize == edge).map(|record| record.limit).min() {
            found.capacities[2 * edge] = limit;
        }
    }
    for edge in 0..found.edges() {
        let pair = [found.capacity(2 * edge), found.capacity(2 * edge + 1)];
        if pair.iter().any(|limit| limit.abs() > 1_000_000) {
            return Err(6);
        }
        if pair[0] + pair[1] < 0 {
            return Err(7);
        }
    }
    if asked.source.max(asked.sink) >= drawing.nodes {
        return Err(13);
    }
    if asked.source == asked.sink {
        return Err(14);
    }
    if given.limits.len() < drawing.edges() || given.flows.len() < drawing.edges() || given.set.len() < drawing.words() {
        return Err(16);
    }
    Ok(found)
}

fn call(asked: &Asked, given: &mut Given) -> u8 {
    // SAFETY: each pointer goes with the length of its slice.
    unsafe {
        analyser_largest_after(
            asked.sheet.as_ptr(),
            asked.sheet.len(),
            asked.capture.as_ptr(),
            asked.capture.len(),
            asked.window,
            asked.named,
            asked.source,
            asked.sink,
            given.limits.as_mut_ptr(),
            given.limits.len(),
            given.flows.as_mut_ptr(),
            given.flows.len(),
            given.set.as_mut_ptr(),
            given.set.len(),
            &mut given.found,
            &mut given.value,
            &mut given.place,
        )
    }
}

/// The library with a fault: it is given something else, or what it gave is changed.
fn faulty(fault: CaptureFault, drawing: &Drawing, asked: &Asked, before: &Given, after: &mut Given) -> u8 {
    let mut other = asked.clone();
    let (mut records, refusal) = records_of(&asked.capture, drawing.edges());
    let whole = refusal.is_none() && (asked.named as usize) < records.len() && (1..=256).contains(&asked.window);
    let end = if whole { asked.named as usize + 1 } else { 0 };
    let first = end.saturating_sub(asked.window as usize);
    match fault {
        CaptureFault::Latest if whole => {
            for i in first..end {
                let last = (i..end).rev().find(|&j| records[j].channel == records[i].channel).unwrap_or(i);
                records[i].limit = records[last].limit;
            }
            other.capture = bytes_of(&records);
        }
        CaptureFault::SheetKept if whole => {
            for record in &mut records[first..end] {
                record.limit = record.limit.max(drawing.capacities[2 * record.channel as usize]);
            }
            other.capture = bytes_of(&records);
        }
        CaptureFault::WindowLonger if whole && asked.window < 256 => other.window += 1,
        CaptureFault::WindowShorter if whole && asked.window > 1 => other.window -= 1,
        CaptureFault::AfterUnchecked if asked.named < (asked.capture.len() / RECORD) as u64 => other.capture.truncate(RECORD * (asked.named as usize + 1)),
        CaptureFault::EqualTicks if whole && records.windows(2).any(|pair| pair[0].tick == pair[1].tick) => {
            after.place = 0;
            return 27;
        }
        CaptureFault::AnyFound if whole && records.iter().any(|record| record.limit.unsigned_abs() > 1_000_000) => {
            after.place = 0;
            return 6;
        }
        CaptureFault::EndsFirst if asked.source.max(asked.sink) >= drawing.nodes => {
            after.place = 0;
            return 13;
        }
        _ => {}
    }
    let result = call(&other, after);
    match fault {
        CaptureFault::LimitsOfNone if result == 0 && after.found == 0 => after.limits = before.limits.clone(),
        CaptureFault::LimitsOnRefusal if result != 0 => after.limits.fill(0),
        _ => {}
    }
    result
}

/// What is wrong with an answer, if something is.
fn objections(asked: &Asked, before: &Given, result: u8, after: &Given) -> Option<String> {
    let found = match due(asked, before) {
        Err(number) => {
            let left = Given { place: 0, ..before.clone() };
            return (result != number || *after != left).then(|| format!("refusal {number} is due, {result} was given, or a slice was changed"));
        }
        Ok(found) => found,
    };
    if result != 0 {
        return Some(format!("an answer is due, {result} was given"));
    }
    let (source, sink, edges, words) = (asked.source as usize, asked.sink as usize, found.edges(), found.words());
    let mut left = before.clone();
    for edge in 0..edges {
        left.limits[edge] = found.capacities[2 * edge];
    }
    left.set[..words].copy_from_slice(&after.set[..words]);
    let proved = match range(&found, source, sink) {
        Some((_, largest)) => {
            let flows = carry(&found, source, sink, largest).expect("the largest can be carried");
            for (place, flow) in left.flows.iter_mut().zip(highest(&found, &found.faces(), &flows)) {
                *place = flow as i32;
            }
            (left.found, left.value) = (1, largest as i32);
            Some(largest + 1)
        }
        None => {
            left.found = 0;
            None
        }
    };
    if *after != left {
        return Some(format!("due {left:?}\ngiven {after:?}"));
    }
    objection(&found, &after.set[..words], asked.source, asked.sink, proved)
}

/// A capture for a drawing, mostly right; sometimes cut, of another kind, with a channel too many, a tick that goes back or a limit out of range.
fn capture(chance: &mut Chance, drawing: &Drawing) -> Vec<u8> {
    let most = if chance.one_in(8) { 400 } else { 12 };
    let count = 1 + chance.below(most);
    let few = 1 + chance.below(drawing.edges().min(6));
    let mut tick = if chance.one_in(6) { u32::MAX - 40 } else { chance.below(1000) as u32 };
    let mut records = Vec::new();
    for _ in 0..count {
        let channel = chance.below(few);
        let back = drawing.capacities[2 * channel + 1];
        let limit = match chance.below(40) {
            0 => chance.pick(&[1_000_001, -1_000_001, 2_000_000, i32::MAX, i32::MIN]),
            1 => chance.pick(&[1_000_000, -back, -back - 1]),
            _ => drawing.capacities[2 * channel].max(-back) + chance.below(9) as i32 - if chance.one_in(3) { 0 } else { 4 },
        };
        let limit = if chance.one_in(20) { limit } else { limit.max(-back) };
        records.push(Record { tick, channel: channel as u16, limit });
        tick = tick.saturating_add(chance.below(3) as u32);
    }
    let i = chance.below(count);
    match chance.below(24) {
        0 => records[i].channel = drawing.edges() as u16 + chance.below(3) as u16,
        1 => records[i].tick = records[i].tick.wrapping_sub(1 + chance.below(5) as u32),
        _ => {}
    }
    let mut bytes = bytes_of(&records);
    match chance.below(24) {
        0 => bytes.truncate(RECORD * count - 1 - chance.below(10)),
        1 => bytes[RECORD * i] = chance.pick(&[0, 1, 2, 3, 4, 6, 255]),
        2 => bytes.extend(vec![chance.pick(&[5, 6]); 1 + chance.below(10)]),
        3 => bytes.clear(),
        _ => {}
    }
    bytes
}

/// One drawing with some captures, the last on a damaged sheet, compared; with a fault, what the faulty library says.
pub fn compare(fault: Option<CaptureFault>, seed: u64, number: u64, tally: &mut Tally) -> Result<(), Wrong> {
    let mut chance = Chance::new(seed ^ 0xca97, number);
    let grown = grow(&mut chance, number);
    let drawing = &grown.drawing;
    for which in 0..4 {
        let bytes = capture(&mut chance, drawing);
        let whole = bytes.len() / RECORD;
        let widest = if chance.one_in(4) { 256 } else { 6 };
        let mut asked = Asked {
            sheet: if which < 3 { drawing.bytes() } else { damage::bytes(&mut chance, drawing) },
            window: if chance.one_in(16) { chance.pick(&[0, 257, 65535]) } else { 1 + chance.below(widest) as u16 },
            named: if chance.one_in(16) { whole as u64 + chance.next() % 3 } else { chance.below(whole.max(1)) as u64 },
            capture: bytes,
            source: grown.source as u16,
            sink: grown.sink as u16,
        };
        match chance.below(24) {
            0 => asked.source = drawing.nodes,
            1 => asked.sink = asked.source,
            _ => {}
        }
        let short = if chance.one_in(12) { 1 + chance.below(3) } else { 0 };
        let more = |wanted: usize, which: usize, spare: usize| if short == which { wanted.saturating_sub(1) } else { wanted + spare };
        let spare = chance.below(2);
        let before = Given {
            limits: chance.junk(more(drawing.edges(), 1, spare), |bits| bits as i32),
            flows: chance.junk(more(drawing.edges(), 2, spare), |bits| bits as i32),
            set: chance.junk(more(drawing.words(), 3, spare), |bits| bits),
            found: 9,
            value: 99,
            place: 999,
        };
        let mut after = before.clone();
        let result = match fault {
            Some(fault) => faulty(fault, drawing, &asked, &before, &mut after),
            None => call(&asked, &mut after),
        };
        if let Some(text) = objections(&asked, &before, result, &after) {
            return Err(Wrong(format!("seed {seed}, drawing {number}, {NAME}: {text}\n{asked:?}\n{}", drawing.text())));
        }
        let answer = if result != 0 { "" } else { ["none", "value"][after.found as usize] };
        *tally.answers.entry((NAME, result, answer)).or_default() += 1;
    }
    Ok(())
}

#[cfg(test)]
mod tests {
    use super::*;

    #[test]
    fn the_library_is_right_and_every_outcome_comes() {
        let mut tally = Tally::default();
        for number in 0..1500 {
            if let Err(Wrong(text)) = compare(None, 1, number, &mut tally) {
                panic!("{text}");
            }
        }
        let refusals = [1, 2, 3, 4, 5, 6, 7, 8, 9, 10, 12, 13, 14, 16, 24, 25, 26, 27].map(|number| (number, ""));
        for due in refusals.into_iter().chain([(0, "value"), (0, "none")]) {
            assert!(tally.answers.contains_key(&(NAME, due.0, due.1)), "no {due:?}");
        }
    }

    #[test]
    fn every_fault_is_caught() {
        for fault in FAULTS {
            let caught = (0..1500).any(|number| compare(Some(fault), 1, number, &mut Tally::default()).is_err());
            assert!(caught, "{fault:?} is not caught");
        }
    }
}

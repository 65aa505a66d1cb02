//! The proved library (include/analyser.h), one safe function to an operation; those of a module of their own stand there. Each lends as much room as the
//! largest drawing needs, so that 16 is said only of what a caller gave. What was not written is told by a number that no answer has.
pub use bindings::SET_WORDS;
use bindings::*;

#[derive(Clone, Copy, Debug, PartialEq)]
pub struct Refusal {
    pub number: u8,
    pub place: u16,
}

pub type Told<T> = Result<T, Refusal>;

/// No setting, level, limit or subtotal is this low.
pub const UNWRITTEN: i32 = i32::MIN;

#[derive(Clone, Debug)]
pub struct Drawing {
    pub nodes: u16,
    pub channels: u16,
    pub outer: u16,
    pub tails: Vec<u16>,
    pub turns: Vec<u16>,
    pub limits: Vec<i32>,
}

/// Headgate and outfall.
pub type Ends = (u16, u16);

pub enum Solved {
    Can(Vec<i32>),
    Cannot { set: Vec<u64>, size: u16 },
}

/// A value with its settings and a set for the next one beyond it.
pub struct Extreme {
    pub value: i32,
    pub settings: Vec<i32>,
    pub set: Vec<u64>,
}

/// What was found, or a set that proves that there is none.
pub enum Found<T> {
    Some(T),
    None(Vec<u64>),
}

pub struct Raised {
    pub limit: i32,
    pub settings: Vec<i32>,
}

/// The answer to a question of a page.
pub enum Answered {
    Can(Vec<i32>),
    Cannot { set: Vec<u64>, size: u16 },
    Refused(u8),
}

/// A call by its place pointer: the answer that it left, or its refusal.
pub fn told(call: impl FnOnce(&mut u16) -> u8) -> Told<()> {
    let mut place = 0;
    match call(&mut place) {
        0 => Ok(()),
        number => Err(Refusal { number, place }),
    }
}

pub fn settings_room() -> Vec<i32> {
    vec![UNWRITTEN; MAX_CHANNELS]
}

/// The numbers in front that were written.
pub fn written(mut room: Vec<i32>) -> Vec<i32> {
    room.truncate(room.iter().position(|&number| number == UNWRITTEN).unwrap_or(room.len()));
    room
}

// In every call below each pointer is to as many elements as its length says, and no two slices overlap.

#[rustfmt::skip]
pub fn read(sheet: &[u8]) -> Told<Drawing> {
    let (mut tails, mut turns, mut limits) = (vec![0; MAX_DARTS], vec![0; MAX_DARTS], vec![0; MAX_DARTS]);
    let (mut nodes, mut channels, mut outer) = (0, 0, 0);
    told(|place| unsafe {
        analyser_read(sheet.as_ptr(), sheet.len(), tails.as_mut_ptr(), tails.len(), turns.as_mut_ptr(), turns.len(), limits.as_mut_ptr(), limits.len(),
            &mut nodes, &mut channels, &mut outer, place)
    })?;
    let darts = 2 * channels as usize;
    tails.truncate(darts);
    turns.truncate(darts);
    limits.truncate(darts);
    Ok(Drawing { nodes, channels, outer, tails, turns, limits })
}

#[rustfmt::skip]
pub fn write(nodes: u16, outer: u16, tails: &[u16], turns: &[u16], limits: &[i32]) -> Told<Vec<u8>> {
    let (mut sheet, mut length) = (vec![0; SHEET_BYTES], 0);
    told(|place| unsafe {
        analyser_write(nodes, outer, tails.as_ptr(), tails.len(), turns.as_ptr(), turns.len(), limits.as_ptr(), limits.len(),
            sheet.as_mut_ptr(), sheet.len(), &mut length, place)
    })?;
    sheet.truncate(length);
    Ok(sheet)
}

#[rustfmt::skip]
pub fn solve(sheet: &[u8], ends: Ends, delivery: i32) -> Told<Solved> {
    let (mut settings, mut set) = (settings_room(), vec![0; SET_WORDS]);
    let (mut can, mut size) = (0, 0);
    told(|place| unsafe {
        analyser_solve(sheet.as_ptr(), sheet.len(), ends.0, ends.1, delivery, settings.as_mut_ptr(), settings.len(), set.as_mut_ptr(), set.len(),
            &mut can, &mut size, place)
    })?;
    Ok(if can == 1 { Solved::Can(written(settings)) } else { Solved::Cannot { set, size } })
}

#[rustfmt::skip]
pub fn largest(sheet: &[u8], ends: Ends) -> Told<Found<Extreme>> {
    let (mut settings, mut set) = (settings_room(), vec![0; SET_WORDS]);
    let (mut found, mut value) = (0, 0);
    told(|place| unsafe {
        analyser_largest(sheet.as_ptr(), sheet.len(), ends.0, ends.1, settings.as_mut_ptr(), settings.len(), set.as_mut_ptr(), set.len(),
            &mut found, &mut value, place)
    })?;
    Ok(if found == 1 { Found::Some(Extreme { value, settings: written(settings), set }) } else { Found::None(set) })
}

#[rustfmt::skip]
pub fn least_and_largest(sheet: &[u8], ends: Ends) -> Told<Found<[Extreme; 2]>> {
    let (mut low, mut below, mut high, mut above) = (settings_room(), vec![0; SET_WORDS], settings_room(), vec![0; SET_WORDS]);
    let (mut found, mut least, mut largest) = (0, 0, 0);
    told(|place| unsafe {
        analyser_least_and_largest(sheet.as_ptr(), sheet.len(), ends.0, ends.1, low.as_mut_ptr(), low.len(), below.as_mut_ptr(), below.len(),
            high.as_mut_ptr(), high.len(), above.as_mut_ptr(), above.len(), &mut found, &mut least, &mut largest, place)
    })?;
    if found != 1 {
        return Ok(Found::None(below));
    }
    let least = Extreme { value: least, settings: written(low), set: below };
    Ok(Found::Some([least, Extreme { value: largest, settings: written(high), set: above }]))
}

#[rustfmt::skip]
pub fn raise_limit(sheet: &[u8], ends: Ends, delivery: i32, channel: u16) -> Told<Found<Raised>> {
    let (mut settings, mut set) = (settings_room(), vec![0; SET_WORDS]);
    let (mut found, mut limit) = (0, 0);
    told(|place| unsafe {
        analyser_raise_limit(sheet.as_ptr(), sheet.len(), ends.0, ends.1, delivery, channel, settings.as_mut_ptr(), settings.len(),
            set.as_mut_ptr(), set.len(), &mut found, &mut limit, place)
    })?;
    Ok(if found == 1 { Found::Some(Raised { limit, settings: written(settings) }) } else { Found::None(set) })
}

/// The stretches of question i begin at i times the channels and i times the words of a set. More than 64 questions are counted and not lent: 21 comes first.
#[rustfmt::skip]
pub fn page(sheet: &[u8], questions: &[(Ends, i32)]) -> Told<Vec<Answered>> {
    let (mut headgates, mut outfalls, mut deliveries) = ([0; PAGE_QUESTIONS], [0; PAGE_QUESTIONS], [0; PAGE_QUESTIONS]);
    for (i, &((headgate, outfall), delivery)) in questions.iter().take(PAGE_QUESTIONS).enumerate() {
        (headgates[i], outfalls[i], deliveries[i]) = (headgate, outfall, delivery);
    }
    let (mut settings, mut sets) = (vec![UNWRITTEN; PAGE_QUESTIONS * MAX_CHANNELS], vec![0; PAGE_QUESTIONS * SET_WORDS]);
    let (mut answers, mut sizes) = ([0; PAGE_QUESTIONS], [0; PAGE_QUESTIONS]);
    told(|place| unsafe {
        analyser_page(sheet.as_ptr(), sheet.len(), questions.len(), headgates.as_ptr(), outfalls.as_ptr(), deliveries.as_ptr(),
            settings.as_mut_ptr(), settings.len(), sets.as_mut_ptr(), sets.len(), answers.as_mut_ptr(), sizes.as_mut_ptr(), place)
    })?;
    let drawing = read(sheet)?;
    let (channels, words) = (drawing.channels as usize, (drawing.nodes as usize).div_ceil(64));
    Ok((0..questions.len()).map(|i| match answers[i] {
        1 => Answered::Can(settings[i * channels..(i + 1) * channels].to_vec()),
        0 => Answered::Cannot { set: sets[i * words..(i + 1) * words].to_vec(), size: sizes[i] },
        number => Answered::Refused(number),
    }).collect())
}

pub fn mark(sheet: &[u8], ends: Ends, settings: &[i32]) -> Told<i32> {
    let mut value = 0;
    told(|place| unsafe { analyser_mark(sheet.as_ptr(), sheet.len(), ends.0, ends.1, settings.as_ptr(), settings.len(), &mut value, place) })?;
    Ok(value)
}

pub fn levels_from_settings(sheet: &[u8], settings: &[i32]) -> Told<Vec<i32>> {
    let mut levels = vec![UNWRITTEN; MAX_FACES];
    told(|place| unsafe {
        analyser_levels_from_settings(sheet.as_ptr(), sheet.len(), settings.as_ptr(), settings.len(), levels.as_mut_ptr(), levels.len(), place)
    })?;
    Ok(written(levels))
}

pub fn settings_from_levels(sheet: &[u8], levels: &[i32]) -> Told<Vec<i32>> {
    let mut settings = settings_room();
    told(|place| unsafe {
        analyser_settings_from_levels(sheet.as_ptr(), sheet.len(), levels.as_ptr(), levels.len(), settings.as_mut_ptr(), settings.len(), place)
    })?;
    Ok(written(settings))
}

/// The subtotals of the nodes of a set, nodes rising, and the total.
pub fn totals(sheet: &[u8], set: &[u64]) -> Told<(Vec<i32>, i32)> {
    let (mut subtotals, mut total) = (vec![UNWRITTEN; MAX_NODES], 0);
    told(|place| unsafe { analyser_totals(sheet.as_ptr(), sheet.len(), set.as_ptr(), set.len(), subtotals.as_mut_ptr(), subtotals.len(), &mut total, place) })?;
    Ok((written(subtotals), total))
}

/// The text of a key for a question record and a sheet behind it.
pub fn key_text(input: &[u8]) -> Told<String> {
    let (mut text, mut length) = (vec![0; KEY_TEXT_BYTES], 0);
    told(|place| unsafe { analyser_key_text(input.as_ptr(), input.len(), text.as_mut_ptr(), text.len(), &mut length, place) })?;
    Ok(ascii(text, length))
}

pub fn practice_sheet(rows: u16, columns: u16, seed: u32) -> Told<Vec<u8>> {
    let (mut sheet, mut length) = (vec![0; SHEET_BYTES], 0);
    told(|place| unsafe { analyser_practice_sheet(rows, columns, seed, sheet.as_mut_ptr(), sheet.len(), &mut length, place) })?;
    sheet.truncate(length);
    Ok(sheet)
}

pub fn write_dimacs(sheet: &[u8], ends: Ends) -> Told<String> {
    let (mut text, mut length) = (vec![0; DIMACS_BYTES], 0);
    told(|place| unsafe { analyser_write_dimacs(sheet.as_ptr(), sheet.len(), ends.0, ends.1, text.as_mut_ptr(), text.len(), &mut length, place) })?;
    Ok(ascii(text, length))
}

fn ascii(mut text: Vec<u8>, length: usize) -> String {
    text.truncate(length);
    text.into_iter().map(char::from).collect()
}

/// The nodes of a set, rising.
pub fn nodes_of(set: &[u64]) -> Vec<u16> {
    (0..64 * set.len()).filter(|node| set[node / 64] >> (node % 64) & 1 == 1).map(|node| node as u16).collect()
}

//! Pictures: drawing/ lays a sheet out and writes it as SVG, the same bytes as on the examiner's page. The places that the page saved in a sheet's text are
//! taken if they show its turns.
use crate::answer::View;
use crate::text::{fault, Parsed};
use std::sync::Mutex;

/// The constants and structs of drawing/drawing.h.
#[allow(dead_code)]
mod made {
    include!(concat!(env!("OUT_DIR"), "/drawing.rs"));
}
use made::{Places, Sheet, Shown, BENDS, CROSSES, DONE, NONE, WORK};

/// Lines for the answer on an exam page, as the examiner's page has them.
const EXAM_LINES: u32 = 8;
extern "C" {
    fn drawing_places(sheet: *const Sheet, places: *mut Places, work: *mut u64) -> u32;
    fn drawing_follows(sheet: *const Sheet, places: *const Places, work: *mut u64, at: *mut u32) -> u32;
    fn drawing_svg(sheet: *const Sheet, places: *const Places, shown: *const Shown, work: *mut u64, text: *mut u8, length: u32, size: *mut u32) -> u32;
}

/// A struct of numbers, all 0.
fn zeroed<T>() -> Box<T> {
    // Safety: only used for the three structs of drawing.h, whose fields are whole numbers and arrays of them.
    unsafe { Box::new(std::mem::zeroed()) }
}

/// Copies as much as fits.
fn fill<T: Copy>(to: &mut [T], from: &[T]) {
    let count = to.len().min(from.len());
    to[..count].copy_from_slice(&from[..count]);
}

/// Words that end with a 0 byte, cut off at a letter's end where they are too long.
fn fill_words(to: &mut [u8], words: &str) {
    let mut count = words.len().min(to.len() - 1);
    while !words.is_char_boundary(count) {
        count -= 1;
    }
    fill(to, &words.as_bytes()[..count]);
}

fn sheet_of(view: &View) -> Box<Sheet> {
    let mut sheet: Box<Sheet> = zeroed();
    (sheet.nodes, sheet.channels, sheet.outer) = (view.drawing.nodes, view.drawing.channels, view.outer.map_or(NONE, i32::from));
    fill(&mut sheet.tails, &view.drawing.tails);
    fill(&mut sheet.turns, &view.drawing.turns);
    fill(&mut sheet.limits, &view.drawing.limits);
    sheet
}

fn shown_of(view: &View) -> Box<Shown> {
    let mut shown: Box<Shown> = zeroed();
    shown.style = view.exam.into();
    shown.lines = if view.exam && view.asked.is_some() { EXAM_LINES } else { 0 };
    (shown.headgate, shown.outfall) = view.ends.map_or((NONE, NONE), |ends| (ends.0.into(), ends.1.into()));
    if let Some(settings) = &view.settings {
        shown.has_settings = 1;
        fill(&mut shown.settings, settings);
    }
    if let Some(set) = &view.set {
        shown.has_set = 1;
        set.iter().for_each(|&node| shown.set[node as usize / 64] |= 1 << (node % 64));
    }
    if let (Some(set), Some(subtotals)) = (&view.set, &view.subtotals) {
        shown.has_subtotals = 1;
        set.iter().zip(subtotals).for_each(|(&node, &subtotal)| shown.subtotals[node as usize] = subtotal);
    }
    if let Some(levels) = &view.levels {
        shown.has_levels = 1;
        fill(&mut shown.levels, levels);
    }
    fill_words(&mut shown.title, &view.title);
    fill_words(&mut shown.caption, &view.caption);
    shown
}

/// The text of the sheet that was read last, if it has places.
static SAVED: Mutex<Option<String>> = Mutex::new(None);

pub fn remember(text: &[u8]) {
    let text = std::str::from_utf8(text).ok().filter(|text| text.contains("# at ")).map(str::to_string);
    *SAVED.lock().expect("no thread failed") = text;
}

/// A number of at most seven digits and three behind the point, in hundredths.
fn hundredths(word: &str) -> Option<i32> {
    let digits = word.strip_prefix('-').unwrap_or(word);
    let (whole, behind) = digits.split_once('.').unwrap_or((digits, "0"));
    let formed = |digits: &str, most: usize| (1..=most).contains(&digits.len()) && digits.bytes().all(|byte| byte.is_ascii_digit());
    if !formed(whole, 7) || !formed(behind, 3) {
        return None;
    }
    let thousandths: i64 = format!("{whole}{behind:0<3}").parse().ok()?;
    let size = ((thousandths + 5) / 10) as i32;
    Some(if word.starts_with('-') { -size } else { size })
}

type Place = (i32, i32);

/// The places of nodes and the bends of channels in a text: `# at NODE X Y`, `# by CHANNEL X Y ..`, and `# via` for corners.
fn lines_of(text: &str, nodes: usize, channels: usize) -> Option<(Vec<Place>, Vec<(Vec<Place>, bool)>)> {
    let (mut at, mut bends) = (vec![None; nodes], vec![(vec![], false); channels]);
    for line in text.lines() {
        let words: Vec<&str> = line.split(' ').collect();
        let ["#", kind @ ("at" | "by" | "via"), which, numbers @ ..] = &words[..] else { continue };
        let (Ok(which), Some(numbers)) = (which.parse::<usize>(), numbers.iter().map(|word| hundredths(word)).collect::<Option<Vec<i32>>>()) else { continue };
        let points: Vec<Place> = numbers.chunks_exact(2).map(|pair| (pair[0], pair[1])).collect();
        match (*kind, &points[..]) {
            ("at", &[place]) if which < nodes => at[which] = Some(place),
            ("by" | "via", _) if which < channels => bends[which] = (points, *kind == "via"),
            _ => {}
        }
    }
    Some((at.into_iter().collect::<Option<Vec<Place>>>()?, bends))
}

/// A loop has two bends or more: what the page makes of one or none.
fn loop_bends(at: Place, bends: Vec<Place>) -> Vec<Place> {
    if bends.len() > 1 {
        return bends;
    }
    let (x, y) = bends.first().map_or((0.0, -7000.0), |bend| ((bend.0 - at.0) as f64, (bend.1 - at.1) as f64));
    let (cosine, sine) = (0.921060994002885, 0.389418342308651); // of 0.4
    let turned = |sine: f64| (at.0 + (x * cosine - y * sine).round() as i32, at.1 + (x * sine + y * cosine).round() as i32);
    vec![turned(-sine), turned(sine)]
}

/// Of parallel channels without bends each bows by itself, as on the page: the lowest number on the left as seen from the lower node.
fn bow(tails: &[u16], at: &[Place], bends: &mut [(Vec<Place>, bool)]) {
    let ends = |channel: usize| (tails[2 * channel].min(tails[2 * channel + 1]), tails[2 * channel].max(tails[2 * channel + 1]));
    let bare: Vec<usize> = (0..bends.len()).filter(|&channel| bends[channel].0.is_empty() && ends(channel).0 < ends(channel).1).collect();
    for &channel in &bare {
        let same: Vec<usize> = bare.iter().copied().filter(|&other| ends(other) == ends(channel)).collect();
        let (p, q) = (at[ends(channel).0 as usize], at[ends(channel).1 as usize]);
        let (dx, dy) = ((q.0 - p.0) as f64, (q.1 - p.1) as f64);
        let length = if (dx, dy) == (0.0, 0.0) { 1.0 } else { (dx * dx + dy * dy).sqrt() };
        let number = same.iter().position(|&other| other == channel).unwrap_or(0) as f64;
        let off = ((same.len() as f64 - 1.0) / 2.0 - number) * (length / same.len() as f64).min(4400.0) * 2.0;
        if off != 0.0 {
            bends[channel].0 = vec![((p.0 as f64 + dx / 2.0 + dy / length * off).round() as i32, (p.1 as f64 + dy / 2.0 - dx / length * off).round() as i32)];
        }
    }
}

/// The saved places, where they are some and show the turns.
fn saved(sheet: &Sheet, work: &mut [u64]) -> Option<Box<Places>> {
    let text = SAVED.lock().expect("no thread failed").clone()?;
    let (nodes, channels) = (sheet.nodes as usize, sheet.channels as usize);
    let (at, mut bends) = lines_of(&text, nodes, channels)?;
    for (channel, ends) in sheet.tails[..2 * channels].chunks(2).enumerate() {
        if ends[0] == ends[1] {
            bends[channel].0 = loop_bends(at[ends[0] as usize], std::mem::take(&mut bends[channel].0));
        }
    }
    bow(&sheet.tails, &at, &mut bends);
    let mut places: Box<Places> = zeroed();
    if bends.iter().map(|(points, _)| points.len()).sum::<usize>() > BENDS {
        return None;
    }
    let mut count = 0;
    for (node, &(x, y)) in at.iter().enumerate() {
        (places.x[node], places.y[node]) = (x, y);
    }
    for (channel, (points, sharp)) in bends.iter().enumerate() {
        places.sharp[channel] = (*sharp).into();
        for &(x, y) in points {
            (places.bend_x[count], places.bend_y[count]) = (x, y);
            count += 1;
        }
        places.first[channel + 1] = count as u16;
    }
    let mut node = 0;
    // Safety: the structs are drawing.h's, and `work` is as long as it asks.
    let follows = unsafe { drawing_follows(sheet, &*places, work.as_mut_ptr(), &mut node) };
    (follows as usize == DONE || follows as usize == CROSSES).then_some(places)
}

/// Saved places, or such as the turns give. The views of a session or a page are of one sheet: places that were made are used again.
fn places_of(sheet: &Sheet, before: Option<(Box<Sheet>, Box<Places>)>, work: &mut [u64]) -> Parsed<Box<Places>> {
    let shape = |sheet: &Sheet| (sheet.nodes, sheet.channels, sheet.outer, sheet.tails, sheet.turns);
    if let Some((_, places)) = before.filter(|(other, _)| shape(other) == shape(sheet)) {
        return Ok(places);
    }
    if let Some(places) = saved(sheet, work) {
        return Ok(places);
    }
    let mut places: Box<Places> = zeroed();
    // Safety: the structs are drawing.h's, and `work` is as long as it asks.
    match unsafe { drawing_places(sheet, &mut *places, work.as_mut_ptr()) } as usize {
        DONE => Ok(places),
        _ => fault("picture", "the drawing is not flat"),
    }
}

/// One picture, and its size.
fn document(sheet: &Sheet, places: &Places, shown: &Shown, work: &mut [u64]) -> Parsed<(String, [u32; 2])> {
    let (mut text, mut size) = (vec![0; 1 << 16], [0; 2]);
    loop {
        // Safety: as above; the text's length goes with it.
        let length = unsafe { drawing_svg(sheet, places, shown, work.as_mut_ptr(), text.as_mut_ptr(), text.len() as u32, size.as_mut_ptr()) } as usize;
        if length <= text.len() {
            text.truncate(length);
            return String::from_utf8(text).map(|text| (text, size)).or_else(|_| fault("picture", "a title is no text"));
        }
        text.resize(length, 0);
    }
}

/// The views one below the other.
pub fn draw(views: &[View]) -> Parsed<Vec<u8>> {
    let mut work = vec![0u64; WORK / 8];
    let (mut documents, mut before) = (vec![], None);
    for view in views {
        let sheet = sheet_of(view);
        let places = places_of(&sheet, before.take(), &mut work)?;
        documents.push(document(&sheet, &places, &shown_of(view), &mut work)?);
        before = Some((sheet, places));
    }
    if let [(text, _)] = &documents[..] {
        return Ok(text.clone().into_bytes());
    }
    let (width, height) = documents.iter().fold((0, 0), |(width, height), (_, size)| (size[0].max(width), height + size[1]));
    let mut all = format!("<svg xmlns=\"http://www.w3.org/2000/svg\" width=\"{width}\" height=\"{height}\" viewBox=\"0 0 {width} {height}\">\n");
    let mut below = 0;
    for (text, size) in &documents {
        all += &text.replacen("<svg ", &format!("<svg y=\"{below}\" "), 1);
        below += size[1];
    }
    Ok((all + "</svg>\n").into_bytes())
}

#[cfg(test)]
mod tests {
    use super::*;

    #[test]
    fn places_are_read_as_the_page_writes_them() {
        assert_eq!(["0", "-12.5", "7.25", "1.005", "9999999.999"].map(hundredths), [Some(0), Some(-1250), Some(725), Some(101), Some(1_000_000_000)]);
        assert_eq!(["", "-", "1.", ".5", "1e3", "12345678", "1.2345", "+1"].map(hundredths), [None; 8]);
        let (at, bends) = lines_of("nodes 2\n# at 0 1 2\n# at 1 -3.5 4\n# by 1 5 6 7 8\n# via 0 9 9\n# at 7 0 0\n", 2, 2).unwrap();
        assert_eq!((at, bends), (vec![(100, 200), (-350, 400)], vec![(vec![(900, 900)], true), (vec![(500, 600), (700, 800)], false)]));
        assert_eq!(lines_of("# at 0 1 2\n", 2, 0), None);
    }

    #[test]
    fn a_loop_gets_two_bends_and_parallels_bow() {
        assert_eq!(loop_bends((0, 0), vec![(1, 2), (3, 4)]), [(1, 2), (3, 4)]);
        assert_eq!(loop_bends((0, 0), vec![]).len(), 2);
        let mut bends = vec![(vec![], false); 3];
        bow(&[0, 1, 0, 1, 1, 0], &[(0, 0), (30000, 0)], &mut bends);
        assert_eq!(bends.iter().map(|(points, _)| points.clone()).collect::<Vec<_>>(), [vec![(15000, -8800)], vec![], vec![(15000, 8800)]]);
    }
}

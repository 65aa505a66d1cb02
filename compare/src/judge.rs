//! An independent judge of what is refused, written from documents 01 and 02 in the plainest way: the checks of each operation in their order.
use crate::drawing::{count, rounds, Drawing, EDGE, HEAD, OUTER_HEAD};
use crate::flow::{along, net_flows};
use crate::grid;
use crate::unit::{Call, Lent, PAGE};

#[derive(Clone, Copy, Debug, PartialEq)]
pub struct Refusal {
    pub number: u8,
    pub place: u16,
}

pub type Verdict = Result<(), Refusal>;

fn refuse(number: u8, holds: bool) -> Verdict {
    if holds {
        return Err(Refusal { number, place: 0 });
    }
    Ok(())
}

fn refuse_at(number: u8, place: Option<usize>) -> Verdict {
    match place {
        Some(place) => Err(Refusal { number, place: place as u16 }),
        None => Ok(()),
    }
}

/// The shortest text that the key's slice must have room for.
pub const TEXT: usize = 6671;

/// The drawing that a call is about, or the first of its refusals.
pub fn accept(call: &Call, lent: &Lent) -> Result<Drawing, Refusal> {
    match *call {
        Call::Write { nodes, outer } => return write(nodes, outer, lent),
        Call::PracticeSheet { rows, columns, seed } => return practice(rows, columns, seed, lent),
        Call::KeyText => {
            refuse(16, lent.text.len() < TEXT)?;
            return Ok(Drawing::default());
        }
        _ => {}
    }
    let drawing = sheet(&lent.sheet)?;
    let faces = count(&drawing.faces());
    match *call {
        Call::Read => {
            let shortest = lent.tails.len().min(lent.rotations.len()).min(lent.capacities.len());
            refuse(16, shortest < drawing.darts())?;
        }
        Call::Solve { source, sink, value } => {
            question(&drawing, source, sink, value)?;
            refuse(16, lent.flows.len() < drawing.edges() || lent.set.len() < drawing.words())?;
        }
        Call::Largest { source, sink } => {
            ends(&drawing, source, sink)?;
            refuse(16, lent.flows.len() < drawing.edges() || lent.set.len() < drawing.words())?;
        }
        Call::LeastAndLargest { source, sink } => {
            ends(&drawing, source, sink)?;
            refuse(16, lent.low.len().min(lent.high.len()) < drawing.edges() || lent.below.len().min(lent.above.len()) < drawing.words())?;
        }
        Call::RaiseLimit { source, sink, value, edge } => {
            question(&drawing, source, sink, value)?;
            refuse(25, edge as usize >= drawing.edges())?;
            refuse(16, lent.flows.len() < drawing.edges() || lent.set.len() < drawing.words())?;
        }
        Call::Mark { source, sink } => {
            ends(&drawing, source, sink)?;
            refuse(16, lent.flows.len() < drawing.edges())?;
            within(&drawing, &wide(&lent.flows))?;
            balanced(&drawing, &wide(&lent.flows), &[source as usize, sink as usize])?;
        }
        Call::LevelsFromSettings => {
            refuse(16, lent.flows.len() < drawing.edges() || lent.levels.len() < faces)?;
            within(&drawing, &wide(&lent.flows))?;
            balanced(&drawing, &wide(&lent.flows), &[])?;
        }
        Call::SettingsFromLevels => {
            refuse(16, lent.flows.len() < drawing.edges() || lent.levels.len() < faces)?;
            let levels = wide(&lent.levels[..faces]);
            refuse(19, levels.iter().any(|level| level.abs() > 600_000_000))?;
            refuse(20, drawing.zero_faces().iter().any(|&face| levels[face] != 0))?;
            within(&drawing, &crate::levels::flows_of(&drawing.faces(), &levels))?;
        }
        Call::Totals => refuse(16, lent.set.len() < drawing.words() || lent.subtotals.len() < members(&drawing, &lent.set).len())?,
        Call::WriteDimacs { source, sink } => {
            ends(&drawing, source, sink)?;
            refuse(22, drawing.capacities.iter().any(|&capacity| capacity < 0))?;
            refuse(16, lent.text.len() < crate::dimacs::text(&drawing, source, sink).len())?;
        }
        Call::Examine { source, sink, value } => {
            question(&drawing, source, sink, value)?;
            let papers = lent.claims.len();
            refuse(32, papers > 1000)?;
            let short = lent.flows.len() < papers * drawing.edges() || lent.set.len() < papers * drawing.words();
            refuse(16, short || lent.kinds.len().min(lent.points.len()) < papers)?;
        }
        Call::Page { count } => {
            refuse(21, count > PAGE)?;
            refuse(16, lent.flows.len() < count * drawing.edges() || lent.set.len() < count * drawing.words())?;
        }
        Call::Write { .. } | Call::KeyText | Call::PracticeSheet { .. } => unreachable!("judged above"),
    }
    Ok(drawing)
}

pub fn wide(numbers: &[i32]) -> Vec<i64> {
    numbers.iter().map(|&number| number as i64).collect()
}

/// All sheet checks.
pub fn sheet(bytes: &[u8]) -> Result<Drawing, Refusal> {
    let drawing = records(bytes)?;
    rotation(&drawing)?;
    Ok(drawing)
}

/// A record of this kind at this place: 1 no byte, 2 another kind, 1 body cut short.
fn record(bytes: &[u8], at: usize, kind: u8, body: usize) -> Result<&[u8], Refusal> {
    refuse(1, bytes.len() <= at)?;
    refuse(2, bytes[at] != kind)?;
    refuse(1, bytes.len() < at + 1 + body)?;
    Ok(&bytes[at + 1..at + 1 + body])
}

fn unsigned(body: &[u8], at: usize) -> u16 {
    u16::from_le_bytes([body[at], body[at + 1]])
}

fn signed(body: &[u8], at: usize) -> i32 {
    i32::from_le_bytes([body[at], body[at + 1], body[at + 2], body[at + 3]])
}

/// Checks 1 to 8.
pub fn records(bytes: &[u8]) -> Result<Drawing, Refusal> {
    refuse(1, bytes.is_empty())?;
    let named = bytes[0] == 4;
    let head = record(bytes, 0, if named { 4 } else { 1 }, if named { 6 } else { 4 })?;
    let (nodes, edges, outer) = (unsigned(head, 0), unsigned(head, 2) as usize, named.then(|| unsigned(head, 4)));
    counts(nodes, edges)?;
    outer_dart(edges, outer)?;
    let mut drawing = Drawing { nodes, outer, ..Drawing::default() };
    let first = 1 + head.len();
    for edge in 0..edges {
        let body = record(bytes, first + EDGE * edge, 2, 16)?;
        drawing.tails.extend([unsigned(body, 0), unsigned(body, 2)]);
        drawing.rotations.extend([unsigned(body, 4), unsigned(body, 6)]);
        drawing.capacities.extend([signed(body, 8), signed(body, 12)]);
        fields(&drawing, edge, edges)?;
    }
    refuse(8, bytes.len() > first + EDGE * edges)?;
    Ok(drawing)
}

fn counts(nodes: u16, edges: usize) -> Verdict {
    refuse(3, !(2..=513).contains(&nodes) || !(1..=512).contains(&edges))
}

/// Check 24, right after 3.
fn outer_dart(edges: usize, outer: Option<u16>) -> Verdict {
    refuse(24, outer.is_some_and(|outer| outer as usize >= 2 * edges))
}

/// Checks 4 to 7 of one edge.
fn fields(drawing: &Drawing, edge: usize, edges: usize) -> Verdict {
    let darts = [2 * edge, 2 * edge + 1];
    refuse(4, darts.iter().any(|&dart| drawing.tails[dart] >= drawing.nodes))?;
    refuse(5, darts.iter().any(|&dart| drawing.rotations[dart] as usize >= 2 * edges))?;
    refuse(6, darts.iter().any(|&dart| drawing.capacity(dart).abs() > 1_000_000))?;
    refuse(7, drawing.capacity(darts[0]) + drawing.capacity(darts[1]) < 0)
}

/// Checks 9, 10 and 12, of a drawing whose tails and turns are in range.
pub fn turns(drawing: &Drawing) -> Verdict {
    rotation(drawing)
}

/// Checks 9, 10 and 12.
fn rotation(drawing: &Drawing) -> Verdict {
    let rotation = drawing.rotation();
    refuse(9, rotation.iter().enumerate().any(|(dart, &next)| drawing.tail(next) != drawing.tail(dart)))?;
    let mut met = vec![false; rotation.len()];
    refuse(9, rotation.iter().any(|&next| std::mem::replace(&mut met[next], true)))?;
    refuse(10, !one_round_each(drawing))?;
    refuse(12, !flat(drawing))
}

fn one_round_each(drawing: &Drawing) -> bool {
    let rounds = rounds(&drawing.rotation());
    let mut round = vec![None; drawing.nodes as usize];
    for dart in 0..drawing.darts() {
        let first = *round[drawing.tail(dart)].get_or_insert(rounds[dart]);
        if first != rounds[dart] {
            return false;
        }
    }
    round.iter().all(Option::is_some)
}

/// Nodes - channels + faces = 2 in each part, counted part by part.
pub fn flat(drawing: &Drawing) -> bool {
    let (parts, faces) = (drawing.parts(), drawing.faces());
    let mut counted = vec![0i64; parts.len()];
    for &part in &parts {
        counted[part] += 1;
    }
    let mut seen = vec![false; count(&faces)];
    for dart in 0..drawing.darts() {
        let part = parts[drawing.tail(dart)];
        if dart % 2 == 0 {
            counted[part] -= 1;
        }
        if !std::mem::replace(&mut seen[faces[dart]], true) {
            counted[part] += 1;
        }
    }
    parts.iter().all(|&part| counted[part] == 2)
}

fn write(nodes: u16, outer: u16, lent: &Lent) -> Result<Drawing, Refusal> {
    let darts = lent.tails.len();
    refuse(16, lent.rotations.len() != darts || lent.capacities.len() != darts || darts % 2 != 0)?;
    let outer = Some(outer);
    let drawing = Drawing { nodes, tails: lent.tails.clone(), rotations: lent.rotations.clone(), capacities: lent.capacities.clone(), outer };
    counts(nodes, drawing.edges())?;
    outer_dart(drawing.edges(), outer)?;
    for edge in 0..drawing.edges() {
        fields(&drawing, edge, drawing.edges())?;
    }
    rotation(&drawing)?;
    refuse(16, lent.sheet.len() < OUTER_HEAD + EDGE * drawing.edges())?;
    Ok(drawing)
}

/// 23, then 16; the sheet itself is accepted.
fn practice(rows: u16, columns: u16, seed: u32, lent: &Lent) -> Result<Drawing, Refusal> {
    refuse(23, [rows, columns].iter().any(|count| !(2..=16).contains(count)) || seed >= 1 << 31)?;
    let drawing = grid::practice(rows, columns, seed);
    refuse(16, lent.sheet.len() < HEAD + EDGE * drawing.edges())?;
    rotation(&drawing)?;
    Ok(drawing)
}

/// Checks 13 and 14.
fn ends(drawing: &Drawing, source: u16, sink: u16) -> Verdict {
    refuse(13, source >= drawing.nodes || sink >= drawing.nodes)?;
    refuse(14, source == sink)
}

/// Checks 13 to 15.
pub fn question(drawing: &Drawing, source: u16, sink: u16, value: i32) -> Verdict {
    ends(drawing, source, sink)?;
    refuse(15, (value as i64).abs() > 600_000_000)
}

/// The question of the key, and the sheet after it.
pub fn key(input: &[u8]) -> Result<(Drawing, Call), Refusal> {
    let body = record(input, 0, 3, 8)?;
    let (source, sink, value) = (unsigned(body, 0), unsigned(body, 2), signed(body, 4));
    let drawing = sheet(&input[9..])?;
    question(&drawing, source, sink, value)?;
    Ok((drawing, Call::Solve { source, sink, value }))
}

/// Check 17, with the lowest edge whose flow is outside its capacities.
fn within(drawing: &Drawing, flows: &[i64]) -> Verdict {
    refuse_at(17, (0..drawing.darts()).find(|&dart| along(flows, dart) > drawing.capacity(dart)).map(|dart| dart / 2))
}

/// Check 18, with the lowest node off balance, save those that are free.
fn balanced(drawing: &Drawing, flows: &[i64], free: &[usize]) -> Verdict {
    let sums = net_flows(drawing, flows);
    refuse_at(18, (0..sums.len()).find(|&node| sums[node] != 0 && !free.contains(&node)))
}

/// The nodes of a set in words, rising. Bits past the last node are passed over.
pub fn members(drawing: &Drawing, set: &[u64]) -> Vec<usize> {
    (0..drawing.nodes as usize).filter(|node| set[node / 64] >> (node % 64) & 1 == 1).collect()
}

/// The outward total of a set of nodes, channel by channel, and what each of its nodes has of it, nodes rising.
pub fn totals(drawing: &Drawing, set: &[u64]) -> (Vec<i64>, i64) {
    let members = members(drawing, set);
    let mut at = vec![0; drawing.nodes as usize];
    let mut total = 0;
    for edge in 0..drawing.edges() {
        let ends = [drawing.tail(2 * edge), drawing.tail(2 * edge + 1)];
        let [forth, back] = ends.map(|end| members.binary_search(&end).is_ok());
        if forth && !back {
            at[ends[0]] += drawing.capacity(2 * edge);
            total += drawing.capacity(2 * edge);
        }
        if back && !forth {
            at[ends[1]] += drawing.capacity(2 * edge + 1);
            total += drawing.capacity(2 * edge + 1);
        }
    }
    (members.iter().map(|&node| at[node]).collect(), total)
}

/// What is right in a paper: the settings for the value asked, the claim, and the set.
#[derive(Clone, Copy, Debug, PartialEq)]
pub struct Right {
    pub settings: bool,
    pub claim: bool,
    pub set: bool,
}

impl Right {
    /// Document 02, Job 14: 4, 3 and 3; where the largest is none, 6 for claim and set together.
    pub fn points(&self, largest: Option<i64>) -> u8 {
        let rest = match largest {
            Some(_) => 3 * (self.claim as u8 + self.set as u8),
            None => 6 * (self.claim && self.set) as u8,
        };
        4 * self.settings as u8 + rest
    }
}

/// Looks at paper q of a class: its set is added up channel by channel, and `slack` is 0.
pub fn paper(drawing: &Drawing, lent: &Lent, (source, sink, value): (u16, u16, i32), largest: Option<i64>, q: usize, slack: i64) -> Right {
    let flows = wide(&lent.flows[q * drawing.edges()..][..drawing.edges()]);
    let set = &lent.set[q * drawing.words()..][..drawing.words()];
    let right = within(drawing, &flows).is_ok() && balanced(drawing, &flows, &[source as usize, sink as usize]).is_ok();
    let (_, total) = totals(drawing, set);
    let holds = |node: u16| set[node as usize / 64] >> (node % 64) & 1 == 1;
    let bound = match (largest, holds(source), holds(sink)) {
        (Some(most), true, false) => most + 1,
        (Some(most), false, true) => -(most + 1),
        (None, from, into) if from != into => i64::MIN / 2,
        _ => 0,
    };
    let claim = if lent.kinds[q] == 1 { None } else { Some(lent.claims[q] as i64) };
    Right { settings: right && net_flows(drawing, &flows)[source as usize] == value as i64, claim: claim == largest, set: total < bound + slack }
}

/// What keeps a set of nodes, in words, from proving that a value is impossible; without a value, that nothing can be carried.
pub fn objection(drawing: &Drawing, set: &[u64], source: u16, sink: u16, value: Option<i64>) -> Option<String> {
    let holds = |node: usize| set[node / 64] >> (node % 64) & 1 == 1;
    if (drawing.nodes as usize..64 * set.len()).any(holds) {
        return Some("the set has an unused bit".to_string());
    }
    let mut outward = 0;
    for dart in 0..drawing.darts() {
        if holds(drawing.tail(dart)) && !holds(drawing.head(dart)) {
            outward += drawing.capacity(dart);
        }
    }
    let bound = match (holds(source as usize), holds(sink as usize), value) {
        (true, false, Some(value)) => value,
        (false, true, Some(value)) => -value,
        (true, false, None) | (false, true, None) => return Some("the set parts source from sink".to_string()),
        _ => 0,
    };
    (outward >= bound).then(|| format!("the set does not prove it: outward total {outward}, not below {bound}"))
}

#[cfg(test)]
mod tests {
    use super::*;
    use crate::paper;

    fn number(bytes: &[u8]) -> u8 {
        sheet(bytes).map_or_else(|refusal| refusal.number, |_| 0)
    }

    #[test]
    fn the_edges_of_the_paper() {
        let with = |dart: usize, capacity: i32| number(&paper::a_with(&[(dart, capacity)]).bytes());
        assert_eq!([with(0, 1_000_000), with(0, 1_000_001)], [0, 6]);
        assert_eq!([with(5, -4), with(5, -5)], [0, 7]);
        assert_eq!(number(&[]), 1);
        assert_eq!(number(&[2]), 2);
        assert_eq!(number(&[1]), 1);
        assert_eq!(number(&[1, 2, 0, 88, 2]), 3); // 600 edges, and no byte of them
        assert_eq!(number(&paper::a_twisted().bytes()), 12);
        assert_eq!([number(&[4]), number(&[4, 1, 0, 3, 0]), number(&[4, 1, 0, 3, 0, 6])], [1, 1, 1]); // 1 comes before 3
        assert_eq!([number(&[4, 1, 0, 3, 0, 6, 0]), number(&[4, 2, 0, 3, 0, 6, 0]), number(&[4, 2, 0, 3, 0, 5, 0])], [3, 24, 1]);
        assert_eq!([number(&[3]), number(&[5])], [2, 2]);
    }

    #[test]
    fn sets_of_the_paper_prove() {
        let a = paper::a();
        assert_eq!(objection(&a, &[1], 0, 1, Some(13)), None);
        assert!(objection(&a, &[1], 0, 1, Some(12)).is_some());
        assert_eq!(objection(&a, &[2], 0, 1, Some(-1)), None);
        assert!(objection(&a, &[0], 0, 1, Some(13)).is_some());
        assert!(objection(&a, &[5], 0, 1, Some(13)).is_some()); // an unused bit
        assert_eq!(objection(&paper::b(), &[4], 0, 1, None), None);
        assert_eq!(objection(&paper::two_bridges(), &[5], 2, 0, None), None);
        assert!(objection(&paper::two_bridges(), &[4], 2, 0, None).is_some());
    }

    #[test]
    fn totals_of_the_paper() {
        assert_eq!(totals(&paper::a(), &[1]), (vec![12], 12));
        assert_eq!(totals(&paper::a(), &[3]), (vec![0, 0], 0));
        assert_eq!(totals(&paper::a(), &[!3]), (vec![], 0)); // bits past the last node
        assert_eq!(totals(&paper::b(), &[4]), (vec![-1], -1));
        assert_eq!(totals(&paper::b(), &[6]), (vec![0, -1], -1));
        assert_eq!(totals(&paper::two_bridges(), &[5]), (vec![0, -1], -1));
    }
}

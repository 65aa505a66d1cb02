//! The unit under test: its C interface, called with lent memory that guard elements.
use crate::abi::*;

/// One call, with what is passed by value.
#[derive(Clone, Copy, Debug, PartialEq)]
pub enum Call {
    Read,
    Write { nodes: u16, outer: u16 },
    Solve { source: u16, sink: u16, value: i32 },
    Largest { source: u16, sink: u16 },
    LeastAndLargest { source: u16, sink: u16 },
    RaiseLimit { source: u16, sink: u16, value: i32, edge: u16 },
    Mark { source: u16, sink: u16 },
    LevelsFromSettings,
    SettingsFromLevels,
    Totals,
    KeyText,
    PracticeSheet { rows: u16, columns: u16, seed: u32 },
    WriteDimacs { source: u16, sink: u16 },
    Page { count: usize },
    Examine { source: u16, sink: u16, value: i32 },
}

impl Call {
    pub fn name(&self) -> &'static str {
        match self {
            Call::Read => "Read",
            Call::Write { .. } => "Write",
            Call::Solve { .. } => "Solve",
            Call::Largest { .. } => "Largest",
            Call::LeastAndLargest { .. } => "Least and largest",
            Call::RaiseLimit { .. } => "Raise limit",
            Call::Mark { .. } => "Mark",
            Call::LevelsFromSettings => "Levels from settings",
            Call::SettingsFromLevels => "Settings from levels",
            Call::Totals => "Totals by node",
            Call::KeyText => "Key text",
            Call::PracticeSheet { .. } => "Practice sheet",
            Call::WriteDimacs { .. } => "DIMACS text",
            Call::Page { .. } => "Page",
            Call::Examine { .. } => "Examine",
        }
    }
}

/// The elements of each array of a page.
pub const PAGE: usize = 64;

/// All memory that a call can reach: the slices, and the answers behind pointers. A call uses some of it, and must leave the rest.
#[derive(Clone, Debug, PartialEq)]
pub struct Lent {
    /// The sheet given; Write's bytes, and those of a practice sheet; the input of the key.
    pub sheet: Vec<u8>,
    pub flows: Vec<i32>,
    pub set: Vec<u64>,
    /// Of Least and largest: the flows of the least value and a set below it, the flows of the largest and a set above it.
    pub low: Vec<i32>,
    pub below: Vec<u64>,
    pub high: Vec<i32>,
    pub above: Vec<u64>,
    pub levels: Vec<i32>,
    /// Of Totals by node, which reads `set`.
    pub subtotals: Vec<i32>,
    pub tails: Vec<u16>,
    pub rotations: Vec<u16>,
    pub capacities: Vec<i32>,
    pub text: Vec<u8>,
    /// Of a page, whose stretches are in `flows` and `set`: its questions and their answers, 64 elements each.
    pub sources: Vec<u16>,
    pub sinks: Vec<u16>,
    pub values: Vec<i32>,
    pub answers: Vec<u8>,
    pub sizes: Vec<u16>,
    /// Of a class of papers, whose stretches are in `flows` and `set`: claims, their kinds, and the points.
    pub claims: Vec<i32>,
    pub kinds: Vec<u8>,
    pub points: Vec<u8>,
    pub can: u8,
    pub found: u8,
    pub size: u16,
    pub value: i32,
    pub least: i32,
    pub largest: i32,
    pub total: i32,
    pub nodes: u16,
    pub edges: u16,
    pub outer: u16,
    pub length: usize,
    pub place: u16,
    /// The figures of a class.
    pub number: u16,
    pub sum: u16,
    pub least_points: u8,
    pub greatest_points: u8,
    /// Whether every guard element is as it was.
    pub guards: bool,
}

impl Lent {
    /// Answers that no call gives stand behind the pointers at first.
    pub fn new(sheet: Vec<u8>) -> Self {
        Lent {
            sheet,
            flows: vec![],
            set: vec![],
            low: vec![],
            below: vec![],
            high: vec![],
            above: vec![],
            levels: vec![],
            subtotals: vec![],
            tails: vec![],
            rotations: vec![],
            capacities: vec![],
            text: vec![],
            sources: vec![],
            sinks: vec![],
            values: vec![],
            answers: vec![],
            sizes: vec![],
            claims: vec![],
            kinds: vec![],
            points: vec![],
            can: 0xa5,
            found: 0xa5,
            size: 0xbeef,
            value: -0x5a5a_5a5a,
            least: -0x5a5a_5a5a,
            largest: -0x5a5a_5a5a,
            total: -0x5a5a_5a5a,
            nodes: 0xbeef,
            edges: 0xbeef,
            outer: 0xbeef,
            length: 0xdead_beef,
            place: 0xbeef,
            number: 0xbeef,
            sum: 0xbeef,
            least_points: 0xa5,
            greatest_points: 0xa5,
            guards: true,
        }
    }
}

/// A slice with guard elements before and after it.
pub struct Guarded<T> {
    all: Vec<T>,
    guard: T,
}

const GUARDS: usize = 16;

impl<T: Copy + PartialEq> Guarded<T> {
    pub fn new(lent: &[T], guard: T) -> Self {
        let mut all = vec![guard; GUARDS];
        all.extend_from_slice(lent);
        all.extend([guard; GUARDS]);
        Guarded { all, guard }
    }

    pub fn length(&self) -> usize {
        self.all.len() - 2 * GUARDS
    }

    pub fn pointer(&mut self) -> *mut T {
        self.all[GUARDS..].as_mut_ptr()
    }

    /// Gives the slice back, and says whether the guards are whole.
    pub fn give_back(&self, lent: &mut [T]) -> bool {
        let end = GUARDS + self.length();
        lent.copy_from_slice(&self.all[GUARDS..end]);
        self.all[..GUARDS].iter().chain(&self.all[end..]).all(|&element| element == self.guard)
    }
}

/// Calls the unit. The result is the number of the refusal, or 0.
#[rustfmt::skip]
pub fn call(call: &Call, lent: &mut Lent) -> u8 {
    let mut sheet = Guarded::new(&lent.sheet, 0xa5);
    let mut flows = Guarded::new(&lent.flows, -0x5a5a_5a5a);
    let mut set = Guarded::new(&lent.set, 0xa5a5_a5a5_a5a5_a5a5);
    let mut low = Guarded::new(&lent.low, -0x5a5a_5a5a);
    let mut below = Guarded::new(&lent.below, 0xa5a5_a5a5_a5a5_a5a5);
    let mut high = Guarded::new(&lent.high, -0x5a5a_5a5a);
    let mut above = Guarded::new(&lent.above, 0xa5a5_a5a5_a5a5_a5a5);
    let mut levels = Guarded::new(&lent.levels, -0x5a5a_5a5a);
    let mut subtotals = Guarded::new(&lent.subtotals, -0x5a5a_5a5a);
    let mut tails = Guarded::new(&lent.tails, 0xa5a5);
    let mut rotations = Guarded::new(&lent.rotations, 0xa5a5);
    let mut capacities = Guarded::new(&lent.capacities, -0x5a5a_5a5a);
    let mut text = Guarded::new(&lent.text, 0xa5);
    let mut sources = Guarded::new(&lent.sources, 0xa5a5);
    let mut sinks = Guarded::new(&lent.sinks, 0xa5a5);
    let mut values = Guarded::new(&lent.values, -0x5a5a_5a5a);
    let mut answers = Guarded::new(&lent.answers, 0xa5);
    let mut sizes = Guarded::new(&lent.sizes, 0xa5a5);
    let mut claims = Guarded::new(&lent.claims, -0x5a5a_5a5a);
    let mut kinds = Guarded::new(&lent.kinds, 0xa5);
    let mut points = Guarded::new(&lent.points, 0xa5);
    // Each pointer is to as many elements as its length says, and no two slices overlap.
    let result = unsafe {
        match *call {
            Call::Read => analyser_read(sheet.pointer(), sheet.length(), tails.pointer(), tails.length(), rotations.pointer(), rotations.length(),
                capacities.pointer(), capacities.length(), &mut lent.nodes, &mut lent.edges, &mut lent.outer, &mut lent.place),
            Call::Write { nodes, outer } => analyser_write(nodes, outer, tails.pointer(), tails.length(), rotations.pointer(), rotations.length(),
                capacities.pointer(), capacities.length(), sheet.pointer(), sheet.length(), &mut lent.length, &mut lent.place),
            Call::Solve { source, sink, value } => analyser_solve(sheet.pointer(), sheet.length(), source, sink, value, flows.pointer(), flows.length(),
                set.pointer(), set.length(), &mut lent.can, &mut lent.size, &mut lent.place),
            Call::Largest { source, sink } => analyser_largest(sheet.pointer(), sheet.length(), source, sink, flows.pointer(), flows.length(),
                set.pointer(), set.length(), &mut lent.found, &mut lent.value, &mut lent.place),
            Call::LeastAndLargest { source, sink } => analyser_least_and_largest(sheet.pointer(), sheet.length(), source, sink,
                low.pointer(), low.length(), below.pointer(), below.length(), high.pointer(), high.length(), above.pointer(), above.length(),
                &mut lent.found, &mut lent.least, &mut lent.largest, &mut lent.place),
            Call::RaiseLimit { source, sink, value, edge } => analyser_raise_limit(sheet.pointer(), sheet.length(), source, sink, value, edge,
                flows.pointer(), flows.length(), set.pointer(), set.length(), &mut lent.found, &mut lent.value, &mut lent.place),
            Call::Mark { source, sink } => analyser_mark(sheet.pointer(), sheet.length(), source, sink, flows.pointer(), flows.length(), &mut lent.value,
                &mut lent.place),
            Call::LevelsFromSettings => analyser_levels_from_settings(sheet.pointer(), sheet.length(), flows.pointer(), flows.length(),
                levels.pointer(), levels.length(), &mut lent.place),
            Call::SettingsFromLevels => analyser_settings_from_levels(sheet.pointer(), sheet.length(), levels.pointer(), levels.length(),
                flows.pointer(), flows.length(), &mut lent.place),
            Call::Totals => analyser_totals(sheet.pointer(), sheet.length(), set.pointer(), set.length(), subtotals.pointer(), subtotals.length(),
                &mut lent.total, &mut lent.place),
            Call::KeyText => analyser_key_text(sheet.pointer(), sheet.length(), text.pointer(), text.length(), &mut lent.length, &mut lent.place),
            Call::PracticeSheet { rows, columns, seed } => analyser_practice_sheet(rows, columns, seed, sheet.pointer(), sheet.length(), &mut lent.length,
                &mut lent.place),
            Call::WriteDimacs { source, sink } => analyser_write_dimacs(sheet.pointer(), sheet.length(), source, sink, text.pointer(), text.length(),
                &mut lent.length, &mut lent.place),
            Call::Examine { source, sink, value } => analyser_examine(sheet.pointer(), sheet.length(), source, sink, value, claims.pointer(), claims.length(),
                kinds.pointer(), kinds.length(), flows.pointer(), flows.length(), set.pointer(), set.length(), points.pointer(), points.length(),
                &mut lent.number, &mut lent.sum, &mut lent.least_points, &mut lent.greatest_points, &mut lent.place),
            Call::Page { count } => {
                let arrays = [sources.length(), sinks.length(), values.length(), answers.length(), sizes.length()];
                assert_eq!(arrays, [PAGE; 5], "a page has arrays of 64");
                analyser_page(sheet.pointer(), sheet.length(), count, sources.pointer(), sinks.pointer(), values.pointer(), flows.pointer(), flows.length(),
                    set.pointer(), set.length(), answers.pointer(), sizes.pointer(), &mut lent.place)
            }
        }
    };
    lent.guards = sheet.give_back(&mut lent.sheet)
        & flows.give_back(&mut lent.flows)
        & set.give_back(&mut lent.set)
        & low.give_back(&mut lent.low)
        & below.give_back(&mut lent.below)
        & high.give_back(&mut lent.high)
        & above.give_back(&mut lent.above)
        & levels.give_back(&mut lent.levels)
        & subtotals.give_back(&mut lent.subtotals)
        & tails.give_back(&mut lent.tails)
        & rotations.give_back(&mut lent.rotations)
        & capacities.give_back(&mut lent.capacities)
        & text.give_back(&mut lent.text)
        & sources.give_back(&mut lent.sources)
        & sinks.give_back(&mut lent.sinks)
        & values.give_back(&mut lent.values)
        & answers.give_back(&mut lent.answers)
        & sizes.give_back(&mut lent.sizes)
        & claims.give_back(&mut lent.claims)
        & kinds.give_back(&mut lent.kinds)
        & points.give_back(&mut lent.points);
    result
}

#[cfg(test)]
mod tests {
    use super::*;

    #[test]
    fn a_write_outside_the_slice_is_seen() {
        for at in [-1, -(GUARDS as isize), 3, 2 + GUARDS as isize] {
            let mut guarded = Guarded::new(&[1, 2, 3], 77);
            unsafe { *guarded.all.as_mut_ptr().offset(GUARDS as isize + at) += 1 };
            assert!(!guarded.give_back(&mut [0; 3]), "{at}");
        }
        let mut guarded = Guarded::new(&[1, 2, 3], 77);
        unsafe { *guarded.pointer() = 9 };
        let mut lent = [0; 3];
        assert!(guarded.give_back(&mut lent));
        assert_eq!(lent, [9, 2, 3]);
    }
}

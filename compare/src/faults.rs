//! Deliberate faults, put between the unit and the comparison: every call passes through here. They show that the comparison can fail, and each must be caught.
use crate::drawing::{rounds, Drawing, EDGE};
use crate::flow::{carry, least_on, range, MOST_LIMIT};
use crate::grid::{self, Grid};
use crate::judge;
use crate::levels::{flows_of, highest, highest_from, levels_of, lowest};
use crate::unit::{self, Call, Lent, PAGE};

macro_rules! faults {
    ($($name:ident: $says:literal,)*) => {
        #[derive(Clone, Copy, Debug, PartialEq)]
        pub enum Fault {
            $(#[doc = $says] $name,)*
        }

        pub const ALL: &[(Fault, &str)] = &[$((Fault::$name, $says),)*];
    };
}

faults! {
    RefusesAll: "every call is refused with 1",
    CannotToAll: "Solve says cannot to every value, with the source alone as its set",
    ZeroFlows: "Solve says can with flows of zero",
    CanUntouched: "Solve says can and leaves the flows as they were",
    CanBelowLargest: "Solve says can to every value up to the largest, with the flows of the largest",
    NotHighest: "Solve gives another flow of the value than the highest",
    Lowest: "Solve gives the lowest flow in place of the highest",
    LowestOfLargest: "Largest gives the lowest flow in place of the highest",
    StepByTheDart: "faces are walked by the turn of the dart, not of its reverse",
    InventedSize: "a set's size is one too great",
    SizeOfAllNodes: "a set's size is the number of nodes",
    UnusedBit: "the set has a bit past the last node",
    ProvesNothing: "the set holds all nodes",
    OtherSide: "the set holds the nodes that it should leave out",
    ShortSetUnseen: "a set slice too short is not refused where Solve can",
    FirstLimitingSet: "Largest stops after its first limiting set, the source alone, and gives its outward total",
    OneMore: "Largest is one too great",
    NegativeAsZero: "Largest gives its set's outward total with limits below zero counted as zero",
    DartsWithin: "Largest gives its set's outward total with darts between two of its nodes counted",
    NoneWithoutLooking: "Largest says none where there is a value",
    NoneIsZero: "Largest says 0 where there is none",
    NoneByOneSide: "the set of a none parts source from sink",
    SetsExchanged: "Least and largest exchanges its two sets",
    LeastBySourceSide: "the least is minus the outward total of the set above the largest",
    LeastOneTooHigh: "the least is one too high, with the highest flow of that",
    NoneByTwoSets: "the two sets of a none differ, though each proves it",
    FlowsOnNone: "a none of Least and largest clears the flows of the least",
    ShortAboveUnseen: "Least and largest does not look at the length of its last slice where there is none",
    RaiseFromZero: "Raise limit begins at 0 where the present limit is below it",
    RaiseBelowPresent: "Raise limit gives a smaller limit than the present one where that would do",
    RaiseOneMore: "Raise limit gives a limit one too great, with its highest flow",
    RaiseFromTheRight: "Raise limit takes the distance from the face right of the channel",
    RaiseFromTheZeroFace: "Raise limit takes the distance from the face at 0",
    RaiseOtherFlows: "Raise limit gives the flows of another limit that serves",
    RaiseBack: "Raise limit raises the back limit too",
    RaiseSetOfTheSheet: "the set of Raise limit's none is judged with the sheet's limit",
    RaiseFlowsOnNone: "a none of Raise limit clears the flows",
    RaiseSetOnLimit: "Raise limit clears the set where there is a limit",
    SixteenForTwentyFive: "room is looked at before the channel",
    TwentyFiveForFifteen: "the channel is looked at before the value's range",
    MarkOffByOne: "Mark's value is one too great",
    MarkAtTheSink: "Mark's value is taken at the sink",
    PlaceOffByOne: "the place of 17 and 18 is one too great",
    PlaceOfTheLast: "the place of 17 is that of the last flow outside",
    PlaceOfFields: "the place of 6 is its edge",
    PlaceOnAnswer: "an answer writes the place",
    LevelsTurned: "levels have the other sign",
    LevelsAtFaceZero: "levels have face 0 at 0, whatever the outer dart is",
    LevelsRight: "levels have the face right of the outer dart at 0",
    HighestAtFaceZero: "the highest flow is taken with face 0 at level 0, whatever the outer dart is",
    FlowsTurned: "flows of levels have the other sign",
    TwelveByTotal: "a sheet in several parts is flat if nodes - channels + faces is 2 in all",
    ElevenForTen: "11 is told where a sheet in several parts has a node that is not one round",
    LevelsOfTheFirstPart: "levels have the highest face of a part that the outer dart is not in at 0",
    HighestOfTheFirstPart: "the highest flow is taken with the highest face of each other part at 0",
    CanApart: "Solve says can to every value where source and sink are in different parts, with flows of 0",
    PartLeftOut: "Solve says can to 0 where a part that holds neither end cannot be met",
    SevenForSix: "the sum of two limits is looked at before their ranges",
    CutBeforeFields: "a sheet cut short is seen before the fields of its first edges",
    FourteenForThirteen: "equal ends are looked at before whether they are nodes",
    SixteenForFifteen: "room is looked at before the value's range",
    TwentyForNineteen: "the outer face is looked at before the ranges of the levels",
    TwentyAtFaceZero: "20 looks at face 0, whatever the outer dart is",
    TwentyFourForThree: "the outer dart is looked at before the counts",
    FourForTwentyFour: "the ends of the first edge are looked at before the outer dart",
    KindFourAsTwo: "whatever is wrong with a sheet of kind 4 is told as a wrong kind",
    ExtraFlow: "an element past the flows is written",
    ExtraWord: "a word past the set is cleared",
    FlowsOnRefusal: "Settings from levels writes flows before it meets one that it refuses",
    LevelsOnRefusal: "Levels from settings writes levels before it refuses a node",
    AnswerOnRefusal: "a refusal of Solve writes the answer behind its pointer",
    SetOnCan: "a can clears the set",
    FlowsOnCannot: "a cannot clears the flows",
    SheetWritten: "the sheet's last byte is changed",
    GuardWritten: "memory beside a slice is written",
    ReadShifted: "Read gives the rotations of the reverse darts",
    ReadCounts: "Read exchanges its counts",
    ReadNoOuter: "Read gives dart 0 as the outer dart",
    WriteKindOne: "Write writes kind 1 where the outer dart is dart 0",
    WriteNoOuter: "Write writes dart 0 as the outer dart",
    LastByte: "Write's last byte is wrong",
    LengthOffByOne: "Write's length is one too small",
    TotalsWithin: "Totals by node counts darts whose head is in the set",
    TotalsWithoutFirst: "Totals by node leaves out the first dart of each round",
    TotalsByRounds: "Totals by node gives its subtotals in the order of the rounds' lowest darts",
    TotalsRising: "Totals by node gives its subtotals in rising order, not its nodes",
    TotalsNegativeAsZero: "Totals by node counts limits below zero as zero",
    TotalsOfTheNodes: "16 of Totals by node asks for as many places as there are nodes",
    TotalsPastTheLast: "16 of Totals by node counts bits past the last node",
    TotalsShortSet: "Totals by node takes a set slice too short as if zeros followed",
    TotalsOnRefusal: "a refusal of Totals by node clears its first place",
    TotalsPastTheNodes: "Totals by node clears the places past its subtotals",
    KeyWithoutLastLineFeed: "the key's text lacks its last line feed",
    KeyOtherNode: "the key's text ends with another number",
    KeyPastTheText: "the key writes past its text",
    SeedAsFirstState: "the first channel of a practice sheet has the state that the seed is",
    ColumnByColumn: "the channels that run down are numbered column by column",
    SouthWestExchanged: "clockwise at a node is north, east, west, south",
    LimitsAboveNinetyNine: "a practice sheet's limit is the state div 65,536, not taken mod 100",
    PracticeKindFour: "a practice sheet has a head of kind 4",
    SixteenForTwentyThree: "room for a practice sheet is looked at before its sizes and its seed",
    PracticeOnRefusal: "a practice sheet's kind is written before its room is looked at",
    DimacsFromZero: "the DIMACS text counts nodes from 0",
    DimacsBackAsForward: "a back arc of the DIMACS text has the forward limit",
    DimacsBackFirst: "the DIMACS text has the back arc of each channel first",
    DimacsSinkFirst: "the DIMACS text names the sink before the source",
    DimacsEndsExchanged: "the DIMACS text has the sink as source and the source as sink",
    DimacsNoZeroArcs: "the DIMACS text leaves out arcs of capacity 0",
    DimacsNoLoops: "the DIMACS text leaves out arcs from a node to itself",
    DimacsSpaceAtTheEnd: "a line of the DIMACS text ends in a space",
    DimacsLengthOffByOne: "the DIMACS text's length is one too small",
    DimacsPastTheText: "the DIMACS text writes past its end",
    DimacsLeastAsZero: "a least flow is written as 0",
    DimacsOneBackUnseen: "22 looks at forward limits only",
    DimacsPartOnShort: "a short output is refused after it was filled",
    TwentyTwoForFourteen: "least flows are looked at before whether the ends are equal",
    SixteenForTwentyTwo: "room is looked at before least flows",
    PageSetsByChannels: "question i of a page has its set from i times the channels on",
    PageStretchLonger: "each stretch of a page's flows has an element more than there are channels",
    PageRefusedWithoutStretch: "a refused question of a page has no stretch, and the next has the one it would have",
    PageReversed: "a page's answers come in reverse",
    PageRefusedCleared: "a refused question of a page clears its stretches",
    PageCannotCleared: "a question of a page that cannot clears its stretch of flows",
    PagePastTheLast: "a page clears what lies past its last stretches",
    PageAnswersPastTheLast: "a page writes an answer past its last question",
    PageSizesLeft: "a page leaves the size of a question that can",
    PageFirstEnds: "every question of a page has the ends of the first",
    PageByOneRefusal: "a page is refused where one of its questions is",
    PageOfNoneNeedsRoom: "an empty page asks for the room of one question",
    PageOfNoneUnchecked: "an empty page is answered without a look at the sheet",
    PageOfSixtyThree: "64 questions are one too many",
    PageOfManyCut: "of more than 64 questions the first 64 are answered",
    PageRoomOfTheAnswered: "16 of a page asks for no room behind the last question that is not refused",
    PageShortSetsUnseen: "a page does not look at the length of its sets where every question can",
    PageOnRefusal: "a page that is refused writes the first answer",
    SixteenForTwentyOne: "room for a page is looked at before the number of its questions",
    TwentyOneForTheSheet: "the number of questions is looked at before the sheet",
    BothDartsLowered: "a commit lowers both darts of an edge",
    LoweredTwice: "a commit lowers a forward limit twice",
    CommitKeepsOffer: "a commit keeps the offer",
    RefusedCommitClears: "a refused commit clears a limit",
    CannotKeepsOffer: "a cannot keeps the older offer",
    RefusalClearsOffer: "a refused question clears the offer",
    FirstOfferKept: "a second can leaves the first offer",
    OfferOfTheCaller: "a commit takes the offer from the slice that the caller lent for the settings",
    RefusedStartKeeps: "a refused start leaves the old session",
    StartKeepsOffer: "a start leaves the parties where they stood in the older session",
    StartLeavesTheOldOffer: "a start leaves in the arrays of the offers what the memory held",
    RefusedStartLeavesArrays: "a refused start leaves in the arrays what the memory held",
    StartDartZero: "a session has dart 0 on the outer face",
    ForeignEmptied: "a value that is no session is emptied when it is refused",
    SetByTheOthersQuestion: "once the other party has asked, another set that proves the same is named",
    OthersOfferHeld: "a question is answered with the other party's offer taken off the limits left",
    OthersLastAnswer: "the question that the other party asked last gets the answer that it got then",
    AskMakesStale: "a can makes the other party's offer stale",
    RefusedCommitMakesStale: "a refused commit makes the other party's offer stale",
    OtherNotMadeStale: "a commit leaves the other party's offer as it is",
    StillCommitNotStale: "a commit of flows of zero leaves the other party's offer as it is",
    StaleWithoutOffer: "a commit makes stale also where the other party has no offer",
    StaleFreshened: "a refused question makes a stale offer fresh",
    StaleRemoved: "a refused commit removes the stale offer",
    CommittedMayAsk: "a party that has committed may ask",
    CommitTakesTheOthers: "a commit takes the other party's offer",
    AskKeepsIntoTheOthers: "a can is kept as the other party's offer",
    AccountOfOne: "a commit lowers the sheet's limits, not what the other party's commit left of them",
    LimitsLowered: "a commit lowers the sheet's limits with those left",
    ClearKeepsOffer: "a clear keeps offers",
    ClearKeepsStale: "a clear keeps stale offers",
    ClearKeepsCommitted: "a clear does not let a party commit again",
    ClearKeepsLeft: "a clear keeps the limits left",
    ClearForwardOnly: "a clear restores forward limits only",
    ClearPassesEmpty: "a clear passes over a session of no nodes",
    PartyTwoIsZero: "a party's lowest bit is taken for it",
    ThirtyForTwentyNine: "whether a party has committed is looked at before whether there is such a party",
    ThirteenForTwentyNine: "the ends are looked at before the party",
    ThirteenForThirty: "the ends are looked at before whether the party has committed",
    TwentyEightForTwentyNine: "a commit of no party is one without an offer",
    TwentyEightForThirty: "a second commit is told as one without an offer",
    TwentyEightForThirtyOne: "a stale offer is told as none",
    ThirtyOneForTwentyEight: "where the other party has committed, no offer is told as a stale one",
    ExamineSetOneTooGreat: "a set whose outward total is one too great earns its 3 points",
    ExamineThreeAndThree: "where the largest is none, claim and set earn 3 each",
    ExamineNoneClosesTheSet: "a paper that claims none earns nothing for its set",
    ExaminePaperBefore: "a paper has the settings of the paper before",
    ExaminePastTheLast: "a set with bits past the last node earns nothing",
    ExamineKindTwo: "every kind but 0 claims none",
    ExamineDivided: "the sum of a class is divided by its number",
    ExamineLeastOfNone: "an empty class has the least 0",
    ExamineWrongRefused: "a class is refused with 17 where a paper's settings are outside their limits",
    ExaminePastThePapers: "the places behind the last paper's points are cleared",
    SixteenForThirtyTwo: "room for a class is looked at before the number of its papers",
}

/// The unit, with a fault or without.
pub struct Library {
    pub fault: Option<Fault>,
}

impl Library {
    pub fn call(&self, call: &Call, lent: &mut Lent) -> u8 {
        let Some(fault) = self.fault else {
            return unit::call(call, lent);
        };
        let before = lent.clone();
        let result = unit::call(call, lent);
        if fault == Fault::RefusesAll {
            *lent = Lent { place: 0, ..before };
            return 1;
        }
        if let (0, Some(number)) = (result, refuses(fault, call, &before, lent)) {
            *lent = Lent { place: 0, ..before };
            return number;
        }
        if result != 0 {
            return refusal(fault, call, &before, lent, result);
        }
        if *call == Call::KeyText {
            key(fault, lent);
        }
        if let Call::PracticeSheet { rows, columns, seed } = *call {
            practice(fault, rows, columns, seed, lent);
            return 0;
        }
        let sheet = if let Call::Write { .. } = call { &lent.sheet } else { &before.sheet };
        if let Ok(drawing) = judge::records(sheet) {
            answer(fault, call, &drawing, &before, lent);
        }
        0
    }
}

/// What a fault makes of an answer.
fn answer(fault: Fault, call: &Call, drawing: &Drawing, before: &Lent, after: &mut Lent) {
    match fault {
        Fault::PlaceOnAnswer => after.place = 0,
        Fault::GuardWritten => after.guards = false,
        _ => {}
    }
    match *call {
        Call::Solve { source, sink, value } if after.can == 1 => can(fault, (source, sink, value), drawing, before, after),
        Call::Solve { source, sink, value } => cannot(fault, (source, sink, value), drawing, before, after),
        Call::Largest { source, sink } if after.found == 1 => found(fault, (source, sink), drawing, before, after),
        Call::Largest { source, .. } => none(fault, source, drawing, after),
        Call::LeastAndLargest { source, sink } if after.found == 1 => values(fault, (source, sink), drawing, after),
        Call::LeastAndLargest { source, sink } => no_values(fault, (source, sink), drawing, after),
        Call::RaiseLimit { source, sink, value, edge } if after.found == 1 => raised(fault, (source, sink, value), edge as usize, drawing, after),
        Call::RaiseLimit { source, sink, value, edge } => not_raised(fault, (source, sink, value), edge as usize, drawing, before, after),
        Call::Mark { sink, .. } => match fault {
            Fault::MarkOffByOne => after.value += 1,
            Fault::MarkAtTheSink => after.value = crate::flow::net_flows(drawing, &judge::wide(&before.flows))[sink as usize] as i32,
            _ => {}
        },
        Call::LevelsFromSettings => {
            let (faces, flows) = (drawing.faces(), judge::wide(&before.flows));
            match fault {
                Fault::LevelsTurned => after.levels[..crate::drawing::count(&faces)].iter_mut().for_each(|level| *level = -*level),
                Fault::LevelsAtFaceZero => put(&mut after.levels, &levels_of(&faces, &zero_with(drawing, 0), &flows)),
                Fault::LevelsOfTheFirstPart => put(&mut after.levels, &levels_of(&faces, &highest_elsewhere(drawing), &flows)),
                Fault::LevelsRight => put(&mut after.levels, &levels_of(&faces, &zero_with(drawing, drawing.outer_dart() ^ 1), &flows)),
                _ => {}
            }
        }
        Call::SettingsFromLevels => match fault {
            Fault::FlowsTurned => after.flows[..drawing.edges()].iter_mut().for_each(|flow| *flow = -*flow),
            Fault::StepByTheDart => {
                let mut levels = judge::wide(&before.levels);
                levels.resize(levels.len().max(drawing.nodes as usize), 0);
                put(&mut after.flows, &flows_of(&rounds(&drawing.rotation()), &levels));
            }
            _ => {}
        },
        Call::Read => match fault {
            Fault::ReadShifted => (0..drawing.darts()).for_each(|dart| after.rotations[dart] = drawing.rotations[dart ^ 1]),
            Fault::ReadCounts => (after.nodes, after.edges) = (after.edges, after.nodes),
            Fault::ReadNoOuter => after.outer = 0,
            Fault::SheetWritten => *after.sheet.last_mut().unwrap() ^= 1,
            _ => {}
        },
        Call::Write { .. } => match fault {
            Fault::WriteKindOne if drawing.outer_dart() == 0 => after.sheet[0] = 1,
            Fault::WriteNoOuter => after.sheet[5..7].fill(0),
            Fault::LastByte => after.sheet[after.length - 1] ^= 1,
            Fault::LengthOffByOne => after.length -= 1,
            _ => {}
        },
        Call::Totals => totals(fault, drawing, after),
        Call::WriteDimacs { source, sink } => dimacs(fault, (source, sink), drawing, before, after),
        Call::Page { count } => page(fault, count, drawing, before, after),
        Call::Examine { source, sink, value } => examine(fault, (source, sink, value), drawing, before, after),
        Call::KeyText | Call::PracticeSheet { .. } => {}
    }
}

/// What a fault makes of a class: the points are given otherwise, and the figures follow from them, or the figures alone are.
fn examine(fault: Fault, asked: (u16, u16, i32), drawing: &Drawing, before: &Lent, after: &mut Lent) {
    let papers = before.claims.len();
    let largest = range(drawing, asked.0 as usize, asked.1 as usize).map(|(_, largest)| largest);
    let past = |q: usize| drawing.nodes % 64 != 0 && before.set[(q + 1) * drawing.words() - 1] >> (drawing.nodes % 64) != 0;
    let points = |q: usize| {
        let right = judge::paper(drawing, before, asked, largest, q, (fault == Fault::ExamineSetOneTooGreat) as i64);
        let earned = right.points(largest);
        match fault {
            Fault::ExamineThreeAndThree if largest.is_none() => 4 * right.settings as u8 + 3 * (right.claim as u8 + right.set as u8),
            Fault::ExamineNoneClosesTheSet if largest.is_some() && before.kinds[q] == 1 => 4 * right.settings as u8,
            Fault::ExaminePaperBefore if q > 0 => {
                let other = judge::paper(drawing, before, asked, largest, q - 1, 0);
                judge::Right { settings: other.settings, ..right }.points(largest)
            }
            Fault::ExaminePastTheLast if past(q) => judge::Right { set: false, ..right }.points(largest),
            Fault::ExamineKindTwo if before.kinds[q] == 2 => judge::Right { claim: largest.is_none(), ..right }.points(largest),
            _ => earned,
        }
    };
    let all: Vec<u8> = (0..papers).map(points).collect();
    after.points[..papers].copy_from_slice(&all);
    after.sum = all.iter().map(|&one| one as u16).sum();
    if let (Some(&least), Some(&greatest)) = (all.iter().min(), all.iter().max()) {
        (after.least_points, after.greatest_points) = (least, greatest);
    }
    match fault {
        Fault::ExamineDivided if papers > 0 => after.sum /= papers as u16,
        Fault::ExamineLeastOfNone if papers == 0 => after.least_points = 0,
        Fault::ExaminePastThePapers => after.points[papers..].fill(0),
        _ => {}
    }
}

/// What a fault makes of a practice sheet: the same with one thing made otherwise.
fn practice(fault: Fault, rows: u16, columns: u16, seed: u32, after: &mut Lent) {
    let mut grid = Grid::new(rows, columns);
    if fault == Fault::ColumnByColumn {
        grid.column_by_column();
    }
    let first = if fault == Fault::SeedAsFirstState { 0 } else { 1 };
    let limit = |state: u128| if fault == Fault::LimitsAboveNinetyNine { (state >> 16) as i32 } else { grid::limit(state) };
    let limits: Vec<i32> = grid::states(seed).skip(first).map(limit).take(grid.channels.len()).collect();
    let exchanged = |(right, down): (i32, i32)| if right < 0 || down > 0 { -grid::clockwise((right, down)) + 100.0 } else { grid::clockwise((right, down)) };
    let drawing = grid.drawing(&limits, if fault == Fault::SouthWestExchanged { exchanged } else { grid::clockwise });
    let bytes = drawing.bytes();
    match fault {
        Fault::SeedAsFirstState | Fault::ColumnByColumn | Fault::LimitsAboveNinetyNine | Fault::SouthWestExchanged => {
            after.sheet[..bytes.len()].copy_from_slice(&bytes)
        }
        Fault::PracticeKindFour => after.sheet[0] = 4,
        Fault::PlaceOnAnswer => after.place = 0,
        Fault::GuardWritten => after.guards = false,
        _ => {}
    }
}

fn can(fault: Fault, (source, sink, value): (u16, u16, i32), drawing: &Drawing, before: &Lent, after: &mut Lent) {
    let other = || carry(drawing, source as usize, sink as usize, value as i64).unwrap();
    match fault {
        Fault::CannotToAll => {
            after.flows = before.flows.clone();
            only(source, drawing, after);
            (after.can, after.size) = (0, 1);
        }
        Fault::ZeroFlows => after.flows[..drawing.edges()].fill(0),
        Fault::CanUntouched => after.flows = before.flows.clone(),
        Fault::NotHighest => put(&mut after.flows, &other()),
        Fault::HighestAtFaceZero => put(&mut after.flows, &highest(&Drawing { outer: None, ..drawing.clone() }, &drawing.faces(), &other())),
        Fault::Lowest => put(&mut after.flows, &lowest(drawing, &drawing.faces(), &other())),
        Fault::StepByTheDart if parts(drawing) == 1 => put(&mut after.flows, &highest(drawing, &rounds(&drawing.rotation()), &other())),
        Fault::HighestOfTheFirstPart => put(&mut after.flows, &highest_from(drawing, &drawing.faces(), &highest_elsewhere(drawing), &other())),
        Fault::ExtraFlow => after.flows[drawing.edges()..].fill(0),
        Fault::SetOnCan => after.set.fill(0),
        _ => {}
    }
}

fn cannot(fault: Fault, (source, sink, value): (u16, u16, i32), drawing: &Drawing, before: &Lent, after: &mut Lent) {
    let words = drawing.words();
    match fault {
        Fault::CanBelowLargest => {
            if let Some((_, largest)) = range(drawing, source as usize, sink as usize).filter(|(_, largest)| *largest > value as i64) {
                let flows = carry(drawing, source as usize, sink as usize, largest).unwrap();
                put(&mut after.flows, &highest(drawing, &drawing.faces(), &flows));
                (after.can, after.set, after.size) = (1, before.set.clone(), before.size);
            }
        }
        Fault::CanApart if apart(drawing, source, sink) => {
            after.flows[..drawing.edges()].fill(0);
            (after.can, after.set, after.size) = (1, before.set.clone(), before.size);
        }
        Fault::PartLeftOut if value == 0 && parts(drawing) > 1 => {
            after.flows[..drawing.edges()].fill(0);
            (after.can, after.set, after.size) = (1, before.set.clone(), before.size);
        }
        Fault::InventedSize => after.size += 1,
        Fault::SizeOfAllNodes => after.size = drawing.nodes,
        Fault::UnusedBit if drawing.nodes % 64 != 0 => {
            after.set[words - 1] |= 1 << 63;
            after.size += 1;
        }
        Fault::ProvesNothing => {
            (0..drawing.nodes).for_each(|node| after.set[node as usize / 64] |= 1 << (node % 64));
            after.size = drawing.nodes;
        }
        Fault::OtherSide => {
            (0..drawing.nodes).for_each(|node| after.set[node as usize / 64] ^= 1 << (node % 64));
            after.size = drawing.nodes - after.size;
        }
        Fault::ExtraWord => after.set[words..].fill(0),
        Fault::FlowsOnCannot => after.flows.fill(0),
        _ => {}
    }
}

fn found(fault: Fault, (source, sink): (u16, u16), drawing: &Drawing, before: &Lent, after: &mut Lent) {
    match fault {
        Fault::LowestOfLargest => {
            let flows = carry(drawing, source as usize, sink as usize, after.value as i64).unwrap();
            put(&mut after.flows, &lowest(drawing, &drawing.faces(), &flows));
        }
        Fault::FirstLimitingSet => {
            only(source, drawing, after);
            after.value = outward(drawing, &after.set, false, i32::MIN);
        }
        Fault::NegativeAsZero => after.value = outward(drawing, &after.set, false, 0),
        Fault::DartsWithin => after.value = outward(drawing, &after.set, true, i32::MIN),
        Fault::OneMore => after.value += 1,
        Fault::NoneWithoutLooking => {
            (after.found, after.value, after.flows) = (0, before.value, before.flows.clone());
        }
        _ => {}
    }
}

fn none(fault: Fault, source: u16, drawing: &Drawing, after: &mut Lent) {
    match fault {
        Fault::NoneIsZero => {
            (after.found, after.value) = (1, 0);
            after.flows[..drawing.edges()].fill(0);
        }
        Fault::NoneByOneSide => only(source, drawing, after),
        _ => {}
    }
}

fn values(fault: Fault, (source, sink): (u16, u16), drawing: &Drawing, after: &mut Lent) {
    match fault {
        Fault::SetsExchanged => {
            let words = drawing.words();
            after.below[..words].swap_with_slice(&mut after.above[..words]);
        }
        Fault::LeastBySourceSide => after.least = -outward(drawing, &after.above, false, i32::MIN),
        Fault::LeastOneTooHigh if after.least < after.largest => {
            after.least += 1;
            let flows = carry(drawing, source as usize, sink as usize, after.least as i64).unwrap();
            put(&mut after.low, &highest(drawing, &drawing.faces(), &flows));
        }
        _ => {}
    }
}

fn no_values(fault: Fault, (source, sink): (u16, u16), drawing: &Drawing, after: &mut Lent) {
    match fault {
        Fault::NoneByTwoSets => {
            let words = drawing.words();
            let turned = |node: u16| {
                let mut set = after.above[..words].to_vec();
                set[node as usize / 64] ^= 1 << (node % 64);
                set
            };
            let other = (0..drawing.nodes).map(turned).find(|set| judge::objection(drawing, set, source, sink, None).is_none());
            if let Some(other) = other {
                after.above[..words].copy_from_slice(&other);
            }
        }
        Fault::FlowsOnNone => after.low.fill(0),
        _ => {}
    }
}

/// Subtotals with other darts counted, in another order, or more of the slice written.
fn totals(fault: Fault, drawing: &Drawing, after: &mut Lent) {
    let members = judge::members(drawing, &after.set);
    let inside = |dart: usize| members.contains(&drawing.head(dart));
    let first = |node: usize| (0..drawing.darts()).find(|&dart| drawing.tail(dart) == node);
    let counts = |dart: usize| match fault {
        Fault::TotalsWithin => true,
        Fault::TotalsWithoutFirst => !inside(dart) && first(drawing.tail(dart)) != Some(dart),
        _ => !inside(dart),
    };
    let least = if fault == Fault::TotalsNegativeAsZero { 0 } else { i32::MIN };
    let subtotal = |node: usize| -> i32 {
        (0..drawing.darts()).filter(|&dart| drawing.tail(dart) == node && counts(dart)).map(|dart| drawing.capacities[dart].max(least)).sum()
    };
    let mut nodes = members.clone();
    match fault {
        Fault::TotalsByRounds => nodes.sort_by_key(|&node| first(node)),
        Fault::TotalsRising => nodes.sort_by_key(|&node| subtotal(node)),
        Fault::TotalsPastTheNodes => after.subtotals[members.len()..].fill(0),
        _ => {}
    }
    after.total = nodes.iter().map(|&node| subtotal(node)).sum();
    after.subtotals.iter_mut().zip(&nodes).for_each(|(element, &node)| *element = subtotal(node));
}

/// What a fault makes of a page's answers.
fn page(fault: Fault, count: usize, drawing: &Drawing, before: &Lent, after: &mut Lent) {
    let (edges, words) = (drawing.edges(), drawing.words());
    let refused = |i: usize| judge::question(drawing, before.sources[i], before.sinks[i], before.values[i]).is_err();
    let answered = |i: usize| (0..i).filter(|&i| !refused(i)).count();
    match fault {
        Fault::PageSetsByChannels => laid(drawing, count, before, after, |i| (i * edges, i * edges)),
        Fault::PageStretchLonger => laid(drawing, count, before, after, |i| (i * (edges + 1), i * words)),
        Fault::PageRefusedWithoutStretch => laid(drawing, count, before, after, |i| (answered(i) * edges, answered(i) * words)),
        Fault::PageReversed => {
            after.answers[..count].reverse();
            after.sizes[..count].reverse();
        }
        Fault::PageRefusedCleared => {
            for i in (0..count).filter(|&i| refused(i)) {
                after.flows[i * edges..][..edges].fill(0);
                after.set[i * words..][..words].fill(0);
            }
        }
        Fault::PageCannotCleared => (0..count).filter(|&i| after.answers[i] == 0).for_each(|i| after.flows[i * edges..][..edges].fill(0)),
        Fault::PagePastTheLast => {
            after.flows[count * edges..].fill(0);
            after.set[count * words..].fill(0);
        }
        Fault::PageAnswersPastTheLast if count < PAGE => after.answers[count] = 0,
        Fault::PageSizesLeft => (0..count).filter(|&i| after.answers[i] == 1).for_each(|i| after.sizes[i] = before.sizes[i]),
        Fault::PageFirstEnds => {
            let mut other = Lent { sources: vec![before.sources[0]; PAGE], sinks: vec![before.sinks[0]; PAGE], ..before.clone() };
            unit::call(&Call::Page { count }, &mut other);
            *after = Lent { sources: before.sources.clone(), sinks: before.sinks.clone(), ..other };
        }
        _ => {}
    }
}

/// A page's flows and sets with each stretch from another place on, as far as there is room.
fn laid(drawing: &Drawing, count: usize, before: &Lent, after: &mut Lent, place: impl Fn(usize) -> (usize, usize)) {
    let (edges, words) = (drawing.edges(), drawing.words());
    let given = Lent { flows: before.flows.clone(), set: before.set.clone(), ..after.clone() };
    let due = std::mem::replace(after, given);
    for i in 0..count {
        let (flows, set) = place(i);
        match due.answers[i] {
            1 => after.flows.iter_mut().skip(flows).zip(&due.flows[i * edges..][..edges]).for_each(|(element, flow)| *element = *flow),
            0 => after.set.iter_mut().skip(set).zip(&due.set[i * words..][..words]).for_each(|(element, word)| *element = *word),
            _ => {}
        }
    }
}

/// The page that a fault answers where it should be refused, in room that is long enough, cut to the room that there is.
fn paged_anyway(count: usize, before: &Lent, after: &mut Lent, when: impl Fn(&Drawing, &Lent) -> bool) -> bool {
    let Ok(drawing) = judge::sheet(&before.sheet) else { return false };
    let mut longer = before.clone();
    longer.flows.resize(before.flows.len().max(count * drawing.edges()), 0);
    longer.set.resize(before.set.len().max(count * drawing.words()), 0);
    if unit::call(&Call::Page { count }, &mut longer) != 0 || !when(&drawing, &longer) {
        return false;
    }
    longer.flows.truncate(before.flows.len());
    longer.set.truncate(before.set.len());
    *after = longer;
    true
}

/// The number with which a fault refuses what is answered.
fn refuses(fault: Fault, call: &Call, before: &Lent, after: &Lent) -> Option<u8> {
    match *call {
        Call::Totals if asks_for_more(fault, before) => Some(16),
        Call::Examine { .. } if fault == Fault::ExamineWrongRefused => {
            let drawing = judge::records(&before.sheet).ok()?;
            let outside = |edge: usize, flow: i32| flow > drawing.capacities[2 * edge] || -(flow as i64) > drawing.capacity(2 * edge + 1);
            let used = before.flows.get(..before.claims.len() * drawing.edges())?; // too short, it is refused with 16
            used.iter().enumerate().any(|(at, &flow)| outside(at % drawing.edges(), flow)).then_some(17)
        }
        Call::Page { count } => match fault {
            Fault::PageByOneRefusal => after.answers.iter().take(count).copied().find(|&answer| answer > 1),
            Fault::PageOfNoneNeedsRoom if count == 0 && (before.flows.is_empty() || before.set.is_empty()) => Some(16),
            Fault::PageOfSixtyThree if count == PAGE => Some(21),
            _ => None,
        },
        _ => None,
    }
}

/// Whether a fault refuses an answer of Totals by node with 16.
fn asks_for_more(fault: Fault, before: &Lent) -> bool {
    let Ok(drawing) = judge::records(&before.sheet) else { return false };
    match fault {
        Fault::TotalsOfTheNodes => before.subtotals.len() < drawing.nodes as usize,
        Fault::TotalsPastTheLast => before.subtotals.len() < before.set[..drawing.words()].iter().map(|word| word.count_ones() as usize).sum(),
        _ => false,
    }
}

/// Puts the highest flow of the value, where it is carried.
fn carried(drawing: &Drawing, (source, sink, value): (u16, u16, i32), after: &mut Lent) {
    if let Some(flows) = carry(drawing, source as usize, sink as usize, value as i64) {
        put(&mut after.flows, &highest(drawing, &drawing.faces(), &flows));
    }
}

fn raised(fault: Fault, question: (u16, u16, i32), edge: usize, drawing: &Drawing, after: &mut Lent) {
    let (limit, present) = (after.value as i64, drawing.capacity(2 * edge));
    let (source, sink, value) = question;
    match fault {
        Fault::RaiseFromZero if limit < 0 => {
            after.value = 0;
            carried(&drawing.with_limit(edge, 0), question, after);
        }
        Fault::RaiseBelowPresent => {
            let least = least_on(drawing, source as usize, sink as usize, value as i64, edge).unwrap();
            if least < present {
                after.value = least as i32;
                carried(&drawing.with_limit(edge, least), question, after);
            }
        }
        Fault::RaiseOneMore if limit < MOST_LIMIT => {
            after.value += 1;
            carried(&drawing.with_limit(edge, limit + 1), question, after);
        }
        Fault::RaiseFromTheRight if limit > present => rooted(Some((2 * edge + 1) as u16), question, edge, drawing, after),
        Fault::RaiseFromTheZeroFace if limit > present => rooted(drawing.outer, question, edge, drawing, after),
        Fault::RaiseOtherFlows if limit < MOST_LIMIT => carried(&drawing.with_limit(edge, limit + 1), question, after),
        Fault::RaiseBack if limit > present => {
            let mut both = drawing.with_limit(edge, limit);
            both.capacities[2 * edge + 1] = both.capacities[2 * edge + 1].saturating_add((limit - present) as i32).min(MOST_LIMIT as i32);
            carried(&both, question, after);
        }
        Fault::RaiseSetOnLimit => after.set.fill(0),
        _ => {}
    }
}

/// What the distance gives from the faces at 0 where this is the outer dart: the flow on the channel, with 1,000,000, that is highest from there. From the face left of the
/// channel it is the least limit.
fn rooted(outer: Option<u16>, (source, sink, value): (u16, u16, i32), edge: usize, drawing: &Drawing, after: &mut Lent) {
    let wide = Drawing { outer, ..drawing.with_limit(edge, MOST_LIMIT) };
    let Some(flows) = carry(&wide, source as usize, sink as usize, value as i64) else { return };
    let limit = highest(&wide, &wide.faces(), &flows)[edge].max(drawing.capacity(2 * edge));
    after.value = limit as i32;
    carried(&drawing.with_limit(edge, limit), (source, sink, value), after);
}

fn not_raised(fault: Fault, question: (u16, u16, i32), edge: usize, drawing: &Drawing, before: &Lent, after: &mut Lent) {
    let (source, sink, value) = question;
    match fault {
        Fault::RaiseBack => {
            let mut both = drawing.with_limit(edge, MOST_LIMIT);
            both.capacities[2 * edge + 1] = MOST_LIMIT as i32;
            if carry(&both, source as usize, sink as usize, value as i64).is_some() {
                (after.found, after.value, after.set) = (1, MOST_LIMIT as i32, before.set.clone());
                carried(&both, question, after);
            }
        }
        Fault::RaiseSetOfTheSheet => {
            let mut sheet = before.clone();
            if unit::call(&Call::Solve { source, sink, value }, &mut sheet) == 0 {
                after.set = sheet.set;
            }
        }
        Fault::RaiseFlowsOnNone => after.flows.fill(0),
        _ => {}
    }
}

/// Whether two nodes are in different parts.
fn apart(drawing: &Drawing, source: u16, sink: u16) -> bool {
    let parts = drawing.parts();
    parts[source as usize] != parts[sink as usize]
}

/// How many parts a drawing has.
fn parts(drawing: &Drawing) -> usize {
    let mut parts = drawing.parts();
    parts.sort();
    parts.dedup();
    parts.len()
}

fn total_is_two(drawing: &Drawing) -> bool {
    drawing.nodes as usize + crate::drawing::count(&drawing.faces()) == drawing.edges() + 2
}

/// The faces at 0 if the outer dart were this one.
fn zero_with(drawing: &Drawing, outer: usize) -> Vec<usize> {
    Drawing { outer: Some(outer as u16), ..drawing.clone() }.zero_faces()
}

/// The faces at 0, but for the parts that the outer dart is not in their highest.
fn highest_elsewhere(drawing: &Drawing) -> Vec<usize> {
    let (parts, faces, outer) = (drawing.parts(), drawing.faces(), drawing.outer_dart());
    let part = |dart: usize| parts[drawing.tail(dart)];
    let mut zero: Vec<Option<usize>> = vec![None; parts.len()];
    for dart in 0..drawing.darts() {
        zero[part(dart)] = zero[part(dart)].max(Some(faces[dart]));
    }
    zero[part(outer)] = Some(faces[outer]);
    zero.into_iter().flatten().collect()
}

fn dimacs(fault: Fault, (source, sink): (u16, u16), drawing: &Drawing, before: &Lent, after: &mut Lent) {
    let mut other = drawing.clone();
    let text = match fault {
        Fault::DimacsFromZero => {
            let less = |word: &str| (word.parse::<i64>().unwrap() - 1).to_string();
            let line = |line: &str| match line.split(' ').collect::<Vec<_>>()[..] {
                ["n", v, which] => format!("n {} {which}\n", less(v)),
                ["a", v, w, capacity] => format!("a {} {} {capacity}\n", less(v), less(w)),
                _ => format!("{line}\n"),
            };
            crate::dimacs::text(drawing, source, sink).lines().map(line).collect()
        }
        Fault::DimacsBackAsForward => {
            (0..other.edges()).for_each(|edge| other.capacities[2 * edge + 1] = other.capacities[2 * edge]);
            crate::dimacs::text(&other, source, sink)
        }
        Fault::DimacsBackFirst => {
            (0..other.edges()).for_each(|edge| {
                other.capacities.swap(2 * edge, 2 * edge + 1);
                other.tails.swap(2 * edge, 2 * edge + 1);
            });
            crate::dimacs::text(&other, source, sink)
        }
        Fault::DimacsSinkFirst => {
            let mut lines: Vec<String> = crate::dimacs::text(drawing, source, sink).lines().map(|line| format!("{line}\n")).collect();
            lines.swap(1, 2);
            lines.concat()
        }
        Fault::DimacsEndsExchanged => crate::dimacs::text(drawing, sink, source),
        Fault::DimacsNoZeroArcs => kept(drawing, source, sink, |words| words[3] != "0"),
        Fault::DimacsNoLoops => kept(drawing, source, sink, |words| words[1] != words[2]),
        Fault::DimacsSpaceAtTheEnd => crate::dimacs::text(drawing, source, sink).replacen('\n', " \n", 1),
        Fault::DimacsLengthOffByOne => {
            after.length -= 1;
            return;
        }
        Fault::DimacsPastTheText => {
            after.text[after.length..].fill(0);
            return;
        }
        _ => return,
    };
    after.text = before.text.clone();
    after.text.iter_mut().zip(text.bytes()).for_each(|(byte, new)| *byte = new);
    after.length = text.len();
}

/// The text without some of its arcs.
fn kept(drawing: &Drawing, source: u16, sink: u16, keep: fn(&[&str]) -> bool) -> String {
    let text = crate::dimacs::text(drawing, source, sink);
    let keeps = |line: &&str| !line.starts_with('a') || keep(&line.split(' ').collect::<Vec<_>>());
    text.lines().filter(keeps).map(|line| format!("{line}\n")).collect()
}

fn is_dimacs(call: &Call) -> bool {
    matches!(call, Call::WriteDimacs { .. })
}

/// Whether a sheet has a limit below zero; with a step of 2 only forward limits are looked at.
fn least_flow(sheet: &[u8], step: usize) -> bool {
    judge::records(sheet).is_ok_and(|drawing| drawing.capacities.iter().step_by(step.max(1)).any(|&capacity| capacity < 0))
}

/// The text of a drawing that was refused for its least flows, with 0 in their place, if there is room.
fn written_anyway(call: &Call, before: &Lent, after: &mut Lent, result: u8) -> u8 {
    let (Call::WriteDimacs { source, sink }, Ok(drawing)) = (*call, judge::records(&before.sheet)) else { return result };
    let free = Drawing { capacities: drawing.capacities.iter().map(|&capacity| capacity.max(0)).collect(), ..drawing };
    let text = crate::dimacs::text(&free, source, sink);
    if before.text.len() < text.len() {
        return result;
    }
    after.text[..text.len()].copy_from_slice(text.as_bytes());
    (after.length, after.place) = (text.len(), before.place);
    0
}

fn key(fault: Fault, after: &mut Lent) {
    match fault {
        Fault::KeyWithoutLastLineFeed => after.length -= 1,
        Fault::KeyOtherNode => after.text[after.length - 2] ^= 1,
        Fault::KeyPastTheText => after.text[after.length..].fill(0),
        _ => {}
    }
}

/// What a fault makes of a refusal: its number.
fn refusal(fault: Fault, call: &Call, before: &Lent, after: &mut Lent, result: u8) -> u8 {
    let sheet = match call {
        Call::Write { .. } | Call::KeyText | Call::PracticeSheet { .. } => &[][..],
        _ => &before.sheet,
    };
    let head = if sheet.first() == Some(&4) { 7 } else { 5 };
    let short = |at: usize| u16::from_le_bytes([sheet[at], sheet[at + 1]]);
    match (fault, result) {
        (Fault::PlaceOffByOne, 17 | 18) => after.place += 1,
        (Fault::PlaceOfTheLast, 17) => after.place = last_outside(call, before).unwrap_or(after.place),
        (Fault::PlaceOfFields, 6) => after.place = 1,
        (Fault::FlowsOnRefusal, 17) if *call == Call::SettingsFromLevels => after.flows[..after.place as usize].fill(0),
        (Fault::LevelsOnRefusal, 18) if *call == Call::LevelsFromSettings => after.levels[0] = 0,
        (Fault::AnswerOnRefusal, _) if matches!(call, Call::Solve { .. }) => after.can = 0,
        (Fault::TwelveByTotal, 12) if judge::records(sheet).is_ok_and(|drawing| total_is_two(&drawing)) => return 0,
        (Fault::ElevenForTen, 10) if judge::records(sheet).is_ok_and(|drawing| parts(&drawing) > 1) => return 11,
        (Fault::SevenForSix, 6) if sum_below_zero(sheet) => return 7,
        (Fault::CutBeforeFields, 4..=7) if sheet.len() >= head && sheet.len() < head + EDGE * u16::from_le_bytes([sheet[3], sheet[4]]) as usize => return 1,
        (Fault::FourteenForThirteen, 13) => match *call {
            Call::Solve { source, sink, .. }
            | Call::Largest { source, sink }
            | Call::LeastAndLargest { source, sink }
            | Call::RaiseLimit { source, sink, .. }
            | Call::Mark { source, sink }
            | Call::WriteDimacs { source, sink }
                if source == sink =>
            {
                return 14
            }
            _ => {}
        },
        (Fault::SixteenForTwentyFive, 25) if judge::records(sheet).is_ok_and(|drawing| before.flows.len() < drawing.edges()) => return 16,
        (Fault::TwentyFiveForFifteen, 15) => match *call {
            Call::RaiseLimit { edge, .. } if judge::records(sheet).is_ok_and(|drawing| edge as usize >= drawing.edges()) => return 25,
            _ => {}
        },
        (Fault::SixteenForFifteen, 15) if judge::records(sheet).is_ok_and(|drawing| before.flows.len() < drawing.edges()) => return 16,
        (Fault::TwentyForNineteen, 19) if judge::records(sheet).is_ok_and(|drawing| drawing.zero_faces().iter().any(|&face| before.levels[face] != 0)) => {
            return 20
        }
        (Fault::TwentyAtFaceZero, 20) if before.levels[0] == 0 => return 0,
        (Fault::TwentyFourForThree, 3) if head == 7 && short(5) as usize >= 2 * short(3) as usize => return 24,
        (Fault::FourForTwentyFour, 24) if sheet.len() >= head + 5 && short(head + 1).max(short(head + 3)) >= short(1) => return 4,
        (Fault::KindFourAsTwo, _) if head == 7 => return 2,
        (Fault::SixteenForTwentyThree, 23) if before.sheet.len() < 73 => return 16,
        (Fault::PracticeOnRefusal, 16) if matches!(call, Call::PracticeSheet { .. }) && !before.sheet.is_empty() => after.sheet[0] = 1,
        (Fault::ShortSetUnseen, 16) => {
            let mut longer = Lent { set: vec![0; 9], ..before.clone() };
            if let (Call::Solve { .. }, 0, 1) = (call, unit::call(call, &mut longer), longer.can) {
                *after = Lent { set: before.set.clone(), ..longer };
                return 0;
            }
        }
        (Fault::PageOfNoneUnchecked, _) if *call == (Call::Page { count: 0 }) => {
            after.place = before.place;
            return 0;
        }
        (Fault::PageOnRefusal, _) if matches!(call, Call::Page { .. }) => after.answers[0] = 0,
        (Fault::SixteenForTwentyOne, 21) if judge::records(sheet).is_ok_and(|drawing| before.flows.len() < (PAGE + 1) * drawing.edges()) => return 16,
        (Fault::TwentyOneForTheSheet, _) => match *call {
            Call::Page { count } if count > PAGE => return 21,
            _ => {}
        },
        (Fault::PageOfManyCut, 21) if paged_anyway(PAGE, before, after, |_, _| true) => return 0,
        (Fault::PageRoomOfTheAnswered, 16) => match *call {
            Call::Page { count }
                if paged_anyway(count, before, after, |drawing, page| {
                    let used = (0..count).filter(|&i| page.answers[i] < 2).last().map_or(0, |last| last + 1);
                    used * drawing.edges() <= before.flows.len() && used * drawing.words() <= before.set.len()
                }) =>
            {
                return 0
            }
            _ => {}
        },
        (Fault::PageShortSetsUnseen, 16) => match *call {
            Call::Page { count }
                if paged_anyway(count, before, after, |drawing, page| {
                    page.answers[..count].iter().all(|&answer| answer == 1) && count * drawing.edges() <= before.flows.len()
                }) =>
            {
                return 0
            }
            _ => {}
        },
        (Fault::SixteenForThirtyTwo, 32) if before.kinds.len().min(before.points.len()) < before.claims.len() => return 16,
        (Fault::TotalsOnRefusal, _) if *call == Call::Totals && !after.subtotals.is_empty() => after.subtotals[0] = 0,
        (Fault::TotalsShortSet, 16) if *call == Call::Totals => {
            let mut longer = before.clone();
            longer.set.resize(9, 0);
            if unit::call(call, &mut longer) == 0 {
                *after = Lent { set: before.set.clone(), ..longer };
                return 0;
            }
        }
        (Fault::TwentyTwoForFourteen, 14) if is_dimacs(call) && least_flow(sheet, 0) => return 22,
        (Fault::SixteenForTwentyTwo, 22) if before.text.len() < 38 => return 16,
        (Fault::DimacsPartOnShort, 16) if is_dimacs(call) => after.text.fill(b'p'),
        (Fault::DimacsLeastAsZero, 22) => return written_anyway(call, before, after, result),
        (Fault::DimacsOneBackUnseen, 22) if !least_flow(sheet, 2) => return written_anyway(call, before, after, result),
        (Fault::ShortAboveUnseen, 16) => {
            let mut longer = Lent { above: vec![0; 9], ..before.clone() };
            if let (Call::LeastAndLargest { .. }, 0, 0) = (call, unit::call(call, &mut longer), longer.found) {
                *after = Lent { above: before.above.clone(), ..longer };
                return 0;
            }
        }
        _ => {}
    }
    result
}

/// The last edge whose flow is outside its capacities, where flows are given.
fn last_outside(call: &Call, before: &Lent) -> Option<u16> {
    let drawing = judge::records(&before.sheet).ok()?;
    if let Call::SettingsFromLevels = call {
        return None;
    }
    let outside = |edge: &usize| before.flows[*edge] > drawing.capacities[2 * edge] || -(before.flows[*edge] as i64) > drawing.capacity(2 * edge + 1);
    (0..drawing.edges()).rev().find(outside).map(|edge| edge as u16)
}

/// Whether the first edge of a sheet with a capacity out of range has capacities that add to less than zero.
fn sum_below_zero(sheet: &[u8]) -> bool {
    let number = |edge: &[u8], at: usize| i32::from_le_bytes(edge[at..at + 4].try_into().unwrap()) as i64;
    let head = if sheet.first() == Some(&4) { 7 } else { 5 };
    let edges = sheet.get(head..).unwrap_or_default().chunks_exact(EDGE).map(|edge| (number(edge, 9), number(edge, 13)));
    edges.into_iter().find(|(forward, back)| forward.abs().max(back.abs()) > 1_000_000).is_some_and(|(forward, back)| forward + back < 0)
}

/// The set of one node.
fn only(node: u16, drawing: &Drawing, after: &mut Lent) {
    after.set[..drawing.words()].fill(0);
    after.set[node as usize / 64] = 1 << (node % 64);
}

/// The outward total of a set, with or without darts within it, no capacity counted below `least`.
fn outward(drawing: &Drawing, set: &[u64], within: bool, least: i32) -> i32 {
    let holds = |dart: usize| set[drawing.tail(dart) / 64] >> (drawing.tail(dart) % 64) & 1 == 1;
    (0..drawing.darts()).filter(|&dart| holds(dart) && (within || !holds(dart ^ 1))).map(|dart| drawing.capacities[dart].max(least)).sum()
}

fn put(slice: &mut [i32], numbers: &[i64]) {
    for (element, &number) in slice.iter_mut().zip(numbers) {
        *element = number as i32;
    }
}

#[cfg(test)]
mod tests {
    use super::*;
    use crate::check::{compare_drawing, Tally, RAISED};
    use crate::pairs;

    const SEED: u64 = 11;
    const DRAWINGS: u64 = 600;

    fn run(fault: Option<Fault>, tally: &mut Tally) -> Result<(), String> {
        let library = Library { fault };
        (0..DRAWINGS).try_for_each(|number| compare_drawing(&library, SEED, number, tally)).map_err(|wrong| wrong.0)
    }

    #[test]
    fn every_fault_is_caught() {
        let uncaught: Vec<_> = ALL.iter().filter(|(fault, _)| run(Some(*fault), &mut Tally::default()).is_ok()).collect();
        assert!(uncaught.is_empty(), "not caught: {uncaught:?}");
    }

    /// Without a fault all is right, and every answer and every refusal of every operation comes up.
    #[test]
    fn no_fault_no_difference_and_every_answer_is_met() {
        let mut tally = Tally::default();
        run(None, &mut tally).unwrap_or_else(|wrong| panic!("{wrong}"));
        let sheet: Vec<u8> = (1..=10).chain([12, 24]).collect(); // 11 no longer occurs
        let with = |more: &[u8]| [&sheet[..], more].concat();
        let due: [(&str, Vec<u8>, &[&str]); 21] = [
            ("Read", with(&[16]), &["done"]),
            ("Write", vec![3, 4, 5, 6, 7, 9, 10, 12, 16, 24], &["done"]),
            ("Solve", with(&[13, 14, 15, 16]), &["can", "cannot"]),
            ("Largest", with(&[13, 14, 16]), &["value", "value below 0", "none"]),
            ("Least and largest", with(&[13, 14, 16]), &["values", "values above 0", "values below 0", "none"]),
            ("Raise limit", with(&[13, 14, 15, 16, 25]), &["limit", "limit below 0", "none"]),
            (RAISED, vec![], &["a bridge", "another channel", "in another part than the ends", "with the ends apart"]),
            ("Mark", with(&[13, 14, 16, 17, 18]), &["value"]),
            ("Levels from settings", with(&[16, 17, 18]), &["done"]),
            ("Settings from levels", with(&[16, 17, 19, 20]), &["done"]),
            ("Totals by node", with(&[16]), &["total", "total 0", "total below 0"]),
            ("Key text", vec![16], &["can", "cannot", "refused in the text"]),
            ("Practice sheet", vec![16, 23], &["done"]),
            ("DIMACS text", with(&[13, 14, 16, 22]), &["done"]),
            ("Examine", with(&[13, 14, 15, 16, 32]), &["class", "empty", "of 1000"]),
            ("Page", with(&[16, 21]), &["empty", "of 64", "with every answer", "with some answers"]),
            ("Start", sheet.clone(), &["done"]),
            ("Ask", vec![13, 14, 15, 16, 29, 30], &["can", "cannot"]),
            ("Commit", vec![28, 29, 30, 31], &["done"]),
            ("Clear", vec![], &["done"]),
            (pairs::NAME, vec![], &["with a set of several nodes", "with other answers", "with refusals at most"]),
        ];
        for (name, refusals, answers) in due {
            let met: Vec<_> = tally.answers.keys().filter(|key| key.0 == name).map(|&(_, number, answer)| (number, answer)).collect();
            let mut expected: Vec<_> = answers.iter().map(|&answer| (0, answer)).chain(refusals.iter().map(|&number| (number, "refused"))).collect();
            expected.sort();
            assert_eq!(met, expected, "{name}");
        }
    }
}

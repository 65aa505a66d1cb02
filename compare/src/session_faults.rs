//! What a deliberate fault makes of a call of a session: before it of the session, behind it of what it left. Some keep what the parties asked.
use crate::faults::Fault;
use crate::judge;
use crate::sessions::{call, Answer, Call, Model, Question, Session, COMMITTED, IDLE, OFFERED, STALE};

/// What a leaking library keeps beside the session: each party's last question that was answered, with its answer.
#[derive(Default)]
pub struct Memory {
    last: [Option<(Question, Answer)>; 2],
}

/// `lent` is the settings slice as the caller has it by now.
pub fn faulty(fault: Fault, of: &Call, s: &mut Session, answer: &mut Answer, lent: &[i32], memory: &mut Memory) -> u8 {
    let came = (s.clone(), answer.clone());
    let result = match *of {
        Call::Start(_) => {
            *memory = Memory::default();
            let result = call(of, s, answer);
            start(fault, result == 0, &came.0, s);
            result
        }
        Call::Clear => {
            call(of, s, answer);
            clear(fault, &came.0, s);
            0
        }
        Call::Ask { party, question } if party < 2 => ask(fault, party as usize, question, (s, answer), &came, memory),
        Call::Commit { party } if party < 2 => commit(fault, party as usize, (s, answer), &came.0, lent),
        _ => nobody(fault, of, s, answer),
    };
    if let (0, Call::Ask { party, question }) = (result, of) {
        memory.last[*party as usize % 2] = Some((*question, answer.clone()));
    }
    result
}

fn start(fault: Fault, done: bool, before: &Session, s: &mut Session) {
    match fault {
        Fault::RefusedStartKeeps if !done => *s = before.clone(),
        Fault::StartKeepsOffer if done => s.standing = before.standing,
        Fault::StartLeavesTheOldOffer => s.offers = before.offers,
        Fault::RefusedStartLeavesArrays if !done => {
            (s.tails, s.rotations, s.limits, s.left) = (before.tails, before.rotations, before.limits, before.left);
        }
        Fault::StartDartZero if done => s.outer = 0,
        _ => {}
    }
}

fn clear(fault: Fault, before: &Session, s: &mut Session) {
    let kept = |which: u8| before.standing.map(|standing| if standing == which { which } else { IDLE });
    match fault {
        Fault::ClearKeepsOffer => s.standing = kept(OFFERED),
        Fault::ClearKeepsStale => s.standing = kept(STALE),
        Fault::ClearKeepsCommitted => s.standing = kept(COMMITTED),
        Fault::ClearKeepsLeft => s.left = before.left,
        Fault::ClearForwardOnly => (0..s.left.len()).skip(1).step_by(2).for_each(|dart| s.left[dart] = before.left[dart]),
        Fault::ClearPassesEmpty if s.nodes == 0 => *s = before.clone(),
        _ => {}
    }
}

/// A call of no party.
fn nobody(fault: Fault, of: &Call, s: &mut Session, answer: &mut Answer) -> u8 {
    let (Call::Ask { party, .. } | Call::Commit { party }) = *of else { return call(of, s, answer) };
    let committed = s.standing[party as usize % 2] == COMMITTED;
    match (fault, of) {
        (Fault::PartyTwoIsZero, Call::Ask { question, .. }) => return call(&Call::Ask { party: party % 2, question: *question }, s, answer),
        (Fault::PartyTwoIsZero, Call::Commit { .. }) => return call(&Call::Commit { party: party % 2 }, s, answer),
        _ => {}
    }
    let result = call(of, s, answer);
    match (fault, of) {
        (Fault::ThirtyForTwentyNine, _) if committed => 30,
        (Fault::ThirteenForTwentyNine, Call::Ask { question, .. }) if question.source.max(question.sink) >= s.nodes => 13,
        (Fault::TwentyEightForTwentyNine, Call::Commit { .. }) => 28,
        _ => result,
    }
}

/// The offer of a party off the limits left, as if it were let in.
fn take_off(s: &mut Session, party: usize) {
    for e in 0..(s.edges as usize).min(s.offers[0].len()) {
        s.left[2 * e] = s.left[2 * e].wrapping_sub(s.offers[party][e]);
        s.left[2 * e + 1] = s.left[2 * e + 1].wrapping_add(s.offers[party][e]);
    }
}

fn ask(fault: Fault, p: usize, question: Question, (s, answer): (&mut Session, &mut Answer), came: &(Session, Answer), memory: &Memory) -> u8 {
    let (before, other) = (&came.0, 1 - p);
    match fault {
        Fault::OthersOfferHeld if s.standing[other] == OFFERED => take_off(s, other),
        Fault::CommittedMayAsk if s.standing[p] == COMMITTED => s.standing[p] = IDLE,
        _ => {}
    }
    let result = call(&Call::Ask { party: p as u16, question }, s, answer);
    let (done, can) = (result == 0, result == 0 && answer.can == 1);
    match fault {
        Fault::CannotKeepsOffer if done && !can => s.standing = before.standing,
        Fault::RefusalClearsOffer if !done && s.standing[p] == OFFERED => s.standing[p] = IDLE,
        Fault::FirstOfferKept if can && before.standing[p] == OFFERED => s.offers = before.offers,
        Fault::ForeignEmptied if result == 13 => s.nodes = 0,
        Fault::StaleFreshened if !done && s.standing[p] == STALE => s.standing[p] = OFFERED,
        Fault::AskMakesStale if can && s.standing[other] == OFFERED => s.standing[other] = STALE,
        Fault::AskKeepsIntoTheOthers if can => (s.offers[other], s.offers[p]) = (s.offers[p], before.offers[p]),
        Fault::OthersOfferHeld => s.left = before.left,
        Fault::CommittedMayAsk if before.standing[p] == COMMITTED => s.standing[p] = COMMITTED,
        Fault::ThirteenForThirty if result == 30 && question.source.max(question.sink) >= s.nodes => return 13,
        Fault::SetByTheOthersQuestion if done && !can && memory.last[other].is_some() => other_set(before, question, answer),
        Fault::OthersLastAnswer if done => {
            if let Some((_, kept)) = memory.last[other].as_ref().filter(|(asked, _)| *asked == question) {
                (*s, *answer) = came.clone();
                again(p, kept, s, answer);
            }
        }
        _ => {}
    }
    result
}

/// Another set that proves the same, if one node more or less is one.
fn other_set(session: &Session, Question { source, sink, value }: Question, answer: &mut Answer) {
    let Some(drawing) = Model::foreign(session).drawing else { return };
    let words = drawing.words();
    for node in 0..drawing.nodes as usize {
        let mut set = answer.set.clone();
        set[node / 64] ^= 1 << (node % 64);
        if judge::objection(&drawing, &set[..words], source, sink, Some(value as i64)).is_none() {
            answer.size = set[..words].iter().map(|word| word.count_ones() as u16).sum();
            answer.set = set;
            return;
        }
    }
}

/// An answer that was kept, given to this party.
fn again(p: usize, kept: &Answer, s: &mut Session, answer: &mut Answer) {
    answer.can = kept.can;
    if kept.can == 1 {
        let edges = (s.edges as usize).min(kept.flows.len()).min(answer.flows.len());
        answer.flows[..edges].copy_from_slice(&kept.flows[..edges]);
        s.offers[p][..edges].copy_from_slice(&kept.flows[..edges]);
        s.standing[p] = OFFERED;
    } else {
        let words = (s.nodes as usize).div_ceil(64).min(kept.set.len()).min(answer.set.len());
        answer.set[..words].copy_from_slice(&kept.set[..words]);
        answer.size = kept.size;
        s.standing[p] = IDLE;
    }
}

fn commit(fault: Fault, p: usize, (s, answer): (&mut Session, &mut Answer), before: &Session, lent: &[i32]) -> u8 {
    let other = 1 - p;
    match fault {
        Fault::OfferOfTheCaller => s.offers[p].iter_mut().zip(lent).for_each(|(own, &theirs)| *own = theirs),
        Fault::CommitTakesTheOthers => s.offers.swap(0, 1),
        _ => {}
    }
    let result = call(&Call::Commit { party: p as u16 }, s, answer);
    let (done, edges) = (result == 0, s.edges as usize);
    match fault {
        Fault::BothDartsLowered if done => (0..edges).for_each(|e| s.left[2 * e + 1] = before.left[2 * e + 1].wrapping_sub(s.offers[p][e])),
        Fault::LoweredTwice if done => (0..edges).for_each(|e| s.left[2 * e] = s.left[2 * e].wrapping_sub(s.offers[p][e])),
        Fault::AccountOfOne if done => {
            s.left = s.limits;
            take_off(s, p);
        }
        Fault::LimitsLowered if done => s.limits = s.left,
        Fault::CommitKeepsOffer if done => s.standing[p] = OFFERED,
        Fault::CommitTakesTheOthers => s.offers.swap(0, 1),
        Fault::RefusedCommitClears if !done => s.left[0] = 0,
        Fault::StaleRemoved if !done && s.standing[p] == STALE => s.standing[p] = IDLE,
        Fault::RefusedCommitMakesStale if !done && s.standing[other] == OFFERED => s.standing[other] = STALE,
        Fault::OtherNotMadeStale if done => s.standing[other] = before.standing[other],
        Fault::StillCommitNotStale if done && s.left == before.left => s.standing[other] = before.standing[other],
        Fault::StaleWithoutOffer if done && s.standing[other] == IDLE => s.standing[other] = STALE,
        Fault::ThirtyOneForTwentyEight if result == 28 && s.standing[other] == COMMITTED => return 31,
        Fault::TwentyEightForThirtyOne if result == 31 => return 28,
        Fault::TwentyEightForThirty if result == 30 => return 28,
        _ => {}
    }
    result
}

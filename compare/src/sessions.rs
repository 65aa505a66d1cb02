//! Sessions that two parties share (document 02, Jobs 11 and 12): long random sequences of calls against a model that keeps lists. The model knows the drawing,
//! the flows of every commit of either party since the last clear, and where each party stands, with its offer; it has no limits left, but adds the lists up for
//! each question. Values that no start gave stand among the sessions: of those the model knows what the fields say, and that a refusal changes nothing.
use crate::abi::{analyser_session_ask, analyser_session_clear, analyser_session_commit, analyser_session_start};
use crate::chance::Chance;
use crate::damage;
use crate::drawing::Drawing;
use crate::faults::Library;
use crate::flow::{along, carry, range};
use crate::judge;
use crate::levels::highest;
use crate::session_faults::{faulty, Memory};
use crate::unit::Guarded;
use std::fmt::Write;

pub const DARTS: usize = 1024;
pub const EDGES: usize = 512;

/// Where a party stands: no offer, an offer, an offer that the other's commit made stale, or it has committed. Any other number is as no offer.
pub const IDLE: u8 = 0;
pub const OFFERED: u8 = 1;
pub const STALE: u8 = 2;
pub const COMMITTED: u8 = 3;

/// The struct of the header.
#[repr(C)]
#[derive(Clone, Debug, PartialEq)]
pub struct Session {
    pub nodes: u16,
    pub edges: u16,
    pub outer: u16,
    pub standing: [u8; 2],
    pub tails: [u16; DARTS],
    pub rotations: [u16; DARTS],
    pub limits: [i32; DARTS],
    pub left: [i32; DARTS],
    pub offers: [[i32; EDGES]; 2],
}

impl Session {
    /// Zeros everywhere.
    const ZERO: Session = Session {
        nodes: 0,
        edges: 0,
        outer: 0,
        standing: [IDLE; 2],
        tails: [0; DARTS],
        rotations: [0; DARTS],
        limits: [0; DARTS],
        left: [0; DARTS],
        offers: [[0; EDGES]; 2],
    };
}

/// What a call is lent beside the session.
#[derive(Clone, Debug, PartialEq)]
pub struct Answer {
    pub flows: Vec<i32>,
    pub set: Vec<u64>,
    pub can: u8,
    pub size: u16,
    pub place: u16,
    /// Whether every guard element is as it was, and the sheet of a start.
    pub guards: bool,
}

#[derive(Clone, Copy, Debug, PartialEq)]
pub struct Question {
    pub source: u16,
    pub sink: u16,
    pub value: i32,
}

#[derive(Clone, Debug, PartialEq)]
pub enum Call {
    Start(Vec<u8>),
    Ask { party: u16, question: Question },
    Commit { party: u16 },
    Clear,
}

impl Call {
    pub fn name(&self) -> &'static str {
        match self {
            Call::Start(_) => "Start",
            Call::Ask { .. } => "Ask",
            Call::Commit { .. } => "Commit",
            Call::Clear => "Clear",
        }
    }
}

const FENCE: [u64; 8] = [0xa5a5_a5a5_a5a5_a5a5; 8];

/// A session between guard elements.
#[repr(C)]
struct Fenced {
    before: [u64; 8],
    session: Session,
    behind: [u64; 8],
}

/// Calls the unit; a clear has no result, here 0. Each pointer is to a field of the session, or to as many elements as its length says.
#[rustfmt::skip]
pub fn call(of: &Call, session: &mut Session, answer: &mut Answer) -> u8 {
    let mut fenced = Fenced { before: FENCE, session: session.clone(), behind: FENCE };
    let given: &[u8] = if let Call::Start(sheet) = of { sheet } else { &[] };
    let (mut sheet, mut same) = (Guarded::new(given, 0xa5), given.to_vec());
    let (mut flows, mut set) = (Guarded::new(&answer.flows, -0x5a5a_5a5a), Guarded::new(&answer.set, 0xa5a5_a5a5_a5a5_a5a5));
    let s = &mut fenced.session;
    let (tails, rotations, limits, left) = (s.tails.as_mut_ptr(), s.rotations.as_mut_ptr(), s.limits.as_mut_ptr(), s.left.as_mut_ptr());
    let (standing, [first, second]) = (s.standing.as_mut_ptr(), s.offers.each_mut().map(|offer| offer.as_mut_ptr()));
    let result = unsafe {
        match *of {
            Call::Start(_) => analyser_session_start(sheet.pointer(), sheet.length(), &mut s.nodes, &mut s.edges, &mut s.outer, tails, rotations, limits,
                left, standing, first, second, &mut answer.place),
            Call::Ask { party, question: Question { source, sink, value } } => analyser_session_ask(party, s.nodes, s.edges, s.outer, tails, rotations,
                limits, left, standing, first, second, source, sink, value, flows.pointer(), flows.length(), set.pointer(), set.length(), &mut answer.can,
                &mut answer.size, &mut answer.place),
            Call::Commit { party } => analyser_session_commit(party, s.nodes, s.edges, s.outer, tails, rotations, limits, left, standing, first, second,
                &mut answer.place),
            Call::Clear => {
                analyser_session_clear(s.nodes, s.edges, s.outer, tails, rotations, limits, left, standing, first, second);
                0
            }
        }
    };
    let whole = [sheet.give_back(&mut same), flows.give_back(&mut answer.flows), set.give_back(&mut answer.set)];
    answer.guards = whole == [true; 3] && same == given && fenced.before == FENCE && fenced.behind == FENCE;
    *session = fenced.session;
    result
}

/// Where a party stands, and the flows of its offer; of a value that no start gave, none where the limits left do not allow them.
#[derive(Clone)]
struct Party {
    standing: u8,
    offer: Option<Vec<i64>>,
}

impl Party {
    const NEW: Party = Party { standing: IDLE, offer: None };
}

/// A session as the model has it: its drawing, the flows of both parties' commits since the last clear, and the parties.
pub struct Model {
    pub drawing: Option<Drawing>,
    commits: Vec<Vec<i64>>,
    parties: [Party; 2],
    /// Whether a start gave it.
    started: bool,
}

/// What a call is to leave, and how it is counted.
struct Due {
    session: Session,
    answer: Answer,
    told: &'static str,
    objection: Option<String>,
}

impl Due {
    fn refused(&mut self, number: u8) -> u8 {
        (self.answer.place, self.told) = (0, "refused");
        number
    }
}

impl Model {
    /// The drawing with the limits left: the sheet's, less the flows of all commits.
    pub fn remaining(&self) -> Option<Drawing> {
        let mut left = self.drawing.clone()?;
        for dart in 0..left.darts() {
            let let_in: i64 = self.commits.iter().map(|flows| along(flows, dart)).sum();
            left.capacities[dart] = (left.capacity(dart) - let_in) as i32;
        }
        Some(left)
    }

    /// Of a value that no start gave: what its fields say, if they are a flat drawing with limits that fit.
    pub fn foreign(s: &Session) -> Model {
        let (edges, darts) = (s.edges as usize, 2 * s.edges as usize);
        let range = s.nodes as usize <= DARTS && edges <= EDGES && (s.outer as usize) < darts;
        let mut model = Model { drawing: None, commits: vec![], parties: s.standing.map(|standing| Party { standing, offer: None }), started: false };
        if edges > EDGES {
            return model;
        }
        let limits = |e: usize| s.left[2 * e] <= 2_000_000 && s.left[2 * e + 1] <= 2_000_000 && s.left[2 * e] as i64 + s.left[2 * e + 1] as i64 >= 0;
        let fits = (0..edges).all(limits);
        for (party, offer) in model.parties.iter_mut().zip(&s.offers) {
            let within = |e: usize| offer[e] <= s.left[2 * e] && -(offer[e] as i64) <= s.left[2 * e + 1] as i64;
            party.offer = (fits && (0..edges).all(within)).then(|| judge::wide(&offer[..edges]));
        }
        let drawing = Drawing {
            nodes: s.nodes,
            tails: s.tails[..darts].to_vec(),
            rotations: s.rotations[..darts].to_vec(),
            capacities: s.left[..darts].to_vec(),
            outer: Some(s.outer),
        };
        let inside = |dart: usize| s.tails[dart] < s.nodes && (s.rotations[dart] as usize) < darts;
        if range && fits && (0..darts).all(inside) && judge::turns(&drawing).is_ok() {
            model.drawing = Some(drawing);
        }
        model
    }

    pub fn has_committed(&self, party: u16) -> bool {
        self.parties[party as usize].standing == COMMITTED
    }

    /// Whether a commit by this party would be accepted.
    pub fn would_commit(&self, party: u16) -> bool {
        self.parties[party as usize].standing == OFFERED && self.parties[party as usize].offer.is_some()
    }

    /// The call on the model: its result.
    fn go(&mut self, of: &Call, given: &Answer, due: &mut Due) -> u8 {
        let number = match of {
            Call::Start(sheet) => self.start(sheet, due),
            Call::Ask { party, question } => self.ask(*party, *question, given, due),
            Call::Commit { party } => self.commit(*party as usize, due),
            Call::Clear => {
                (self.commits, self.parties) = (vec![], [Party::NEW; 2]);
                due.session.left = due.session.limits;
                0
            }
        };
        due.session.standing = self.parties.each_ref().map(|party| party.standing);
        if !self.started {
            *self = Model::foreign(&due.session);
        } else if let Some(left) = self.remaining() {
            due.session.left[..left.darts()].copy_from_slice(&left.capacities); // the account, by the lists alone
        }
        number
    }

    fn start(&mut self, sheet: &[u8], due: &mut Due) -> u8 {
        let judged = judge::sheet(sheet);
        *self = Model { drawing: judged.clone().ok(), commits: vec![], parties: [Party::NEW; 2], started: true };
        due.session = Session::ZERO; // nothing of what was there is left
        let session = &mut due.session;
        match judged {
            Ok(drawing) => {
                (session.nodes, session.edges, session.outer) = (drawing.nodes, drawing.edges() as u16, drawing.outer_dart() as u16);
                session.tails[..drawing.darts()].copy_from_slice(&drawing.tails);
                session.rotations[..drawing.darts()].copy_from_slice(&drawing.rotations);
                session.limits[..drawing.darts()].copy_from_slice(&drawing.capacities);
                session.left = session.limits;
                0
            }
            Err(refusal) => {
                due.refused(refusal.number);
                due.answer.place = refusal.place;
                refusal.number
            }
        }
    }

    fn ask(&mut self, party: u16, question: Question, given: &Answer, due: &mut Due) -> u8 {
        let Question { source, sink, value } = question;
        if party > 1 {
            return due.refused(29);
        }
        let p = party as usize;
        if self.parties[p].standing == COMMITTED {
            return due.refused(30);
        }
        let Some(left) = self.remaining() else { return due.refused(13) };
        if let Err(refusal) = judge::question(&left, source, sink, value) {
            return due.refused(refusal.number);
        }
        let (edges, words) = (left.edges(), left.words());
        if due.answer.flows.len() < edges || due.answer.set.len() < words {
            return due.refused(16);
        }
        self.parties[p] = match carry(&left, source as usize, sink as usize, value as i64) {
            Some(some) => {
                (due.told, due.answer.can) = ("can", 1);
                let high = highest(&left, &left.faces(), &some);
                for (element, &flow) in due.answer.flows.iter_mut().zip(&high) {
                    *element = flow as i32;
                }
                due.session.offers[p][..edges].copy_from_slice(&due.answer.flows[..edges]);
                Party { standing: OFFERED, offer: Some(high) }
            }
            None => {
                (due.told, due.answer.can) = ("cannot", 0);
                due.objection = judge::objection(&left, &given.set[..words], source, sink, Some(value as i64));
                due.answer.set[..words].copy_from_slice(&given.set[..words]);
                due.answer.size = given.set[..words].iter().map(|word| word.count_ones() as u16).sum();
                Party::NEW
            }
        };
        0
    }

    fn commit(&mut self, party: usize, due: &mut Due) -> u8 {
        if party > 1 {
            return due.refused(29);
        }
        let flows = match &self.parties[party] {
            Party { standing: COMMITTED, .. } => return due.refused(30),
            Party { standing: OFFERED, offer: Some(flows) } => flows.clone(),
            Party { standing: OFFERED | STALE, .. } => return due.refused(31),
            _ => return due.refused(28),
        };
        for dart in 0..2 * flows.len() {
            due.session.left[dart] = (due.session.left[dart] as i64 - along(&flows, dart)) as i32;
        }
        self.commits.push(flows);
        self.parties[party] = Party { standing: COMMITTED, offer: None };
        let other = &mut self.parties[1 - party];
        if other.standing == OFFERED {
            other.standing = STALE;
        }
        0
    }
}

/// A session with its model, and what a fault keeps of its calls.
pub struct Table {
    pub session: Session,
    pub model: Model,
    memory: Memory,
}

impl Table {
    /// Any value as a session.
    pub fn new(session: Session) -> Table {
        Table { model: Model::foreign(&session), session, memory: Memory::default() }
    }
}

pub struct Player<'a> {
    pub library: &'a Library,
    pub chance: &'a mut Chance,
    /// The ends that questions have, if no others.
    pub ends: (u16, u16),
    /// The last question of anyone.
    last: Question,
    /// The settings slice as the caller has it by now.
    lent: Vec<i32>,
    /// Whether each call is held to the model.
    pub judged: bool,
    /// What was compared: the call, the result and the answer.
    pub met: Vec<(&'static str, u8, &'static str)>,
}

/// A value for a session's memory, before any start.
pub fn junk(chance: &mut Chance) -> Session {
    let mut numbers = || chance.next();
    Session {
        nodes: numbers() as u16,
        edges: numbers() as u16,
        outer: numbers() as u16,
        standing: [(); 2].map(|_| numbers() as u8 % 5),
        tails: [(); DARTS].map(|_| numbers() as u16),
        rotations: [(); DARTS].map(|_| numbers() as u16),
        limits: [(); DARTS].map(|_| numbers() as i32),
        left: [(); DARTS].map(|_| numbers() as i32),
        offers: [[(); EDGES]; 2].map(|offer| offer.map(|_| numbers() as i32)),
    }
}

impl<'a> Player<'a> {
    pub fn new(library: &'a Library, chance: &'a mut Chance, source: usize, sink: usize) -> Player<'a> {
        let ends = (source as u16, sink as u16);
        Player { library, chance, ends, last: Question { source: ends.0, sink: ends.1, value: 0 }, lent: vec![], judged: true, met: vec![] }
    }

    /// A sequence of calls on a drawing, now and then with another start among them; then values that no start gave.
    pub fn play(&mut self, drawing: &Drawing) -> Result<(), String> {
        let mut table = Table::new(junk(self.chance));
        for _ in 0..3 {
            self.call(&mut table)?;
        }
        self.start(&mut table, drawing)?;
        let calls = if drawing.edges() > 60 { 8 } else { 20 };
        for _ in 0..calls {
            let seldom = if table.model.drawing.is_some() { 20 } else { 3 };
            if self.chance.one_in(seldom) {
                self.start(&mut table, drawing)?;
            } else {
                self.call(&mut table)?;
            }
        }
        for _ in 0..3 {
            let mut other = Table::new(self.spoilt(&table.session));
            for _ in 0..3 {
                self.call(&mut other)?;
            }
        }
        Ok(())
    }

    pub fn start(&mut self, table: &mut Table, drawing: &Drawing) -> Result<(), String> {
        let sheet = if self.chance.one_in(4) { damage::bytes(self.chance, drawing) } else { drawing.bytes() };
        self.step(Call::Start(sheet), table)?;
        Ok(())
    }

    /// A call that is no start, by anyone.
    fn call(&mut self, table: &mut Table) -> Result<(), String> {
        let party = self.chance.pick(&[0, 0, 0, 0, 0, 0, 0, 0, 1, 1, 1, 1, 1, 1, 1, 1, 2, u16::MAX]);
        let of = match self.chance.below(16) {
            0..=1 => Call::Clear,
            2..=5 => Call::Commit { party },
            _ => Call::Ask { party, question: self.question(&table.model) },
        };
        self.step(of, table)?;
        Ok(())
    }

    /// A question whose value is at the edges of what the limits left allow, or anywhere; the ends exchanged, or no nodes, now and then; or the last once more.
    pub fn question(&mut self, model: &Model) -> Question {
        if self.chance.one_in(6) {
            return self.last;
        }
        let (mut source, mut sink) = self.ends;
        if self.chance.one_in(4) {
            (source, sink) = (sink, source);
        }
        let nodes = model.drawing.as_ref().map_or(0, |drawing| drawing.nodes);
        match self.chance.below(20) {
            0 => sink = source,
            1 => source = nodes,
            2 => sink = self.chance.next() as u16,
            3..=6 => sink = self.chance.below(nodes.max(1) as usize) as u16,
            _ => {}
        }
        let (least, largest) = reach(model, source, sink).unwrap_or((-3, 3));
        let value = match self.chance.below(10) {
            0 => largest + 1,
            1 => largest + 1 + self.chance.below(1000) as i64,
            2 => least - 1,
            3 => largest,
            4 => self.chance.pick(&[600_000_000, 600_000_001, -600_000_000, -600_000_001, i32::MAX as i64, i32::MIN as i64]),
            _ => self.chance.between(least, largest),
        };
        Question { source, sink, value: value.clamp(i32::MIN as i64, i32::MAX as i64) as i32 }
    }

    /// The session with one field changed, so that it may be no session any more.
    pub fn spoilt(&mut self, session: &Session) -> Session {
        let mut s = session.clone();
        let dart = self.chance.below(2 * s.edges.clamp(1, 512) as usize);
        let great = self.chance.pick(&[i32::MIN, i32::MAX, 2_000_001, -2_000_001, -1]);
        let party = self.chance.below(2);
        match self.chance.below(12) {
            0 => s.nodes = self.chance.pick(&[0, 1, s.nodes.wrapping_add(1), 1024, 1025, u16::MAX]),
            1 => s.edges = self.chance.pick(&[0, s.edges.wrapping_sub(1), s.edges.wrapping_add(1), 512, 513, u16::MAX]),
            2 => s.outer = self.chance.pick(&[0, s.edges.wrapping_mul(2), s.edges.wrapping_mul(2).wrapping_sub(1), u16::MAX]),
            3 => s.standing[party] = self.chance.pick(&[0, 1, 2, 3, 4, 255]),
            4 => s.standing = [self.chance.pick(&[1, 3]), self.chance.pick(&[1, 3])],
            5 => s.tails[dart] = self.chance.pick(&[0, s.nodes, u16::MAX]),
            6 => s.rotations[dart] = self.chance.pick(&[0, s.edges.wrapping_mul(2), u16::MAX, dart as u16]),
            7 => s.limits[dart] = great,
            8 => s.left[dart] = great,
            9 => s.left.iter_mut().for_each(|limit| *limit = great),
            10 => (s.standing[party], s.offers[party][dart / 2]) = (OFFERED, great),
            _ => (s.standing[party], s.offers[party]) = (OFFERED, [great; EDGES]),
        }
        s
    }

    /// What a call is lent: slices now and then too short, and answers that no call gives.
    pub fn lend(&mut self, model: &Model) -> Answer {
        let (edges, words) = model.drawing.as_ref().map_or((3, 1), |drawing| (drawing.edges(), drawing.words()));
        let [flows, set] = [edges, words].map(|needed| if self.chance.one_in(16) { needed.saturating_sub(1) } else { needed + self.chance.below(3) });
        Answer { flows: self.chance.junk(flows, |x| x as i32), set: self.chance.junk(set, |x| x), can: 0xa5, size: 0xbeef, place: 0xbeef, guards: true }
    }

    fn step(&mut self, of: Call, table: &mut Table) -> Result<(u8, Answer), String> {
        let came = self.lend(&table.model);
        self.step_with(of, came, table)
    }

    /// One call, held to the model, which goes on with it: the result, and what was lent as it was left.
    pub fn step_with(&mut self, of: Call, came: Answer, table: &mut Table) -> Result<(u8, Answer), String> {
        let Table { session, model, memory } = table;
        let before = session.clone();
        let mut answer = came.clone();
        let result = match self.library.fault {
            Some(fault) => faulty(fault, &of, session, &mut answer, &self.lent, memory),
            None => call(&of, session, &mut answer),
        };
        let mut due = Due { session: before.clone(), answer: came, told: "done", objection: None };
        let number = model.go(&of, &answer, &mut due);
        self.met.push((of.name(), result, due.told));
        self.lent = self.chance.junk(answer.flows.len(), |x| x as i32 % 3); // the caller's slice is the caller's: an offer is not read from it
        if let Call::Ask { question, .. } = of {
            self.last = question;
        }
        let right = result == number && *session == due.session && answer == due.answer && due.objection.is_none();
        if right || !self.judged {
            return Ok((result, answer));
        }
        Err(difference(&of, [&before, session, &due.session], (result, &answer), (number, &due)))
    }
}

/// The least and the largest that the limits left allow between two nodes, if there are two and any value is possible.
pub fn reach(model: &Model, source: u16, sink: u16) -> Option<(i64, i64)> {
    let left = model.remaining().filter(|left| source != sink && source < left.nodes && sink < left.nodes)?;
    range(&left, source as usize, sink as usize)
}

fn difference(of: &Call, [before, session, expected]: [&Session; 3], (result, answer): (u8, &Answer), (number, due): (u8, &Due)) -> String {
    let mut text = String::new();
    let call = format!("{of:?}");
    writeln!(text, "{}\nresult {result}, not {number}; answer {answer:?}, not {:?} {:?}", &call[..call.len().min(200)], due.answer, due.objection).unwrap();
    let fields = |s: &Session| format!("{} {} {} {:?}", s.nodes, s.edges, s.outer, s.standing);
    writeln!(text, "session {}, not {}, before {}", fields(session), fields(expected), fields(before)).unwrap();
    let most = 2 * (expected.edges as usize).clamp(4, 8);
    writeln!(text, "limits {:?}, not {:?}", &session.limits[..most], &expected.limits[..most]).unwrap();
    writeln!(text, "left {:?}, not {:?}", &session.left[..most], &expected.left[..most]).unwrap();
    for party in 0..2 {
        writeln!(text, "offer {party} {:?}, not {:?}", &session.offers[party][..most / 2], &expected.offers[party][..most / 2]).unwrap();
    }
    text
}

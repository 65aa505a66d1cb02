//! Pairs of runs (document 02, Job 12): "If two runs from one start differ only in one party's asks and refused commits, and have the same accepted commits with
//! the same flows and the same clears, in the same order, between the same calls of the other party, the other party gets the same answers." Each run has a start
//! of its own, of one sheet, in memory that held other things. The first run is made up as it goes; the second has the same events, and other asks and refused
//! commits between them. What the watched party is told, and its slices as they are left, must be the same in every byte. Each call of both is held to the model
//! too.
use crate::drawing::Drawing;
use crate::sessions::{junk, reach, Answer, Call, Player, Question, Table};

/// What both runs have. The watched party's calls come with what they are lent.
enum Event {
    Own(Call, Answer),
    /// The other party asks this, "can", and commits it.
    Theirs(Question),
    Clear,
}

/// What the watched party gets of its calls.
type Gifts = Vec<(u8, Answer)>;

/// What is said where two starts of one sheet leave different sessions.
const SHEET_DECIDES: &str = "two starts of one sheet, in memory that held other things, leave two sessions";

/// The name under which pairs are counted.
pub const NAME: &str = "Pair of runs";

impl Player<'_> {
    pub fn pair(&mut self, drawing: &Drawing) -> Result<(), String> {
        let watched = self.chance.below(2) as u16;
        let starts = self.starts(drawing)?;
        let ([mut first, mut second], mut script) = (starts, vec![]);
        let (mut told, mut retold) = (vec![], vec![]);
        let events = if drawing.edges() > 60 { 5 } else { 10 };
        for _ in 0..events {
            self.between(1 - watched, &mut first)?;
            let event = self.event(watched, &first);
            self.happen(&event, watched, &mut first, &mut told)?;
            script.push(event);
        }
        for event in &script {
            self.between(1 - watched, &mut second)?;
            self.happen(event, watched, &mut second, &mut retold)?;
        }
        if let Some(at) = (0..told.len()).find(|&at| told[at] != retold[at]) {
            let calls: Vec<_> = script.iter().filter_map(|event| if let Event::Own(of, _) = event { Some(of) } else { None }).collect();
            return Err(format!("two runs that party {watched} cannot tell apart\n{:?}\n{:?} and {:?}\n", calls[at], told[at], retold[at]));
        }
        self.met.push((NAME, 0, kind(&told)));
        Ok(())
    }

    /// One start, twice, in memory that held other things: the sessions must be the same in every place. Now and then a refused one, or a value that no start
    /// gave.
    fn starts(&mut self, drawing: &Drawing) -> Result<[Table; 2], String> {
        let mut tables = [Table::new(junk(self.chance)), Table::new(junk(self.chance))];
        let mut sheet = drawing.bytes();
        if self.chance.one_in(24) {
            sheet.pop();
        }
        for table in &mut tables {
            let came = self.lend(&table.model);
            self.step_with(Call::Start(sheet.clone()), came, table)?;
        }
        if tables[0].session != tables[1].session {
            return Err(format!("{SHEET_DECIDES}\n"));
        }
        if self.chance.one_in(12) {
            let session = self.spoilt(&tables[0].session);
            tables = [Table::new(session.clone()), Table::new(session)];
        }
        Ok(tables)
    }

    fn event(&mut self, watched: u16, table: &Table) -> Event {
        if table.model.has_committed(watched) && self.chance.one_in(3) {
            return Event::Clear; // it could not ask before one
        }
        let of = match self.chance.below(10) {
            0 => return Event::Clear,
            1..=3 => match self.deliverable(1 - watched, table) {
                Some(question) => return Event::Theirs(question),
                None => return Event::Clear,
            },
            4 => Call::Commit { party: watched },
            _ => Call::Ask { party: watched, question: self.question(&table.model) },
        };
        Event::Own(of, self.lend(&table.model))
    }

    /// A question that can be answered with "can" to this party, if it has not committed.
    fn deliverable(&mut self, party: u16, table: &Table) -> Option<Question> {
        let (source, sink) = self.ends;
        let (least, largest) = reach(&table.model, source, sink).filter(|_| !table.model.has_committed(party))?;
        let (least, largest) = (least.max(-600_000_000), largest.min(600_000_000));
        (least <= largest).then(|| Question { source, sink, value: self.chance.between(least, largest) as i32 })
    }

    fn happen(&mut self, event: &Event, watched: u16, table: &mut Table, gifts: &mut Gifts) -> Result<(), String> {
        match event {
            Event::Own(of, came) => gifts.push(self.step_with(of.clone(), came.clone(), table)?),
            Event::Clear => {
                let came = self.lend(&table.model);
                self.step_with(Call::Clear, came, table)?;
            }
            Event::Theirs(question) => self.let_in(1 - watched, *question, table)?,
        }
        Ok(())
    }

    /// The flows of a question, committed: shown by it or by the same with ends and sign exchanged, and something that keeps the offer between.
    fn let_in(&mut self, party: u16, question: Question, table: &mut Table) -> Result<(), String> {
        let Question { source, sink, value } = question;
        let turned = Question { source: sink, sink: source, value: -value };
        let of = Call::Ask { party, question: self.chance.pick(&[question, turned]) };
        let mut came = self.lend(&table.model);
        let (edges, words) = table.model.drawing.as_ref().map_or((0, 0), |drawing| (drawing.edges(), drawing.words()));
        came.flows.resize(edges.max(came.flows.len()), 0);
        came.set.resize(words.max(came.set.len()), 0);
        self.step_with(of, came, table)?;
        if self.chance.one_in(2) {
            let question = Question { source, sink: source, value };
            let of = self.chance.pick(&[Some(party), None]).map_or(Call::Commit { party: 2 }, |party| Call::Ask { party, question });
            let came = self.lend(&table.model);
            self.step_with(of, came, table)?;
        }
        let came = self.lend(&table.model);
        match self.step_with(Call::Commit { party }, came, table)? {
            (0, _) => Ok(()),
            (number, _) => Err(format!("a commit of {question:?} by party {party} is refused {number}\n")),
        }
    }

    /// What the runs may differ in: asks of the other party, commits of it that are refused, and calls of no party.
    fn between(&mut self, party: u16, table: &mut Table) -> Result<(), String> {
        let calls = self.chance.pick(&[0, 0, 1, 2]);
        for _ in 0..calls {
            let party = if self.chance.one_in(8) { self.chance.pick(&[2, u16::MAX]) } else { party };
            let refused = party > 1 || !table.model.would_commit(party);
            let of = if refused && self.chance.one_in(4) { Call::Commit { party } } else { Call::Ask { party, question: self.question(&table.model) } };
            let came = self.lend(&table.model);
            self.step_with(of, came, table)?;
        }
        Ok(())
    }
}

fn kind(gifts: &Gifts) -> &'static str {
    let several = |(result, answer): &(u8, Answer)| *result == 0 && answer.can == 0 && answer.size > 1;
    let answered = |(result, answer): &(u8, Answer)| *result == 0 && answer.can < 2;
    if gifts.iter().any(several) {
        "with a set of several nodes"
    } else if gifts.iter().any(answered) {
        "with other answers"
    } else {
        "with refusals at most"
    }
}

#[cfg(test)]
mod tests {
    use super::*;
    use crate::chance::Chance;
    use crate::faults::{Fault, Library};
    use crate::grow::grow;

    /// Whether one of many pairs says this, without the model.
    fn told(fault: Option<Fault>, says: &str) -> bool {
        let library = Library { fault };
        (0..300).any(|number| {
            let mut chance = Chance::new(11, number);
            let grown = grow(&mut chance, number);
            let mut player = Player::new(&library, &mut chance, grown.source, grown.sink);
            player.judged = false;
            player.pair(&grown.drawing).is_err_and(|text| text.contains(says))
        })
    }

    #[test]
    fn leaks_are_told_by_the_runs_alone() {
        use Fault::*;
        assert!(!told(None, "cannot tell apart"));
        for fault in [SetByTheOthersQuestion, OthersOfferHeld, OthersLastAnswer, AskMakesStale, RefusedCommitMakesStale] {
            assert!(told(Some(fault), "cannot tell apart"), "{fault:?}");
        }
    }

    #[test]
    fn what_a_start_leaves_is_told_by_two_of_them_alone() {
        use Fault::*;
        assert!(!told(None, SHEET_DECIDES));
        for fault in [StartLeavesTheOldOffer, RefusedStartLeavesArrays, StartKeepsOffer, RefusedStartKeeps] {
            assert!(told(Some(fault), SHEET_DECIDES), "{fault:?}");
        }
    }
}

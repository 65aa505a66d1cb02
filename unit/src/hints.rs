//! Where a sheet is wrong: a hint of this command beside the unit's refusal, found here and proved by nobody. It names the line, the channel, the dart or the
//! node.
use crate::library::{self, Refusal};
use crate::sheets::{Sheet, SheetText};
use bindings::{MAX_CHANNELS, MAX_NODES};

/// What a sheet holds, as far as its records can be read, and how its places are named.
struct Look<'a> {
    sheet: &'a Sheet,
    text: SheetText,
}

pub fn of(sheet: &Sheet, refusal: Refusal) -> Option<String> {
    let nodes = || library::read(&sheet.bytes).ok();
    match refusal.number {
        1 | 2 | 8 => Some(format!("{}: {}", sheet.name, SheetText::partial(&sheet.bytes).1?)),
        13 => Some(format!("the nodes of the sheet are 0 to {}", nodes()?.nodes - 1)),
        16 => Some(format!("the sheet has {} channels", nodes()?.channels)),
        number => Look { sheet, text: SheetText::partial(&sheet.bytes).0 }.of(number),
    }
}

impl Look<'_> {
    fn of(&self, number: u8) -> Option<String> {
        match number {
            3 => self.counts(),
            24 => Some(self.head(format!("the outer dart {} is no dart: the darts are 0 to {}", self.text.outer?, self.darts() - 1))),
            4..=7 => (0..self.text.tails.len() / 2).find_map(|channel| Some(self.channel(channel, self.field(number, channel)?))),
            9 => self.turns(),
            10 => self.rounds(),
            12 => self.faces(),
            _ => None,
        }
    }

    fn darts(&self) -> usize {
        2 * self.text.channels as usize
    }

    fn head(&self, what: String) -> String {
        match self.sheet.head_line {
            0 => format!("{}: {what}", self.sheet.name),
            line => format!("{}:{line}: {what}", self.sheet.name),
        }
    }

    fn channel(&self, channel: usize, what: String) -> String {
        match self.sheet.lines.get(channel) {
            None => format!("{}: channel {channel}: {what}", self.sheet.name),
            Some(line) => format!("{}:{line}: channel {channel}: {what}", self.sheet.name),
        }
    }

    fn counts(&self) -> Option<String> {
        let (nodes, channels) = (self.text.nodes as usize, self.darts() / 2);
        if !(2..=MAX_NODES).contains(&nodes) {
            return Some(self.head(format!("{nodes} nodes, where 2 to {MAX_NODES} are taken")));
        }
        Some(self.head(format!("{channels} channels, where 1 to {MAX_CHANNELS} are taken")))
    }

    /// What is wrong with a field of a channel, by the number of the refusal.
    fn field(&self, number: u8, channel: usize) -> Option<String> {
        let SheetText { nodes, tails, turns, limits, .. } = &self.text;
        let darts = [2 * channel, 2 * channel + 1];
        let [forward, back] = darts.map(|dart| limits[dart] as i64);
        match number {
            4 => darts.iter().find(|&&dart| tails[dart] >= *nodes).map(|&dart| format!("there is no node {}: the last is {}", tails[dart], nodes - 1)),
            5 => {
                let wrong = darts.into_iter().find(|&dart| turns[dart] as usize >= self.darts())?;
                Some(format!("the turn of dart {wrong} is {}, and the last dart is {}", turns[wrong], self.darts() - 1))
            }
            6 => {
                let name = |at: usize| ["forward", "back"][at];
                let at = [forward, back].iter().position(|limit| limit.abs() > 1_000_000)?;
                Some(format!("the {} limit is {}, where -1000000 to 1000000 is taken", name(at), [forward, back][at]))
            }
            _ if forward + back < 0 => Some(format!("at most {forward} may run, and at least {}: the limits leave no setting", -back)),
            _ => None,
        }
    }

    fn turns(&self) -> Option<String> {
        let SheetText { tails, turns, .. } = &self.text;
        let told = |dart: usize| turns.iter().any(|&turn| turn as usize == dart);
        let astray = |&dart: &usize| tails[turns[dart] as usize] != tails[dart];
        let doubled = |&dart: &usize| turns[..dart].contains(&turns[dart]);
        let (dart, what) = match (0..self.darts()).find(astray) {
            Some(dart) => (dart, format!("{}, out of node {}", turns[dart], tails[turns[dart] as usize])),
            None => {
                let dart = (0..self.darts()).find(doubled)?;
                let first = turns.iter().position(|turn| *turn == turns[dart])?;
                (dart, format!("{}, as dart {first} does", turns[dart]))
            }
        };
        let due = (0..self.darts()).find(|&other| tails[other] == tails[dart] && !told(other));
        let due = due.map_or(String::new(), |other| format!("; none turns to dart {other}, out of node {} too", tails[dart]));
        Some(self.channel(dart / 2, format!("dart {dart}, out of node {}, turns to dart {what}{due}", tails[dart])))
    }

    /// The darts of a round of turns.
    fn round(&self, turns: &[u16], from: usize) -> Vec<usize> {
        let mut round = vec![from];
        while turns[round[round.len() - 1]] as usize != from {
            round.push(turns[round[round.len() - 1]] as usize);
        }
        round
    }

    fn rounds(&self) -> Option<String> {
        let SheetText { nodes, tails, turns, .. } = &self.text;
        for node in 0..*nodes {
            let Some(first) = tails.iter().position(|&tail| tail == node) else {
                return Some(format!("{}: no channel begins or ends at node {node}", self.sheet.name));
            };
            let round = self.round(turns, first);
            if let Some(other) = (0..self.darts()).find(|dart| tails[*dart] == node && !round.contains(dart)) {
                let said = |round: Vec<usize>| round.iter().map(usize::to_string).collect::<Vec<_>>().join(" ");
                let rounds = format!("{} and {}", said(round), said(self.round(turns, other)));
                return Some(self.channel(other / 2, format!("the turns of node {node} make more rounds than one: darts {rounds}")));
            }
        }
        None
    }

    /// How many faces these turns make: a face step is the turn of the reverse.
    fn count_faces(&self, turns: &[u16]) -> usize {
        let mut met = vec![false; self.darts()];
        let mut faces = 0;
        for start in 0..self.darts() {
            let mut dart = start;
            faces += !met[start] as usize;
            while !met[dart] {
                met[dart] = true;
                dart = turns[dart ^ 1] as usize;
            }
        }
        faces
    }

    /// How many parts hang together.
    fn parts(&self) -> usize {
        let mut part: Vec<usize> = (0..self.text.nodes as usize).collect();
        for ends in self.text.tails.chunks(2) {
            let [one, other] = [ends[0], ends[1]].map(|node| part[node as usize]);
            part.iter_mut().filter(|part| **part == one).for_each(|part| *part = other);
        }
        part.iter().enumerate().filter(|(node, part)| node == *part).count()
    }

    /// A change at one node that would make it flat, or the count.
    fn faces(&self) -> Option<String> {
        let SheetText { nodes, tails, turns, .. } = &self.text;
        let (nodes, channels) = (*nodes as usize, self.darts() / 2);
        let due = channels + 2 * self.parts() - nodes;
        let mended = |round: &[usize]| {
            let mut new = turns.clone();
            round.iter().zip(round.iter().cycle().skip(1)).for_each(|(&dart, &next)| new[dart] = next as u16);
            self.count_faces(&new) == due
        };
        let firsts = (0..nodes).filter_map(|node| tails.iter().position(|&tail| tail as usize == node));
        let rounds: Vec<Vec<usize>> = firsts.map(|dart| self.round(turns, dart)).filter(|round| round.len() > 2).collect();
        if let Some(round) = rounds.iter().find(|round| mended(&round.iter().rev().copied().collect::<Vec<_>>())) {
            let node = tails[round[0]];
            return Some(self.channel(round[0] / 2, format!("the other way round, the turns of node {node} would make it flat: they go clockwise")));
        }
        for round in rounds.iter().filter(|round| round.len() <= MOST_DARTS) {
            for (i, j) in (1..round.len()).flat_map(|j| (0..j).map(move |i| (i, j))) {
                let mut other = round.clone();
                other.swap(i, j);
                if mended(&other) {
                    let what = format!("with darts {} and {} exchanged in the turns of node {} it would be flat", round[i], round[j], tails[round[0]]);
                    return Some(self.channel(round[i] / 2, what));
                }
            }
        }
        let found = self.count_faces(turns);
        Some(format!("{}: the turns make {found} faces, a flat drawing has {due}: at more nodes than one they are not as on the paper", self.sheet.name))
    }
}

/// Nodes with more darts are passed over where exchanges are tried.
const MOST_DARTS: usize = 12;

#[cfg(test)]
mod tests {
    use super::*;
    use crate::text::file;

    fn hint(number: u8, text: &str) -> String {
        let sheet = SheetText::parse(&file(text)).unwrap().sheet("f".to_string());
        of(&sheet, Refusal { number, place: 0 }).unwrap_or_default()
    }

    const A: &str = "nodes 2\nouter 0\n0 1 2 5 5 0\n0 1 4 1 3 0\n0 1 0 3 4 0\n";

    #[test]
    fn the_line_and_the_channel_are_named() {
        for (number, old, new, due) in [
            (3, "nodes 2", "nodes 1", "f:2: 1 nodes, where 2 to 513 are taken"),
            (24, "outer 0", "outer 6", "f:2: the outer dart 6 is no dart: the darts are 0 to 5"),
            (4, "0 1 4", "0 2 4", "f:4: channel 1: there is no node 2: the last is 1"),
            (5, "0 1 0 3", "0 1 0 6", "f:5: channel 2: the turn of dart 5 is 6, and the last dart is 5"),
            (6, "3 0\n", "3 -1000001\n", "f:4: channel 1: the back limit is -1000001, where -1000000 to 1000000 is taken"),
            (7, "4 0\n", "4 -5\n", "f:5: channel 2: at most 4 may run, and at least 5: the limits leave no setting"),
            (9, "2 5 5", "3 5 5", "f:3: channel 0: dart 0, out of node 0, turns to dart 3, out of node 1TOO"),
            (9, "2 5 5", "4 5 5", "f:4: channel 1: dart 2, out of node 0, turns to dart 4, as dart 0 doesTOO"),
            (10, "nodes 2", "nodes 3", "f: no channel begins or ends at node 2"),
            (10, "0 1 2 5 5", "0 1 0 5 5", "f:4: channel 1: the turns of node 0 make more rounds than one: darts 0 and 2 4"),
        ] {
            let text = if (number, new) == (10, "0 1 0 5 5") { A.replace(old, new).replace("0 1 0 3 4", "0 1 2 3 4") } else { A.replacen(old, new, 1) };
            assert_eq!(hint(number, &text), due.replace("TOO", "; none turns to dart 2, out of node 0 too"));
        }
    }

    #[test]
    fn a_twist_is_found_at_a_node() {
        let twisted = "nodes 2\n0 1 2 3 5 0\n0 1 4 5 3 0\n0 1 0 1 4 0\n";
        assert_eq!(hint(12, twisted), "f:2: channel 0: the other way round, the turns of node 0 would make it flat: they go clockwise");
    }

    #[test]
    fn records_are_counted() {
        let sheet = |bytes: &[u8]| Sheet { name: "f".to_string(), question: None, bytes: bytes.to_vec(), lines: vec![], head_line: 0 };
        let said = |number: u8, bytes: &[u8]| of(&sheet(bytes), Refusal { number, place: 0 }).unwrap();
        assert_eq!(said(1, b""), "f: it ends after 0 bytes, where a head is due");
        assert_eq!(said(1, &[1, 2, 0, 1, 0, 2, 0]), "f: it ends after 7 bytes, within a channel: channel 0");
        assert_eq!(said(2, &[1, 2, 0, 1, 0, 9]), "f: byte 5 is 9, where a channel (kind 2) is due: channel 0");
        assert_eq!(said(8, &[1, 2, 0, 0, 0, 9]), "f: bytes left over after the last channel: 1");
        assert_eq!(said(3, &[1, 2, 0, 88, 2]), "f: 600 channels, where 1 to 512 are taken");
    }
}

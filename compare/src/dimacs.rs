//! The DIMACS maximum flow text: written from a drawing word by word, and any such text read and solved by itself, with no drawing at hand. The solver is not that
//! of `flow`: augmenting paths of at least a falling width (capacity scaling).
use crate::drawing::Drawing;
use std::fmt::Write;

/// "problem line, the two node lines with the headgate as source first, then two arc lines per channel, forward first. Nodes count from 1."
pub fn text(drawing: &Drawing, source: u16, sink: u16) -> String {
    let mut text = format!("p max {} {}\nn {} s\nn {} t\n", drawing.nodes, 2 * drawing.edges(), source as u32 + 1, sink as u32 + 1);
    for edge in 0..drawing.edges() {
        let (tail, head) = (drawing.tail(2 * edge) + 1, drawing.head(2 * edge) + 1);
        writeln!(text, "a {tail} {head} {}", drawing.capacities[2 * edge]).unwrap();
        writeln!(text, "a {head} {tail} {}", drawing.capacities[2 * edge + 1]).unwrap();
    }
    text
}

/// What a text says.
#[derive(Debug, PartialEq)]
pub struct Problem {
    nodes: usize,
    source: usize,
    sink: usize,
    arcs: Vec<(usize, usize, i64)>,
}

impl Problem {
    /// Reads a text, and objects to whatever is not of the form: a number with a zero in front, a node that is none, another number of arcs than announced.
    pub fn read(text: &str) -> Result<Problem, String> {
        let number = |word: &str| match word.parse::<u32>() {
            Ok(number) if number.to_string() == word => Ok(number as i64),
            _ => Err(format!("no number: {word:?}")),
        };
        let (mut counts, mut source, mut sink, mut arcs) = (None, None, None, vec![]);
        let body = text.strip_suffix('\n').ok_or("no line feed at the end")?;
        for line in body.split('\n') {
            let words: Vec<&str> = line.split(' ').collect();
            let node = |word: &str| match (counts, number(word)?) {
                (Some((nodes, _)), node) if (1..=nodes).contains(&node) => Ok(node as usize - 1),
                _ => Err(format!("no node: {line:?}")),
            };
            match words[..] {
                ["p", "max", nodes, size] if counts.is_none() => counts = Some((number(nodes)?, number(size)?)),
                ["n", v, "s"] if source.is_none() && arcs.is_empty() => source = Some(node(v)?),
                ["n", v, "t"] if sink.is_none() && source.is_some() && arcs.is_empty() => sink = Some(node(v)?),
                ["a", from, to, capacity] => arcs.push((node(from)?, node(to)?, number(capacity)?)),
                _ => return Err(format!("not of the form: {line:?}")),
            }
        }
        match (counts, source, sink) {
            (Some((nodes, size)), Some(source), Some(sink)) if size == arcs.len() as i64 && source != sink => {
                Ok(Problem { nodes: nodes as usize, source, sink, arcs })
            }
            _ => Err("a line is missing, or an arc, or the source is the sink".to_string()),
        }
    }

    /// The value of its greatest flow.
    pub fn greatest(&self) -> i64 {
        let mut out = vec![vec![]; self.nodes];
        let (mut heads, mut room) = (vec![], vec![]);
        for &(from, to, capacity) in &self.arcs {
            for (tail, head, most) in [(from, to, capacity), (to, from, 0)] {
                out[tail].push(heads.len());
                heads.push(head);
                room.push(most);
            }
        }
        let (mut total, mut width) = (0, 1 << 32);
        while width > 0 {
            while let Some(path) = self.path(&out, &heads, &room, width) {
                let least = path.iter().map(|&arc| room[arc]).min().expect("source and sink are two");
                for arc in path {
                    room[arc] -= least;
                    room[arc ^ 1] += least;
                }
                total += least;
            }
            width /= 2;
        }
        total
    }

    /// A path from source to sink over arcs with this much room.
    fn path(&self, out: &[Vec<usize>], heads: &[usize], room: &[i64], width: i64) -> Option<Vec<usize>> {
        let mut by = vec![None; self.nodes];
        let mut stack = vec![self.source];
        while let Some(node) = stack.pop() {
            for &arc in &out[node] {
                if room[arc] >= width && by[heads[arc]].is_none() && heads[arc] != self.source {
                    by[heads[arc]] = Some(arc);
                    stack.push(heads[arc]);
                }
            }
        }
        let (mut path, mut node) = (vec![], self.sink);
        while node != self.source {
            let arc = by[node]?;
            path.push(arc);
            node = heads[arc ^ 1];
        }
        Some(path)
    }
}

#[cfg(test)]
mod tests {
    use super::*;
    use crate::paper;

    #[test]
    fn drawing_a() {
        let text = text(&paper::a(), 0, 1);
        assert_eq!(text, "p max 2 6\nn 1 s\nn 2 t\na 1 2 5\na 2 1 0\na 1 2 3\na 2 1 0\na 1 2 4\na 2 1 0\n");
        assert_eq!(Problem::read(&text).unwrap().greatest(), 12);
        assert_eq!(Problem::read(&super::text(&paper::a(), 1, 0)).unwrap().greatest(), 0);
    }

    /// Flow must be taken back along arcs that were filled first.
    #[test]
    fn a_crossing() {
        let text = "p max 4 5\nn 1 s\nn 4 t\na 1 2 1\na 1 3 1\na 2 3 1\na 2 4 1\na 3 4 1\n";
        assert_eq!(Problem::read(text).unwrap().greatest(), 2);
    }

    #[test]
    fn what_is_not_of_the_form() {
        for text in ["", "p max 2 1\nn 1 s\nn 2 t\na 1 2 5", "p max 2 1\nn 2 t\nn 1 s\na 1 2 5\n", "p max 2 1\nn 1 s\nn 2 t\na 0 1 5\n"] {
            assert!(Problem::read(text).is_err(), "{text:?}");
        }
        for text in ["p max 2 2\nn 1 s\nn 2 t\na 1 2 5\n", "p max 2 1\nn 1 s\nn 2 t\na 1 2 05\n", "p max 2 1\nn 1 s\nn 2 t\na 1  2 5\n"] {
            assert!(Problem::read(text).is_err(), "{text:?}");
        }
    }
}

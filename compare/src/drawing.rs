//! A drawing: nodes, the tail, rotation (the paper's "turn") and capacity ("limit") of each dart, and perhaps a dart on its outer face. It need not be right:
//! damaged ones are drawings too.
use std::fmt::Write;

#[derive(Clone, Debug, Default, PartialEq)]
pub struct Drawing {
    pub nodes: u16,
    pub tails: Vec<u16>,
    pub rotations: Vec<u16>,
    pub capacities: Vec<i32>,
    /// The outer dart that a head of kind 4 names; a head of kind 1 names none.
    pub outer: Option<u16>,
}

/// The bytes of a head of kind 1 and of kind 4, and of an edge.
pub const HEAD: usize = 5;
pub const OUTER_HEAD: usize = 7;
pub const EDGE: usize = 17;

impl Drawing {
    pub fn darts(&self) -> usize {
        self.tails.len()
    }

    pub fn edges(&self) -> usize {
        self.tails.len() / 2
    }

    /// "A kind 1 head is still read, as outer dart 0."
    pub fn outer_dart(&self) -> usize {
        self.outer.unwrap_or(0) as usize
    }

    /// The bytes of its head.
    pub fn head_length(&self) -> usize {
        if self.outer.is_some() {
            OUTER_HEAD
        } else {
            HEAD
        }
    }

    pub fn tail(&self, dart: usize) -> usize {
        self.tails[dart] as usize
    }

    pub fn head(&self, dart: usize) -> usize {
        self.tail(dart ^ 1)
    }

    pub fn capacity(&self, dart: usize) -> i64 {
        self.capacities[dart] as i64
    }

    /// The same with this forward capacity of an edge.
    pub fn with_limit(&self, edge: usize, limit: i64) -> Drawing {
        let mut other = self.clone();
        other.capacities[2 * edge] = limit as i32;
        other
    }

    /// The 64-bit words that a set of its nodes needs.
    pub fn words(&self) -> usize {
        (self.nodes as usize).div_ceil(64)
    }

    pub fn rotation(&self) -> Vec<usize> {
        self.rotations.iter().map(|&dart| dart as usize).collect()
    }

    /// The number of the face that holds each dart: "the face step of a dart is the turn of its reverse".
    pub fn faces(&self) -> Vec<usize> {
        let rotation = self.rotation();
        rounds(&(0..self.darts()).map(|dart| rotation[dart ^ 1]).collect::<Vec<_>>())
    }

    /// The number of the part that each node lies in: parts are what channels, followed either way, join.
    pub fn parts(&self) -> Vec<usize> {
        let mut part: Vec<usize> = (0..self.nodes as usize).collect();
        let mut changed = true;
        while changed {
            changed = false;
            for dart in 0..self.darts() {
                let (tail, head) = (self.tail(dart), self.head(dart));
                if part[head] < part[tail] {
                    part[tail] = part[head];
                    changed = true;
                }
            }
        }
        part
    }

    /// The faces at level 0: that of the outer dart, and in each part that it does not lie in the lowest.
    pub fn zero_faces(&self) -> Vec<usize> {
        let (parts, faces, outer) = (self.parts(), self.faces(), self.outer_dart());
        let part = |dart: usize| parts[self.tail(dart)];
        let mut zero: Vec<Option<usize>> = vec![None; parts.len()];
        for dart in 0..self.darts() {
            let lowest = zero[part(dart)].get_or_insert(faces[dart]);
            *lowest = faces[dart].min(*lowest);
        }
        zero[part(outer)] = Some(faces[outer]);
        zero.into_iter().flatten().collect()
    }

    pub fn bytes(&self) -> Vec<u8> {
        let mut bytes = vec![if self.outer.is_some() { 4 } else { 1 }];
        bytes.extend(self.nodes.to_le_bytes());
        bytes.extend((self.edges() as u16).to_le_bytes());
        bytes.extend(self.outer.iter().flat_map(|outer| outer.to_le_bytes()));
        for edge in 0..self.edges() {
            let (there, back) = (2 * edge, 2 * edge + 1);
            bytes.push(2);
            for field in [self.tails[there], self.tails[back], self.rotations[there], self.rotations[back]] {
                bytes.extend(field.to_le_bytes());
            }
            bytes.extend(self.capacities[there].to_le_bytes());
            bytes.extend(self.capacities[back].to_le_bytes());
        }
        bytes
    }

    /// From bytes with the kinds and the length of a sheet, whatever the numbers in it.
    pub fn of_bytes(bytes: &[u8]) -> Option<Drawing> {
        let short = |at: usize| u16::from_le_bytes([bytes[at], bytes[at + 1]]);
        let long = |at: usize| i32::from_le_bytes([bytes[at], bytes[at + 1], bytes[at + 2], bytes[at + 3]]);
        let head = match bytes.first()? {
            1 => HEAD,
            4 => OUTER_HEAD,
            _ => return None,
        };
        if bytes.len() < head || bytes.len() != head + EDGE * short(3) as usize {
            return None;
        }
        let mut drawing = Drawing { nodes: short(1), outer: (head == OUTER_HEAD).then(|| short(5)), ..Drawing::default() };
        for at in (head..bytes.len()).step_by(EDGE) {
            drawing.tails.extend([short(at + 1), short(at + 3)]);
            drawing.rotations.extend([short(at + 5), short(at + 7)]);
            drawing.capacities.extend([long(at + 9), long(at + 13)]);
        }
        (head..bytes.len()).step_by(EDGE).all(|at| bytes[at] == 2).then_some(drawing)
    }

    /// As tools/unit reads it.
    pub fn text(&self) -> String {
        let mut text = format!("nodes {}\n", self.nodes);
        if let Some(outer) = self.outer {
            writeln!(text, "outer {outer}").unwrap();
        }
        for there in (0..self.darts()).step_by(2) {
            let back = there + 1;
            let (tails, rotations, capacities) = (&self.tails, &self.rotations, &self.capacities);
            writeln!(text, "{} {} {} {} {} {}", tails[there], tails[back], rotations[there], rotations[back], capacities[there], capacities[back]).unwrap();
        }
        text
    }
}

/// The rounds of a permutation, numbered from 0 in order of their lowest element: the number of each element's round.
pub fn rounds(step: &[usize]) -> Vec<usize> {
    let mut number = vec![usize::MAX; step.len()];
    let mut next = 0;
    for first in 0..step.len() {
        if number[first] != usize::MAX {
            continue;
        }
        let mut element = first;
        while number[element] == usize::MAX {
            number[element] = next;
            element = step[element];
        }
        next += 1;
    }
    number
}

/// How many rounds such numbers name.
pub fn count(numbers: &[usize]) -> usize {
    numbers.iter().max().map_or(0, |greatest| greatest + 1)
}

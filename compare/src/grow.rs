//! Random drawings that are flat by construction: shapes with a known round of darts at each node, grown on edge by edge. An edge hangs a new node into a face, or
//! joins two corners of one face. Several such stand beside each other, as parts of one drawing; a part may be one node with loops. Nodes, edges and directions are then shuffled, and capacities laid on.
use crate::chance::Chance;
use crate::drawing::{count, Drawing};
use crate::levels;

pub const MOST_EDGES: usize = 512;
const GREATEST: i64 = 1_000_000;

/// A drawing without capacities: tails and rotations of the darts.
#[derive(Clone)]
pub struct Plan {
    pub nodes: usize,
    pub tails: Vec<usize>,
    pub rotations: Vec<usize>,
}

impl Plan {
    /// From the darts at each node, clockwise.
    fn of_rounds(rounds: &[Vec<usize>]) -> Plan {
        let darts = rounds.iter().map(Vec::len).sum();
        let mut plan = Plan { nodes: rounds.len(), tails: vec![0; darts], rotations: vec![0; darts] };
        for (node, round) in rounds.iter().enumerate() {
            for (at, &dart) in round.iter().enumerate() {
                plan.tails[dart] = node;
                plan.rotations[dart] = round[(at + 1) % round.len()];
            }
        }
        plan
    }

    fn edges(&self) -> usize {
        self.tails.len() / 2
    }

    /// Puts a new dart of this node into the corner between a dart and the next one clockwise.
    fn insert(&mut self, corner: usize, dart: usize) {
        self.tails[dart] = self.tails[corner];
        self.rotations[dart] = self.rotations[corner];
        self.rotations[corner] = dart;
    }

    fn new_edge(&mut self) -> (usize, usize) {
        let dart = self.tails.len();
        self.tails.extend([0, 0]);
        self.rotations.extend([dart, dart + 1]);
        (dart, dart + 1)
    }

    /// A new node, by an edge from this corner.
    fn hang(&mut self, corner: usize) {
        let (there, back) = self.new_edge();
        self.insert(corner, there);
        self.tails[back] = self.nodes;
        self.nodes += 1;
    }

    /// An edge between two corners of one face; one and the same corner gives a loop.
    fn join(&mut self, corner: usize, other: usize) {
        let (there, back) = self.new_edge();
        self.insert(corner, there);
        self.insert(other, back);
    }

    /// A corner some face steps after another, in the same face: the corner after a dart is where a face comes in by the dart's reverse.
    fn onward(&self, corner: usize, steps: usize) -> usize {
        (0..steps).fold(corner, |corner, _| self.rotations[corner] ^ 1)
    }

    /// Grows to a number of edges; of a hundred new ones, `hanging` hang new nodes. No joined corners are further apart than `reach`.
    fn grow(&mut self, chance: &mut Chance, edges: usize, hanging: usize, reach: usize) {
        while self.edges() < edges {
            let corner = chance.below(self.tails.len());
            if chance.below(100) < hanging {
                self.hang(corner);
            } else {
                let steps = chance.below(reach);
                self.join(corner, self.onward(corner, steps));
            }
        }
    }

    /// The mirror image: every round the other way.
    fn mirrored(&self) -> Plan {
        let mut rotations = vec![0; self.rotations.len()];
        for (dart, &next) in self.rotations.iter().enumerate() {
            rotations[next] = dart;
        }
        Plan { rotations, ..self.clone() }
    }

    /// Other numbers of nodes and edges, and other directions.
    fn shuffled(&self, chance: &mut Chance) -> Plan {
        let (nodes, edges) = (chance.shuffled(self.nodes), chance.shuffled(self.edges()));
        let turned: Vec<usize> = edges.iter().map(|_| chance.below(2)).collect();
        let new = |dart: usize| 2 * edges[dart / 2] + ((dart % 2) ^ turned[dart / 2]);
        let mut plan = self.clone();
        for dart in 0..self.tails.len() {
            plan.tails[new(dart)] = nodes[self.tails[dart]];
            plan.rotations[new(dart)] = new(self.rotations[dart]);
        }
        plan
    }

    /// Beside another plan, as another part.
    pub fn beside(&self, other: &Plan) -> Plan {
        let darts = self.tails.len();
        let mut plan = self.clone();
        plan.nodes += other.nodes;
        plan.tails.extend(other.tails.iter().map(|tail| tail + self.nodes));
        plan.rotations.extend(other.rotations.iter().map(|next| next + darts));
        plan
    }

    pub fn drawing(&self) -> Drawing {
        let short = |numbers: &[usize]| numbers.iter().map(|&number| number as u16).collect();
        Drawing { nodes: self.nodes as u16, tails: short(&self.tails), rotations: short(&self.rotations), capacities: vec![0; self.tails.len()], outer: None }
    }
}

/// Two nodes and parallel edges.
pub fn dipole(edges: usize) -> Plan {
    Plan::of_rounds(&[(0..edges).map(|edge| 2 * edge).collect(), (0..edges).rev().map(|edge| 2 * edge + 1).collect()])
}

fn path(edges: usize) -> Plan {
    let mut rounds = vec![vec![0]];
    rounds.extend((1..edges).map(|node| vec![2 * node, 2 * node - 1]));
    rounds.push(vec![2 * edges - 1]);
    Plan::of_rounds(&rounds)
}

fn star(edges: usize) -> Plan {
    let mut rounds = vec![(0..edges).map(|edge| 2 * edge).collect()];
    rounds.extend((0..edges).map(|edge| vec![2 * edge + 1]));
    Plan::of_rounds(&rounds)
}

/// Rows and columns; the darts at a node are those up, right, down and left.
fn grid(rows: usize, columns: usize) -> Plan {
    let across = |row: usize, column: usize| 2 * (row * (columns - 1) + column);
    let first = 2 * rows * (columns - 1);
    let down = |row: usize, column: usize| first + 2 * (row * columns + column);
    let mut rounds = vec![];
    for row in 0..rows {
        for column in 0..columns {
            let up = (row > 0).then(|| down(row - 1, column) + 1);
            let right = (column + 1 < columns).then(|| across(row, column));
            let below = (row + 1 < rows).then(|| down(row, column));
            let left = (column > 0).then(|| across(row, column - 1) + 1);
            rounds.push([up, right, below, left].into_iter().flatten().collect());
        }
    }
    Plan::of_rounds(&rounds)
}

/// Rings within each other, each node joined to the one further out; the darts at a node are those outwards, on along its ring, inwards and back.
fn rings(count: usize, length: usize) -> Plan {
    let along = |ring: usize, at: usize| 2 * (ring * length + at % length);
    let outwards = |ring: usize, at: usize| 2 * (count * length + ring * length + at);
    let mut rounds = vec![];
    for ring in 0..count {
        for at in 0..length {
            let out = (ring + 1 < count).then(|| outwards(ring, at));
            let inwards = (ring > 0).then(|| outwards(ring - 1, at) + 1);
            rounds.push([out, Some(along(ring, at)), inwards, Some(along(ring, at + length - 1) + 1)].into_iter().flatten().collect());
        }
    }
    Plan::of_rounds(&rounds)
}

/// A hub with spokes to the nodes of a rim, which is a ring (wheel) or a path (fan).
fn spokes(count: usize, closed: bool) -> Plan {
    let rim = if closed { count } else { count - 1 };
    let spoke = |at: usize| 2 * (rim + at);
    let mut rounds: Vec<Vec<usize>> = vec![];
    for at in 0..count {
        let on = (at < rim).then_some(2 * at);
        let back = (at > 0 || closed).then(|| 2 * ((at + count - 1) % count) + 1);
        rounds.push([on, Some(spoke(at) + 1), back].into_iter().flatten().collect());
    }
    rounds.push((0..count).map(spoke).collect());
    Plan::of_rounds(&rounds)
}

/// What a shape is called, and one with about so many edges.
fn shape(chance: &mut Chance, edges: usize) -> (&'static str, Plan) {
    let part = 1 + chance.below(edges);
    let side = 1 + chance.below(20);
    let kind = chance.below(14);
    match kind {
        0 => ("dipole", dipole(edges)),
        1 => ("path", path(edges)),
        2 => ("star", star(edges)),
        3 => ("ring", rings(1, edges.max(2))),
        4 => ("wheel", spokes((edges / 2).max(2), true)),
        5 => ("fan", spokes(edges.div_ceil(2).max(2), false)),
        6 | 7 => ("grid", grid(((edges + side + 1) / (2 * side + 1)).max(1), side + 1)),
        8 => ("rings", rings(((edges + side) / (2 * side)).max(if side == 1 { 2 } else { 1 }), side)),
        _ => {
            let (name, share, reach) = [("tree", 100, 1), ("loops", 0, 2), ("mixed", 20, 40), ("mixed", 50, 40), ("mixed", 80, 600)][kind - 9];
            let mut plan = dipole(1);
            if chance.one_in(3) && name == "mixed" {
                plan = chance.pick(&[dipole as fn(usize) -> Plan, path, star])(part);
            }
            plan.grow(chance, edges, share, reach);
            (name, plan)
        }
    }
}

/// One node with loops, side by side.
fn loops(edges: usize) -> Plan {
    Plan::of_rounds(&[(0..2 * edges).collect()])
}

/// A plan and more parts beside it, as long as there is room for their edges and nodes.
fn with_parts(chance: &mut Chance, mut plan: Plan, more: usize) -> Plan {
    for _ in 0..more {
        let room = (MOST_EDGES - plan.edges().min(MOST_EDGES)).min(513 - plan.nodes.min(513));
        if room == 0 {
            break;
        }
        let edges = 1 + chance.below(room.min(6));
        let other = if chance.one_in(3) { loops(edges) } else { shape(chance, edges).1 };
        if plan.nodes + other.nodes <= 513 && plan.edges() + other.edges() <= MOST_EDGES {
            plan = if chance.one_in(2) { plan.beside(&other) } else { other.beside(&plan) };
        }
    }
    plan
}

/// How many edges: few most of the time, sometimes all that there may be.
fn size(chance: &mut Chance) -> usize {
    let most = chance.pick(&[3, 6, 6, 10, 10, 10, 20, 20, 60, 150, MOST_EDGES]);
    if most == MOST_EDGES && chance.one_in(3) {
        return most;
    }
    1 + chance.below(most)
}

/// A drawing, what its shape is called, and two nodes that a question may be about.
pub struct Grown {
    pub name: &'static str,
    pub drawing: Drawing,
    pub source: usize,
    pub sink: usize,
}

pub fn grow(chance: &mut Chance, number: u64) -> Grown {
    let (name, mut plan) = match number % 64 {
        62 => ("greatest tree", {
            // 513 nodes and 512 edges
            let mut plan = dipole(1);
            plan.grow(chance, MOST_EDGES, 100, 1);
            plan
        }),
        63 => ("greatest mixture", {
            let (_, mut plan) = shape(chance, MOST_EDGES);
            plan.grow(chance, MOST_EDGES, 40, 20);
            plan
        }),
        60 => ("loops alone", {
            // 512 nodes with a loop each: 1,024 faces
            let mut plan = loops(1);
            while plan.nodes < MOST_EDGES {
                let more = plan.clone();
                plan = plan.beside(&more);
            }
            plan
        }),
        61 => ("many parts", {
            let (_, plan) = shape(chance, 5);
            with_parts(chance, plan, 200)
        }),
        _ => {
            let edges = size(chance);
            let (name, mut plan) = shape(chance, edges);
            if chance.one_in(4) {
                let more = (plan.edges() + chance.below(8)).min(MOST_EDGES);
                plan.grow(chance, more, 30, 10);
            }
            if chance.one_in(3) {
                let more = 1 + chance.below(3);
                plan = with_parts(chance, plan, more);
            }
            (name, plan)
        }
    };
    if chance.one_in(2) {
        plan = plan.mirrored();
    }
    let mut drawing = plan.shuffled(chance).drawing();
    let source = chance.below(plan.nodes);
    let sink = (source + 1 + chance.below(plan.nodes - 1)) % plan.nodes;
    lay_capacities(chance, &mut drawing, source, sink);
    Grown { name, drawing, source, sink }
}

/// A kind of capacities for all edges, or a kind for each.
fn lay_capacities(chance: &mut Chance, drawing: &mut Drawing, source: usize, sink: usize) {
    let flows = some_flow(chance, drawing, source, sink);
    let kind = chance.below(14);
    let equal = chance.pick(&[0, 1, 5, 1000, GREATEST]);
    for (edge, &flow) in flows.iter().enumerate() {
        let kind = match kind {
            12 => chance.below(12),
            13 if chance.one_in(8) => 9, // here and there a least flow
            13 => 5,
            kind => kind,
        };
        let (forward, back) = capacity(chance, kind, equal, flow);
        drawing.capacities[2 * edge] = forward as i32;
        drawing.capacities[2 * edge + 1] = back as i32;
    }
}

/// Forward and back capacity of an edge; `flow` is that of a flow which some kinds leave possible.
fn capacity(chance: &mut Chance, kind: usize, equal: i64, flow: i64) -> (i64, i64) {
    match kind {
        0 => (equal, equal),
        1 => (equal, 0),
        2 => (chance.between(0, 4), chance.between(0, 4)),
        3 => (chance.between(0, 9), 0),
        4 => (chance.between(0, GREATEST), 0),
        5 => (chance.between(0, GREATEST), chance.between(0, GREATEST)),
        6 | 7 => {
            let slack = chance.pick(&[0, 1, 3, 1000]);
            let forward = (flow + chance.between(0, slack)).clamp(-GREATEST, GREATEST);
            (forward, (chance.between(0, slack) - flow).clamp(-forward, GREATEST))
        }
        8 => (flow, -flow),
        9 => {
            let forward = chance.between(-3, 5);
            (forward, chance.between(-forward, 5))
        }
        10 => {
            let forward = chance.pick(&[-GREATEST, 1 - GREATEST, -1, 0, 1, GREATEST - 1, GREATEST]);
            (forward, (-forward).max(chance.pick(&[-GREATEST, 0, 1 - GREATEST, GREATEST])))
        }
        _ => (GREATEST, GREATEST),
    }
}

/// A flow from source to sink within the greatest capacities: that of random levels, and a value along a path.
fn some_flow(chance: &mut Chance, drawing: &Drawing, source: usize, sink: usize) -> Vec<i64> {
    let faces = drawing.faces();
    let most = chance.pick(&[0, 2, 9, 100_000, GREATEST / 4]);
    let levels: Vec<i64> = (0..count(&faces)).map(|_| chance.between(-most, most)).collect();
    let mut flows = levels::flows_of(&faces, &levels);
    let value = chance.between(-most, most) * 2;
    for dart in path_between(drawing, source, sink) {
        flows[dart / 2] += if dart % 2 == 0 { value } else { -value };
    }
    flows
}

/// The darts of some path; none where there is none.
fn path_between(drawing: &Drawing, source: usize, sink: usize) -> Vec<usize> {
    let mut into = vec![None; drawing.nodes as usize];
    let mut out = vec![vec![]; drawing.nodes as usize];
    for dart in 0..drawing.darts() {
        out[drawing.tail(dart)].push(dart);
    }
    let mut waiting = vec![source];
    while let Some(node) = waiting.pop() {
        for &dart in &out[node] {
            let head = drawing.head(dart);
            if head != source && into[head].is_none() {
                into[head] = Some(dart);
                waiting.push(head);
            }
        }
    }
    let mut path = vec![];
    let mut node = sink;
    while node != source {
        let Some(dart): Option<usize> = into[node] else {
            return vec![]; // in another part
        };
        path.push(dart);
        node = drawing.tail(dart);
    }
    path
}

#[cfg(test)]
mod tests {
    use super::*;
    use crate::judge;
    use std::collections::BTreeSet;

    #[test]
    fn grown_drawings_are_right() {
        let mut names = BTreeSet::new();
        for number in 0..2000 {
            let grown = grow(&mut Chance::new(7, number), number);
            assert_eq!(judge::sheet(&grown.drawing.bytes()), Ok(grown.drawing.clone()), "{} {number}\n{}", grown.name, grown.drawing.text());
            names.insert(grown.name);
            if number % 64 == 62 {
                assert_eq!((grown.drawing.nodes, grown.drawing.edges()), (513, 512));
            }
        }
        assert_eq!(names.len(), 15, "{names:?}");
    }
}

//! Damaged drawings and sheets, with several faults at once. Some are harmless: the judge says which.
use crate::chance::Chance;
use crate::drawing::{Drawing, EDGE};
use crate::grow::{self, Plan};

/// A drawing with up to four faults in its order, or in its counts, ends and capacities too.
pub fn drawing(chance: &mut Chance, whole: &Drawing) -> Drawing {
    let mut drawing = whole.clone();
    if chance.one_in(4) {
        drawing = two_parts(chance, whole);
    }
    let kinds = if chance.one_in(2) { 5 } else { 15 };
    for _ in 0..chance.below(5) {
        match chance.below(kinds) {
            0..=2 => other_order(chance, &mut drawing),
            3 => two_rounds(chance, &mut drawing),
            4 => drawing.nodes = drawing.nodes.saturating_add(chance.below(2) as u16), // perhaps a node without darts
            5 => other_rotation(chance, &mut drawing),
            6 => other_tail(chance, &mut drawing),
            7 => drawing = fewer_edges(chance, &drawing),
            8 => drawing.nodes = chance.pick(&[0, 1, 514, 600, u16::MAX]),
            9 => wrong_end(chance, &mut drawing),
            10 => wrong_rotation(chance, &mut drawing),
            11 => wrong_capacity(chance, &mut drawing),
            12 => wrong_outer(chance, &mut drawing),
            _ => wrong_sum(chance, &mut drawing),
        }
    }
    drawing
}

/// The bytes of a damaged drawing, perhaps cut, lengthened or changed up to twice more.
pub fn bytes(chance: &mut Chance, whole: &Drawing) -> Vec<u8> {
    let drawing = drawing(chance, whole);
    let mut bytes = drawing.bytes();
    let changes = chance.pick(&[0, 0, 0, 1, 2]);
    for _ in 0..changes {
        let edge = drawing.head_length() + EDGE * chance.below(drawing.edges() + 1);
        match chance.below(10) {
            0 => bytes.truncate(edge),
            1 => bytes.truncate(edge + chance.below(EDGE)),
            2 => {
                let length = chance.below(bytes.len() + 1);
                bytes.truncate(length);
            }
            3 => change(&mut bytes, edge, chance.pick(&[0, 1, 3, 4, 255])),
            4 => change(&mut bytes, 0, chance.pick(&[0, 1, 2, 3, 4, 5, 255])),
            5 => bytes.extend_from_slice(&[2, 0, 0, 1, 0, 0, 0, 1, 0, 0, 0, 0, 0, 0, 0, 0, 0][..1 + chance.below(EDGE)]),
            6 => change(&mut bytes, 3, chance.below(256) as u8), // the count of edges
            7 => change(&mut bytes, 4, chance.pick(&[0, 1, 2, 3, 255])),
            8 => bytes.truncate(chance.below(8)), // within the head
            _ => {
                let at = chance.below(bytes.len() + 1);
                change(&mut bytes, at, chance.below(256) as u8);
            }
        }
    }
    bytes
}

fn change(bytes: &mut [u8], at: usize, to: u8) {
    if let Some(byte) = bytes.get_mut(at) {
        *byte = to;
    }
}

/// A drawing and a second part, which is flat or not.
fn two_parts(chance: &mut Chance, whole: &Drawing) -> Drawing {
    let mut other = grow::dipole(1 + chance.below(4));
    if other.tails.len() >= 6 && chance.one_in(2) {
        other.rotations.swap(1, 5); // three edges or more, in another order: not flat
        other.rotations.swap(3, 5);
    }
    let wide = |numbers: &[u16]| numbers.iter().map(|&number| number as usize).collect::<Vec<_>>();
    let first = Plan { nodes: whole.nodes as usize, tails: wide(&whole.tails), rotations: wide(&whole.rotations) };
    let mut drawing = first.beside(&other).drawing();
    drawing.capacities[..whole.darts()].copy_from_slice(&whole.capacities);
    drawing.outer = whole.outer;
    drawing
}

/// An outer dart that is none, or just is the last one; or none named.
fn wrong_outer(chance: &mut Chance, drawing: &mut Drawing) {
    let darts = drawing.darts() as u16;
    drawing.outer = chance.pick(&[Some(darts), Some(darts.wrapping_sub(1)), Some(u16::MAX), Some(1024), None]);
}

fn some_dart(chance: &mut Chance, drawing: &Drawing) -> Option<usize> {
    (drawing.darts() > 0).then(|| chance.below(drawing.darts()))
}

/// An end that is no node, or just is the last one.
fn wrong_end(chance: &mut Chance, drawing: &mut Drawing) {
    if let Some(dart) = some_dart(chance, drawing) {
        drawing.tails[dart] = chance.pick(&[drawing.nodes, drawing.nodes.wrapping_sub(1), u16::MAX, 513]);
    }
}

fn wrong_rotation(chance: &mut Chance, drawing: &mut Drawing) {
    if let Some(dart) = some_dart(chance, drawing) {
        let darts = drawing.darts() as u16;
        drawing.rotations[dart] = chance.pick(&[darts, darts - 1, u16::MAX, 1024]);
    }
}

fn wrong_capacity(chance: &mut Chance, drawing: &mut Drawing) {
    const WRONG: [i32; 8] = [1_000_000, 1_000_001, -1_000_000, -1_000_001, i32::MAX, i32::MIN, -1, -2];
    if let Some(dart) = some_dart(chance, drawing) {
        drawing.capacities[dart] = chance.pick(&WRONG);
        if chance.one_in(2) {
            drawing.capacities[dart ^ 1] = chance.pick(&WRONG);
        }
    }
}

/// Two capacities that add to just less than zero, or to zero.
fn wrong_sum(chance: &mut Chance, drawing: &mut Drawing) {
    if let Some(dart) = some_dart(chance, drawing) {
        drawing.capacities[dart] = drawing.capacities[dart ^ 1].saturating_neg().saturating_sub(chance.below(3) as i32);
    }
}

/// An end moved to another node: its rotation then has another tail.
fn other_tail(chance: &mut Chance, drawing: &mut Drawing) {
    if let Some(dart) = some_dart(chance, drawing) {
        drawing.tails[dart] = chance.below(drawing.nodes.max(1) as usize) as u16;
    }
}

/// Two darts have one rotation, or one has another tail.
fn other_rotation(chance: &mut Chance, drawing: &mut Drawing) {
    if let Some(dart) = some_dart(chance, drawing) {
        drawing.rotations[dart] = chance.below(drawing.darts()) as u16;
    }
}

/// Two darts with one tail.
fn two_at_one_node(chance: &mut Chance, drawing: &Drawing) -> Option<(usize, usize)> {
    let one = some_dart(chance, drawing)?;
    let others: Vec<usize> = (0..drawing.darts()).filter(|&dart| dart != one && drawing.tails[dart] == drawing.tails[one]).collect();
    (!others.is_empty()).then(|| (one, chance.pick(&others)))
}

/// The darts of a node in two rounds: two of them exchange their rotations.
fn two_rounds(chance: &mut Chance, drawing: &mut Drawing) {
    if let Some((one, other)) = two_at_one_node(chance, drawing) {
        drawing.rotations.swap(one, other);
    }
}

/// The darts of a node in another order, still one round: often not flat.
fn other_order(chance: &mut Chance, drawing: &mut Drawing) {
    if let Some((one, other)) = two_at_one_node(chance, drawing) {
        let next = drawing.rotations[one];
        if let (true, Some(&after)) = (next as usize != other, drawing.rotations.get(next as usize)) {
            // `next` moves from after `one` to after `other`
            drawing.rotations[one] = after;
            drawing.rotations[next as usize] = drawing.rotations[other];
            drawing.rotations[other] = next;
        }
    }
}

/// The last edge gone, though rotations may name it; none left at all, now and then.
fn fewer_edges(chance: &mut Chance, drawing: &Drawing) -> Drawing {
    let darts = if chance.one_in(8) { 0 } else { drawing.darts().saturating_sub(2) };
    let mut drawing = drawing.clone();
    drawing.tails.truncate(darts);
    drawing.rotations.truncate(darts);
    drawing.capacities.truncate(darts);
    drawing
}

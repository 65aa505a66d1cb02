//! Face levels, from document 01: "flow on d = level of left(d) - level of right(d), with face 0 at level 0", where document 02 has the outer face and a face of each
//! other part, and the highest answer by shortest distances of faces.
use crate::drawing::{count, Drawing};
use crate::flow::along;

/// The flows of the edges that face levels give.
pub fn flows_of(faces: &[usize], levels: &[i64]) -> Vec<i64> {
    faces.chunks(2).map(|pair| levels[pair[0]] - levels[pair[1]]).collect()
}

/// The levels of balanced flows, carried from face to face over the darts between them, with these faces at 0, one of each part.
pub fn levels_of(faces: &[usize], zero: &[usize], flows: &[i64]) -> Vec<i64> {
    let mut levels = vec![None; count(faces)];
    for &face in zero {
        levels[face] = Some(0);
    }
    let mut changed = true;
    while changed {
        changed = false;
        for dart in 0..faces.len() {
            let (left, right) = (faces[dart], faces[dart ^ 1]);
            if let (None, Some(level)) = (levels[left], levels[right]) {
                levels[left] = Some(level + along(flows, dart));
                changed = true;
            }
        }
    }
    levels.into_iter().map(|level| level.expect("the faces of a part are joined")).collect()
}

/// The shortest distances from the nearest of some faces over arcs (from, to, length), none of them below zero (Bellman-Ford).
fn distances(faces: usize, zero: &[usize], arcs: &[(usize, usize, i64)]) -> Vec<i64> {
    let mut distances = vec![i64::MAX / 4; faces];
    for &face in zero {
        distances[face] = 0;
    }
    let mut changed = true;
    while changed {
        changed = false;
        for &(from, to, length) in arcs {
            if distances[from] + length < distances[to] {
                distances[to] = distances[from] + length;
                changed = true;
            }
        }
    }
    distances
}

/// The highest answer of the same value as a given flow y within the capacities. Another flow of that value is y and the balanced flow of some levels p, and
/// keeps within the capacities if p(left d) <= p(right d) + capacity(d) - y(d) for every dart. The greatest such p are the distances of the faces from the one at 0
/// in their part, with an arc from right(d) to left(d) of that length: all others are nowhere above them.
pub fn highest(drawing: &Drawing, faces: &[usize], flows: &[i64]) -> Vec<i64> {
    highest_from(drawing, faces, &drawing.zero_faces(), flows)
}

/// The same with these faces at 0, one of each part.
pub fn highest_from(drawing: &Drawing, faces: &[usize], zero: &[usize], flows: &[i64]) -> Vec<i64> {
    let arcs: Vec<_> = (0..drawing.darts()).map(|dart| (faces[dart ^ 1], faces[dart], drawing.capacity(dart) - along(flows, dart))).collect();
    let risen = flows_of(faces, &distances(count(faces), zero, &arcs));
    flows.iter().zip(risen).map(|(flow, rise)| flow + rise).collect()
}

/// The other way round: the answer from which all others rise. Wanted only as a deliberate fault.
pub fn lowest(drawing: &Drawing, faces: &[usize], flows: &[i64]) -> Vec<i64> {
    let arcs: Vec<_> = (0..drawing.darts()).map(|dart| (faces[dart], faces[dart ^ 1], drawing.capacity(dart) - along(flows, dart))).collect();
    let fallen = flows_of(faces, &distances(count(faces), &drawing.zero_faces(), &arcs));
    flows.iter().zip(fallen).map(|(flow, fall)| flow - fall).collect()
}

#[cfg(test)]
mod tests {
    use super::*;
    use crate::flow::{carry, least_on, MOST_LIMIT};
    use crate::paper;

    #[test]
    fn highest_answers_of_a_are_those_of_the_paper() {
        let drawing = paper::a();
        let faces = drawing.faces();
        for (value, answer) in [(6, [0, 2, 4]), (12, [5, 3, 4]), (0, [0, 0, 0])] {
            assert_eq!(highest(&drawing, &faces, &carry(&drawing, 0, 1, value).unwrap()), answer);
        }
        for flows in [[5, 1, 0], [2, 2, 2], [3, 3, 0]] {
            assert_eq!(highest(&drawing, &faces, &flows), [0, 2, 4]);
        }
        assert_eq!(lowest(&drawing, &faces, &[2, 2, 2]), [5, 1, 0]);
        for (outer, answer) in [(1, [5, 0, 1]), (3, [3, 3, 0]), (5, [0, 2, 4])] {
            assert_eq!(highest(&paper::a_outer(outer), &faces, &[2, 2, 2]), answer);
        }
    }

    /// From the face left of a channel the highest answer has the least on it that the others leave it: the limit that it must be raised to.
    #[test]
    fn from_the_face_left_of_a_channel_its_flow_is_least() {
        for drawing in [paper::a(), paper::a_with(&[(3, -2)]), paper::a_with(&[(0, -2), (1, 5)])] {
            for (edge, value) in (0..3).flat_map(|edge| (-6..20).map(move |value| (edge, value))) {
                let rooted = Drawing { outer: Some(2 * edge as u16), ..drawing.with_limit(edge, MOST_LIMIT) };
                let least = carry(&rooted, 0, 1, value).map(|flows| highest(&rooted, &rooted.faces(), &flows)[edge]);
                assert_eq!(least, least_on(&drawing, 0, 1, value, edge));
            }
        }
    }

    #[test]
    fn levels_of_a_are_those_of_the_paper() {
        let faces = paper::a().faces();
        assert_eq!(levels_of(&faces, &[0], &[2, 1, -3]), [0, -2, -3]);
        assert_eq!(levels_of(&faces, &[1], &[2, 1, -3]), [2, 0, -1]);
        assert_eq!(flows_of(&faces, &[0, -2, -3]), [2, 1, -3]);
    }
}

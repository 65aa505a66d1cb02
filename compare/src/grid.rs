//! A second generator of practice sheets (document 02, Job 5), from places in the plane: two nodes are joined where they lie next to each other, and the darts at
//! a node are put in order by the angle at which they leave.
use crate::drawing::Drawing;

/// A node's place, its column and its row; rows are counted downwards.
type Place = (i32, i32);

pub struct Grid {
    places: Vec<Place>,
    /// The two nodes of each channel, in order.
    pub channels: Vec<(usize, usize)>,
}

impl Grid {
    pub fn new(rows: u16, columns: u16) -> Self {
        let places: Vec<Place> = (0..rows as i32).flat_map(|row| (0..columns as i32).map(move |column| (column, row))).collect();
        let beside = |right: i32, down: i32| {
            let places = &places;
            let pairs = (0..places.len()).flat_map(move |a| (0..places.len()).map(move |b| (a, b)));
            pairs.filter(move |&(a, b)| (places[b].0 - places[a].0, places[b].1 - places[a].1) == (right, down)).collect::<Vec<_>>()
        };
        let channels = [beside(1, 0), beside(0, 1)].concat();
        Grid { places, channels }
    }

    /// The channels that run down column by column, in place of row by row.
    pub fn column_by_column(&mut self) {
        let places = &self.places;
        self.channels.sort_by_key(|&(a, b)| if places[a].1 == places[b].1 { (0, 0, a) } else { (1, places[a].0, a) });
    }

    /// The drawing with these limits, the darts at a node in the order of this angle of theirs.
    pub fn drawing(&self, limits: &[i32], angle: fn(Place) -> f64) -> Drawing {
        let tails: Vec<usize> = self.channels.iter().flat_map(|&(a, b)| [a, b]).collect();
        let mut rotations = vec![0; tails.len()];
        for node in 0..self.places.len() {
            let leaves = |&dart: &usize| {
                let ((x, y), (to_x, to_y)) = (self.places[node], self.places[tails[dart ^ 1]]);
                angle((to_x - x, to_y - y))
            };
            let mut round: Vec<usize> = (0..tails.len()).filter(|&dart| tails[dart] == node).collect();
            round.sort_by(|one, other| leaves(one).total_cmp(&leaves(other)));
            (0..round.len()).for_each(|at| rotations[round[at]] = round[(at + 1) % round.len()] as u16);
        }
        Drawing {
            nodes: self.places.len() as u16,
            tails: tails.iter().map(|&node| node as u16).collect(),
            rotations,
            capacities: limits.iter().flat_map(|&limit| [limit, 0]).collect(),
            outer: None,
        }
    }
}

/// The angle of a way right and down, clockwise from the north: from 0 to a full round.
pub fn clockwise((right, down): Place) -> f64 {
    (right as f64).atan2(-down as f64).rem_euclid(std::f64::consts::TAU)
}

/// The states of a seed, the seed first.
pub fn states(seed: u32) -> impl Iterator<Item = u128> {
    std::iter::successors(Some(seed as u128), |&state| Some((1_103_515_245 * state + 12_345) % (1 << 31)))
}

pub fn limit(state: u128) -> i32 {
    ((state >> 16) % 100) as i32
}

/// The practice sheet of these rows, columns and seed.
pub fn practice(rows: u16, columns: u16, seed: u32) -> Drawing {
    let grid = Grid::new(rows, columns);
    let limits: Vec<i32> = states(seed).skip(1).map(limit).take(grid.channels.len()).collect();
    grid.drawing(&limits, clockwise)
}

#[cfg(test)]
mod tests {
    use super::*;

    /// Two rows of two: node 0 top left. The limits of the seed 1, by hand.
    #[test]
    fn two_by_two() {
        let drawing = practice(2, 2, 1);
        assert_eq!(drawing.tails, [0, 1, 2, 3, 0, 2, 1, 3]);
        assert_eq!(drawing.rotations, [4, 6, 5, 7, 0, 2, 1, 3]);
        assert_eq!(drawing.capacities, [38, 0, 58, 0, 13, 0, 15, 0]);
    }
}

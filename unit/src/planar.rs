//! Turns of a flat drawing for a graph that has one, block by block, each drawn path by path into a face (Demoucron, Malgrange and Pertuiset); else a part of
//! the graph that shows that there is none: five nodes joined each to each, or three to three, by paths that meet nowhere else (Kuratowski).

pub type Ends = (usize, usize);

/// Why a graph has no flat drawing. The paths join the first five nodes each to each, or the first three nodes to the others.
#[derive(Debug, PartialEq)]
pub struct Subdivision {
    pub nodes: Vec<usize>,
    pub paths: Vec<Vec<usize>>,
}

fn sorted((a, b): Ends) -> Ends {
    (a.min(b), a.max(b))
}

fn neighbours(nodes: usize, edges: &[Ends]) -> Vec<Vec<(usize, usize)>> {
    let mut near = vec![vec![]; nodes];
    for (edge, &(a, b)) in edges.iter().enumerate() {
        near[a].push((b, edge));
        near[b].push((a, edge));
    }
    near
}

/// The edges, by number, of each block: edges of one cycle are in one block, a bridge is one by itself. No loops.
fn blocks(nodes: usize, edges: &[Ends]) -> Vec<Vec<usize>> {
    let near = neighbours(nodes, edges);
    let (mut found, mut low, mut order) = (vec![0; nodes], vec![0; nodes], 0);
    let (mut pending, mut answer) = (vec![], vec![]);
    for start in (0..nodes).filter(|&node| !near[node].is_empty()) {
        if found[start] != 0 {
            continue;
        }
        order += 1;
        (found[start], low[start]) = (order, order);
        let mut stack = vec![(start, usize::MAX, 0)];
        while let Some(&mut (node, by, ref mut next)) = stack.last_mut() {
            if let Some(&(other, edge)) = near[node].get(*next) {
                *next += 1;
                if edge != by && found[other] == 0 {
                    pending.push(edge);
                    order += 1;
                    (found[other], low[other]) = (order, order);
                    stack.push((other, edge, 0));
                } else if edge != by && found[other] < found[node] {
                    pending.push(edge);
                    low[node] = low[node].min(found[other]);
                }
                continue;
            }
            stack.pop();
            let Some(&(above, ..)) = stack.last() else { continue };
            low[above] = low[above].min(low[node]);
            if low[node] >= found[above] {
                let at = pending.iter().position(|&edge| edge == by).unwrap_or(0);
                answer.push(pending.split_off(at));
            }
        }
    }
    answer
}

/// The nodes of a shortest path between two nodes over edges for which `passes` holds, `from` first.
fn path(nodes: usize, edges: &[Ends], from: usize, passes: impl Fn(usize, usize) -> bool, ends: impl Fn(usize) -> bool) -> Option<Vec<usize>> {
    let near = neighbours(nodes, edges);
    let mut by = vec![usize::MAX; nodes];
    by[from] = from;
    let mut order = vec![from];
    let mut at = 0;
    while at < order.len() {
        let node = order[at];
        at += 1;
        if node != from && ends(node) {
            let mut path = vec![node];
            while path[path.len() - 1] != from {
                path.push(by[path[path.len() - 1]]);
            }
            path.reverse();
            return Some(path);
        }
        for &(other, edge) in &near[node] {
            if by[other] == usize::MAX && passes(node, edge) {
                by[other] = node;
                order.push(other);
            }
        }
    }
    None
}

/// A block while it is drawn: faces as rounds of darts (tail, head), and which edges and nodes are drawn.
struct Block<'a> {
    nodes: usize,
    edges: &'a [Ends],
    faces: Vec<Vec<Ends>>,
    /// The nodes of each face.
    around: Vec<Vec<bool>>,
    drawn: Vec<bool>,
    inside: Vec<bool>,
}

/// What is not drawn yet, in pieces that hang together outside the drawn nodes: its edges, and the drawn nodes that it touches.
type Piece = (Vec<usize>, Vec<usize>);

impl Block<'_> {
    fn add_face(&mut self, face: Vec<Ends>) {
        let mut around = vec![false; self.nodes];
        face.iter().for_each(|&(a, _)| around[a] = true);
        self.faces.push(face);
        self.around.push(around);
    }

    fn draw(&mut self, path: &[usize]) {
        for pair in path.windows(2) {
            let edge = self.edges.iter().position(|&ends| ends == sorted((pair[0], pair[1])));
            self.drawn[edge.expect("a path has edges of the block")] = true;
        }
        path.iter().for_each(|&node| self.inside[node] = true);
    }

    fn pieces(&self) -> Vec<Piece> {
        let left: Vec<usize> = (0..self.edges.len()).filter(|&edge| !self.drawn[edge]).collect();
        let mut near = vec![vec![]; self.nodes];
        let mut pieces = vec![];
        for &edge in &left {
            let (a, b) = self.edges[edge];
            if self.inside[a] && self.inside[b] {
                pieces.push((vec![edge], vec![a, b]));
            } else {
                near[a].push((b, edge));
                near[b].push((a, edge));
            }
        }
        let mut met = self.inside.clone();
        for start in 0..self.nodes {
            if met[start] || near[start].is_empty() {
                continue;
            }
            met[start] = true;
            let (mut order, mut piece, mut touched, mut at) = (vec![start], vec![], vec![], 0);
            while at < order.len() {
                for &(other, edge) in &near[order[at]] {
                    piece.push(edge);
                    if self.inside[other] {
                        touched.push(other);
                    } else if !met[other] {
                        met[other] = true;
                        order.push(other);
                    }
                }
                at += 1;
            }
            for list in [&mut piece, &mut touched] {
                list.sort_unstable();
                list.dedup();
            }
            pieces.push((piece, touched));
        }
        pieces
    }

    /// A piece with as few faces as may be, and one of them; nothing, where a piece has none.
    fn next(&self) -> Option<(Piece, usize)> {
        let mut best = None;
        for piece in self.pieces() {
            let mut fit = (0..self.faces.len()).filter(|&face| piece.1.iter().all(|&node| self.around[face][node]));
            let first = fit.next()?;
            if fit.next().is_none() {
                return Some((piece, first));
            }
            best.get_or_insert((piece, first));
        }
        best
    }

    /// A path of the piece between two nodes that it touches, drawn into the face, which it parts in two.
    fn part(&mut self, (piece, touched): Piece, face: usize) {
        let edges: Vec<Ends> = piece.iter().map(|&edge| self.edges[edge]).collect();
        let start = touched[0];
        let path = path(self.nodes, &edges, start, |node, _| node == start || !touched.contains(&node), |node| touched.contains(&node));
        let path = path.expect("a piece of a block touches two nodes");
        let mut round = self.faces.swap_remove(face);
        self.around.swap_remove(face);
        let place = |round: &[Ends], node: usize| round.iter().position(|&(a, _)| a == node).expect("the path ends on the face");
        let begins = place(&round, start);
        round.rotate_left(begins);
        let rest = round.split_off(place(&round, path[path.len() - 1]));
        let there = path.windows(2).map(|pair| (pair[0], pair[1]));
        let back = path.windows(2).rev().map(|pair| (pair[1], pair[0]));
        self.add_face(there.chain(rest).collect());
        self.add_face(round.into_iter().chain(back).collect());
        self.draw(&path);
    }
}

/// The faces of a flat drawing of a block without parallel edges; nothing, where there is none.
fn faces_of(nodes: usize, edges: &[Ends]) -> Option<Vec<Vec<Ends>>> {
    let (a, b) = edges[0];
    if edges.len() == 1 {
        return Some(vec![vec![(a, b), (b, a)]]);
    }
    let mut met = vec![false; nodes];
    edges.iter().for_each(|&(a, b)| (met[a], met[b]) = (true, true));
    if edges.len() + 6 > 3 * met.iter().filter(|met| **met).count().max(3) {
        return None; // more edges than a flat drawing has
    }
    let mut block = Block { nodes, edges, faces: vec![], around: vec![], drawn: vec![false; edges.len()], inside: vec![false; nodes] };
    let mut cycle = path(nodes, edges, a, |_, edge| edge != 0, |node| node == b).expect("a block of two edges has a cycle");
    cycle.push(a);
    block.add_face(cycle.windows(2).map(|pair| (pair[0], pair[1])).collect());
    block.add_face(cycle.windows(2).rev().map(|pair| (pair[1], pair[0])).collect());
    block.draw(&cycle);
    while block.drawn.contains(&false) {
        let (piece, face) = block.next()?;
        block.part(piece, face);
    }
    Some(block.faces)
}

fn is_flat(nodes: usize, edges: &[Ends]) -> bool {
    blocks(nodes, edges).iter().all(|block| faces_of(nodes, &block.iter().map(|&edge| edges[edge]).collect::<Vec<_>>()).is_some())
}

/// Of a graph that has no flat drawing as few edges as have none: stretches of them are left out while it stays so, at last one by one, so that each of those
/// that remain is needed.
fn needed(nodes: usize, edges: &[Ends]) -> Vec<Ends> {
    let mut kept = edges.to_vec();
    let mut size = kept.len();
    while size > 1 {
        size = size.div_ceil(2);
        let mut at = 0;
        while at < kept.len() {
            let without = [&kept[..at], &kept[(at + size).min(kept.len())..]].concat();
            if is_flat(nodes, &without) {
                at += size;
            } else {
                kept = without;
            }
        }
    }
    kept
}

fn subdivision(nodes: usize, edges: &[Ends]) -> Subdivision {
    let edges = needed(nodes, edges);
    let near = neighbours(nodes, &edges);
    let branches: Vec<usize> = (0..nodes).filter(|&node| near[node].len() > 2).collect();
    let mut paths = vec![];
    for &start in &branches {
        for &(first, by) in &near[start] {
            let (mut path, mut by) = (vec![start, first], by);
            while near[path[path.len() - 1]].len() == 2 {
                let &(next, edge) = near[path[path.len() - 1]].iter().find(|(_, edge)| *edge != by).expect("two edges");
                path.push(next);
                by = edge;
            }
            if path[0] < path[path.len() - 1] {
                paths.push(path);
            }
        }
    }
    let beside = |node: usize| paths.iter().any(|path| path[0] == branches[0] && path[path.len() - 1] == node);
    let (others, ours): (Vec<usize>, Vec<usize>) = branches.iter().partition(|&&node| beside(node) && branches.len() == 6);
    Subdivision { nodes: [ours, others].concat(), paths }
}

/// The turn of each dart of a flat drawing with these ends of the channels, each node of which has a channel.
pub fn turns(nodes: usize, ends: &[Ends]) -> Result<Vec<u16>, Subdivision> {
    let mut edges: Vec<Ends> = ends.iter().filter(|(a, b)| a != b).copied().map(sorted).collect();
    edges.sort_unstable();
    edges.dedup();
    let first = |pair: Ends| ends.iter().position(|&one| sorted(one) == sorted(pair)).expect("a channel with these ends");
    let dart_of = |pair: Ends| 2 * first(pair) + (ends[first(pair)] != pair) as usize;
    let mut turns = vec![usize::MAX; 2 * ends.len()];
    let mut some = vec![usize::MAX; nodes]; // a dart of each node that has its place
    for block in blocks(nodes, &edges) {
        let of_block: Vec<Ends> = block.iter().map(|&edge| edges[edge]).collect();
        let Some(faces) = faces_of(nodes, &of_block) else { return Err(subdivision(nodes, &of_block)) };
        for face in faces {
            for (&one, &other) in face.iter().zip(face.iter().cycle().skip(1)) {
                turns[dart_of(one) ^ 1] = dart_of(other); // a face step is the turn of the reverse
            }
        }
        join(&mut turns, &mut some, of_block.iter().flat_map(|&(a, b)| [(a, dart_of((a, b))), (b, dart_of((b, a)))]));
    }
    for (channel, &(a, b)) in ends.iter().enumerate() {
        if a == b {
            loop_at(&mut turns, &mut some[a], 2 * channel);
        } else if first((a, b)) != channel {
            // beside the first: right behind it at one end, right before it at the other
            let (new, beside) = (2 * channel, dart_of((a, b)));
            (turns[new], turns[beside]) = (turns[beside], new);
            let before = turns.iter().position(|&turn| turn == beside ^ 1).expect("every dart is a turn");
            (turns[before], turns[new + 1]) = (new + 1, beside ^ 1);
        }
    }
    Ok(turns.into_iter().map(|turn| turn as u16).collect())
}

/// The rounds of a block put into those of the blocks before it, at the nodes that they share.
fn join(turns: &mut [usize], some: &mut [usize], darts: impl Iterator<Item = (usize, usize)>) {
    for (node, new) in darts {
        let old = some[node];
        if old == usize::MAX {
            some[node] = new;
            continue;
        }
        let mut step = new;
        while step != old && turns[step] != new {
            step = turns[step];
        }
        if step != old {
            turns.swap(old, step);
        }
    }
}

/// Both darts of a loop, one behind the other, anywhere at their node.
fn loop_at(turns: &mut [usize], some: &mut usize, dart: usize) {
    if *some == usize::MAX {
        *some = dart;
        turns[dart] = dart;
    } else {
        turns[dart] = turns[*some];
        turns[*some] = dart;
    }
    turns[dart + 1] = turns[dart];
    turns[dart] = dart + 1;
}

#[cfg(test)]
mod tests {
    use super::*;

    fn flat(nodes: usize, ends: &[Ends]) {
        let turns = turns(nodes, ends).unwrap();
        let tail = |dart: usize| if dart % 2 == 0 { ends[dart / 2].0 } else { ends[dart / 2].1 };
        let rounds = |step: &dyn Fn(usize) -> usize| {
            let mut met = vec![false; turns.len()];
            let mut count = 0;
            for start in 0..turns.len() {
                count += !met[start] as usize;
                let mut dart = start;
                while !met[dart] {
                    met[dart] = true;
                    dart = step(dart);
                }
            }
            count
        };
        assert!((0..turns.len()).all(|dart| tail(turns[dart] as usize) == tail(dart)), "{ends:?}: {turns:?}");
        assert_eq!(rounds(&|dart| turns[dart] as usize), nodes, "{ends:?}: {turns:?}");
        assert_eq!(nodes + rounds(&|dart| turns[dart ^ 1] as usize), ends.len() + 2, "{ends:?}: {turns:?}");
    }

    #[test]
    fn graphs_that_are_flat_get_turns() {
        flat(2, &[(0, 1)]);
        flat(2, &[(0, 1), (1, 0), (0, 0), (0, 1), (1, 1), (1, 1)]);
        flat(4, &[(0, 1), (0, 2), (0, 3), (1, 2), (1, 3), (2, 3), (3, 0), (2, 2)]);
        flat(6, &[(0, 1), (1, 2), (2, 0), (2, 3), (3, 4), (4, 5), (5, 3), (3, 2)]);
        for (rows, columns) in [(2, 2), (3, 5), (7, 7)] {
            let at = |row: usize, column: usize| row * columns + column;
            let mut ends = vec![];
            for (row, column) in (0..rows).flat_map(|row| (0..columns).map(move |column| (row, column))) {
                ends.extend((column + 1 < columns).then(|| (at(row, column), at(row, column + 1))));
                ends.extend((row + 1 < rows).then(|| (at(row + 1, column), at(row, column))));
                ends.extend((row + 1 < rows && column + 1 < columns).then(|| (at(row, column), at(row + 1, column + 1))));
            }
            flat(rows * columns, &ends);
        }
    }

    #[test]
    fn graphs_that_are_not_are_told_why() {
        let five: Vec<Ends> = (0..5).flat_map(|a| (0..a).map(move |b| (a, b))).collect();
        let found = turns(5, &five).unwrap_err();
        assert_eq!((found.nodes, found.paths.len()), (vec![0, 1, 2, 3, 4], 10));
        // the three houses, one pipe with a node on it, and more beside them
        let mut houses: Vec<Ends> = (0..3).flat_map(|a| [3, 4, 5].map(|b| (a, b))).filter(|&pair| pair != (0, 4)).collect();
        houses.extend([(0, 6), (6, 4), (6, 7), (7, 8), (0, 1), (2, 2), (0, 3)]);
        let found = turns(9, &houses).unwrap_err();
        assert_eq!(found.nodes, [0, 1, 2, 3, 4, 5]);
        assert_eq!(found.paths.iter().filter(|path| path[..] == [0, 6, 4]).count(), 1);
        assert!(found.paths.len() == 9 && found.paths.iter().all(|path| path[0] < 3 && path[path.len() - 1] > 2), "{:?}", found.paths);
    }
}

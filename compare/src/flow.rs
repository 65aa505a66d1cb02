//! An independent flow solver on nodes and edges: it knows nothing of faces. Maximum flows by augmenting paths (Dinic), with least flows as supplies of the nodes.
use crate::drawing::Drawing;

/// An arc and its reverse are 2i and 2i + 1; `room` is what each can still take.
#[derive(Clone)]
struct Arcs {
    heads: Vec<usize>,
    room: Vec<i64>,
    out: Vec<Vec<usize>>,
}

impl Arcs {
    fn new(nodes: usize) -> Self {
        Arcs { heads: vec![], room: vec![], out: vec![vec![]; nodes] }
    }

    fn add(&mut self, from: usize, to: usize, room: i64) {
        for (tail, head, room) in [(from, to, room), (to, from, 0)] {
            self.out[tail].push(self.heads.len());
            self.heads.push(head);
            self.room.push(room);
        }
    }

    /// Steps from `from` to each node over arcs with room.
    fn depths(&self, from: usize) -> Vec<usize> {
        let mut depths = vec![usize::MAX; self.out.len()];
        depths[from] = 0;
        let mut order = vec![from];
        let mut next = 0;
        while next < order.len() {
            let node = order[next];
            next += 1;
            for &arc in &self.out[node] {
                let head = self.heads[arc];
                if self.room[arc] > 0 && depths[head] == usize::MAX {
                    depths[head] = depths[node] + 1;
                    order.push(head);
                }
            }
        }
        depths
    }

    /// Pushes up to `most` along arcs that lead one step deeper; `next` remembers which arcs of a node are spent.
    fn push(&mut self, node: usize, to: usize, most: i64, depths: &[usize], next: &mut [usize]) -> i64 {
        if node == to {
            return most;
        }
        let mut pushed = 0;
        while next[node] < self.out[node].len() && pushed < most {
            let arc = self.out[node][next[node]];
            let head = self.heads[arc];
            if self.room[arc] > 0 && depths[head] == depths[node] + 1 {
                let part = self.push(head, to, self.room[arc].min(most - pushed), depths, next);
                self.room[arc] -= part;
                self.room[arc ^ 1] += part;
                pushed += part;
            }
            if pushed < most {
                next[node] += 1;
            }
        }
        pushed
    }

    fn augment(&mut self, from: usize, to: usize) -> i64 {
        let mut total = 0;
        loop {
            let depths = self.depths(from);
            if depths[to] == usize::MAX {
                return total;
            }
            let mut next = vec![0; self.out.len()];
            total += self.push(from, to, i64::MAX, &depths, &mut next);
        }
    }
}

/// More than any drawing can carry, which is 512 times 1,000,000.
const MORE: i64 = 1_000_000_000;

/// Each edge at its least flow, with the room above it as arc 2 * edge; arcs of a super source and sink make up for what the nodes then lack. The second part of the
/// answer is what they must carry for every node to have the net outflow that `net` asks.
fn shifted(drawing: &Drawing, mut net: Vec<i64>, free: Option<(usize, usize)>) -> (Arcs, i64) {
    let nodes = drawing.nodes as usize;
    let mut arcs = Arcs::new(nodes + 2);
    for edge in 0..drawing.edges() {
        let (tail, head) = (drawing.tail(2 * edge), drawing.head(2 * edge));
        let least = -drawing.capacity(2 * edge + 1);
        arcs.add(tail, head, drawing.capacity(2 * edge) - least);
        net[tail] -= least;
        net[head] += least;
    }
    if let Some((from, to)) = free {
        arcs.add(from, to, 2 * MORE);
        net[from] += MORE;
        net[to] -= MORE;
    }
    for (node, &lack) in net.iter().enumerate() {
        if lack > 0 {
            arcs.add(nodes, node, lack);
        } else {
            arcs.add(node, nodes + 1, -lack);
        }
    }
    (arcs, net.iter().filter(|&&lack| lack > 0).sum())
}

fn flows(drawing: &Drawing, arcs: &Arcs) -> Vec<i64> {
    (0..drawing.edges()).map(|edge| arcs.room[2 * edge + 1] - drawing.capacity(2 * edge + 1)).collect()
}

/// Some flow of this value within the capacities, if there is one.
pub fn carry(drawing: &Drawing, source: usize, sink: usize, value: i64) -> Option<Vec<i64>> {
    let nodes = drawing.nodes as usize;
    let mut net = vec![0; nodes];
    net[source] += value;
    net[sink] -= value;
    let (mut arcs, needed) = shifted(drawing, net, None);
    (arcs.augment(nodes, nodes + 1) == needed).then(|| flows(drawing, &arcs))
}

/// The least and the largest value that can be carried, if any can.
pub fn range(drawing: &Drawing, source: usize, sink: usize) -> Option<(i64, i64)> {
    let nodes = drawing.nodes as usize;
    let (mut arcs, needed) = shifted(drawing, vec![0; nodes], Some((sink, source)));
    if arcs.augment(nodes, nodes + 1) < needed {
        return None;
    }
    let value = net_flows(drawing, &flows(drawing, &arcs))[source];
    for room in &mut arcs.room[drawing.darts()..] {
        *room = 0; // neither the free arc nor the super source and sink take part from here
    }
    let less = arcs.clone().augment(sink, source);
    Some((value - less, value + arcs.augment(source, sink)))
}

/// The most that a forward capacity of a sheet is.
pub const MOST_LIMIT: i64 = 1_000_000;

/// The least flow on an edge with which the value is carried, if that is at most 1,000,000: of a flow with that as its forward capacity, less what the other edges
/// can take over from it.
pub fn least_on(drawing: &Drawing, source: usize, sink: usize, value: i64, edge: usize) -> Option<i64> {
    let nodes = drawing.nodes as usize;
    let (tail, head, least) = (drawing.tail(2 * edge), drawing.head(2 * edge), -drawing.capacity(2 * edge + 1));
    let mut net = vec![0; nodes];
    net[source] += value;
    net[sink] -= value;
    let (mut arcs, needed) = shifted(&drawing.with_limit(edge, MOST_LIMIT), net, None);
    if arcs.augment(nodes, nodes + 1) < needed {
        return None;
    }
    if tail == head {
        return Some(least); // what runs round a loop is carried nowhere
    }
    let flow = least + arcs.room[2 * edge + 1];
    for arc in (drawing.darts()..arcs.room.len()).chain([2 * edge, 2 * edge + 1]) {
        arcs.room[arc] = 0; // neither the super source and sink nor the edge itself take part from here
    }
    Some(least.max(flow - arcs.augment(tail, head)))
}

/// The least forward capacity of an edge, from its present one to 1,000,000, with which the value is carried.
pub fn least_limit(drawing: &Drawing, source: usize, sink: usize, value: i64, edge: usize) -> Option<i64> {
    least_on(drawing, source, sink, value, edge).map(|flow| flow.max(drawing.capacity(2 * edge)))
}

/// For each node the sum over darts with that tail.
pub fn net_flows(drawing: &Drawing, flows: &[i64]) -> Vec<i64> {
    let mut sums = vec![0; drawing.nodes as usize];
    for dart in 0..drawing.darts() {
        sums[drawing.tail(dart)] += along(flows, dart);
    }
    sums
}

/// The flow on a dart, that of the reverse dart being its negative.
pub fn along(flows: &[i64], dart: usize) -> i64 {
    if dart % 2 == 0 {
        flows[dart / 2]
    } else {
        -flows[dart / 2]
    }
}

#[cfg(test)]
mod tests {
    use super::*;
    use crate::paper;

    #[test]
    fn a_carries_0_to_12() {
        assert_eq!(range(&paper::a(), 0, 1), Some((0, 12)));
        assert_eq!(range(&paper::a(), 1, 0), Some((-12, 0)));
        assert_eq!(carry(&paper::a(), 0, 1, 12), Some(vec![5, 3, 4]));
        for value in 0..=12 {
            let flows = carry(&paper::a(), 0, 1, value).unwrap();
            assert_eq!(net_flows(&paper::a(), &flows), [value, -value]);
        }
        assert_eq!(carry(&paper::a(), 0, 1, 13), None);
        assert_eq!(carry(&paper::a(), 0, 1, -1), None);
    }

    #[test]
    fn a_with_a_least_flow_carries_2_to_12() {
        let drawing = paper::a_with(&[(3, -2)]);
        assert_eq!(range(&drawing, 0, 1), Some((2, 12)));
        assert_eq!(carry(&drawing, 0, 1, 2), Some(vec![0, 2, 0]));
        assert_eq!(carry(&drawing, 0, 1, 1), None);
    }

    #[test]
    fn a_is_raised_by_what_is_missing() {
        assert_eq!(least_limit(&paper::a(), 0, 1, 13, 0), Some(6));
        assert_eq!(least_limit(&paper::a(), 0, 1, 13, 1), Some(4));
        assert_eq!((least_limit(&paper::a(), 0, 1, 6, 0), least_on(&paper::a(), 0, 1, 6, 0)), (Some(5), Some(0)));
        assert_eq!(least_limit(&paper::a(), 0, 1, 1_000_007, 0), Some(1_000_000));
        assert_eq!(least_limit(&paper::a(), 0, 1, 1_000_008, 0), None);
        assert_eq!(least_limit(&paper::a_with(&[(0, -2), (1, 5)]), 0, 1, 6, 0), Some(-1));
    }

    #[test]
    fn b_carries_nothing_between_0_and_1_but_something_between_0_and_2() {
        assert_eq!(range(&paper::b(), 0, 1), None);
        assert_eq!(range(&paper::b(), 0, 2), Some((1, 3)));
        assert_eq!(range(&paper::b(), 2, 0), Some((-3, -1)));
        assert_eq!(range(&paper::two_bridges(), 2, 0), None);
    }
}

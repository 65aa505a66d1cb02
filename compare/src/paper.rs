//! The drawings of document 01 with known answers, asked of the unit: the answers stand here as the paper has them. (The other tests use the same drawings.)
use crate::drawing::Drawing;
use crate::unit::{self, Call, Lent};

fn drawing(nodes: u16, edges: &[[i32; 6]]) -> Drawing {
    let two = |first: usize| edges.iter().flat_map(move |edge| [edge[first], edge[first + 1]]);
    Drawing { nodes, tails: two(0).map(|x| x as u16).collect(), rotations: two(2).map(|x| x as u16).collect(), capacities: two(4).collect(), outer: None }
}

pub fn a() -> Drawing {
    drawing(2, &[[0, 1, 2, 5, 5, 0], [0, 1, 4, 1, 3, 0], [0, 1, 0, 3, 4, 0]])
}

/// A with other capacities of some darts.
pub fn a_with(capacities: &[(usize, i32)]) -> Drawing {
    let mut drawing = a();
    capacities.iter().for_each(|&(dart, capacity)| drawing.capacities[dart] = capacity);
    drawing
}

/// A with a dart on the outer face.
pub fn a_outer(dart: u16) -> Drawing {
    Drawing { outer: Some(dart), ..a() }
}

/// A with turns 1 -> 3 -> 5 -> 1 at node 1.
pub fn a_twisted() -> Drawing {
    let mut drawing = a();
    [(1, 3), (3, 5), (5, 1)].iter().for_each(|&(dart, next)| drawing.rotations[dart] = next);
    drawing
}

pub fn b() -> Drawing {
    drawing(3, &[[0, 1, 2, 1, 5, 0], [0, 2, 0, 3, 3, -1]])
}

/// A path on which nothing can be carried, though every set of one side allows something.
pub fn two_bridges() -> Drawing {
    drawing(3, &[[1, 2, 3, 1, 1, -1], [0, 1, 2, 0, 0, 0]])
}

/// The result of a call with one word for the set, and the memory after it.
fn ask(sheet: Vec<u8>, call: Call, flows: &[i32], levels: &[i32]) -> (u8, Lent) {
    let mut lent = Lent::new(sheet);
    (lent.flows, lent.levels, lent.set) = (flows.to_vec(), levels.to_vec(), vec![99]);
    let result = unit::call(&call, &mut lent);
    assert!(lent.guards);
    (result, lent)
}

fn solve(drawing: &Drawing, value: i32) -> (u8, Lent) {
    ask(drawing.bytes(), Call::Solve { source: 0, sink: 1, value }, &[77; 3], &[])
}

fn can(drawing: &Drawing, value: i32, flows: [i32; 3]) {
    let (result, lent) = solve(drawing, value);
    assert_eq!((result, lent.can, lent.flows, lent.set), (0, 1, flows.to_vec(), vec![99]), "{value}");
}

fn cannot(drawing: &Drawing, value: i32, set: u64) {
    let (result, lent) = solve(drawing, value);
    assert_eq!((result, lent.can, lent.size, lent.set, lent.flows), (0, 0, 1, vec![set], vec![77; 3]), "{value}");
}

#[test]
fn faces_of_a() {
    assert_eq!(a().faces(), [0, 1, 1, 2, 2, 0]); // {0,5}, {1,2}, {3,4}
}

#[test]
fn solve_on_a() {
    can(&a(), 6, [0, 2, 4]);
    can(&a(), 12, [5, 3, 4]);
    cannot(&a(), 13, 1);
    can(&a(), 0, [0, 0, 0]);
    cannot(&a(), -1, 2);
    can(&a_with(&[(3, -2)]), 2, [0, 2, 0]);
    cannot(&a_with(&[(3, -2)]), 1, 2);
    assert_eq!(solve(&a_twisted(), 6).0, 12);
}

/// Document 02, Job 6.
#[test]
fn outer_faces_of_a() {
    can(&a_outer(0), 6, [0, 2, 4]);
    can(&a_outer(1), 6, [5, 0, 1]);
    can(&a_outer(2), 6, [5, 0, 1]);
    can(&a_outer(3), 6, [3, 3, 0]);
    can(&a_outer(5), 6, [0, 2, 4]);
    cannot(&a_outer(3), 13, 1);
    assert_eq!(solve(&a_outer(6), 6).0, 24);
    let short = |length: usize| ask(a_outer(6).bytes()[..length].to_vec(), Call::Read, &[], &[]).0;
    assert_eq!([short(1), short(5), short(6), short(7)], [1, 1, 1, 24]);
}

#[test]
fn largest() {
    let (result, lent) = ask(a().bytes(), Call::Largest { source: 0, sink: 1 }, &[77; 3], &[]);
    assert_eq!((result, lent.found, lent.value, lent.flows, lent.set), (0, 1, 12, vec![5, 3, 4], vec![1]));
    let (result, lent) = ask(b().bytes(), Call::Largest { source: 0, sink: 1 }, &[77; 3], &[]);
    assert_eq!((result, lent.found, lent.flows, lent.set), (0, 0, vec![77; 3], vec![4]));
    let (result, lent) = ask(two_bridges().bytes(), Call::Largest { source: 2, sink: 0 }, &[77; 3], &[]);
    assert_eq!((result, lent.found, lent.flows, lent.set), (0, 0, vec![77; 3], vec![5]));
}

/// Document 02, Job 4: the least and the largest value, with a set below the one and above the other.
#[test]
fn least_and_largest() {
    let ask = |drawing: Drawing, source: u16, sink: u16| {
        let mut lent = Lent::new(drawing.bytes());
        (lent.low, lent.below, lent.high, lent.above) = (vec![77; 3], vec![99], vec![88; 3], vec![66]);
        assert_eq!(unit::call(&Call::LeastAndLargest { source, sink }, &mut lent), 0);
        assert!(lent.guards);
        lent
    };
    let values = |drawing: Drawing, source: u16, sink: u16| {
        let lent = ask(drawing, source, sink);
        assert_eq!(lent.found, 1);
        (lent.least, lent.low, lent.below[0], lent.largest, lent.high, lent.above[0])
    };
    assert_eq!(values(a(), 0, 1), (0, vec![0, 0, 0], 2, 12, vec![5, 3, 4], 1));
    assert_eq!(values(a_with(&[(3, -2)]), 0, 1), (2, vec![0, 2, 0], 2, 12, vec![5, 3, 4], 1));
    assert_eq!(values(a_with(&[(3, -2)]), 1, 0), (-12, vec![5, 3, 4], 1, -2, vec![0, 2, 0], 2));
    for (drawing, source, sink, set) in [(b(), 0, 1, 4), (two_bridges(), 2, 0, 5)] {
        let lent = ask(drawing, source, sink);
        assert_eq!((lent.found, lent.low, lent.below, lent.high, lent.above), (0, vec![77; 3], vec![set], vec![88; 3], vec![set]));
    }
}

/// Document 02, Job 9: the subtotals of a set's nodes, nodes rising, and the total.
#[test]
fn totals() {
    let ask = |drawing: Drawing, set: u64| {
        let mut lent = Lent::new(drawing.bytes());
        (lent.set, lent.subtotals) = (vec![set, 99], vec![77; 4]);
        assert_eq!(unit::call(&Call::Totals, &mut lent), 0);
        assert!(lent.guards);
        (lent.subtotals, lent.total, lent.set)
    };
    assert_eq!(ask(a(), 1), (vec![12, 77, 77, 77], 12, vec![1, 99]));
    assert_eq!(ask(a(), 3), (vec![0, 0, 77, 77], 0, vec![3, 99]));
    assert_eq!(ask(a(), !3), (vec![77; 4], 0, vec![!3, 99]));
    assert_eq!(ask(a_with(&[(3, -2)]), 2), (vec![-2, 77, 77, 77], -2, vec![2, 99]));
    assert_eq!(ask(b(), 6), (vec![0, -1, 77, 77], -1, vec![6, 99]));
    assert_eq!(ask(two_bridges(), 5), (vec![0, -1, 77, 77], -1, vec![5, 99]));
}

/// Document 02, Job 7: the smallest forward limit from the present one, with its highest settings; or none, with a set for 1,000,000.
#[test]
fn raise_limit() {
    let ask = |drawing: Drawing, source: u16, sink: u16, value: i32, edge: u16| {
        let mut lent = Lent::new(drawing.bytes());
        (lent.flows, lent.set, lent.value) = (vec![77; 3], vec![99], 55);
        assert_eq!(unit::call(&Call::RaiseLimit { source, sink, value, edge }, &mut lent), 0);
        assert!(lent.guards);
        (lent.found, lent.value, lent.flows, lent.set[0])
    };
    assert_eq!(ask(a(), 0, 1, 13, 0), (1, 6, vec![6, 3, 4], 99));
    assert_eq!(ask(a(), 0, 1, 6, 0), (1, 5, vec![0, 2, 4], 99));
    assert_eq!(ask(a_with(&[(0, -2), (1, 5)]), 0, 1, 6, 0), (1, -1, vec![-1, 3, 4], 99));
    assert_eq!(ask(a(), 0, 1, 1_000_008, 0), (0, 55, vec![77; 3], 1));
    assert_eq!(ask(b(), 0, 1, 3, 0), (0, 55, vec![77; 3], 4));
}

#[test]
fn levels() {
    let sheet = a_with(&[(0, 5), (1, 5), (2, 5), (3, 5), (4, 5), (5, 5)]).bytes();
    let (result, lent) = ask(sheet.clone(), Call::LevelsFromSettings, &[2, 1, -3], &[77; 3]);
    assert_eq!((result, lent.levels), (0, vec![0, -2, -3]));
    let (result, lent) = ask(sheet, Call::SettingsFromLevels, &[77; 3], &[0, -2, -3]);
    assert_eq!((result, lent.flows), (0, vec![2, 1, -3]));
    let outer = Drawing { outer: Some(1), ..a_with(&[(0, 5), (1, 5), (2, 5), (3, 5), (4, 5), (5, 5)]) }.bytes();
    let (result, lent) = ask(outer.clone(), Call::LevelsFromSettings, &[2, 1, -3], &[77; 3]);
    assert_eq!((result, lent.levels), (0, vec![2, 0, -1]));
    assert_eq!(ask(outer.clone(), Call::SettingsFromLevels, &[77; 3], &[0, -2, -3]).0, 20);
    assert_eq!(ask(outer, Call::SettingsFromLevels, &[77; 3], &[2, 0, -1]).0, 0);
}

#[test]
fn ranges() {
    let result = |drawing: Drawing, value: i32| solve(&drawing, value).0;
    assert_eq!(result(a_with(&[(0, 1_000_000)]), 6), 0);
    assert_eq!(result(a_with(&[(0, 1_000_001)]), 6), 6);
    assert_eq!(result(a_with(&[(2, 2), (3, -2)]), 6), 0);
    assert_eq!(result(a_with(&[(2, 2), (3, -3)]), 6), 7);
    cannot(&a(), 600_000_000, 1);
    assert_eq!(result(a(), 600_000_001), 15);
    assert_eq!(ask(vec![], Call::Read, &[], &[]).0, 1);
}

#[test]
fn key() {
    let text = |drawing: Drawing, value: i32| {
        let mut input = vec![3, 0, 0, 1, 0];
        input.extend(value.to_le_bytes());
        input.extend(drawing.bytes());
        let mut lent = Lent::new(input);
        lent.text = vec![0; crate::judge::TEXT];
        assert_eq!(unit::call(&Call::KeyText, &mut lent), 0);
        String::from_utf8(lent.text[..lent.length].to_vec()).unwrap()
    };
    assert_eq!(text(a(), 6), "can 6\n0 0\n1 2\n2 4\n");
    assert_eq!(text(a(), 13), "cannot 13 1\n0\n");
    assert_eq!(text(a_twisted(), 6), "refused 12\n");
}

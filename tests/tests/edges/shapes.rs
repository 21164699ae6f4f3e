//! Terms by their tags: shapes with any number of nodes, and names put into them.
use glow_tests::file::sizes_of;
use glow_tests::flat::{Flat, F};
use glow_tests::prng::Prng;

/// Names that `term` binds, from here on.
const BOUND: u32 = 1 << 20;

pub type Shape = fn(usize) -> Vec<u8>;

/// Abstractions, so that there are n nodes in all, around so many applications nested on the left.
fn below(n: usize, applications: usize) -> Vec<u8> {
    let mut tags = vec![1; n - 1 - 2 * applications];
    tags.extend(vec![2; applications]);
    tags.extend(vec![0; applications + 1]);
    tags
}

/// Applications nested on the left, below one abstraction where n is even.
pub fn left_nested(n: usize) -> Vec<u8> { below(n, (n - 1) / 2) }

/// Applications nested on the right, with one abstraction around the last variable where n is even.
pub fn right_nested(n: usize) -> Vec<u8> {
    let mut tags = [2, 0].repeat((n - 1) / 2);
    tags.extend(vec![1; (n - 1) % 2]);
    tags.push(0);
    tags
}

/// Only abstractions around a variable.
pub fn abstractions(n: usize) -> Vec<u8> { below(n, 0) }

/// Many abstractions, and then as many right parts to come as half of the nodes that are left.
fn abstractions_first(n: usize) -> Vec<u8> { below(n, (n - 1) / 4) }

/// Abstractions and applications by turns, all right parts at the end.
fn turns_on_the_left(n: usize) -> Vec<u8> {
    let k = (n - 1) / 3;
    let mut tags = [1, 2].repeat(k);
    tags.extend(vec![1; (n - 1) % 3]);
    tags.extend(vec![0; k + 1]);
    tags
}

/// Abstractions and applications by turns, each left part a variable.
fn turns_on_the_right(n: usize) -> Vec<u8> {
    let mut tags = [1, 2, 0].repeat((n - 1) / 3);
    tags.extend(vec![1; (n - 1) % 3]);
    tags.push(0);
    tags
}

/// Applications nested on the left, every second part a function of three nodes: a variable stands just past the end of each.
fn side_by_side(n: usize) -> Vec<u8> {
    let k = (n - 1) / 3;
    let functions = (k / 2 + 1).min((n - 1 - 2 * k) / 2);
    let mut tags = vec![1; n - 1 - 2 * k - 2 * functions];
    tags.extend(vec![2; k]);
    for part in 0..=k { if part % 2 == 0 && part / 2 < functions { tags.extend([1, 1, 0]); } else { tags.push(0); } }
    tags
}

/// As chance has it, the same for one n.
fn by_chance(n: usize) -> Vec<u8> {
    let mut r = Prng(n as u64);
    let mut tags = Vec::with_capacity(n);
    let mut sizes = vec![n]; // of the subterms to come, the next last
    while let Some(size) = sizes.pop() {
        if size == 1 {
            tags.push(0);
        } else if size == 2 || r.one_in(3) {
            tags.push(1);
            sizes.push(size - 1);
        } else {
            let left = r.between(1, size - 2);
            tags.push(2);
            sizes.extend([size - 1 - left, left]);
        }
    }
    tags
}

pub const SHAPES: [(&str, Shape); 8] = [
    ("left nested", left_nested), ("right nested", right_nested), ("only abstractions", abstractions), ("abstractions first", abstractions_first),
    ("turns on the left", turns_on_the_left), ("turns on the right", turns_on_the_right), ("side by side", side_by_side), ("by chance", by_chance),
];

/// A function of so many nodes that binds so many names, otherwise as chance has it. One of the numbers is even and the other odd.
pub fn function(nodes: usize, binders: usize, r: &mut Prng) -> Vec<u8> {
    let applications = (nodes - binders - 1) / 2;
    assert_eq!(nodes, binders + 2 * applications + 1);
    let mut body = vec![1; binders - 1];
    body.extend(vec![2; applications]);
    body.extend(vec![0; applications + 1]);
    for k in (1..body.len()).rev() { body.swap(k, r.below(k + 1)); }
    // of all rotations one is a whole term: it begins behind the place where most parts are closed
    let (mut open, mut least, mut first) = (0i32, 0, 0);
    for (k, tag) in body.iter().enumerate() {
        match tag { 0 => open -= 1, 2 => open += 1, _ => {} }
        if open < least { (least, first) = (open, k + 1); }
    }
    let whole = first % body.len();
    body.rotate_left(whole);
    body.insert(0, 1);
    body
}

/// A term with these tags. A variable has one of the names `outside`, or that of an abstraction around it: the innermost, the outermost or any.
pub fn term(tags: &[u8], outside: &[u32], r: &mut Prng) -> Flat {
    let sizes = sizes_of(tags).expect("one whole term");
    let mut around: Vec<(usize, u32)> = Vec::new(); // where each abstraction around ends, and its name
    let mut next = BOUND;
    let mut out = Vec::with_capacity(tags.len());
    for (at, tag) in tags.iter().enumerate() {
        while around.last().is_some_and(|&(end, _)| end <= at) { around.pop(); }
        out.push(match tag {
            0 if around.is_empty() || !outside.is_empty() && r.one_in(2) => F::V(outside[r.below(outside.len())]),
            0 => F::V(around[[0, around.len() - 1, r.below(around.len())][r.below(3)]].1),
            1 => { around.push((at + sizes[at], next)); next += 1; F::L(next - 1) }
            _ => F::A,
        });
    }
    out
}

//! Terms as flat lists in prefix order with names of any kind, and their canonical numbering.
use crate::file::{encode, sizes_of};
use std::collections::HashMap;

#[derive(Clone, Copy, Debug, PartialEq, Eq, Hash)]
pub enum F { V(u32), L(u32), A }
pub type Flat = Vec<F>;

pub fn v(name: u32) -> Flat { vec![F::V(name)] }
pub fn l(name: u32, body: Flat) -> Flat { let mut t = vec![F::L(name)]; t.extend(body); t }
pub fn a(left: Flat, right: Flat) -> Flat { let mut t = vec![F::A]; t.extend(left); t.extend(right); t }
/// head applied to all arguments, first one first
pub fn apply(head: Flat, arguments: impl IntoIterator<Item = Flat>) -> Flat {
    arguments.into_iter().fold(head, a)
}

/// A term in canonical numbering.
#[derive(Clone, Debug, PartialEq, Eq, Hash)]
pub struct Canonical { pub f: usize, pub tags: Vec<u8>, pub args: Vec<u16> }

impl Canonical {
    pub fn file(&self) -> Vec<u8> { encode(self.f, &self.tags, &self.args) }
    pub fn text(&self) -> String { text(&self.tags, &self.args) }
}

pub fn text(tags: &[u8], args: &[u16]) -> String {
    let parts: Vec<String> = tags.iter().zip(args).map(|(t, a)| format!("{}{}", ['v', 'l', 'a'][*t as usize], a)).collect();
    parts.join(" ")
}

/// The papers' notation, with no test of its sense: `a2 l1 v1 v0`.
pub fn from_text(f: usize, text: &str) -> Canonical {
    let (mut tags, mut args) = (Vec::new(), Vec::new());
    for word in text.split_whitespace() {
        tags.push(match &word[..1] { "v" => 0, "l" => 1, "a" => 2, other => panic!("{other}?") });
        args.push(word[1..].parse().expect("a number"));
    }
    Canonical { f, tags, args }
}

/// Binders are numbered from f in prefix order; a variable is bound by the nearest binder of its
/// name around it, or else is free and keeps its number.
pub fn canonical(f: usize, term: &[F]) -> Canonical {
    let tags: Vec<u8> = term.iter().map(|x| match x { F::V(_) => 0, F::L(_) => 1, F::A => 2 }).collect();
    let sizes = sizes_of(&tags).expect("one whole term");
    let mut around: HashMap<u32, Vec<usize>> = HashMap::new();
    let mut ends: Vec<(usize, u32)> = Vec::new();
    let mut next = f;
    let mut args = Vec::with_capacity(term.len());
    for (at, x) in term.iter().enumerate() {
        while ends.last().is_some_and(|&(end, _)| end <= at) {
            let (_, name) = ends.pop().unwrap();
            around.get_mut(&name).unwrap().pop();
        }
        args.push(match *x {
            F::A => sizes[at + 1],
            F::L(name) => {
                around.entry(name).or_default().push(next);
                ends.push((at + sizes[at], name));
                next += 1;
                next - 1
            }
            F::V(name) => match around.get(&name).and_then(|s| s.last()) {
                Some(&number) => number,
                None => { assert!((name as usize) < f, "name {name} is neither free nor bound"); name as usize }
            },
        } as u16);
    }
    Canonical { f, tags, args }
}

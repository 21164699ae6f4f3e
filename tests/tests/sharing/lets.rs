//! Programs that are lets: a few terms bound to names, each of which may use the names before its own, and a body that uses them several times.
//! All small ones, and many by chance.
use crate::{lets, x, Compared, Of, Program, Scope, BOUND, CLOSED, LET, OPEN};
use glow_tests::enumerate::All;
use glow_tests::flat::{a, apply, l, v, Flat, F};
use glow_tests::painted::on_eight_mebibytes;
use glow_tests::prng::Prng;
use std::collections::HashSet;

/// The free name of the small programs.
const ONE: Scope = Scope { y: 0, w: 0 };

/// All terms of so many nodes over one free name and the names of so many lets.
fn terms(all: &mut All, before: usize, nodes: usize) -> Vec<Flat> {
    let named = |node: &F| match *node { F::V(name) if name >= 1 && (name as usize) <= before => F::V(LET + name - 1), node => node };
    all.terms(1 + before, nodes).iter().map(|t| t.iter().map(named).collect()).collect()
}

/// Whether a bound name is there twice: in a term without such a one nothing comes again. A name that is bound twice may be taken for one.
fn twice(term: &Flat) -> bool {
    let mut met = HashSet::new();
    term.iter().any(|node| matches!(node, F::V(name) if *name > 0 && !met.insert(*name)))
}

/// All programs of so many nodes: of each let's term, and of the body.
fn of_sizes(seen: &mut Compared, all: &mut All, sizes: &[usize]) {
    let (body, entries) = sizes.split_last().unwrap();
    let bodies = terms(all, entries.len(), *body);
    let mut lists: Vec<Vec<Flat>> = vec![vec![]];
    for (k, &nodes) in entries.iter().enumerate() {
        let next = terms(all, k, nodes);
        lists = lists.into_iter().flat_map(|list| next.iter().map(move |term| { let mut list = list.clone(); list.push(term.clone()); list })).collect();
    }
    for list in &lists {
        for body in &bodies {
            let term = lets(list, body.clone());
            if twice(&term) { seen.program(Of::Some, &Program::plain(1, &term)); }
        }
    }
}

/// All sums of so many numbers, each at least one.
fn sums(numbers: usize, sum: usize) -> Vec<Vec<usize>> {
    if numbers == 1 { return vec![vec![sum]]; }
    (1..=sum + 1 - numbers).flat_map(|last| sums(numbers - 1, sum - last).into_iter().map(move |mut all| { all.push(last); all })).collect()
}

/// All with one free name, where the terms of the lets and the body have so many nodes together.
#[test]
fn all_small() {
    on_eight_mebibytes(|| {
        let (mut seen, mut all) = (Compared::new(), All::default());
        for (count, most) in [(1, 10), (2, 9), (3, 8)] {
            for sum in count + 1..=most { for sizes in sums(count + 1, sum) { of_sizes(&mut seen, &mut all, &sizes); } }
        }
        seen.told("all small lets", 10_000, 3_000);
    });
}

/// All pairs of terms of up to four nodes, the second with the name of the first, in each place.
#[test]
fn all_pairs() {
    on_eight_mebibytes(|| {
        let (mut seen, mut all) = (Compared::new(), All::default());
        let mut of = |before: usize| (1..=4).flat_map(|nodes| terms(&mut all, before, nodes)).collect::<Vec<Flat>>();
        let (first, second) = (of(0), of(1));
        for one in &first {
            for two in &second {
                for place in OPEN.into_iter().chain(CLOSED) { seen.program(Of::Some, &Program::plain(1, &lets(&[one.clone(), two.clone()], place(ONE, x(1))))); }
            }
        }
        seen.told("all pairs of small lets", 20_000, 10_000);
    });
}

/// Terms by chance over the names of the lets so far and f free names, of which so many have a definition.
struct Making<'a> { r: &'a mut Prng, defined: usize, f: usize, /** of each let, whether it is inert */ inert: Vec<bool> }

impl Making<'_> {
    /// A free name that has no definition, mostly the first or the last of them.
    fn free(&mut self) -> Flat { v([self.defined, self.f - 1, self.r.between(self.defined, self.f - 1)][self.r.below(3)] as u32) }

    /// A name below so many abstractions, mostly a let's; where there is none, the identity.
    fn name(&mut self, around: usize) -> Flat {
        let (lets, free) = (self.inert.len(), self.f - self.defined);
        for _ in 0..40 {
            match self.r.below(10) {
                0..=3 if lets > 0 => return x(self.r.below(lets)),
                4 if lets > 0 => return x(lets - 1),
                5 | 6 if around > 0 => return v(BOUND + if self.r.one_in(2) { around - 1 } else { self.r.below(around) } as u32),
                7 if free > 0 => return self.free(),
                8 | 9 if self.defined > 0 => return v(self.r.below(self.defined) as u32),
                _ => {}
            }
        }
        l(BOUND + around as u32, v(BOUND + around as u32))
    }

    /// Any term of no more than so many nodes, or two, below so many abstractions: nothing of it takes a step.
    fn inside(&mut self, nodes: usize, around: usize) -> Flat {
        match self.r.below(5) {
            _ if nodes < 2 => self.name(around),
            0 | 1 => l(BOUND + around as u32, self.inside(nodes - 1, around + 1)),
            _ if nodes < 3 => self.name(around),
            _ => {
                let left = self.r.between(1, nodes - 2);
                let part = self.inside(left, around);
                a(part, self.inside(nodes - 1 - left, around))
            }
        }
    }

    fn function(&mut self, most: usize) -> Flat { let nodes = self.r.between(1, most); l(BOUND, self.inside(nodes, 1)) }

    /// A term that takes steps now and then, and whether it is inert: a name applied, an abstraction, or a name.
    fn outside(&mut self, nodes: usize) -> (Flat, bool) {
        match self.r.below(8) {
            0 if !self.inert.is_empty() => { let k = self.r.below(self.inert.len()); (x(k), self.inert[k]) }
            1 | 2 => (self.function(nodes), false),
            3 if self.r.one_in(6) => { let head = self.name(0); (a(head, self.outside(nodes).0), false) }
            _ => {
                let mut heads: Vec<Flat> = (0..self.inert.len()).filter(|&k| self.inert[k]).map(x).collect();
                if self.f > self.defined { heads.extend([self.free(), self.free()]); }
                if heads.is_empty() { return (self.function(nodes), false); }
                let (head, count) = (heads[self.r.below(heads.len())].clone(), self.r.between(1, 4));
                let items: Vec<Flat> = (0..count).map(|_| if nodes > 4 && self.r.one_in(2) { self.outside(nodes / 2).0 } else { self.name(0) }).collect();
                (apply(head, items), true)
            }
        }
    }
}

/// So many definitions by chance, and a program of lets with f free names.
pub fn by_chance(r: &mut Prng, defined: usize, f: usize) -> (Vec<Flat>, Flat) {
    let (count, nodes) = (r.between(1, 6), r.between(3, 12));
    let definitions = (0..defined).map(|k| Making { r, defined: k, f: k, inert: vec![] }.function(nodes)).collect();
    let mut making = Making { r, defined, f, inert: vec![] };
    let mut entries = Vec::new();
    for _ in 0..count {
        let (term, inert) = making.outside(nodes);
        entries.push(term);
        making.inert.push(inert);
    }
    let body = if f == defined || making.r.one_in(4) { making.function(4 * nodes) } else {
        let (y, shown) = (making.free(), making.r.between(2, 6));
        let items: Vec<Flat> = (0..shown).map(|_| if making.r.one_in(2) { making.name(0) } else { making.outside(nodes).0 }).collect();
        apply(y, items)
    };
    (definitions, lets(&entries, body))
}

fn many(seed: u64, programs: usize) {
    on_eight_mebibytes(|| {
        let (mut seen, mut r) = (Compared::new(), Prng(seed));
        for k in 0..programs {
            let f = match k % 64 { 0..=3 => 0, 4..=11 => 1, 12 => 300, 13 => 16_384, 14..=17 => r.between(240, 260), _ => 2 };
            let term = by_chance(&mut r, 0, f).1;
            seen.program(Of::Some, &Program::plain(f, &term));
        }
        seen.told("lets by chance", 50_000, 20_000);
    });
}

#[test] fn by_chance_1() { many(21, 12_000) }
#[test] fn by_chance_2() { many(22, 12_000) }

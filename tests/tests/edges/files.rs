//! Files about the sizes at which the check takes another array, sound ones and broken ones: the refusal is the second implementation's, and no
//! array is changed. With two faults the refusal is that of the test that comes first, wherever in the file each of them stands.
use crate::shapes::{term, SHAPES};
use crate::Compared;
use glow_tests::case::Case;
use glow_tests::exchange::{Exchange, Given};
use glow_tests::file::{check, sizes_of};
use glow_tests::flat::{canonical, v, Canonical};
use glow_tests::machine::{Lengths, Rules, BOTH, COUNTED};
use glow_tests::painted::on_eight_mebibytes;
use glow_tests::prelude::encode;
use glow_tests::prng::Prng;

fn sizes() -> impl Iterator<Item = usize> { [1..=3, 62..=67, 254..=259, 1022..=1027, 16_382..=16_384].into_iter().flatten() }

/// Something wrong, as a rule: another tag or argument at a node, a node more at the end, or the last one left out.
#[derive(Clone, Copy, Debug)]
enum Edit { Tag(usize, u8), Argument(usize, u16), Behind(u8), Without }

impl Edit {
    fn put(self, t: &mut Canonical) {
        match self {
            Edit::Tag(at, tag) => t.tags[at] = tag,
            Edit::Argument(at, x) => t.args[at] = x,
            Edit::Behind(tag) => { t.tags.push(tag); t.args.push(0); }
            Edit::Without => { t.tags.pop(); t.args.pop(); }
        }
    }

    /// The node that it is at, of n.
    fn place(self, n: usize) -> usize { match self { Edit::Tag(at, _) | Edit::Argument(at, _) => at, Edit::Behind(_) => n, Edit::Without => n - 1 } }

    /// The file with these edits; those at nodes first, as they know the nodes by their places.
    fn file(edits: &[Edit], t: &Canonical) -> Vec<u8> {
        let mut t = t.clone();
        let (last, first): (Vec<Edit>, Vec<Edit>) = edits.iter().partition(|e| matches!(e, Edit::Behind(_) | Edit::Without));
        for edit in first.into_iter().chain(last) { edit.put(&mut t); }
        t.file()
    }
}

/// The first, the one in the middle, and the last.
fn spread(places: &[usize]) -> Vec<usize> {
    let mut some: Vec<usize> = [places.first(), places.get(places.len() / 2), places.last()].into_iter().flatten().copied().collect();
    some.dedup();
    some
}

fn places(t: &Canonical, tag: u8) -> Vec<usize> { (0..t.tags.len()).filter(|&at| t.tags[at] == tag).collect() }

/// These arguments at the node, except the one that is there.
fn arguments(t: &Canonical, at: usize, others: &[u16]) -> Vec<Edit> { others.iter().filter(|&&x| x != t.args[at]).map(|&x| Edit::Argument(at, x)).collect() }

fn tags(t: &Canonical) -> Vec<Edit> { spread(&(0..t.tags.len()).collect::<Vec<_>>()).into_iter().flat_map(|at| [3, 255].map(|tag| Edit::Tag(at, tag))).collect() }

/// Left sizes: a little less and more, none, the largest, and one with which the left part's end is 0 or 1 in 16 bits.
fn left_sizes(t: &Canonical) -> Vec<Edit> {
    let wrong = |at: usize| {
        let (x, here) = (t.args[at], at as u16);
        arguments(t, at, &[x.wrapping_sub(1), x + 1, x.wrapping_sub(2), x + 2, 0, u16::MAX, u16::MAX - here, (u16::MAX - here).wrapping_add(1)])
    };
    spread(&places(t, 2)).into_iter().flat_map(wrong).collect()
}

/// A node too many and one too few, and another known tag.
fn nodes(t: &Canonical) -> Vec<Edit> {
    let other = |at: usize| (0..3).filter(move |&tag| tag != t.tags[at]).map(move |tag| Edit::Tag(at, tag));
    let mut all: Vec<Edit> = spread(&(0..t.tags.len()).collect::<Vec<_>>()).into_iter().flat_map(other).collect();
    all.extend([Edit::Behind(0), Edit::Behind(1), Edit::Behind(2), Edit::Without]);
    all
}

fn binders(t: &Canonical) -> Vec<Edit> {
    let all = places(t, 1);
    let behind = (t.f + all.len()) as u16;
    spread(&all).into_iter().flat_map(|at| arguments(t, at, &[t.args[at].wrapping_sub(1), t.args[at] + 1, 0, behind, u16::MAX])).collect()
}

/// Names about the free ones and about the last that is bound. Some of these are in scope.
fn names(t: &Canonical) -> Vec<Edit> {
    let (f, behind) = (t.f as u16, (t.f + places(t, 1).len()) as u16);
    let others = [f.wrapping_sub(1), f, f + 1, behind.wrapping_sub(1), behind, behind + 1, u16::MAX];
    spread(&places(t, 0)).into_iter().flat_map(|at| arguments(t, at, &others)).collect()
}

/// A variable just past the end of an abstraction, with the name that this binds.
fn neighbours(t: &Canonical) -> Vec<Edit> {
    let sizes = sizes_of(&t.tags).expect("one whole term");
    let mut ended = vec![None; t.tags.len() + 1]; // the last abstraction that ends just before each node
    for at in places(t, 1) { ended[at + sizes[at]] = Some(t.args[at]); }
    let some: Vec<usize> = places(t, 0).into_iter().filter(|&at| ended[at].is_some()).collect();
    spread(&some).into_iter().map(|at| Edit::Argument(at, ended[at].unwrap())).collect()
}

/// A variable with the name of an abstraction that comes later, the next one or the last.
fn later(t: &Canonical) -> Vec<Edit> {
    let all = places(t, 1);
    let next = |at: usize| all.partition_point(|&p| p < at);
    let some: Vec<usize> = places(t, 0).into_iter().filter(|&at| next(at) < all.len()).collect();
    spread(&some).into_iter().flat_map(|at| arguments(t, at, &[t.args[all[next(at)]], t.args[*all.last().unwrap()]])).collect()
}

/// What is put into a term, under what name it is counted, and the refusal that it may come to.
type Class = (&'static str, fn(&Canonical) -> Vec<Edit>, u8);
const CLASSES: [Class; 7] = [
    ("a tag", tags, 4), ("a left size", left_sizes, 5), ("a node more, less or another", nodes, 5), ("a binder's name", binders, 6),
    ("a name about the limits", names, 7), ("a neighbour's name", neighbours, 7), ("a later name", later, 7),
];

/// The terms of n nodes, with few free names, with none where an abstraction is around all, and of some sizes with as many as there may be.
fn terms(n: usize) -> Vec<(&'static str, Canonical)> {
    let mut all = Vec::new();
    for (name, shape) in SHAPES {
        let tags = shape(n);
        assert_eq!(tags.len(), n);
        let mut r = Prng(n as u64);
        let mut add = |f: usize, outside: &[u32]| all.push((name, canonical(f, &term(&tags, outside, &mut r))));
        add(2, &[0, 1]);
        if tags[0] == 1 { add(0, &[]); }
        if [2, 64, 65, 256, 257, 1025, 16_384].contains(&n) { add(16_384, &[0, 16_383]); }
    }
    all
}

/// Stores for a file that is refused: they have room for its nodes, or of a larger file mostly not, which is asked later.
fn stores(n: usize, turn: usize) -> Lengths {
    let with_room = turn % if n > 2000 { 16 } else if n > 200 { 4 } else { 1 } == 0;
    let long = if with_room { n + 3 } else { 40 };
    Lengths::of(long, long, long, long, long)
}

/// A file that is refused, with the number that the second implementation has told: by each machine, as a definition, and by export.
fn refused(seen: &mut Compared, class: &str, file: &[u8], turn: usize, number: u8) {
    let n = file.len() / 3;
    let prelude = encode(&[file.to_vec()]);
    let named = canonical(1, &v(0)).file();
    for &rules in machines(n, turn) {
        seen.refused(Case::new(rules, file, 9, stores(n, turn)).garbage(turn as u64), number);
        seen.of(format!("{number} for {class}"));
    }
    if turn % 3 == 0 || n < 2000 {
        seen.refused(Case::new(BOTH[turn % 2], &named, 9, stores(60, 0)).with(&prelude), number);
        seen.of(format!("{number} for {class}, of a definition"));
        seen.all += 1;
        Exchange::new(Given::File(file), 30).check_against(&Err(number));
        seen.of(format!("{number} for {class}, of an export"));
    }
}

/// Both machines, and for a large file one of them by turns.
fn machines(n: usize, turn: usize) -> &'static [Rules] { if n > 2000 { &BOTH[turn % 2..=turn % 2] } else { &BOTH } }

/// A sound file: what it comes to on these machines, with so much more room than it takes to load it.
fn accepted(seen: &mut Compared, class: &str, t: &Canonical, machines: &[Rules], rooms: &[usize]) {
    let (n, file, names) = (t.tags.len(), t.file(), t.f + places(t, 1).len());
    for &rules in machines {
        for room in rooms {
            let answer = seen.check(Case::new(rules, &file, 9, Lengths::of(n + room, n, names + room, names + room, n + room)));
            assert!(matches!(answer.kind(), 0 | 8..=12 | 14));
            seen.of(format!("sound: {class}"));
        }
    }
}

/// A sound file as a definition, of which the place or the shape may be wrong.
fn defined(seen: &mut Compared, class: &str, t: &Canonical) {
    let (n, names) = (t.tags.len(), t.f + places(t, 1).len());
    let (prelude, named) = (encode(&[t.file()]), canonical(1, &v(0)).file());
    for rules in BOTH {
        let answer = seen.check(Case::new(rules, &named, 9, Lengths::of(2 * n + 2, 0, 2 * names + 2, 2 * names + 2, n)).with(&prelude));
        // the name, the definition and on the first machine its copy may be more nodes than are counted
        let copied = if rules == Rules::First { n } else { 0 };
        let kind = if t.tags[0] != 1 { 18 } else if t.f > 0 { 19 } else if 1 + n + copied > COUNTED { 9 } else { 0 };
        assert_eq!(answer.kind(), kind);
        seen.of(format!("sound: {class}, as a definition"));
        seen.of(format!("sound: a definition that comes to {kind}"));
    }
}

/// The term with each fault alone.
fn single(seen: &mut Compared, t: &Canonical) {
    for (class, faults, _) in CLASSES {
        for (turn, edit) in faults(t).into_iter().enumerate() {
            let file = Edit::file(&[edit], t);
            match check(&file) {
                Err(number) => refused(seen, class, &file, turn, number),
                Ok(p) => accepted(seen, class, &Canonical { f: p.f, tags: p.tags, args: p.args }, machines(t.tags.len() + t.f, turn), &[0]),
            }
        }
    }
}

/// The term with each two faults of different classes that are refused alone, of each class the first and the last. Which of the two numbers is
/// given is counted, and whether its fault stands behind the other.
fn double(seen: &mut Compared, t: &Canonical) {
    let mut some: Vec<(usize, u8, Edit)> = Vec::new();
    for (k, (_, faults, number)) in CLASSES.iter().enumerate() {
        let bad: Vec<Edit> = faults(t).into_iter().filter(|&edit| check(&Edit::file(&[edit], t)).is_err_and(|told| told == *number)).collect();
        some.extend(bad.first().map(|&edit| (k, *number, edit)));
        if bad.len() > 1 { some.extend(bad.last().map(|&edit| (k, *number, edit))); }
    }
    let n = t.tags.len();
    for (turn, &(k, one, edit)) in some.iter().enumerate() {
        for &(_, two, other) in some.iter().filter(|&&(j, number, _)| j > k && number > one) {
            if edit.place(n) == other.place(n) { continue; }
            let file = Edit::file(&[edit, other], t);
            let case = Case::new(BOTH[turn % 2], &file, 9, stores(n, turn + 1));
            assert_eq!(seen.check(case).kind(), one.into());
            seen.of(format!("{one} before {two}{}", if edit.place(n) > other.place(n) { ", though it stands behind" } else { "" }));
        }
    }
}

/// Tags of n nodes that are no term, with arguments that send the check as far as it can go: all of one kind, and applications with abstractions
/// to the end, before or behind, whose left parts are as small or as large as they may be.
fn no_terms(n: usize) -> Vec<Canonical> {
    let mut all = Vec::new();
    let kinds = |first: u8, k: usize, then: u8| { let mut tags = vec![first; k]; tags.extend(vec![then; n - k]); tags };
    for tags in [kinds(0, n, 0), kinds(1, n, 1), kinds(2, n, 2), kinds(2, 1, 1), kinds(2, n / 2, 1), kinds(2, n - 1, 1), kinds(1, n / 2, 2), kinds(1, n - 1, 2), kinds(2, n / 2, 0), kinds(1, n - 1, 0)] {
        for left in 0..3 {
            let mut seen = 0;
            let args = tags.iter().enumerate().map(|(at, tag)| match (tag, left) {
                (0, _) => 0,
                (1, _) => { seen += 1; seen }
                (_, 0) => 0,
                (_, 1) => 1,
                _ => (n - 1).saturating_sub(2 * at + 1) as u16,
            }).collect();
            all.push(Canonical { f: 1, tags: tags.clone(), args });
        }
    }
    all
}

#[test]
fn sound_and_broken() {
    on_eight_mebibytes(|| {
        let mut seen = Compared::default();
        for n in sizes() {
            for (shape, t) in terms(n) {
                assert!(check(&t.file()).is_ok());
                accepted(&mut seen, shape, &t, &BOTH, &[0, 700]);
                defined(&mut seen, shape, &t);
                single(&mut seen, &t);
            }
            for (turn, t) in no_terms(n).iter().enumerate() {
                let file = t.file();
                if let Err(number) = check(&file) { refused(&mut seen, "no term", &file, turn, number); }
            }
        }
        let shapes = SHAPES.iter().flat_map(|(name, _)| [format!("sound: {name}"), format!("sound: {name}, as a definition")]);
        let faults = CLASSES.iter().map(|&(class, _, number)| (class, number)).chain([("no term", 5)]);
        let refusals = faults.flat_map(|(class, number)| ["", ", of a definition", ", of an export"].map(|whose| format!("{number} for {class}{whose}")));
        let sound = [0, 18, 19].map(|kind| format!("sound: a definition that comes to {kind}"));
        seen.came("files", shapes.chain(refusals).chain(sound).chain(["sound: a name about the limits".into(), "2 for a node more, less or another".into()]));
    });
}

#[test]
fn two_faults() {
    on_eight_mebibytes(|| {
        let mut seen = Compared::default();
        for n in sizes() { for (_, t) in terms(n) { double(&mut seen, &t); } }
        let pairs = [(4, 5), (4, 6), (4, 7), (5, 6), (5, 7), (6, 7)];
        seen.came("two faults", pairs.into_iter().flat_map(|(one, two)| ["", ", though it stands behind"].map(|place| format!("{one} before {two}{place}"))));
    });
}

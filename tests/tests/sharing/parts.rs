//! Parts without binders and with binders, in every place of a result, inside each other and in turns.
use crate::{lets, nodes, parts, x, Compared, Of, Program, Scope, BOUND, CLOSED, LIMIT, OPEN, P, Q, R, TWO};
use glow_tests::families::{exploded, open_explosion, r7, s7};
use glow_tests::flat::{a, apply, canonical, l, v, Flat};
use glow_tests::machine::Outcome;
use glow_tests::painted::on_eight_mebibytes;
use glow_tests::prng::Prng;

/// t_n of proposition 3 and s_n I of proposition 7, to the first that are too long and one more.
#[test]
fn families() {
    on_eight_mebibytes(|| {
        let mut seen = Compared::new();
        let families: [(usize, usize, fn(usize) -> Flat, fn(usize) -> Flat); 2] = [(0, 1, open_explosion, exploded), (1, 0, s7, r7)];
        for (first, f, term, result) in families {
            let mut longer = 0;
            for n in first.. {
                for answer in seen.result(Of::All, &Program::plain(f, &term(n))) {
                    match &answer.run().outcome {
                        Outcome::Normal(written) => assert_eq!(written, &canonical(f, &result(n))),
                        _ => longer += 1,
                    }
                }
                if longer == 4 { break; }
            }
        }
        seen.told("t_n and s_n I", 250, 100);
    });
}

/// The next part of a part and one before it, which may be the same.
type Next = fn(Flat, Flat) -> Flat;

const NEXT: [Next; 12] = [
    // the part on both sides, on the left alone and on the right alone
    |p, _| a(p.clone(), p), |p, _| a(p, TWO.w()), |p, _| TWO.inert([p]),
    |p, _| TWO.inert([p.clone(), p]), |p, _| a(p.clone(), TWO.inert([p])), |p, _| apply(TWO.w(), [p, TWO.w()]),
    |p, _| apply(p.clone(), [TWO.w(), p]), |p, o| a(p, o), |p, o| a(o, p), |p, o| TWO.inert([o.clone(), p, o]), |p, o| apply(p, [o, TWO.w()]), |p, _| p,
];

/// The whole result of a part and one before it.
const LAST: [Next; 10] = [
    |p, _| p, |p, _| TWO.inert([p]), |p, _| a(p, TWO.w()), |p, o| TWO.inert([p, o]), |p, o| a(o, p), |p, _| TWO.inert([TWO.w(), TWO.inert([p])]),
    |p, _| apply(p.clone(), [p, TWO.w()]), |p, o| TWO.inert([a(p.clone(), TWO.w()), o, p]), |p, o| apply(o.clone(), [p.clone(), o, p]), |p, o| l(P, apply(p.clone(), [v(P), o, p])),
];

/// A part, two that are made of it, and a result of these; all of them. Then to twelve by chance.
#[test]
fn without_binders() {
    on_eight_mebibytes(|| {
        let mut seen = Compared::new();
        let first = || [v(TWO.y), TWO.inert([TWO.w()]), a(TWO.w(), TWO.inert([TWO.inert([]), TWO.w()]))];
        for base in first() {
            for one in NEXT {
                for two in NEXT {
                    for last in LAST {
                        let entries = [base.clone(), one(x(0), x(0)), two(x(1), x(0))];
                        seen.result(Of::Some, &Program::plain(2, &lets(&entries, last(x(2), x(1)))));
                    }
                }
            }
        }
        let mut r = Prng(11);
        for depth in (3..=12).cycle().take(400) {
            let mut entries = vec![first()[r.below(3)].clone()];
            for k in 1..depth { entries.push(NEXT[r.below(NEXT.len())](x(k - 1), x(r.below(k)))); }
            seen.result(Of::All, &Program::plain(2, &lets(&entries, LAST[r.below(LAST.len())](x(depth - 1), x(r.below(depth))))));
        }
        seen.told("parts without binders", 10_000, 0);
    });
}

/// Each part in each place: as it is, behind one to three names that stand for each other, and made by a function that is called twice.
#[test]
fn with_binders() {
    on_eight_mebibytes(|| {
        let mut seen = Compared::new();
        for part in parts(TWO) {
            for place in OPEN.into_iter().chain(CLOSED) {
                seen.result(Of::All, &Program::plain(2, &lets(&[part.clone()], place(TWO, x(0)))));
                for names in 1..=3 {
                    let entries: Vec<Flat> = [part.clone()].into_iter().chain((0..names).map(x)).collect();
                    seen.result(Of::Some, &Program::plain(2, &lets(&entries, place(TWO, x(names)))));
                    // the first name of the chain before the last, and behind it
                    let both = TWO.inert([x(0), l(P, a(x(names), x(0))), place(TWO, x(names)), x(0), x(names - 1)]);
                    seen.result(Of::Some, &Program::plain(2, &lets(&entries, both)));
                }
                // (\g. y (g part) (g w)) (\p. place)
                let called = lets(&[l(Q + 10, place(TWO, v(Q + 10)))], TWO.inert([a(x(0), part.clone()), a(x(0), TWO.w())]));
                seen.program(Of::Some, &Program::plain(2, &called));
            }
        }
        seen.told("parts with binders", 20_000, 10_000);
    });
}

/// The next part, with binders around a part and one before it.
const AROUND: [Next; 12] = [
    |p, _| l(P, p), |p, _| l(P, apply(v(P), [p.clone(), p])), |p, o| l(P, apply(o, [v(P), p])), |p, _| TWO.inert([l(P, a(v(P), p.clone())), p]),
    |p, o| TWO.inert([o, l(P, l(Q, apply(v(Q), [p, v(P)])))]), |p, _| TWO.inert([p]), |p, o| l(P, a(l(Q, apply(o, [v(Q), v(P)])), a(p, v(P)))),
    |p, _| TWO.inert([p, l(P, v(P))]), |p, _| TWO.inert([l(P, TWO.w()), p]), |p, o| TWO.inert([p, o]), |p, _| l(P, l(Q, l(R, apply(v(Q), [p, v(R)])))), |p, _| p,
];

/// Parts inside parts to depth 12, by chance; the result has all of them, or some, in any order and as often as it happens.
#[test]
fn inside_each_other() {
    on_eight_mebibytes(|| {
        let mut seen = Compared::new();
        let mut r = Prng(12);
        let first = parts(TWO);
        let mut deepest = 0;
        for depth in (2..=12).cycle().take(1500) {
            let mut entries = vec![first[r.below(first.len())].clone()];
            for k in 1..depth { entries.push(AROUND[r.below(AROUND.len())](x(k - 1), x(r.below(k)))); }
            let mut met: Vec<Flat> = (0..r.between(1, 8)).map(|_| x(r.below(depth))).collect();
            met.insert(r.below(met.len() + 1), x(depth - 1));
            let whole = match r.below(3) {
                0 => TWO.inert(met),
                1 => l(P, apply(v(P), met.into_iter().flat_map(|d| [d, v(P)]))),
                _ => TWO.inert(met.into_iter().enumerate().map(|(k, d)| if k % 2 == 0 { l(P, apply(v(P), [d.clone(), v(P), d])) } else { d })),
            };
            let answers = seen.program(Of::All, &Program::plain(2, &lets(&entries, whole)));
            if depth == 12 && nodes(&answers[1]).is_some_and(|n| n <= LIMIT) { deepest += 1; }
        }
        assert!(deepest > 50, "{deepest} results of depth 12");
        seen.told("parts inside parts", 10_000, 5_000);
    });
}

/// Two different parts, in each of the words of six letters in which they take turns; and three, in some.
#[test]
fn in_turns() {
    on_eight_mebibytes(|| {
        let mut seen = Compared::new();
        let all = parts(TWO);
        let some: Vec<&Flat> = [1, 7, 8, 13, 16, 18].iter().map(|&k| &all[k]).collect();
        let shown = |seen: &mut Compared, entries: &[Flat], word: &[usize]| {
            let met = || word.iter().map(|&k| x(k));
            for whole in [TWO.inert(met()), l(P, apply(v(P), met())), TWO.inert([l(P, apply(v(P), met().take(3).chain([v(P)])))].into_iter().chain(met().skip(2)))] {
                seen.result(Of::Some, &Program::plain(2, &lets(entries, whole)));
            }
        };
        for one in &some {
            for two in &some {
                for word in 1..32usize { shown(&mut seen, &[(*one).clone(), (*two).clone()], &[0, 1, 2, 3, 4, 5].map(|k| word >> k & 1)); }
            }
        }
        let mut r = Prng(13);
        for _ in 0..300 {
            let entries: Vec<Flat> = (0..3).map(|_| all[r.below(all.len())].clone()).collect();
            let word: Vec<usize> = (0..r.between(3, 12)).map(|_| r.below(3)).collect();
            shown(&mut seen, &entries, &word);
        }
        seen.told("parts in turns", 20_000, 10_000);
    });
}

/// Items that are parts with stacks of their own, as items and as heads of further items, with binders in them: x1 = x0 .., x2 = x1 .. and so on.
#[test]
fn with_stacks() {
    on_eight_mebibytes(|| {
        let mut seen = Compared::new();
        let mut r = Prng(14);
        let items: [fn(Scope, Flat) -> Flat; 8] = [
            |s, _| s.w(), |_, o| o, |s, o| s.inert([o]), |_, _| l(BOUND, v(BOUND)), |_, o| l(BOUND, apply(v(BOUND), [o.clone(), v(BOUND), o])),
            |s, o| apply(s.w(), [o.clone(), l(BOUND, o)]), |s, o| a(o, s.w()), |s, o| a(o.clone(), s.inert([o])),
        ];
        for depth in (2..=8).cycle().take(1500) {
            let mut entries = vec![v(TWO.y)];
            for k in 1..depth {
                let added: Vec<Flat> = (0..r.between(1, 3)).map(|_| items[r.below(items.len())](TWO, x(r.below(k)))).collect();
                let head = if r.one_in(3) { x(r.below(k)) } else { x(k - 1) };
                entries.push(apply(head, added));
            }
            let met: Vec<Flat> = (0..r.between(1, 4)).map(|_| x(r.between(depth / 2, depth - 1))).collect();
            let head = if r.one_in(3) { v(TWO.w) } else { x(r.below(depth)) };
            seen.result(Of::All, &Program::plain(2, &lets(&entries, apply(head, met))));
        }
        seen.told("parts with stacks", 10_000, 5_000);
    });
}

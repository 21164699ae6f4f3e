//! Named definitions that are in a result several times, and are used by other definitions and by lets.
use crate::{lets, nested, x, Compared, Of, Program, Scope, BOUND, CLOSED, LET, OPEN, P, Q, R};
use glow_tests::flat::{a, apply, l, v, Flat};
use glow_tests::painted::on_eight_mebibytes;
use glow_tests::prng::Prng;

/// A definition made of the one before it and of any before it.
type Next = fn(Flat, Flat) -> Flat;
const NEXT: [Next; 6] = [
    |d, _| l(P, d), |d, _| l(P, a(d.clone(), d)), |d, _| l(P, apply(v(P), [d.clone(), v(P), d])), |d, o| l(P, apply(o, [v(P), d])),
    |d, o| l(P, l(Q, apply(v(Q), [l(R, a(v(R), d)), o, v(P)]))), |_, _| l(P, l(Q, a(v(P), v(Q)))),
];

/// What a definition is met in, beside the places: in a part, as an argument, and in a body.
const LETS: [fn(Scope, Flat) -> Flat; 4] = [
    |s, d| lets(&[s.inert([d.clone()])], s.inert([x(0), d.clone(), l(P, a(x(0), v(P))), x(0), d])),
    |s, d| lets(&[d.clone(), l(P, a(x(0), d.clone()))], s.inert([x(1), x(0), d, x(1)])),
    |s, d| lets(&[l(P, apply(v(P), [d.clone(), d]))], l(Q, apply(s.w(), [x(0), v(Q), x(0)]))),
    |s, d| a(l(LET, s.inert([v(LET), v(LET), s.inert([v(LET)])])), d),
];

#[test]
fn shown() {
    on_eight_mebibytes(|| {
        let mut seen = Compared::new();
        let mut r = Prng(41);
        let first = [nested(1, 0), nested(3, 1), l(BOUND, apply(v(BOUND), [l(BOUND + 1, v(BOUND)), l(BOUND + 2, v(BOUND + 2))]))];
        for base in &first {
            for one in NEXT {
                for two in NEXT {
                    for place in OPEN.into_iter().chain(CLOSED).chain(LETS) {
                        let definitions = [base.clone(), one(v(0), v(0)), two(v(1), v(0))];
                        let f = 3 + [1, 2, 2, 2, 300][r.below(5)];
                        let s = Scope { y: [3, f - 1][r.below(2)], w: [3, f - 1][r.below(2)] };
                        seen.result(Of::Some, &Program::with(f as usize, &definitions, &place(s, v([2, 2, 1][r.below(3)]))));
                    }
                }
            }
        }
        // the definitions alone, where all names that are free have one
        for place in CLOSED { for k in 0..3 { seen.result(Of::All, &Program::with(3, &[first[1].clone(), NEXT[2](v(0), v(0)), NEXT[4](v(1), v(0))], &place(Scope { y: 0, w: 0 }, v(k)))); } }
        seen.told("definitions shown", 5_000, 5_000);
    });
}

/// Definitions of which each has the one before twice, to the first results that are too long; shown once, several times, and in a part.
#[test]
fn doubled() {
    on_eight_mebibytes(|| {
        let mut seen = Compared::new();
        for count in 1..=14u32 {
            let mut definitions = vec![nested(1, 0)];
            for k in 1..count { definitions.push([NEXT[1], NEXT[2]][k as usize % 2](v(k - 1), v(k - 1))); }
            let s = Scope { y: count, w: count + 1 };
            for (k, place) in OPEN.into_iter().chain(CLOSED).chain(LETS).enumerate() {
                if count > 6 && k % 4 != count as usize % 4 { continue; }
                for shown in [count - 1, count / 2] { seen.result(Of::All, &Program::with(count as usize + 2, &definitions, &place(s, v(shown)))); }
            }
        }
        seen.told("definitions doubled", 500, 500);
    });
}

#[test]
fn by_chance() {
    on_eight_mebibytes(|| {
        let (mut seen, mut r) = (Compared::new(), Prng(42));
        for _ in 0..3000 {
            let count = r.between(1, 6);
            let f = count + [0, 1, 2, 2, 3, 250][r.below(6)];
            let (definitions, term) = crate::lets::by_chance(&mut r, count, f);
            seen.program(Of::Some, &Program::with(f, &definitions, &term));
        }
        seen.told("definitions by chance", 5_000, 5_000);
    });
}

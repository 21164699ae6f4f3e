//! The families of source document 000, Church arithmetic, a library of functions, looping terms and extremes of shape.
//! Free names: 0 is y, 1 is i (or z, the successor), 2 is another.
use crate::flat::*;

pub const Y: u32 = 0;
pub const W: u32 = 1;
const X: u32 = 100_000; // bound names start here; the nearest binder counts, so they may repeat
const Z: u32 = 100_001;
const G: u32 = 100_002;
const H: u32 = 100_003;

pub fn id() -> Flat { l(X, v(X)) }
pub fn delta() -> Flat { l(X, a(v(X), v(X))) }
pub fn omega() -> Flat { a(delta(), delta()) }

/// Section 2: t_0 = y, t_(n+1) = (\x. x x) t_n. 5 n + 1 nodes.
pub fn open_explosion(n: usize) -> Flat {
    let mut out = Vec::with_capacity(5 * n + 1);
    for _ in 0..n { out.extend([F::A, F::L(X), F::A, F::V(X), F::V(X)]); }
    out.push(F::V(Y));
    out
}

/// Section 2: i_0 = y, i_(n+1) = i_n i_n.
pub fn exploded(n: usize) -> Flat { let mut t = v(Y); for _ in 0..n { t = a(t.clone(), t); } t }

/// Section 6, equation (4): r_n = \x. y x .. x with n arguments, u_n = r_n r_n.
pub fn r4(n: usize) -> Flat { l(X, apply(v(Y), vec![v(X); n])) }
pub fn u4(n: usize) -> Flat { a(r4(n), r4(n)) }

/// Section 10, step 1: t_0 = I, u_n = t_n i, t_(n+1) = \z. y u_n u_n; r_0 = i, r_(n+1) = y r_n r_n.
pub fn u10(n: usize, i: &Flat) -> Flat {
    let mut t = id();
    for _ in 0..n { let u = a(t, i.clone()); t = l(Z, apply(v(Y), [u.clone(), u])); }
    a(t, i.clone())
}
pub fn r10(n: usize, i: &Flat) -> Flat {
    let mut r = i.clone();
    for _ in 0..n { r = apply(v(Y), [r.clone(), r]); }
    r
}
/// Section 10, step 2: s_0 = I, s_(n+1) = (\x. \z. y (x i) (x i)) s_n; the family is s_n i.
pub fn s10(n: usize, i: &Flat) -> Flat {
    let mut s = id();
    for _ in 0..n {
        let xi = a(v(X), i.clone());
        s = a(l(X, l(Z, apply(v(Y), [xi.clone(), xi]))), s);
    }
    a(s, i.clone())
}

/// Section 11, Proposition 7: s_1 = \x. \y. y x x, s_(n+1) = \x. s_n (\y. y x x); the family is s_n I.
pub fn s7(n: usize) -> Flat {
    let one = || l(Z, apply(v(Z), [v(X), v(X)]));
    let mut out = vec![F::A];
    // \x1. (\x2. (.. (\xn. \y. y xn xn) ..) (\y. y x2 x2)) (\y. y x1 x1): heads first, then arguments
    for k in 1..n { out.push(F::L(X + 1000 + k as u32)); out.push(F::A); }
    out.push(F::L(X));
    out.extend(one());
    for k in (1..n).rev() {
        let x = X + 1000 + k as u32;
        out.extend(l(Z, apply(v(Z), [v(x), v(x)])));
    }
    out.extend(id());
    out
}
pub fn r7(n: usize) -> Flat { let mut r = id(); for _ in 0..n { r = l(Z, apply(v(Z), [r.clone(), r])); } r }

/// Renamings in a chain (section 7): (\x1. (\x2. .. xn ..) x1) y. 3 n + 1 nodes.
pub fn renamings(n: usize) -> Flat {
    let mut out = Vec::new();
    for k in 0..n { out.push(F::A); out.push(F::L(X + k as u32)); }
    out.push(F::V(if n == 0 { Y } else { X + n as u32 - 1 }));
    for k in (0..n).rev() { out.push(F::V(if k == 0 { Y } else { X + k as u32 - 1 })); }
    out
}

/// A library whose functions are only passed along: n functions of 7 nodes, each bound to a name g by a let, to a second name h by
/// another, and handed to the free name y under both; none is ever applied. (\g1. (\h1. .. y h1 g1 .. hn gn .. ) g1) F, 16 n + 1 nodes.
/// That is all that is taken on demand; the first machine copies each function three times, in 21 nodes.
pub fn passed_along(n: usize) -> Flat {
    let (g, h) = (|k: usize| X + 1000 + 2 * k as u32, |k: usize| X + 1001 + 2 * k as u32);
    let mut out = Vec::with_capacity(16 * n + 1);
    for k in 0..n { out.extend([F::A, F::L(g(k)), F::A, F::L(h(k))]); }
    out.extend(apply(v(Y), (0..n).flat_map(|k| [v(h(k)), v(g(k))])));
    for k in (0..n).rev() { out.push(F::V(g(k))); out.extend(church(2)); }
    out
}

/// (\z. \a. z) ((\z. \a. z) .. I): the result is n + 1 abstractions, each behind another entry.
pub fn abstraction_chain(n: usize) -> Flat {
    let mut out = Vec::new();
    for _ in 0..n { out.extend([F::A, F::L(X), F::L(Z), F::V(X)]); }
    out.extend(id());
    out
}
/// (\x. y x) ((\x. y x) .. i): y (y (.. i)), each argument behind another entry
pub fn inert_chain_right(n: usize) -> Flat {
    let mut out = Vec::new();
    for _ in 0..n { out.extend([F::A, F::L(X), F::A, F::V(Y), F::V(X)]); }
    out.push(F::V(W));
    out
}
/// (\x. x y) ((\x. x y) .. i): ((i y) y ..) y, each head behind another entry
pub fn inert_chain_left(n: usize) -> Flat {
    let mut out = Vec::new();
    for _ in 0..n { out.extend([F::A, F::L(X), F::A, F::V(X), F::V(Y)]); }
    out.push(F::V(W));
    out
}

/// y (y (.. leaf .. i) i): each argument has a stack of its own, and another argument behind it. 4 nodes and 2 cells for each.
pub fn inert_chain_across(n: usize, leaf: Flat) -> Flat {
    let mut out = Vec::new();
    for _ in 0..n { out.extend([F::A, F::A, F::V(Y)]); }
    out.extend(leaf);
    out.extend(vec![F::V(W); n]);
    out
}
/// (\z. \a. z a) ((\z. \a. z a) .. leaf): as `abstraction_chain`, with a node behind each name. 6 nodes and a cell for each.
pub fn head_chain(n: usize, leaf: Flat) -> Flat {
    let mut out = Vec::new();
    for _ in 0..n { out.extend([F::A, F::L(X), F::L(Z), F::A, F::V(X), F::V(Z)]); }
    out.extend(leaf);
    out
}

/// The identity, and then so many definitions in all, each \x. d x with d the one before: each name has a node behind it. 4 n - 2 nodes.
pub fn definition_chain(n: usize) -> Vec<Flat> { std::iter::once(id()).chain((1..n as u32).map(|k| l(X, a(v(k - 1), v(X))))).collect() }

pub fn church(n: usize) -> Flat {
    let mut out = vec![F::L(G), F::L(H)];
    for _ in 0..n { out.extend([F::A, F::V(G)]); }
    out.push(F::V(H));
    out
}
pub fn successor() -> Flat { l(Z, l(G, l(H, a(v(G), apply(v(Z), [v(G), v(H)]))))) }
pub fn sum() -> Flat { l(X, l(Z, l(G, l(H, apply(v(X), [v(G), apply(v(Z), [v(G), v(H)])]))))) }
pub fn product() -> Flat { l(X, l(Z, l(G, a(v(X), a(v(Z), v(G)))))) }
pub fn power() -> Flat { l(X, l(Z, a(v(Z), v(X)))) }
/// y (y (.. (y i)))
pub fn tower(n: usize) -> Flat {
    let mut out = Vec::new();
    for _ in 0..n { out.extend([F::A, F::V(Y)]); }
    out.push(F::V(W));
    out
}
/// numeral shown by its work on the free names y and i
pub fn shown(numeral: Flat) -> Flat { apply(numeral, [v(Y), v(W)]) }
/// the numeral n applied to I and y: n renamings in a chain, made by copies
pub fn chain_by_numeral(numeral: Flat) -> Flat { apply(numeral, [id(), v(Y)]) }
/// a call-by-value fixed point: loops, making new names and cells for ever
pub fn z_loop() -> Flat {
    let half = l(X, a(v(G), l(Z, apply(v(X), [v(X), v(Z)]))));
    let fix = l(G, a(half.clone(), half));
    apply(fix, [l(H, l(Z, a(v(H), v(Z)))), v(Y)])
}
pub fn omega3() -> Flat { let d = l(X, apply(v(X), [v(X), v(X)])); a(d.clone(), d) }
pub fn open_loop() -> Flat { let d = l(X, a(v(Y), a(v(X), v(X)))); a(d.clone(), d) }

/// (\\d. d (d (.. (d leaf)))) (\\p. P (P (.. (P p)))): `outer` copies of an abstraction with `inner`
/// links each, so that the chain of entries is longer than a file can hold. P = `link`, a head.
pub fn copied_chain(link: &Flat, inner: usize, outer: usize, leaf: Flat) -> Flat {
    let (d, p) = (X + 500_000, X + 500_001);
    let mut body = vec![F::A, F::L(d)];
    for _ in 0..outer { body.extend([F::A, F::V(d)]); }
    body.extend(leaf);
    body.push(F::L(p));
    for _ in 0..inner { body.push(F::A); body.extend(link); }
    body.push(F::V(p));
    body
}
/// The longest such chain that the node store of `nodes` can hold; a link counts `weight` items.
pub fn longest_copied_chain(link: &Flat, weight: usize, nodes: usize, leaf: &Flat) -> (usize, Flat) {
    let mut best = (0, 0, 0);
    for inner in 1..400 {
        let one = inner * (link.len() + 1) + 2;
        let outer = (nodes - 2 - leaf.len() - one) / (one + 2);
        let file = 2 + 2 * outer + leaf.len() + one;
        if file <= 16_384 && outer * (weight * inner + 1) > best.0 { best = (outer * (weight * inner + 1), inner, outer); }
    }
    (best.0, copied_chain(link, best.1, best.2, leaf.clone()))
}
/// The longest such chain of abstractions behind entries. A copy of its body takes 4 nodes for each link and 2 more; the
/// application to it 2; and the abstraction that it gets is copied once, with 2.
pub fn longest_copied_abstraction_chain(nodes: usize) -> Flat {
    let outer = |inner: usize| (nodes - 4 - (4 * inner + 2)) / (4 * inner + 6);
    let inner = (1..400).max_by_key(|&inner| inner * outer(inner)).unwrap();
    copied_chain(&link_abstraction(), inner, outer(inner), id())
}
/// A chain of heads behind entries, ((leaf y) y ..) y, made by copies, with a store of so many nodes. A copy of its body takes 5 nodes for each
/// link and 2 more, and the application to it 2.
pub fn longest_copied_head_chain(nodes: usize, leaf: Flat) -> Flat {
    let outer = |inner: usize| (nodes - 2 - leaf.len() - (5 * inner + 2)) / (5 * inner + 4);
    let inner = (1..400).max_by_key(|&inner| inner * outer(inner)).unwrap();
    copied_chain(&link_left(), inner, outer(inner), leaf)
}
/// t_n with the longest chain of renamings in place of y: 2^n leaves, each at the chain's far end.
pub fn slow_to_write(n: usize, nodes: usize) -> (usize, Flat) {
    let (links, chain) = longest_copied_chain(&link_rename(), 1, nodes, &v(Y));
    let mut t = open_explosion(n);
    t.pop();
    t.extend(chain);
    (links, t)
}
pub fn link_rename() -> Flat { id() }
pub fn link_abstraction() -> Flat { l(X, l(Z, v(X))) }
pub fn link_right() -> Flat { l(X, a(v(Y), v(X))) }
pub fn link_left() -> Flat { l(X, a(v(X), v(Y))) }
pub fn link_double() -> Flat { delta() }

pub fn nested_abstractions(n: usize) -> Flat {
    let mut out: Flat = (0..n as u32).map(|k| F::L(X + k)).collect();
    out.push(F::V(X));
    out
}
pub fn left_nested(n: usize, leaf: u32) -> Flat {
    let mut out = vec![F::A; n];
    out.extend(vec![F::V(leaf); n + 1]);
    out
}
pub fn right_nested(n: usize, leaf: u32) -> Flat {
    let mut out = Vec::new();
    for _ in 0..n { out.extend([F::A, F::V(leaf)]); }
    out.push(F::V(leaf));
    out
}

/// Everything above at small sizes, with names to print.
pub fn small_members() -> Vec<(String, usize, Flat)> {
    let mut out: Vec<(String, usize, Flat)> = Vec::new();
    let inert = a(v(W), v(W));
    for n in 0..8 {
        out.push((format!("t_{n}"), 1, open_explosion(n)));
        out.push((format!("u_{n} of (4)"), 1, u4(n)));
        out.push((format!("renamings {n}"), 1, renamings(n)));
        out.push((format!("{n} functions passed along"), 1, passed_along(n)));
        out.push((format!("abstraction chain {n}"), 0, abstraction_chain(n)));
        out.push((format!("inert chain right {n}"), 2, inert_chain_right(n)));
        out.push((format!("inert chain left {n}"), 2, inert_chain_left(n)));
        out.push((format!("numeral {n} shown"), 2, shown(church(n))));
        out.push((format!("chain by numeral {n}"), 1, chain_by_numeral(church(n))));
        if n > 0 { out.push((format!("s_{n} I of Proposition 7"), 0, s7(n))); }
        if n < 5 {
            out.push((format!("u_{n} of section 10"), 2, u10(n, &v(W))));
            out.push((format!("u_{n} of section 10, i a pair"), 2, u10(n, &inert)));
            out.push((format!("s_{n} i of section 10"), 2, s10(n, &v(W))));
            out.push((format!("s_{n} i of section 10, i a pair"), 2, s10(n, &inert)));
        }
    }
    for p in 0..4 {
        for q in 0..4 {
            out.push((format!("{p} + {q}"), 2, shown(apply(sum(), [church(p), church(q)]))));
            out.push((format!("{p} * {q}"), 2, shown(apply(product(), [church(p), church(q)]))));
            out.push((format!("{p} ^ {q}"), 2, shown(apply(power(), [church(p), church(q)]))));
        }
        out.push((format!("{p} + 1"), 2, shown(a(successor(), church(p)))));
    }
    out.push(("example 1".into(), 1, a(l(Z, a(v(Z), a(v(Y), v(Z)))), id())));
    out.push(("omega".into(), 0, omega()));
    out.push(("omega 3".into(), 0, omega3()));
    out.push(("open loop".into(), 1, open_loop()));
    out.push(("fixed point loop".into(), 1, z_loop()));
    out
}

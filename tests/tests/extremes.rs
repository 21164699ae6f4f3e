//! The extremes of size and nesting, on both machines and a painted stack of 8 MiB: the right answer, and no more stack than is told.
use glow_tests::case::{Case, LIBRARY};
use glow_tests::families::*;
use glow_tests::flat::*;
use glow_tests::machine::*;
use glow_tests::painted::on_stack;

fn shapes() -> Vec<(String, usize, Flat)> {
    let mut out = Vec::new();
    let mut add = |name: &str, f: usize, t: Flat| { assert!(t.len() <= 16_384, "{name}: {}", t.len()); out.push((format!("{name} ({} nodes)", t.len()), f, t)); };
    add("16383 nested abstractions", 0, nested_abstractions(16_383));
    add("16383 nested abstractions, f = 16384", 16_384, nested_abstractions(16_383));
    add("8191 applications nested on the left", 1, left_nested(8191, Y));
    add("8191 applications nested on the right", 1, right_nested(8191, Y));
    add("8191 applications nested on the right, f = 16384", 16_384, right_nested(8191, 16_383));
    add("an abstraction over 8191 left", 1, l(9_000_000, left_nested(8191, Y)));
    add("an abstraction over 8191 right", 1, l(9_000_000, right_nested(8191, Y)));
    add("16382 abstractions, of an application", 0, { let mut t: Flat = (0..16_381).map(|k| F::L(9_000_000 + k)).collect(); t.extend([F::A, F::V(9_000_000), F::V(9_016_000)]); t });
    add("I applied to 16379 abstractions", 0, a(id(), nested_abstractions(16_379)));
    add("8190 identities nested on the left: (((I y) y) ..)", 1, { let mut t = vec![F::A; 8190]; t.extend(id()); t.extend(vec![F::V(Y); 8190]); t });
    add("4000 identities on the right: I (I (.. y))", 1, { let mut t = vec![]; for _ in 0..4000 { t.push(F::A); t.extend(id()); } t.push(F::V(Y)); t });
    add("5461 renamings in a chain", 1, renamings(5461));
    add("4095 abstractions behind entries", 0, abstraction_chain(4095));
    add("3276 inert entries on the right", 2, inert_chain_right(3276));
    add("3276 inert entries on the left", 2, inert_chain_left(3276));
    add("numeral 8186 of I and y: a chain made by copies", 1, chain_by_numeral(church(8186)));
    add("125^2 by product of I and y: the longest chain", 1, chain_by_numeral(apply(product(), [church(125), church(125)])));
    add("numeral 8187 shown", 2, shown(church(8187)));
    add("90^2 shown: a tower behind entries", 2, shown(apply(product(), [church(90), church(90)])));
    add("t_3276", 1, open_explosion(3276));
    add("t_13", 1, open_explosion(13));
    add("s_2047 I", 0, s7(2047));
    add("s_11 I", 0, s7(11));
    add("u_126 of (4)", 1, u4(126));
    add("u_4094 of (4)", 1, u4(4094));
    add("omega", 0, omega());
    let both = l(9_400_000, a(v(Y), a(v(Y), v(9_400_000))));
    // the deepest unfolding that still fits the output, as far as we know: links of three items and of two by turns
    add("the deepest: 13356 items in a chain, three and two by turns", 2, {
        let (d, p) = (9_600_000, 9_600_001);
        let mut t = vec![F::A, F::L(d)];
        for _ in 0..106 { t.extend([F::A, F::V(d)]); }
        t.push(F::V(W));
        t.push(F::L(p));
        for _ in 0..25 { t.push(F::A); t.extend(&both); t.push(F::A); t.extend(link_right()); }
        t.push(F::V(p));
        t
    });
    for (what, f, link, weight, leaf) in [("renamings", 1, link_rename(), 1, v(Y)), ("abstractions", 1, link_abstraction(), 1, id()), ("abstractions under an inert", 1, link_abstraction(), 1, v(Y)),
        ("inert on the right", 2, link_right(), 2, v(W)), ("inert on the left", 2, link_left(), 2, v(W)), ("two inert on the right", 2, both, 3, v(W)),
        ("doubled", 1, link_double(), 2, v(Y)), ("nested arguments", 1, v(Y), 1, v(Y)), ("nested arguments with a pair", 2, a(v(Y), v(W)), 1, v(Y))] {
        for nodes in [16_384, 32_768] {
            let (links, t) = longest_copied_chain(&link, weight, nodes, &leaf);
            add(&format!("{links} items in a chain by copies, {what}"), f, t);
        }
    }
    // every one of 128 leaves behind the same long chain of renamings: slow to write (`long slow` has 8192 leaves)
    for nodes in [16_300, 32_700] {
        let (links, t) = slow_to_write(7, nodes);
        add(&format!("t_7 over {links} renamings"), 1, t);
    }
    add("a deep abstraction copied", 1, a(l(9_500_000, apply(v(Y), [v(9_500_000), v(9_500_000)])), nested_abstractions(5000)));
    add("a deep left spine copied", 1, a(l(9_500_000, apply(v(Y), [v(9_500_000), v(9_500_000)])), l(9_000_000, left_nested(2500, 9_000_000))));
    add("a deep right spine copied", 1, a(l(9_500_000, apply(v(Y), [v(9_500_000), v(9_500_000)])), l(9_000_000, right_nested(2500, 9_000_000))));
    renamed_bodies(&mut add);
    out
}

/// Bodies that a beta renames on demand: the largest of each shape, with the name everywhere or at one end, behind inner abstractions, and
/// beside applications whose left part has as many nodes as the name's number says.
fn renamed_bodies(add: &mut impl FnMut(&str, usize, Flat)) {
    let x = 9_700_000;
    let renaming = |body: Flat| a(l(x, body), v(Y));
    add("renamed everywhere, nested on the left", 1, renaming(left_nested(8190, x)));
    add("renamed everywhere, nested on the right", 1, renaming(right_nested(8190, x)));
    add("renamed nowhere, nested on the right", 1, renaming(right_nested(8190, Y)));
    add("renamed below 16380 abstractions", 1, renaming({ let mut t: Flat = (0..16_380).map(|k| F::L(x + 1 + k)).collect(); t.push(F::V(x)); t }));
    add("renamed at the far right of 8190 applications", 1, renaming({ let mut t = right_nested(8190, Y); *t.last_mut().unwrap() = F::V(x); t }));
    add("renamed at the far left of 8190 applications", 1, renaming({ let mut t = left_nested(8190, Y); t[8190] = F::V(x); t }));
    add("renamed behind 4095 abstractions beside it", 1, renaming({ let mut t = vec![]; for _ in 0..4095 { t.push(F::A); t.extend(l(x + 1, v(x + 1))); } t.push(F::V(x)); t }));
    add("renamed in both parts below abstractions, 3275 times", 1, renaming({ let mut t = vec![]; for _ in 0..3275 { t.extend([F::A, F::L(x + 1), F::A, F::V(x), F::V(x + 1)]); } t.push(F::V(x)); t }));
    // the bound name is f, and there is a left part of every odd size, which stays as it is
    for f in [1, 3, 301, 8191, 16_379] { add(&format!("renamed among applications, {f} the name and one's size"), f, a(l(x, left_nested(8190, x)), v(f as u32 - 1))); }
    add("renamed among applications, 1 the name and each one's size, below abstractions", 1, renaming({ let mut t = vec![]; for k in 0..5460 { t.extend([F::A, F::V(x), F::L(x + 1 + k)]); } t.push(F::V(x)); t }));
    // a renaming to a name that has an inert entry, and an entry, by turns: (\\a. (\\b. (\\a. (\\b. ..) (y a)) b) (y a)) y
    add("2047 renamings and 2047 entries by turns", 1, {
        let (first, second) = (|k: u32| x + 2 * k, |k: u32| x + 2 * k + 1);
        let mut t = vec![];
        for k in 0..2047 { t.extend([F::A, F::L(first(k)), F::A, F::L(second(k))]); }
        t.push(F::V(second(2046)));
        for k in (0..2047).rev() { t.extend([F::A, F::V(Y), F::V(first(k)), F::V(if k == 0 { Y } else { second(k - 1) })]); }
        t
    });
    // a name that has an abstraction as entry put for the bound name of each copy of that abstraction, until the nodes are full
    add("a long body renamed in each of its copies", 0, { let d = l(x, a(a(v(x), v(x)), left_nested(500, x))); a(d.clone(), d) });
    for depth in [10, 5000] {
        add(&format!("1000 names for a function that is applied at last, {depth} abstractions"), 1, {
            let mut t: Flat = (0..1000).flat_map(|k| [F::A, F::L(x + k)]).collect();
            t.extend([F::A, F::V(x + 999), F::V(Y)]);
            t.extend((0..999).rev().map(|k| F::V(x + k)));
            t.extend(nested_abstractions(depth));
            t
        });
    }
    add("1023 functions passed along", 1, passed_along(1023));
}

#[test]
fn on_eight_mebibytes() {
    let none = on_stack(8 << 20, || {});
    let mut deepest = (0, String::new());
    for (name, f, t) in shapes() {
        let file = canonical(f, &t).file();
        for (which, lengths, rules) in [("glow's stores", Lengths::glow()), ("largest stores", Lengths::largest())].into_iter().flat_map(|(which, lengths)| BOTH.map(|rules| (which, lengths, rules))) {
            let answer = evaluate(rules, &file, GLOW_BUDGET, &lengths);
            let start = std::time::Instant::now();
            let used = library_use(rules, &file, &lengths);
            let took = start.elapsed().as_secs_f64();
            if took > 0.1 { println!("the next one took the library {took:.2} s"); }
            on_stack(8 << 20, || Case::new(rules, &file, GLOW_BUDGET, lengths).garbage(11).check_against(&answer));
            let run = answer.run();
            let entry = match &run.outcome { Outcome::Normal(t) => format!("normal, {} nodes", t.tags.len()), other => format!("{other:?}") };
            println!("{name}, {which}, {rules:?}: {entry}; steps {} store {} {} {}; stack {}", run.counts.steps(), run.figures.nodes, run.figures.cells, run.figures.names,
                used.map_or("-".into(), |u| format!("{} bytes", u.saturating_sub(none))));
            if let Some(u) = used {
                let told = told(&lengths);
                assert!(u - none <= told, "{} bytes of stack, and {told} are told", u - none);
                if u > deepest.0 { deepest = (u, format!("{name}, {which}, {rules:?}")); }
            }
        }
    }
    if LIBRARY { println!("deepest use of the stack by the library: {} bytes ({} with the thread's own) at {}", deepest.0.saturating_sub(none), deepest.0, deepest.1); }
}

#[cfg(feature = "library")]
fn library_use(rules: Rules, file: &[u8], l: &Lengths) -> Option<usize> {
    let mut stores = glow::Stores::new(l.tags, l.codes, l.places, l.renumber, l.out_tags);
    let mut report = [0u64; 12];
    Some(on_stack(8 << 20, || {
        glow::evaluate_in_on_this_stack(rules.into(), file, GLOW_BUDGET, &mut stores.tags, &mut stores.args, &mut stores.codes, &mut stores.owns, &mut stores.nexts,
            &mut stores.places, &mut stores.renumber, &mut stores.out_tags, &mut stores.out_args, &mut report);
    }))
}
/// The stack that the wrapper tells for these stores.
#[cfg(feature = "library")]
fn told(l: &Lengths) -> usize { glow::stack_needed(l.nodes() as usize, l.cells() as usize) }
#[cfg(not(feature = "library"))]
fn told(_: &Lengths) -> usize { 0 }
#[cfg(not(feature = "library"))]
fn library_use(_: Rules, _: &[u8], _: &Lengths) -> Option<usize> { None }

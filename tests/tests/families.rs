//! The families of source document 000, Church arithmetic and looping terms, on both machines.
use glow_tests::calculus;
use glow_tests::case::{print_notes, Case};
use glow_tests::families::*;
use glow_tests::file::check;
use glow_tests::flat::*;
use glow_tests::machine::*;
use glow_tests::painted::on_eight_mebibytes;

fn run(rules: Rules, f: usize, t: &Flat, budget: u32, lengths: Lengths) -> Run {
    let file = canonical(f, t).file();
    on_eight_mebibytes(|| Case::new(rules, &file, budget, lengths).garbage(5).check().run().clone())
}
fn is_normal(r: &Run, f: usize, t: &Flat) { assert_eq!(r.outcome, Outcome::Normal(canonical(f, t))); }

/// Proposition 3, and the counts of example 4 for every n: n beta steps, no subst, on both machines.
#[test]
fn open_size_explosion() {
    for (n, rules) in (0..60).chain([100, 500, 1000, 2000, 3000, 3275, 3276]).flat_map(|n| BOTH.map(|rules| (n, rules))) {
        let t = open_explosion(n);
        assert_eq!(t.len(), 5 * n + 1);
        let m = n as u64;
        let r = run(rules, 1, &t, GLOW_BUDGET, Lengths::glow());
        assert_eq!(r.counts, Counts { beta: m, subst: 0, enter: 2 * m, leave_fun: 0, leave_inert: 2 * m });
        assert_eq!(r.figures, Figures { nodes: 5 * m + 1, cells: 2 * m, names: 1 + m });
        if n <= 13 { is_normal(&r, 1, &exploded(n)); } else { assert_eq!(r.outcome, Outcome::Refused(12)); }
        // one node too few in the output
        if (1..=13).contains(&n) {
            let size = (2 << n) - 1;
            assert!(matches!(run(rules, 1, &t, u32::MAX, Lengths { out_args: size, ..Lengths::glow() }).outcome, Outcome::Normal(_)));
            assert_eq!(run(rules, 1, &t, u32::MAX, Lengths { out_args: size - 1, ..Lengths::glow() }).outcome, Outcome::Refused(12));
        }
        assert_eq!(run(rules, 1, &t, u32::MAX, Lengths { renumber: n, ..Lengths::glow() }).outcome, Outcome::Refused(11));
    }
    print_notes();
}

/// About 256 names in use: up to there the library keeps the weights of names in a small array.
#[test]
fn names_about_256() {
    for (n, rules) in (253..=258).flat_map(|n| BOTH.map(|rules| (n, rules))) {
        let r = run(rules, 1, &renamings(n), GLOW_BUDGET, Lengths::glow());
        assert!(matches!(r.outcome, Outcome::Normal(_)));
        assert_eq!(r.figures.names, 1 + n as u64);
        assert_eq!(run(rules, 1, &open_explosion(n), GLOW_BUDGET, Lengths::glow()).outcome, Outcome::Refused(12));
    }
}

/// Equation (4): one beta step and n substs of 2 n + 2 nodes each.
#[test]
fn equation_4() {
    for n in (0..40).chain([89, 90, 100, 126, 127, 128, 200, 500, 1000, 4000]) {
        let t = u4(n);
        let m = n as u64;
        let size = 2 * m + 2;
        for (lengths, nodes) in [(Lengths::glow(), 16_384), (Lengths::largest(), 32_768)] {
            let r = run(Rules::First, 1, &t, GLOW_BUDGET, lengths);
            let fits = 2 * size + 1 + m * size <= nodes;
            if fits {
                assert_eq!((r.counts.beta, r.counts.subst, r.counts.enter), (1, m, 1 + m));
                assert_eq!(r.figures, Figures { nodes: 2 * size + 1 + m * size, cells: 1 + m, names: 3 + m });
                let result = apply(v(Y), vec![r4(n); n]);
                if result.len() <= 16_384 { is_normal(&r, 1, &result); } else { assert_eq!(r.outcome, Outcome::Refused(12)); }
            } else {
                assert_eq!(r.outcome, Outcome::Refused(9));
                assert_eq!(r.counts.subst, (nodes - 2 * size - 1) / size);
            }
        }
    }
    print_notes();
}

/// Equation (4) on demand, as source document 000, section 7, says: no subst at all, so that the file's own nodes and names are enough.
#[test]
fn equation_4_on_demand() {
    for n in (0..40).chain([89, 90, 100, 126, 127, 128, 200, 500, 1000, 4000, 4094]) {
        let t = u4(n);
        let m = n as u64;
        let r = run(Rules::OnDemand, 1, &t, GLOW_BUDGET, Lengths::of(t.len(), n + 1, 3, 3, 16_384));
        assert_eq!(r.counts, Counts { beta: 1, subst: 0, enter: 1 + m, leave_fun: 1, leave_inert: m });
        assert_eq!(r.figures, Figures { nodes: 4 * m + 5, cells: 1 + m, names: 3 });
        assert_eq!((r.subst_allowance, r.shift_allowance), (2, 2 * 2 * (2 * m + 1)));
        if 1 + n * (2 * n + 3) <= 16_384 { is_normal(&r, 1, &apply(v(Y), vec![r4(n); n])); } else { assert_eq!(r.outcome, Outcome::Refused(12)); }
    }
    print_notes();
}

/// Functions that are only passed along: three copies of each on the first machine, none on demand. As many as a file holds, the most
/// that the first machine has nodes for, and one more.
#[test]
fn functions_passed_along() {
    for n in (0..30).chain([100, 442, 443, 885, 886, 1023]) {
        let (t, m) = (passed_along(n), n as u64);
        let function = church(2);
        let result = apply(v(Y), vec![function; 2 * n]);
        for (lengths, nodes) in [(Lengths::glow(), 16_384), (Lengths::largest(), 32_768)] {
            let r = run(Rules::OnDemand, 1, &t, GLOW_BUDGET, lengths);
            assert_eq!(r.counts, Counts { beta: 2 * m, subst: 0, enter: 4 * m, leave_fun: m, leave_inert: 3 * m });
            assert_eq!(r.figures, Figures { nodes: 16 * m + 1, cells: 4 * m, names: 1 + 4 * m });
            is_normal(&r, 1, &result);
            let r = run(Rules::First, 1, &t, GLOW_BUDGET, lengths);
            if 37 * m + 1 > nodes { assert_eq!(r.outcome, Outcome::Refused(9)); continue; }
            assert_eq!(r.counts, Counts { beta: 2 * m, subst: 3 * m, enter: 4 * m, leave_fun: 4 * m, leave_inert: 0 });
            assert_eq!(r.figures, Figures { nodes: 37 * m + 1, cells: 4 * m, names: 1 + 10 * m });
            is_normal(&r, 1, &result);
        }
    }
    print_notes();
}

/// Proposition 7: n beta steps, no subst, a result of 6 * 2^n - 4 nodes.
#[test]
fn proposition_7() {
    for (n, rules) in (1..40).chain([100, 1000, 2000, 2047]).flat_map(|n| BOTH.map(|rules| (n, rules))) {
        let t = s7(n);
        if t.len() > 16_384 { panic!("{n}: {} nodes", t.len()); }
        let r = run(rules, 0, &t, GLOW_BUDGET, Lengths::glow());
        assert_eq!((r.counts.beta, r.counts.subst), (n as u64, 0));
        if n <= 11 { is_normal(&r, 0, &r7(n)); } else { assert_eq!(r.outcome, Outcome::Refused(12)); }
    }
    print_notes();
}

/// Section 10: 2^(n+1) - 1 beta steps of u_n; n more of s_n i. Example 4's and the others' results.
#[test]
fn section_10() {
    for (i, rules) in [v(W), a(v(W), v(W)), apply(v(W), [id(), v(Y)])].into_iter().flat_map(|i| BOTH.map(|rules| (i.clone(), rules))) {
        for n in 0..14 {
            if n < 10 {
                let t = u10(n, &i);
                if t.len() <= 16_384 {
                    let r = run(rules, 2, &t, GLOW_BUDGET, Lengths::largest());
                    if let Outcome::Normal(_) = r.outcome { assert_eq!(r.counts.beta, (2 << n) - 1); is_normal(&r, 2, &r10(n, &i)); }
                }
            }
            let r = run(rules, 2, &s10(n, &i), GLOW_BUDGET, Lengths::largest());
            if let Outcome::Normal(_) = r.outcome { assert_eq!(r.counts.beta, n as u64 + (2 << n) - 1); is_normal(&r, 2, &r10(n, &i)); }
            if n < 8 { assert!(matches!(r.outcome, Outcome::Normal(_)), "n {n}: {:?}", r.outcome); }
        }
    }
    print_notes();
}

#[test]
fn church_arithmetic() {
    for rules in BOTH {
        let run = |t: &Flat, lengths: Lengths| run(rules, 2, t, GLOW_BUDGET, lengths);
        for p in 0..9 {
            for q in 0..9 {
                is_normal(&run(&shown(apply(sum(), [church(p), church(q)])), Lengths::largest()), 2, &tower(p + q));
                is_normal(&run(&shown(apply(product(), [church(p), church(q)])), Lengths::largest()), 2, &tower(p * q));
            }
            is_normal(&run(&shown(a(successor(), church(p))), Lengths::largest()), 2, &tower(p + 1));
        }
        for (p, q) in [(2, 1), (2, 5), (2, 8), (2, 10), (3, 4), (3, 6), (5, 3), (10, 3), (1, 9), (9, 1)] {
            is_normal(&run(&shown(apply(power(), [church(p), church(q)])), Lengths::largest()), 2, &tower(p.pow(q as u32)));
        }
        for n in [100, 1000, 4000, 8000, 8187] { run(&shown(church(n)), Lengths::glow()); }
    }
    print_notes();
}

#[test]
fn looping_terms() {
    for (f, t) in [(0, omega()), (0, omega3()), (1, open_loop()), (1, z_loop())] {
        for budget in [0, 1, 2, 3, 10, 100, 1000, 10_000, 100_000, u32::MAX] {
            for lengths in [Lengths::glow(), Lengths::largest(), Lengths::of(100, 100, 100, 100, 10), Lengths::of(100_000, 100_000, 100_000, 100_000, 100_000)] {
                for rules in BOTH {
                    let r = run(rules, f, &t, budget, lengths);
                    assert!(matches!(r.outcome, Outcome::Spent | Outcome::Refused(8..=10)));
                }
            }
        }
    }
    print_notes();
}

/// Longer arrays than what is counted give nothing more. The terms that come to the very limits do so by copies of the first machine.
#[test]
fn longer_than_counted() {
    use Rules::First;
    let huge = Lengths::of(70_000, 70_000, 70_000, 70_000, 70_000);
    let capped = Lengths::largest();
    for (f, t) in [(1, u4(126)), (1, u4(130)), (0, omega()), (1, open_explosion(13)), (1, open_explosion(14)), (2, shown(church(8187)))] {
        for rules in BOTH { assert_eq!(run(rules, f, &t, GLOW_BUDGET, huge), run(rules, f, &t, GLOW_BUDGET, capped)); }
    }
    // nodes, names and output at the very limits; everything longer than what counts
    let x = 9_500_000;
    for depth in 16_370..=16_380 {
        // the identity applied to `depth` abstractions: 3 + 2 (depth + 1) nodes, at most 32,765
        let r = run(First, 0, &a(id(), nested_abstractions(depth)), 100, huge);
        assert_eq!((r.figures.nodes, r.figures.names), (3 + 2 * (depth as u64 + 1), 1 + 2 * depth as u64));
    }
    for (f, depth) in [(16_383, 8191), (16_383, 8192), (16_384, 8191), (16_384, 8192), (16_382, 8192), (16_381, 8193)] {
        // names: f + 1 + 2 depth, refused from 32,769 on
        let r = run(First, f, &a(id(), nested_abstractions(depth)), 100, huge);
        let want = (f + 1 + 2 * depth) as u64;
        if want <= 32_768 { assert!(matches!(r.outcome, Outcome::Normal(_))); assert_eq!(r.figures.names, want); } else { assert_eq!(r.outcome, Outcome::Refused(10)); }
    }
    for (size, more) in [(16_383, false), (16_384, true), (16_385, false), (16_386, true)] {
        // y d d, or y d d I: 3 or 6 nodes and twice those of d
        let d = (size - if more { 6 } else { 3 }) / 2;
        let mut arguments = vec![v(x), v(x)];
        if more { arguments.push(id()); }
        let r = run(First, 1, &a(l(x, apply(v(Y), arguments)), nested_abstractions(d - 1)), 100, huge);
        match &r.outcome {
            Outcome::Normal(t) => { assert!(size <= 16_384); assert_eq!(t.tags.len(), size); }
            other => { assert!(size > 16_384); assert_eq!(other, &Outcome::Refused(12)); }
        }
    }
    // nodes: one (\\x. y x .. x) copied until 32,767, 32,768 or 32,769 would be taken
    for n in 1..400 {
        let r = run(First, 1, &u4(n), GLOW_BUDGET, huge);
        let need = (2 * n + 2) * (n + 2) + 1;
        assert_eq!(matches!(r.outcome, Outcome::Refused(9)), need > 32_768, "{n}");
    }
    for spine in 0..40 {
        // omega with a longer body, to the end: the last copy that fits ends at many places
        let body = apply(v(x), [v(x), left_nested(spine, Y)]);
        let r = run(First, 1, &a(l(x, body.clone()), l(x, body)), GLOW_BUDGET, huge);
        assert!(matches!(r.outcome, Outcome::Refused(9)), "{:?}", r.outcome);
    }
    // names: f = 16384 and case d; subst would need name 16387
    let t = canonical(16_384, &a(id(), id())).file();
    for places in [16_383, 16_384, 16_385, 16_386, 16_387, 16_388] {
        let r = Case::new(First, &t, 100, Lengths { places, ..Lengths::glow() }).check();
        let want = match places { 0..=16_386 => Outcome::Refused(10), _ => Outcome::Normal(from_text(16_384, "l16384 v16384")) };
        assert_eq!(r.run().outcome, want);
        assert_eq!(r.run().figures.names, match places { 0..=16_385 => 0, 16_386 => 16_386, _ => 16_387 });
    }
    print_notes();
}

/// The same limits by copies that are made on demand, of functions that are applied.
#[test]
fn longer_than_counted_on_demand() {
    let run = |f: usize, t: &Flat| run(Rules::OnDemand, f, t, GLOW_BUDGET, Lengths::of(70_000, 70_000, 70_000, 70_000, 70_000));
    let x = 9_500_000;
    let applied = |function: Flat| a(l(x, a(v(x), v(Y))), function);
    for depth in 16_370..=16_378 {
        // (\\x. x y) applied to `depth` abstractions: 6 and depth nodes, and a copy of depth + 1
        let r = run(1, &applied(nested_abstractions(depth)));
        assert_eq!((r.figures.nodes, r.figures.names), (2 * depth as u64 + 7, 2 + 2 * depth as u64));
    }
    for (f, depth) in [(16_383, 8191), (16_383, 8192), (16_384, 8191), (16_384, 8192), (16_382, 8192), (16_381, 8193)] {
        // names: f + 1 + 2 depth, refused from 32,769 on
        let r = run(f, &applied(nested_abstractions(depth)));
        let want = (f + 1 + 2 * depth) as u64;
        if want <= 32_768 { assert!(matches!(r.outcome, Outcome::Normal(_))); assert_eq!(r.figures.names, want); } else { assert_eq!(r.outcome, Outcome::Refused(10)); }
    }
    // (\\x. y (x y) .. (x y) y .. y I .. I) r_n copies r_n, 2 n + 2 nodes, n times: 32,765 nodes with n = 126, and 2 more for a y, 3 for an I
    let mut most = 0;
    for (n, names, functions) in (1..126).map(|n| (n, 0, 0)).chain([(126, 0, 0), (126, 1, 0), (126, 0, 1), (126, 2, 0), (126, 1, 1), (127, 0, 0), (200, 0, 0)]) {
        let arguments = vec![a(v(x), v(Y)); n].into_iter().chain(vec![v(Y); names]).chain(vec![id(); functions]);
        let r = run(1, &a(l(x, apply(v(Y), arguments)), r4(n)));
        let need = 2 * n * n + 8 * n + 5 + 2 * names + 3 * functions;
        assert_eq!(matches!(r.outcome, Outcome::Refused(9)), need > 32_768, "{n} {names} {functions}");
        if need <= 32_768 { assert_eq!((r.figures.nodes, r.counts.subst, r.counts.beta), (need as u64, n as u64, 1 + n as u64)); most = most.max(need); }
    }
    assert_eq!(most, 32_768);
    print_notes();
}

/// Every small member: the normal form and the beta count of the calculus.
#[test]
fn small_members_and_the_calculus() {
    for (name, f, t) in small_members() {
        let file = canonical(f, &t).file();
        for rules in BOTH {
            let r = Case::new(rules, &file, 3000, Lengths::largest()).check().run().clone();
            if let Outcome::Normal(n) = &r.outcome {
                let mut term = calculus::from_file(&check(&file).unwrap());
                let mut steps = 0;
                while let Some(next) = calculus::step(&term) { term = next; steps += 1; }
                assert!(calculus::is_fireball(&term));
                assert_eq!((&calculus::to_canonical(f, &term), steps), (n, r.counts.beta), "{name}");
            }
        }
    }
    print_notes();
}

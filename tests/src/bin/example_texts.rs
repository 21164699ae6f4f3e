//! Writes the texts of examples/ that are too long to write by hand: example_texts DIRECTORY.
//! The .term and .bits files come from the texts by tools/terms, the .out files from glow2 (see examples/make.sh).
use glow_tests::families::*;
use glow_tests::flat::*;

/// A readable text of a flat term. Short terms only.
fn text(t: &[F]) -> String {
    fn go(t: &[F], at: &mut usize, place: u8) -> String {
        let x = t[*at];
        *at += 1;
        let name = |n: u32| match n { 0 => "y".into(), 1 => "i".into(), 100_000 => "x".into(), 100_001 => "z".into(), 100_002 => "g".into(), 100_003 => "h".to_string(), n => format!("x{}", n % 1000) };
        match x {
            F::V(n) => name(n),
            F::L(n) => { let s = format!("\\{}. {}", name(n), go(t, at, 0)); if place > 0 { format!("({s})") } else { s } }
            F::A => { let l = go(t, at, 1); let r = go(t, at, 2); if place == 2 { format!("({l} {r})") } else { format!("{l} {r}") } }
        }
    }
    go(t, &mut 0, 0)
}

/// S and K of combinatory logic.
fn s() -> Flat { l(100_000, l(100_001, l(100_002, apply(v(100_000), [v(100_002), a(v(100_001), v(100_002))])))) }
fn k() -> Flat { l(100_000, l(100_001, v(100_000))) }

fn main() {
    let dir = std::env::args().nth(1).expect("a directory");
    let n2 = "free: y i\n";
    let y1 = "free: y\n";
    let list: Vec<(&str, &str, &str, Flat)> = vec![
        ("01-identity-open", "case c: the identity applied to a free name", y1, a(id(), v(Y))),
        ("02-identity-twice", "case d: the identity applied to itself; needs the subst at the end", "", a(id(), id())),
        ("03-example-1", "case f, example 1 of source document 000", y1, a(l(100_001, a(v(100_001), a(v(Y), v(100_001)))), id())),
        ("04-open-explosion-4", "t_4 of proposition 3: 4 beta steps, no subst, a result of 31 nodes", y1, open_explosion(4)),
        ("05-open-explosion-40", "t_40 of proposition 3: the result has 2^41 - 1 nodes and is refused by 12", y1, open_explosion(40)),
        ("06-equation-4", "u_6 of equation (4): one beta step, 6 substs", y1, u4(6)),
        ("07-abstraction-explosion", "s_3 I of proposition 7: 3 beta steps, a result of 44 nodes", "", s7(3)),
        ("08-inert-length-explosion", "s_3 i of section 10: 3 + 15 beta steps", n2, s10(3, &v(W))),
        ("09-omega", "omega loops until the node store is full: refused by 9", "", omega()),
        ("10-two-to-the-five", "Church arithmetic: 2 ^ 5 applied to y and i", n2, shown(apply(power(), [church(2), church(5)]))),
        ("11-three-times-four", "Church arithmetic: 3 * 4, a numeral of which nothing is evaluated under its binder", "", apply(product(), [church(3), church(4)])),
        ("12-renamings", "section 7: renamings in a chain", y1, renamings(6)),
        ("13-stuck", "an inert term: nothing to do but shift", n2, apply(v(Y), [apply(v(W), [v(Y), v(Y)]), l(100_000, a(v(100_000), v(100_000)))])),
        ("14-fixed-point", "a call-by-value fixed point that loops", y1, z_loop()),
        ("15-s-k-k", "S K K is the identity; as bits S is 00000001011110100111010 and K is 0000110", y1, apply(s(), [k(), k(), v(Y)])),
        ("16-names-as-bits", "y is 10 as bits, below one abstraction 110 and below two 1110; x below two is 110", n2,
            a(l(100_000, a(v(Y), l(100_001, apply(v(Y), [v(100_001), v(100_000), v(W)])))), v(Y))),
    ];
    for (name, what, head, t) in list {
        std::fs::write(format!("{dir}/{name}.txt"), format!("# {what}\n{head}{}\n", text(&t))).unwrap();
    }
}

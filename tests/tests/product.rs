//! The product of two 32-bit numbers from 16-bit pieces, and (1 + b) times a count, against a product by adding shifted copies: numbers
//! written out, all pairs of awkward numbers, pairs made to carry, random pairs, and the allowances that the library reports.
#![cfg(feature = "library")]
use glow_tests::families::*;
use glow_tests::flat::{apply, canonical, v, F};
use glow_tests::prng::Prng;

#[link(name = "product_test", kind = "static")]
extern "C" {
    fn product_of(a: u32, b: u32) -> u64;
    fn allowance_of(b: u32, count: u32) -> u64;
}
// SAFETY of both: two numbers go in and one comes out, and nothing is lent.
fn product(a: u32, b: u32) -> u64 { unsafe { product_of(a, b) } }
fn allowance(b: u32, count: u32) -> u64 { unsafe { allowance_of(b, count) } }

/// The second product: copies of `a`, shifted by each place where `b` has a one, added up. Nothing is multiplied.
fn second(a: u64, b: u32) -> u128 { (0..32).map(|k| if b >> k & 1 == 1 { u128::from(a) << k } else { 0 }).sum() }
fn second_allowance(b: u32, count: u32) -> u128 { second(u64::from(b) + 1, count) }

/// Zero, the numbers beside every power of two, and numbers whose 16-bit pieces, bits or factors are awkward.
fn awkward() -> Vec<u32> {
    let mut all = vec![
        0x5555_5555, 0xAAAA_AAAA, 0x3333_3333, 0xCCCC_CCCC, 0x0F0F_0F0F, 0xF0F0_F0F0, 0x00FF_00FF, 0xFF00_FF00, 0x5555, 0xAAAA,
        0xFFFF_0000, 0xFFFE_0000, 0xFFFE_0001, 0xFFFE_FFFF, 0xFFFF_FFFE, 0xFFFF_FFFD, 0x8000_8000, 0x7FFF_7FFF, 0x8000_7FFF, 0x7FFF_8000,
        0xFFFE, 46_340, 46_341, 92_681, 92_682, 641, 6_700_417, 65_521, 4_294_967_291, 1_000_000_007,
    ];
    for k in 0..=32 { all.extend([(1u64 << k) - 1, 1 << k, (1 << k) + 1].into_iter().filter_map(|x| u32::try_from(x).ok())); }
    all.sort_unstable();
    all.dedup();
    all
}

/// What a pair may have that makes a wrong sum of its pieces show. The pieces: a = a1 2^16 + a0, b = b1 2^16 + b0.
const KINDS: [&str; 7] = [
    "a0 b0 passes 16 bits",
    "the cross products' sum, a1 b0 + a0 b1, passes 32 bits",
    "that sum passes 32 bits only with what a0 b0 hands on",
    "the low 32 bits carry into the high half",
    "the third 16 bits carry into the highest",
    "the factor 1 + a has 33 bits",
    "a b + b carries out of the low 32 bits",
];

fn kinds_of(a: u32, b: u32) -> [bool; 7] {
    let [a1, a0, b1, b0] = [a >> 16, a & 0xFFFF, b >> 16, b & 0xFFFF].map(u64::from);
    let (low, cross, high) = (a0 * b0, a1 * b0 + a0 * b1, a1 * b1);
    let middle = (low >> 16) + cross;
    [
        low >> 16 > 0,
        cross >> 32 > 0,
        cross >> 32 == 0 && middle >> 32 > 0,
        (low + ((cross & 0xFFFF) << 16)) >> 32 > 0,
        ((high & 0xFFFF) + (middle >> 16 & 0xFFFF)) >> 16 > 0,
        a == u32::MAX,
        a.wrapping_mul(b).checked_add(b).is_none(),
    ]
}

/// How many pairs were compared, and how many of them were of each kind.
#[derive(Default)]
struct Compared { pairs: u64, kinds: [u64; 7] }

impl Compared {
    /// Both functions, in this order of the two numbers.
    fn pair(&mut self, a: u32, b: u32) {
        assert_eq!(u128::from(product(a, b)), second(a.into(), b), "{a} * {b}");
        assert_eq!(u128::from(allowance(a, b)), second_allowance(a, b), "(1 + {a}) * {b}");
        self.pairs += 1;
        for (count, is) in self.kinds.iter_mut().zip(kinds_of(a, b)) { *count += u64::from(is); }
    }

    /// Prints the counts; there must have been as many of each kind as is asked for.
    fn print(&self, what: &str, least: [u64; 7]) {
        println!("{what}: {} pairs, each through both functions", self.pairs);
        for (kind, count) in KINDS.iter().zip(self.kinds) { println!("    {count} where {kind}"); }
        for (k, least) in least.into_iter().enumerate() { assert!(self.kinds[k] >= least, "{what}: not {least} where {}", KINDS[k]); }
    }
}

/// The allowance for each of five numbers of steps and each of four counts, and the largest that can be.
#[test]
fn written_out() {
    const COUNTS: [u32; 4] = [0, 1, 16_384, 268_435_456];
    const ALLOWANCES: [(u32, [u64; 4]); 5] = [
        (0, [0, 1, 16_384, 268_435_456]),
        (1, [0, 2, 32_768, 536_870_912]),
        (65_535, [0, 65_536, 1_073_741_824, 17_592_186_044_416]),
        (65_536, [0, 65_537, 1_073_758_208, 17_592_454_479_872]),
        (4_294_967_295, [0, 4_294_967_296, 70_368_744_177_664, 1_152_921_504_606_846_976]),
    ];
    const PRODUCTS: [[u64; 4]; 5] = [
        [0, 0, 0, 0],
        [0, 1, 16_384, 268_435_456],
        [0, 65_535, 1_073_725_440, 17_591_917_608_960],
        [0, 65_536, 1_073_741_824, 17_592_186_044_416],
        [0, 4_294_967_295, 70_368_744_161_280, 1_152_921_504_338_411_520],
    ];
    for ((b, allowances), products) in ALLOWANCES.into_iter().zip(PRODUCTS) {
        assert_eq!(COUNTS.map(|count| allowance(b, count)), allowances, "(1 + {b}) * {COUNTS:?}");
        assert_eq!(COUNTS.map(|count| product(b, count)), products, "{b} * {COUNTS:?}");
        assert_eq!(COUNTS.map(|count| product(count, b)), products, "{COUNTS:?} * {b}");
        println!("(1 + {b}) * {COUNTS:?} = {allowances:?}");
    }
    assert_eq!(allowance(u32::MAX, u32::MAX), 18_446_744_069_414_584_320);
    assert_eq!(product(u32::MAX, u32::MAX), 18_446_744_065_119_617_025);
    assert!(second_allowance(u32::MAX, u32::MAX) <= u64::MAX.into(), "the largest allowance does not fit 64 bits");
}

/// The second product itself, which the other tests trust, is what u128 multiplies.
#[test]
fn the_second_product() {
    let mut r = Prng(41);
    let mut pairs: Vec<(u32, u32)> = awkward().into_iter().flat_map(|a| awkward().into_iter().map(move |b| (a, b))).collect();
    pairs.extend((0..100_000).map(|_| (number(&mut r), number(&mut r))));
    for &(a, b) in &pairs {
        assert_eq!(second(a.into(), b), u128::from(a) * u128::from(b), "{a} * {b}");
        assert_eq!(second_allowance(a, b), (u128::from(a) + 1) * u128::from(b), "(1 + {a}) * {b}");
    }
    println!("the second product: {} pairs as u128 has them", pairs.len());
}

#[test]
fn all_pairs_of_awkward_numbers() {
    let numbers = awkward();
    assert!(numbers.len() >= 110 && numbers[0] == 0 && numbers.ends_with(&[u32::MAX]));
    let mut compared = Compared::default();
    for &a in &numbers { for &b in &numbers { compared.pair(a, b); } }
    compared.print(&format!("{} awkward numbers", numbers.len()), [1000, 200, 2, 500, 500, 100, 500]);
}

/// Pairs whose cross products add up to the most below 2^32, or to the least from there on, so that a carry of the lowest piece tells.
#[test]
fn pairs_made_to_carry() {
    let mut r = Prng(42);
    let mut compared = Compared::default();
    for _ in 0..200_000 {
        let [a1, a0, b0] = [0; 3].map(|_| if r.one_in(3) { 0xFFFF - r.below(16) as u32 } else { 1 + r.below(0xFFFF) as u32 });
        let below = (u32::MAX - a1 * b0) / a0;
        for b1 in [below, below + 1] {
            if b1 > 0xFFFF { continue; }
            let (a, b) = (a1 << 16 | a0, b1 << 16 | b0);
            compared.pair(a, b);
            compared.pair(b, a);
        }
    }
    compared.print("cross products beside 2^32", [100_000, 100_000, 50_000, 50_000, 50_000, 100, 50_000]);
}

/// A number of any length, a small or a large one, or one beside a border of 16 bits.
fn number(r: &mut Prng) -> u32 {
    let any = r.next() as u32;
    let beside = r.below(9) as u32;
    match r.below(8) {
        0 => any,
        1 => any >> r.below(32),
        2 => !(any >> r.below(32)),
        3 => beside,
        4 => u32::MAX - beside,
        5 => 0xFFFC + beside,
        6 => (any << 16).wrapping_add(beside).wrapping_sub(4),
        _ => if any & 1 == 0 { any | 0xFFFF } else { any | 0xFFFF_0000 },
    }
}

#[test]
fn random_pairs() {
    let mut r = Prng(43);
    let mut compared = Compared::default();
    let (mut small, mut large, mut border) = (0, 0, 0);
    for _ in 0..4_000_000 {
        let (a, b) = (number(&mut r), number(&mut r));
        compared.pair(a, b);
        small += u64::from(a < 256);
        large += u64::from(a > u32::MAX - 256);
        border += u64::from((a & 0xFFFF).wrapping_add(4) & 0xFFFF <= 8);
    }
    println!("of the first numbers {small} are small, {large} are large, and {border} are within 4 of a multiple of 2^16");
    assert!(small > 400_000 && large > 400_000 && border > 1_000_000);
    compared.print("random", [1_000_000, 400_000, 10, 400_000, 400_000, 40_000, 400_000]);
}

/// The two allowances that the library reports on each machine, for terms with many variables and applications, ended after so many
/// beta steps.
#[test]
fn reported_by_the_library() {
    use glow::Machine;
    let largest = longest_copied_chain(&link_rename(), 1, 32_768, &v(Y)).1;
    let terms = [
        ("numeral 8186 of I and y", 1, chain_by_numeral(church(8186))),
        ("numeral 8187 shown", 2, shown(church(8187))),
        ("125^2 by product of I and y", 1, chain_by_numeral(apply(glow_tests::families::product(), [church(125), church(125)]))),
        ("the longest chain of renamings by copies", 1, largest),
        ("5461 renamings in a chain", 1, renamings(5461)),
        ("4095 abstractions behind entries", 0, abstraction_chain(4095)),
        ("3276 inert entries on the left", 2, inert_chain_left(3276)),
        ("t_3276", 1, open_explosion(3276)),
        ("u_4094 of (4)", 1, u4(4094)),
        ("8191 applications nested on the left", 1, left_nested(8191, Y)),
        ("8191 applications nested on the right", 1, right_nested(8191, Y)),
        ("16383 nested abstractions", 0, nested_abstractions(16_383)),
    ];
    let mut stores = glow::Stores::largest();
    let mut most = [0u64; 5];
    let mut calls = 0;
    for (name, f, t) in terms {
        let file = canonical(f, &t).file();
        let variables = t.iter().filter(|x| matches!(x, F::V(_))).count() as u32;
        let applications = t.iter().filter(|x| matches!(x, F::A)).count() as u32;
        for machine in [Machine::First, Machine::OnDemand] {
            let mut report_at = |budget: u32| {
                let glow::Answer::Ran { report, .. } = stores.evaluate(machine, &file, budget) else { panic!("{name}: the file is refused") };
                report
            };
            let betas = report_at(u32::MAX).beta as u32;
            for budget in [0, 1, 2, 3, 254, 255, 256, 1000, 4095, 4096, betas / 2, betas.saturating_sub(1), betas, betas + 1, u32::MAX] {
                let report = report_at(budget);
                assert_eq!(report.beta, u64::from(budget.min(betas)), "{name}, {machine:?}, budget {budget}");
                let told = [report.subst_allowance, report.shift_allowance].map(u128::from);
                let beta = report.beta as u32;
                let of_substs = match machine { Machine::First => second_allowance(beta, variables), Machine::OnDemand => u128::from(beta) + 1 };
                assert_eq!(told, [of_substs, second_allowance(beta, 2 * applications)], "{name}, {machine:?}, budget {budget}");
                let now = [variables.into(), applications.into(), report.beta, report.subst_allowance, report.shift_allowance];
                for (most, now) in most.iter_mut().zip(now) { *most = now.max(*most); }
                calls += 1;
            }
            println!("{name}: V = {variables}, A = {applications}, to {betas} beta steps on the machine {machine:?}");
        }
    }
    println!("{calls} calls; the most of V, A, b and the two allowances: {most:?}");
    assert!(most.iter().zip([8192, 8191, 10_000, 60_000_000, 120_000_000]).all(|(&m, least)| m >= least));
}

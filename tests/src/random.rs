//! Random terms, random damage to files and to bits, random lengths and budgets around what is needed.
use crate::binary::{packed, unpacked};
use crate::families::*;
use crate::flat::*;
use crate::machine::{Answer, Lengths, Outcome, GLOW_BUDGET};
use crate::prng::Prng;

const BOUND: u32 = 1 << 20;

/// A random term of about n nodes below `depth` binders.
fn some_term(r: &mut Prng, f: usize, n: usize, depth: usize, out: &mut Flat) {
    if n <= 1 {
        if depth > 0 && (f == 0 || !r.one_in(4)) {
            // binders near are likelier
            let back = if r.one_in(2) { 0 } else { r.below(depth) };
            out.push(F::V(BOUND + (depth - 1 - back) as u32));
        } else if f > 0 {
            out.push(F::V(r.below(f) as u32));
        } else {
            out.extend([F::L(BOUND + depth as u32), F::V(BOUND + depth as u32)]);
        }
        return;
    }
    match r.below(10) {
        0 | 1 | 2 => { out.push(F::L(BOUND + depth as u32)); some_term(r, f, n - 1, depth + 1, out); }
        3 | 4 if n >= 4 => {
            // a redex
            out.push(F::A);
            out.push(F::L(BOUND + depth as u32));
            let left = r.between(1, n - 3);
            some_term(r, f, left, depth + 1, out);
            some_term(r, f, n - 2 - left, depth, out);
        }
        _ if n >= 3 => {
            out.push(F::A);
            let left = r.between(1, n - 2);
            some_term(r, f, left, depth, out);
            some_term(r, f, n - 1 - left, depth, out);
        }
        _ => { out.push(F::L(BOUND + depth as u32)); some_term(r, f, n - 1, depth + 1, out); }
    }
}

fn piece(r: &mut Prng, f: usize) -> Flat {
    match r.below(9) {
        0 => id(),
        1 => delta(),
        2 => church(r.below(4)),
        3 => l(BOUND, l(BOUND + 1, v(BOUND))),
        4 => successor(),
        5 => power(),
        6 if f > 0 => v(r.below(f) as u32),
        7 => l(BOUND, l(BOUND + 1, l(BOUND + 2, apply(v(BOUND), [v(BOUND + 2), a(v(BOUND + 1), v(BOUND + 2))])))),
        _ => { let mut t = vec![]; let n = r.between(1, 9); some_term(r, f, n, 0, &mut t); t }
    }
}

/// A random term with f free names, as a term.
pub fn term(r: &mut Prng) -> (usize, Flat) {
    let f = match r.below(8) { 0 => 0, 1 | 2 => 1, 3 | 4 => 2, 5 => 3, 6 => r.below(40), _ => [16_384, 1000, 16_383, 300][r.below(4)] };
    let mut out = vec![];
    match r.below(4) {
        0 => {
            // an application of known pieces
            let mut parts: Vec<Flat> = (0..r.between(2, 6)).map(|_| piece(r, f)).collect();
            while parts.len() > 1 {
                let k = r.below(parts.len() - 1);
                let right = parts.remove(k + 1);
                let left = std::mem::take(&mut parts[k]);
                parts[k] = a(left, right);
            }
            out = parts.pop().unwrap();
        }
        1 => { let n = r.between(1, 12); some_term(r, f, n, 0, &mut out); }
        2 => { let n = r.between(10, 60); some_term(r, f, n, 0, &mut out); }
        _ => { let n = if r.one_in(50) { r.between(100, 3000) } else { r.between(5, 30) }; some_term(r, f, n, 0, &mut out); }
    }
    (f, out)
}

/// A random definition with k free names: one of the known functions, or one that uses those before it, or any.
fn definition(r: &mut Prng, k: usize) -> Flat {
    let x = BOUND;
    let earlier = |r: &mut Prng| v(r.below(k) as u32);
    match r.below(6) {
        0 | 1 if k > 0 => match r.below(6) {
            0 => l(x, earlier(r)),
            1 => l(x, a(earlier(r), v(x))),
            2 => l(x, a(v(x), earlier(r))),
            3 => l(x, a(earlier(r), a(earlier(r), v(x)))),
            4 => l(x, l(x + 1, apply(earlier(r), [v(x + 1), v(x)]))),
            _ => l(x, a(earlier(r), earlier(r))),
        },
        2 | 3 => { let t = piece(r, k); if let F::L(_) = t[0] { t } else { l(x, t) } }
        _ => { let mut t = vec![F::L(x)]; let n = if r.one_in(20) { r.between(20, 200) } else { r.between(1, 12) }; some_term(r, k, n, 1, &mut t); t }
    }
}

/// f, random definitions for some of the free names or all, and a random term with f free names, which uses definitions as a rule.
pub fn with_definitions(r: &mut Prng) -> (usize, Vec<Flat>, Flat) {
    let (mut f, mut t) = term(r);
    if f == 0 || f > 12 && !r.one_in(8) { f = r.between(1, 8); t.clear(); }
    let d = match r.below(8) { 0 => 0, 1 => f.min(200), _ => r.between(1, f.min(8)) };
    let definitions = (0..d).map(|k| definition(r, k)).collect();
    if t.is_empty() || r.one_in(2) {
        let head = if d > 0 && !r.one_in(6) { v(r.below(d) as u32) } else { piece(r, f) };
        let mut arguments: Vec<Flat> = (0..r.between(0, 4)).map(|_| match r.below(3) { 0 if d > 0 => v(r.below(d) as u32), 1 => piece(r, f), _ => { let mut t = vec![]; let n = r.between(1, 10); some_term(r, f, n, 0, &mut t); t } }).collect();
        if !t.is_empty() && t.len() < 100 { arguments.push(t); }
        t = apply(head, arguments);
    }
    (f, definitions, t)
}

/// Damage of many kinds to a prelude, most of it to one definition, with its length as it was or not.
pub fn damage_prelude(r: &mut Prng, prelude: &mut Vec<u8>) {
    // where each definition begins, as long as the bytes are there
    let mut starts = Vec::new();
    let mut at = 2;
    while prelude.len() >= at + 4 { starts.push(at); at += 4 + 3 * u16::from_le_bytes([prelude[at + 2], prelude[at + 3]]) as usize; }
    for _ in 0..r.between(1, 3) {
        let one = starts.get(r.below(starts.len().max(1))).copied().filter(|&at| at + 7 <= prelude.len());
        match (r.below(12), one) {
            (0, _) => { let k = r.below(prelude.len() + 1); prelude.truncate(k); }
            (1, _) => for _ in 0..r.between(1, 5) { prelude.push(r.next() as u8); },
            (2, _) if prelude.len() >= 2 => { let k = r.below(2); prelude[k] = prelude[k].wrapping_add([1, 255, r.next() as u8][r.below(3)]); }
            (3, _) if !prelude.is_empty() => { let k = r.below(prelude.len()); prelude[k] ^= 1 << r.below(8); }
            // the f field alone, the n field alone
            (4, Some(at)) => prelude[at] = prelude[at].wrapping_add([1, 255, 64][r.below(3)]),
            (5, Some(at)) => { let k = at + 1 + r.below(3); prelude[k] = r.next() as u8; }
            // one definition is the free name 0, which is no abstraction, or a function with another f, or is damaged as a file may be
            (6..=10, Some(at)) => {
                let end = (at + 4 + 3 * u16::from_le_bytes([prelude[at + 2], prelude[at + 3]]) as usize).min(prelude.len());
                let mut bytes = prelude[at..end].to_vec();
                match r.below(3) {
                    0 => bytes = canonical(1, &v(0)).file(),
                    1 => bytes = canonical(r.below(5), &id()).file(),
                    _ => damage(r, &mut bytes),
                }
                prelude.splice(at..end, bytes);
            }
            _ => {}
        }
        if r.one_in(2) { break; }
    }
}

/// Damage of many kinds to the bytes of a file.
pub fn damage(r: &mut Prng, bytes: &mut Vec<u8>) {
    for _ in 0..r.between(1, 2) {
        let n = if bytes.len() >= 4 { bytes[2] as usize + 256 * bytes[3] as usize } else { 0 };
        let sound = n > 0 && bytes.len() == 4 + 3 * n;
        match r.below(14) {
            0 => { let k = r.below(bytes.len() + 1); bytes.truncate(k); }
            1 => { for _ in 0..r.between(1, 4) { bytes.push(r.next() as u8); } }
            2 if !bytes.is_empty() => { let k = r.below(bytes.len()); bytes[k] = r.next() as u8; }
            3 if !bytes.is_empty() => { let k = r.below(bytes.len()); bytes[k] ^= 1 << r.below(8); }
            4 if bytes.len() >= 4 => { let k = r.below(4); bytes[k] = r.next() as u8; }
            5 if bytes.len() >= 4 => { bytes.truncate(r.below(5)); }
            6 if sound => { let k = r.below(n); bytes[4 + k] = r.below(5) as u8; }
            7 | 8 | 9 | 10 if sound => {
                // an argument up or down a little, of a node of a chosen tag if there is one
                let tag = r.below(3) as u8;
                let at: Vec<usize> = (0..n).filter(|&k| bytes[4 + k] == tag).collect();
                if at.is_empty() { continue; }
                let p = 4 + n + 2 * at[r.below(at.len())];
                let old = u16::from_le_bytes([bytes[p], bytes[p + 1]]);
                let new = match r.below(5) { 0 => old.wrapping_add(1), 1 => old.wrapping_sub(1), 2 => old.wrapping_add(r.below(5) as u16), 3 => r.below(2 * n + 2) as u16, _ => r.next() as u16 };
                bytes[p..p + 2].copy_from_slice(&new.to_le_bytes());
            }
            11 if sound && n > 1 => { let (p, q) = (r.below(n), r.below(n)); bytes.swap(4 + p, 4 + q); }
            12 if bytes.len() >= 2 => { // f moved by one: binders no longer in place, or a free name no longer free
                let f = u16::from_le_bytes([bytes[0], bytes[1]]);
                let g = if r.one_in(2) { f.wrapping_add(1) } else { f.wrapping_sub(1) };
                bytes[..2].copy_from_slice(&g.to_le_bytes());
            }
            13 if sound && n > 1 => {
                let (p, q) = (4 + n + 2 * r.below(n), 4 + n + 2 * r.below(n));
                bytes.swap(p, q);
                bytes.swap(p + 1, q + 1);
            }
            _ => {}
        }
    }
}

/// Damage of many kinds to the bits of a term.
pub fn damage_bits(r: &mut Prng, bytes: &mut Vec<u8>) {
    if bytes.is_empty() { return bytes.push(r.next() as u8); }
    let (k, bit) = (r.below(bytes.len()), r.below(8 * bytes.len()));
    match r.below(12) {
        0 => bytes.truncate(k),
        1 => { bytes.pop(); }
        2 => bytes.push(0),
        3 => for _ in 0..r.between(1, 4) { bytes.push(r.next() as u8); },
        4 | 5 => *bytes.last_mut().unwrap() |= 1 << r.below(8), // in the padding, as a rule
        6 | 7 => bytes[bit / 8] ^= 128 >> (bit % 8),
        8 => bytes[k] = r.next() as u8,
        9 => bytes[k] = [0x00, 0xFF][r.below(2)],
        // a bit more or less, which moves all that follow
        10 => { let mut bits = unpacked(bytes); bits.insert(bit, r.one_in(2)); *bytes = packed(&bits); }
        _ => { let mut bits = unpacked(bytes); bits.remove(bit); *bytes = packed(&bits); }
    }
}

fn near(r: &mut Prng, need: u64, ample: usize) -> usize {
    let need = need.min(40_000) as usize;
    match r.below(10) {
        0 => need.saturating_sub(1),
        1 | 2 => need,
        3 => need + 1,
        4 => need.saturating_sub(r.below(6)),
        5 => if need == 0 { 0 } else { r.below(need) },
        _ => need + r.below(ample),
    }
}

/// Lengths around what `full`, the answer with the largest stores, shows to be needed. Mostly one
/// or two stores are near their need and the others ample.
pub fn lengths(r: &mut Prng, full: &Answer) -> Lengths {
    let Answer::Ran(run) = full else {
        let s = |r: &mut Prng| r.below(40);
        return Lengths { tags: s(r), args: s(r), codes: s(r), owns: s(r), nexts: s(r), places: s(r), renumber: s(r), out_tags: s(r), out_args: s(r) };
    };
    let written = match &run.outcome { Outcome::Normal(t) => t.tags.len() as u64, _ => 20 };
    let g = run.figures;
    let tight = r.below(7); // which store is near its need: 0 nodes, 1 cells, 2 names, 3 renumber, 4 output, 5 all, 6 none
    let mut pick = |which: usize, need: u64| {
        if tight == which || tight == 5 { near(r, need, 8) } else { need.min(40_000) as usize + r.below(12) }
    };
    let (nodes, cells, names, renumber, output) = (pick(0, g.nodes), pick(1, g.cells), pick(2, g.names), pick(3, g.names), pick(4, written));
    let mut all = Lengths::of(nodes, cells, names, renumber, output);
    if r.one_in(2) {
        // arrays of one store of different lengths: the shortest counts
        let longer = |r: &mut Prng, x: &mut usize| *x += r.below(20);
        match r.below(2) { 0 => longer(r, &mut all.tags), _ => longer(r, &mut all.args) }
        match r.below(3) { 0 => { longer(r, &mut all.codes); longer(r, &mut all.owns) } 1 => { longer(r, &mut all.owns); longer(r, &mut all.nexts) } _ => { longer(r, &mut all.nexts); longer(r, &mut all.codes) } }
        match r.below(2) { 0 => longer(r, &mut all.out_tags), _ => longer(r, &mut all.out_args) }
    }
    all
}

/// A budget around the betas that `full`, the answer with the largest stores and the budget `most`, has: none, one less, as many, one
/// more, and much more, which the stores have to end where the term does not.
pub fn budget(r: &mut Prng, full: &Answer, most: u32) -> u32 {
    let Answer::Ran(run) = full else { return r.next() as u32 };
    let betas = run.counts.beta as u32;
    match r.below(14) {
        0 => 0,
        1 | 2 => betas.saturating_sub(1),
        3 | 4 => betas,
        5 => betas + 1,
        6 => r.below(betas as usize + 1) as u32,
        7 => betas + r.below(70_000) as u32,
        8 => u32::MAX,
        9 => GLOW_BUDGET,
        10 => 1 << r.between(16, 31),
        _ => most,
    }
}

//! Preludes (02, request 6): one read beside a term file, with the refusals in their order, and the term with the definitions put
//! in, of which the machines know nothing.
use crate::file::{check, word, Parsed, MOST};
use crate::flat::{canonical, Canonical, F};

/// The prelude of no definition: a run with it is the run without one.
pub const NONE: &[u8] = &[0, 0];

/// The prelude of these definitions, each the bytes of a term file.
pub fn encode(definitions: &[Vec<u8>]) -> Vec<u8> {
    let mut out = (definitions.len() as u16).to_le_bytes().to_vec();
    for bytes in definitions { out.extend_from_slice(bytes); }
    out
}

/// The bytes of each definition, 4 and 3 times its own n, whatever n is. None where these and the count are not the whole prelude.
fn cut(prelude: &[u8]) -> Option<Vec<&[u8]>> {
    if prelude.len() < 2 { return None; }
    let mut rest = &prelude[2..];
    let mut definitions = Vec::new();
    for _ in 0..word(prelude, 0) {
        if rest.len() < 4 { return None; }
        let length = 4 + 3 * word(rest, 2);
        if rest.len() < length { return None; }
        definitions.push(&rest[..length]);
        rest = &rest[length..];
    }
    rest.is_empty().then_some(definitions)
}

/// The term and the definitions, or the refusal's number: the term file's; 17; of each definition in turn 2 and 4 to 7; 18 over all
/// of them; and 19 over all of them. 1 and 3 come of no definition, as each has the bytes that its n says.
pub fn read(prelude: &[u8], file: &[u8]) -> Result<(Parsed, Vec<Parsed>), u8> {
    let term = check(file)?;
    let parts = cut(prelude).filter(|parts| parts.len() <= term.f).ok_or(17)?;
    let definitions = parts.into_iter().map(check).collect::<Result<Vec<Parsed>, u8>>()?;
    if definitions.iter().any(|p| p.tags[0] != 1) { return Err(18); }
    if definitions.iter().enumerate().any(|(k, p)| p.f != k) { return Err(19); }
    Ok((term, definitions))
}

/// The definition that a node names, if it does. Each free name of a definition is that of an earlier one.
fn named(definitions: &[Parsed], p: &Parsed, at: usize) -> Option<usize> {
    let name = p.args[at] as usize;
    (p.tags[at] == 0 && name < p.f.min(definitions.len())).then_some(name)
}

/// The term with the definitions put in, and with the same f, unless it has more than 16,384 nodes. With those before it put in a
/// definition is closed, so that nothing is captured.
pub fn put_in(term: &Parsed, definitions: &[Parsed]) -> Option<Canonical> {
    let mut sizes: Vec<u64> = Vec::new();
    for p in definitions.iter().chain([term]) {
        let size = (0..p.tags.len()).fold(0u64, |sum, at| sum.saturating_add(named(definitions, p, at).map_or(1, |k| sizes[k])));
        sizes.push(size);
    }
    if *sizes.last().unwrap() > MOST as u64 { return None; }
    let mut out = Vec::new();
    // what is begun, innermost last: a definition's number, or that behind them for the term, and the place reached in it
    let mut begun = vec![(definitions.len(), 0)];
    while let Some((which, at)) = begun.pop() {
        let p = definitions.get(which).unwrap_or(term);
        if at == p.tags.len() { continue; }
        begun.push((which, at + 1));
        // the bound names of one definition are others than those of the next
        let bound = (which as u32 + 1) << 16 | u32::from(p.args[at]);
        match (p.tags[at], named(definitions, p, at)) {
            (0, Some(k)) => begun.push((k, 0)),
            (0, None) => out.push(F::V(if (p.args[at] as usize) < p.f { p.args[at].into() } else { bound })),
            (1, _) => out.push(F::L(bound)),
            _ => out.push(F::A),
        }
    }
    Some(canonical(term.f, &out))
}

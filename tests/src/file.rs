//! The term file: refusals 1 to 7, each over the whole file before the next.

pub const MOST: usize = 16_384;

/// 01, Numbered answers: its examples of refusals 1 to 7, in their order.
pub const REFUSED_FILES: [&[u8]; 7] = [
    &[1, 0, 1], &[0, 0, 0, 0], &[1, 0, 1, 0, 0], &[1, 0, 1, 0, 3, 0, 0], &[1, 0, 1, 0, 2, 1, 0], &[0, 0, 2, 0, 1, 0, 1, 0, 1, 0], &[0, 0, 1, 0, 0, 0, 0],
];

/// An accepted file.
#[derive(Clone, Debug, PartialEq, Eq)]
pub struct Parsed {
    pub f: usize,
    pub tags: Vec<u8>,
    pub args: Vec<u16>,
    /// Nodes of the subterm that starts at each node.
    pub sizes: Vec<usize>,
}

impl Parsed {
    pub fn count(&self, tag: u8) -> usize { self.tags.iter().filter(|&&t| t == tag).count() }
}

pub fn word(bytes: &[u8], at: usize) -> usize { bytes[at] as usize + 256 * bytes[at + 1] as usize }

pub fn encode(f: usize, tags: &[u8], args: &[u16]) -> Vec<u8> {
    let mut out = Vec::with_capacity(4 + 3 * tags.len());
    out.extend_from_slice(&(f as u16).to_le_bytes());
    out.extend_from_slice(&(tags.len() as u16).to_le_bytes());
    out.extend_from_slice(tags);
    for a in args { out.extend_from_slice(&a.to_le_bytes()); }
    out
}

/// Sizes of all subterms, if the tags are one whole term that uses all of them.
pub fn sizes_of(tags: &[u8]) -> Option<Vec<usize>> {
    let mut sizes = vec![0; tags.len()];
    let mut ready: Vec<usize> = Vec::new(); // whole terms that stand to the right, nearest last
    for at in (0..tags.len()).rev() {
        let size = match tags[at] {
            0 => 1,
            1 => 1 + ready.pop()?,
            2 => { let left = ready.pop()?; let right = ready.pop()?; 1 + left + right }
            _ => return None,
        };
        sizes[at] = size;
        ready.push(size);
    }
    (ready.len() == 1).then_some(sizes)
}

pub fn check(bytes: &[u8]) -> Result<Parsed, u8> {
    if bytes.len() < 4 { return Err(1); }
    let (f, n) = (word(bytes, 0), word(bytes, 2));
    if f > MOST || n < 1 || n > MOST { return Err(2); }
    if bytes.len() != 4 + 3 * n { return Err(3); }
    let tags = bytes[4..4 + n].to_vec();
    let args: Vec<u16> = (0..n).map(|i| word(bytes, 4 + n + 2 * i) as u16).collect();
    if tags.iter().any(|&t| t > 2) { return Err(4); }
    let Some(sizes) = sizes_of(&tags) else { return Err(5) };
    for at in 0..n {
        if tags[at] == 2 && sizes[at + 1] != args[at] as usize { return Err(5); }
    }
    let mut places = Vec::new(); // where the abstraction that binds f + k stands
    for at in 0..n {
        if tags[at] == 1 {
            if args[at] as usize != f + places.len() { return Err(6); }
            places.push(at);
        }
    }
    for at in 0..n {
        if tags[at] != 0 { continue; }
        let name = args[at] as usize;
        if name < f { continue; }
        match places.get(name - f) {
            Some(&p) if p < at && at < p + sizes[p] => {}
            _ => return Err(7),
        }
    }
    Ok(Parsed { f, tags, args, sizes })
}

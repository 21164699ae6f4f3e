//! Binary lambda calculus by the words of request 1 of paper 02: a list of bits is read into a tree by descent, and a tree is told in bits.
//! Recursive: small terms, or a thread with a large stack. Room for the result, refusal 12, is asked last, by `fitted`.
use crate::calculus::{from_file, to_canonical, Term};
use crate::file::{check, MOST};
use std::rc::Rc;

/// The most bytes that an export has: see `most_bits`.
pub const MOST_EXPORTED: usize = 16_781_312;

/// The bits of bytes: "Bits fill bytes from the highest".
pub fn unpacked(bytes: &[u8]) -> Vec<bool> {
    let mut bits = Vec::with_capacity(8 * bytes.len());
    for byte in bytes { bits.extend([128, 64, 32, 16, 8, 4, 2, 1].map(|worth| byte & worth != 0)); }
    bits
}

/// Bits in bytes: "the last byte is padded with zeros".
pub fn packed(bits: &[bool]) -> Vec<u8> {
    let worth = |(&bit, worth): (&bool, u8)| if bit { worth } else { 0 };
    bits.chunks(8).map(|eight| eight.iter().zip([128, 64, 32, 16, 8, 4, 2, 1]).map(worth).sum()).collect()
}

/// Bits written as 0 and 1; anything else between them is left out.
pub fn bits_of(text: &str) -> Vec<bool> { text.chars().filter(|c| "01".contains(*c)).map(|c| c == '1').collect() }

/// What is still to be read, the count of free names, and the nodes read so far.
struct Reading<'a> { rest: &'a [bool], f: usize, nodes: usize }

impl Reading<'_> {
    /// A node of so many bits, the last of which is looked at here: "16, a node beyond the node limit .., tested at the node's last bit".
    fn node(&mut self, bits: usize) -> Result<(), u8> {
        self.rest = &self.rest[bits..];
        self.nodes += 1;
        if self.nodes > MOST { Err(16) } else { Ok(()) }
    }

    /// The term that comes next, with m abstractions around it.
    fn term(&mut self, m: usize) -> Result<Rc<Term>, u8> {
        Ok(Rc::new(match *self.rest {
            [false, false, ..] => { self.node(2)?; Term::Lam(self.term(m + 1)?) }
            [false, true, ..] => { self.node(2)?; let left = self.term(m)?; Term::App(left, self.term(m)?) }
            [true, ..] => {
                let ones = self.rest.iter().position(|&one| !one).ok_or(14)?;
                self.node(ones + 1)?;
                let k = ones - 1;
                match k.checked_sub(m) {
                    None => Term::Bound(k as u32),
                    Some(name) if name < self.f => Term::Free(name as u32),
                    Some(_) => return Err(16),
                }
            }
            [] | [false] => return Err(14),
        }))
    }
}

/// The term that the bits begin with, and the bits behind it; or refusal 14 or 16, whichever comes first.
pub fn read(bits: &[bool], f: usize) -> Result<(Rc<Term>, &[bool]), u8> {
    let mut reading = Reading { rest: bits, f, nodes: 0 };
    let term = reading.term(0)?;
    Ok((term, reading.rest))
}

/// The term file that the bits stand for, or the refusal that comes first: 2, then 14 and 16 in bit order, then 15.
pub fn import(bytes: &[u8], f: u32) -> Result<Vec<u8>, u8> {
    let f = f as usize;
    if f > MOST { return Err(2); }
    let bits = unpacked(bytes);
    let (term, rest) = read(&bits, f)?;
    if rest.len() >= 8 || rest.contains(&true) { return Err(15); }
    Ok(to_canonical(f, &term).file())
}

/// The bits of a term with m abstractions around it.
fn tell(term: &Term, m: usize, bits: &mut Vec<bool>) {
    let k = match term {
        Term::Lam(body) => { bits.extend([false, false]); return tell(body, m + 1, bits); }
        Term::App(left, right) => { bits.extend([false, true]); tell(left, m, bits); return tell(right, m, bits); }
        Term::Bound(k) => *k as usize,
        Term::Free(name) => m + *name as usize,
    };
    bits.resize(bits.len() + k + 1, true);
    bits.push(false);
}

pub fn told(term: &Term) -> Vec<bool> { let mut bits = Vec::new(); tell(term, 0, &mut bits); bits }

/// The bits of the term that a file stands for, in bytes; or one of refusals 1 to 7.
pub fn export(file: &[u8]) -> Result<Vec<u8>, u8> { Ok(packed(&told(&from_file(&check(file)?)))) }

/// An answer with room for so many bytes: "In both, refusal 12, the output too short, is tested last".
pub fn fitted(answer: &Result<Vec<u8>, u8>, room: usize) -> Result<&[u8], u8> {
    match answer { Ok(bytes) if bytes.len() > room => Err(12), Ok(bytes) => Ok(bytes), Err(n) => Err(*n) }
}

/// The most bits that a term of n nodes with a applications takes. It has a + 1 variables, with the other n - 2 a - 1 nodes, abstractions,
/// around each at most, so that none has more ones than that and f together.
pub fn most_bits(n: usize, f: usize, a: usize) -> usize {
    let m = n - 2 * a - 1;
    2 * (a + m) + (a + 1) * (m + f + 1)
}

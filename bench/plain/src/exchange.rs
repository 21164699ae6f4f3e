//! Binary lambda calculus in ordinary, unproved Rust, bit by bit. A benchmark compares the speed of the library's import
//! and export with this; `mock` has it behind the library's own C functions. Both answer the number of bytes written to
//! `out`, or the number of a refusal, which writes nothing.
use crate::{check, word};

const MOST: usize = 16_384;

/// Bits from the highest of each byte on; none behind the last byte.
struct Reader<'a> { bytes: &'a [u8], at: usize }

impl Reader<'_> {
    fn bit(&mut self) -> Option<bool> {
        let byte = self.bytes.get(self.at / 8)?;
        let bit = byte & 0x80 >> (self.at % 8) != 0;
        self.at += 1;
        Some(bit)
    }
}

/// Bits from the highest of each byte on, into bytes that are zero.
struct Writer<'a> { bytes: &'a mut [u8], at: usize }

impl Writer<'_> {
    fn bit(&mut self, bit: bool) {
        if bit { self.bytes[self.at / 8] |= 0x80 >> (self.at % 8); }
        self.at += 1;
    }
}

/// Bits to a term file with f free names.
pub fn import(bits: &[u8], f: u32, out: &mut [u8]) -> Result<usize, u32> {
    let f = f as usize;
    if f > MOST { return Err(2); }
    let mut reader = Reader { bytes: bits, at: 0 };
    let (mut tags, mut args): (Vec<u8>, Vec<u16>) = (Vec::new(), Vec::new());
    let mut next = f as u16;
    // the names bound around the place that is read
    let mut around: Vec<u16> = Vec::new();
    // applications whose left part is being read, with the number of abstractions around them
    let mut due: Vec<(usize, usize)> = Vec::new();
    loop {
        if reader.bit().ok_or(14u32)? {
            let mut index = 0;
            while reader.bit().ok_or(14u32)? { index += 1; }
            if tags.len() == MOST || index >= around.len() + f { return Err(16); }
            tags.push(0);
            args.push(if index < around.len() { around[around.len() - 1 - index] } else { (index - around.len()) as u16 });
            let Some((application, depth)) = due.pop() else { break };
            args[application] = (tags.len() - application - 1) as u16;
            around.truncate(depth);
        } else {
            let is_application = reader.bit().ok_or(14u32)?;
            if tags.len() == MOST { return Err(16); }
            if is_application {
                due.push((tags.len(), around.len()));
                tags.push(2);
                args.push(0);
            } else {
                around.push(next);
                tags.push(1);
                args.push(next);
                next += 1;
            }
        }
    }
    if 8 * bits.len() - reader.at >= 8 { return Err(15); }
    while let Some(bit) = reader.bit() { if bit { return Err(15); } }
    let n = tags.len();
    if out.len() < 4 + 3 * n { return Err(12); }
    out[..2].copy_from_slice(&(f as u16).to_le_bytes());
    out[2..4].copy_from_slice(&(n as u16).to_le_bytes());
    out[4..4 + n].copy_from_slice(&tags);
    for (pair, arg) in out[4 + n..4 + 3 * n].chunks_exact_mut(2).zip(&args) { pair.copy_from_slice(&arg.to_le_bytes()); }
    Ok(4 + 3 * n)
}

/// A term file to bits.
pub fn export(file: &[u8], out: &mut [u8]) -> Result<usize, u32> {
    let refusal = check(file);
    if refusal != 0 { return Err(refusal as u32); }
    let (f, n) = (word(file, 0), word(file, 2));
    let tags = &file[4..4 + n];
    // how many ones each variable has, in order
    let mut ones: Vec<usize> = Vec::new();
    // for each abstraction so far, and for each right part to come, the number of abstractions around it
    let (mut depths, mut due): (Vec<usize>, Vec<usize>) = (Vec::new(), Vec::new());
    let mut around = 0;
    let mut length = 0;
    for (k, tag) in tags.iter().enumerate() {
        match tag {
            0 => {
                let name = word(file, 4 + n + 2 * k);
                let index = if name < f { around + name } else { around - 1 - depths[name - f] };
                ones.push(index + 1);
                length += index + 2;
                if let Some(depth) = due.pop() { around = depth; }
            }
            1 => { depths.push(around); around += 1; length += 2; }
            _ => { due.push(around); length += 2; }
        }
    }
    let bytes = (length + 7) / 8;
    if out.len() < bytes { return Err(12); }
    out[..bytes].fill(0);
    let mut writer = Writer { bytes: out, at: 0 };
    let mut ones = ones.into_iter();
    for tag in tags {
        match tag {
            0 => {
                for _ in 0..ones.next().expect("a number for each variable") { writer.bit(true); }
                writer.bit(false);
            }
            1 => { writer.bit(false); writer.bit(false); }
            _ => { writer.bit(false); writer.bit(true); }
        }
    }
    Ok(bytes)
}

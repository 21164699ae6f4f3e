//! All terms of n nodes with f free names.
use crate::flat::{Flat, F};
use std::collections::HashMap;

const BOUND: u32 = 1 << 20;

#[derive(Default)]
pub struct All { known: HashMap<(usize, usize, usize), std::rc::Rc<Vec<Flat>>> }

impl All {
    pub fn terms(&mut self, f: usize, n: usize) -> std::rc::Rc<Vec<Flat>> { self.at(f, n, 0) }
    fn at(&mut self, f: usize, n: usize, depth: usize) -> std::rc::Rc<Vec<Flat>> {
        if let Some(k) = self.known.get(&(f, n, depth)) { return k.clone(); }
        let mut out = Vec::new();
        if n == 1 {
            out.extend((0..f as u32).map(|x| vec![F::V(x)]));
            out.extend((0..depth as u32).map(|d| vec![F::V(BOUND + d)]));
        } else if n > 1 {
            for b in self.at(f, n - 1, depth + 1).iter() { let mut t = vec![F::L(BOUND + depth as u32)]; t.extend(b); out.push(t); }
            for left in 1..n - 1 {
                let (ls, rs) = (self.at(f, left, depth), self.at(f, n - 1 - left, depth));
                for p in ls.iter() { for q in rs.iter() { let mut t = vec![F::A]; t.extend(p); t.extend(q); out.push(t); } }
            }
        }
        let out = std::rc::Rc::new(out);
        self.known.insert((f, n, depth), out.clone());
        out
    }
}

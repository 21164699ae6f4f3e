//! Binary lambda calculus: import and export beside the second implementation. Each answer is compared with its status, its report, the
//! output byte by byte, and what is behind it.
mod arrays;
mod limits;
mod literature;
mod random;
mod strings;
mod terms;

use glow_tests::exchange::Given;

/// How often each answer came: 0 is written, and else the refusal.
#[derive(Default)]
struct Kinds([u64; 17]);

impl Kinds {
    fn count<T>(&mut self, answer: &Result<T, u8>) { self.0[answer.as_ref().err().map_or(0, |&n| n as usize)] += 1; }
    fn told(&self) -> String {
        let refused = self.0.iter().enumerate().skip(1).filter(|(_, &count)| count > 0).map(|(n, count)| format!("refused {n} {count}"));
        std::iter::once(format!("written {}", self.0[0])).chain(refused).collect::<Vec<_>>().join(", ")
    }
    fn all_came(&self, kinds: &[usize], least: u64) {
        for (n, &count) in self.0.iter().enumerate() {
            if kinds.contains(&n) { assert!(count >= least, "answer {n} came only {count} times"); } else { assert_eq!(count, 0, "answer {n}"); }
        }
    }
}

/// The file's bits, which are imported again with the same f and give the same file.
fn there_and_back(file: &[u8]) -> Vec<u8> {
    let bits = Given::File(file).check().expect("an accepted file");
    let f = u16::from_le_bytes([file[0], file[1]]);
    assert!(Given::Bits(&bits, f.into()).check().as_deref() == Ok(file), "another file came back");
    bits
}

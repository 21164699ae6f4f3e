//! A second implementation of the papers (source document 000, 01 and 02), written separately:
//! the calculus by plain substitution on trees, the two machines by their rules on ordinary
//! data structures, preludes, binary lambda calculus by descent into trees, and the comparison
//! of the library with them.
pub mod binary;
pub mod calculus;
pub mod case;
pub mod enumerate;
pub mod exchange;
pub mod families;
pub mod file;
pub mod flat;
pub mod machine;
pub mod markdown;
pub mod marked;
pub mod painted;
pub mod prelude;
pub mod prng;
pub mod process;
pub mod random;

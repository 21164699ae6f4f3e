//! The marked cases of 01 that several tests run, in the papers' notation, by their letters. That of f is doubled, as `flat` has an `F`.

/// (\x. x) y, with one free name.
pub const C: &str = "a2 l1 v1 v0";
/// (\x. x) (\y. y), closed.
pub const D: &str = "a2 l0 v0 l1 v1";
/// (\z. z (y z)) (\x. x), with one free name: example 1 of source document 000.
pub const FF: &str = "a6 l1 a1 v1 a1 v0 v1 l2 v2";
/// (\x. x x) (\x. x x), closed, which never ends.
pub const J: &str = "a4 l0 a1 v0 v0 l1 a1 v1 v1";

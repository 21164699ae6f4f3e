//! Makes the calls of `case::deep_calls` on the program's first thread, whose stack is as large as `ulimit -s` says.
fn main() {
    #[cfg(feature = "library")]
    glow_tests::case::deep_calls();
    println!("right");
}

//! Where the test `product` finds libproduct_test.a: beside libglow.a, where tools/build puts both.
fn main() {
    println!("cargo:rerun-if-env-changed=GLOW_LIB_DIR");
    let Ok(dir) = std::env::var("GLOW_LIB_DIR") else { return };
    println!("cargo:rerun-if-changed={dir}/libproduct_test.a");
    println!("cargo:rustc-link-search=native={dir}");
}

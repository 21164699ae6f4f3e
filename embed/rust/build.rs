use std::path::Path;

fn main() {
    println!("cargo:rerun-if-env-changed=GLOW_LIB_DIR");
    let Ok(dir) = std::env::var("GLOW_LIB_DIR") else {
        eprintln!("glow: the environment variable GLOW_LIB_DIR is not set.");
        eprintln!("glow: set it to the directory that holds libglow.a, for example");
        eprintln!("glow:     GLOW_LIB_DIR=/path/to/lib cargo build --release");
        std::process::exit(1);
    };
    let archive = Path::new(&dir).join("libglow.a");
    println!("cargo:rerun-if-changed={}", archive.display());
    if !archive.is_file() {
        eprintln!("glow: there is no file {}.", archive.display());
        eprintln!("glow: GLOW_LIB_DIR is {dir}; it must be the directory that holds libglow.a. tools/build makes it, in target/lib.");
        std::process::exit(1);
    }
    println!("cargo:rustc-link-search=native={dir}");
    println!("cargo:rustc-link-lib=static=glow");
}

//! Imports λx. x from bits, and exports it back.

fn main() {
    let bits = [0b0010_0000]; // 00, an abstraction; 10, the variable that it binds; padding
    let file = glow::import_to_vec(&bits, 0).expect("a term");
    let back = glow::export_to_vec(&file).expect("a term file");
    println!("file {file:?}, bits {back:?}");
}

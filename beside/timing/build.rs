//! Where our library stands, and that a new one is to be linked anew.
fn main() {
    let work = concat!(env!("CARGO_MANIFEST_DIR"), "/../../target/beside");
    println!("cargo:rustc-link-search=native={work}");
    println!("cargo:rustc-link-lib=static=ours");
    println!("cargo:rerun-if-changed={work}/libours.a");
}

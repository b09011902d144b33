//! Links the static library of `crates/bank_c`, which `rt lib` has built there.

fn main() {
    let out = concat!(env!("CARGO_MANIFEST_DIR"), "/../../crates/bank_c/out");
    println!("cargo:rustc-link-search=native={out}");
    println!("cargo:rustc-link-lib=static=bank_c");
    println!("cargo:rerun-if-changed={out}/libbank_c.a");
}

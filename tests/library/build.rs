//! Links the archive that `rt lib` writes in crates/bench.

fn main() {
    let here = std::env::var("CARGO_MANIFEST_DIR").expect("cargo says where the package is");
    println!("cargo:rustc-link-search=native={here}/../../crates/bench/out");
    println!("cargo:rustc-link-lib=static=bench");
    println!("cargo:rerun-if-changed={here}/../../crates/bench/out/libbench.a");
}

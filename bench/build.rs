//! Links the proved static library that `rt lib` made, to the one program that calls it.
fn main() {
    let root = std::env::var("CARGO_MANIFEST_DIR").expect("cargo sets it");
    let library = format!("{root}/../crates/bench_exports/out/libbench_exports.a");
    println!("cargo:rustc-link-arg-bin=word_step={library}");
    println!("cargo:rerun-if-changed={library}");
}

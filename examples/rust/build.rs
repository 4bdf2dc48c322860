// Links the static library that tools/archive writes.
fn main() {
    let root = std::path::Path::new(env!("CARGO_MANIFEST_DIR")).join("../..");
    let library = root.join("target/staticlib");
    println!("cargo:rustc-link-search=native={}", library.display());
    println!("cargo:rustc-link-lib=static=arrangements");
    println!("cargo:rerun-if-changed={}", library.join("libarrangements.a").display());
}

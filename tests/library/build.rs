//! Links the static library that `tools/build-library` writes. Paths are taken from this crate's
//! folder, so that a copy of the repository links its own.

const FOLDER: &str = "../../target/staticlib";

fn main() {
    println!("cargo:rustc-link-search=native={FOLDER}");
    println!("cargo:rustc-link-lib=static=cabinet");
    println!("cargo:rerun-if-changed={FOLDER}/libcabinet.a");
}

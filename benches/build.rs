//! Links the proved libraries that `tools/build-library` writes, each to the program that times it. Paths are taken from this crate's folder, so that
//! a copy of the repository links its own.

fn main() {
    for (program, library) in [
        ("reading", "libtiming.a"),
        ("step", "libcabinet.a"),
        ("bill", "libcabinet.a"),
        ("journal", "libcabinet.a"),
        ("keeper", "libcabinet.a"),
    ] {
        let path = format!("../target/staticlib/{library}");
        println!("cargo:rustc-link-arg-bin={program}={path}");
        println!("cargo:rerun-if-changed={path}");
    }
}

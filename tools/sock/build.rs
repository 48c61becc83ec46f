//! Links the static library that `tools/build-library` writes, and takes the version from the header. Paths are taken from this
//! crate's folder, so that a copy of the repository links its own.

const FOLDER: &str = "../../target/staticlib";
const HEADER: &str = "../../include/sock.h";

fn main() {
    println!("cargo:rustc-link-search=native={FOLDER}");
    println!("cargo:rustc-link-lib=static=cabinet");
    println!("cargo:rerun-if-changed={FOLDER}/libcabinet.a");
    println!("cargo:rerun-if-changed={HEADER}");
    let header = std::fs::read_to_string(HEADER).expect("include/sock.h can be read");
    let line = header.lines().find_map(|line| line.strip_prefix("#define SOCK_VERSION \""));
    let version =
        line.and_then(|line| line.strip_suffix('"')).expect("include/sock.h has a version");
    println!("cargo:rustc-env=SOCK_VERSION={version}");
}

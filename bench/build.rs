//! Links Debian's libsqlite3-dev and liblmdb-dev, and the repository's `places`, which `bench/run` builds.

fn main() {
    let folder = concat!(env!("CARGO_MANIFEST_DIR"), "/../crates/places/out");
    println!("cargo:rerun-if-changed={folder}/libplaces.a");
    println!("cargo:rustc-link-search=native={folder}");
    println!("cargo:rustc-link-lib=static=places");
    println!("cargo:rustc-link-lib=dylib=sqlite3");
    println!("cargo:rustc-link-lib=dylib=lmdb");
}

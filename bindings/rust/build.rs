//! Links the proved library. It is proved and built by `rt lib` in `crates/gemandrolo` where it is missing; GEMANDROLO_LIB names another folder.

use std::env;
use std::path::{Path, PathBuf};
use std::process::Command;

fn main() {
    println!("cargo:rerun-if-env-changed=GEMANDROLO_LIB");
    let folder = match env::var_os("GEMANDROLO_LIB") {
        Some(folder) => PathBuf::from(folder),
        None => built(),
    };
    println!(
        "cargo:rerun-if-changed={}",
        folder.join("libgemandrolo.a").display()
    );
    println!("cargo:rustc-link-search=native={}", folder.display());
    println!("cargo:rustc-link-lib=static=gemandrolo");
}

/// The repository's library, proved and built now if it is not there.
fn built() -> PathBuf {
    let here = env::var_os("CARGO_MANIFEST_DIR").expect("cargo names the folder of this crate");
    let proved = Path::new(&here)
        .join("../../crates/gemandrolo")
        .canonicalize()
        .expect("the repository is two folders up");
    let folder = proved.join("out");
    if !folder.join("libgemandrolo.a").exists() {
        let status = Command::new("rt").arg("lib").current_dir(&proved).status();
        let done =
            status.expect("`rt`, the command of the Rattle kit, is needed to build the library");
        assert!(done.success(), "rt lib in crates/gemandrolo failed");
    }
    folder
}

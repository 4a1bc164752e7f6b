//! Links the proved library, `target/staticlib/libbractbeacon.a` of the repository, which `tools/library` builds where it is not up
//! to date, or the `libbractbeacon.a` of the folder that `BRACTBEACON_LIB` names.

use std::path::{Path, PathBuf};
use std::process::Command;

fn main() {
    println!("cargo:rerun-if-env-changed=BRACTBEACON_LIB");
    let folder = std::env::var_os("BRACTBEACON_LIB").map_or_else(build, PathBuf::from);
    let archive = folder.join("libbractbeacon.a");
    println!("cargo:rerun-if-changed={}", archive.display());
    println!("cargo:rustc-link-search=native={}", folder.display());
    println!("cargo:rustc-link-lib=static:-bundle=bractbeacon");
}

/// The folder of the repository's library, which is built here.
fn build() -> PathBuf {
    let root = Path::new(env!("CARGO_MANIFEST_DIR")).join("../..");
    for input in ["crates", "crates.txt", "include", "tools/library"] {
        println!("cargo:rerun-if-changed={}", root.join(input).display());
    }
    let tool = root.join("tools/library");
    let built = Command::new(&tool).status();
    assert!(
        built.is_ok_and(|status| status.success()),
        "{} failed",
        tool.display()
    );
    root.join("target/staticlib")
}

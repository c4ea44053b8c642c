//! Tells the linker where `tools/native` puts the archive of the proved library.

use std::env;
use std::path::PathBuf;

fn main() {
    let package = env::var_os("CARGO_MANIFEST_DIR").unwrap_or_default();
    let archives = PathBuf::from(package).join("../../target/native");
    println!("cargo:rustc-link-search=native={}", archives.display());
    // A new archive is linked anew.
    println!(
        "cargo:rerun-if-changed={}",
        archives.join("liboffice.a").display()
    );
}

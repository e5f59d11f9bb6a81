// Of build scripts: which `vm-memory` the tests are built with. The crate itself is the same for all of them.

use std::path::Path;

/// Says whether `vm-memory` is older than 0.16, which has a trait for the iterator of its regions, by the lock file of a
/// folder: cargo has written that before it builds. Where there is none, no test is built.
fn tell_version(folder: &Path) {
    let path = folder.join("Cargo.lock");
    println!("cargo:rerun-if-changed={}", path.display());
    let text = std::fs::read_to_string(path).unwrap_or_default();
    let version = text.split("name = \"vm-memory\"\nversion = \"0.").nth(1).and_then(|it| it.split('.').next());
    if version.and_then(|it| it.parse().ok()).map_or(false, |it: u32| it < 16) {
        println!("cargo:rustc-cfg=names_the_iterator");
    }
}

//! Links the static library: VB_LIB is its path, else it is where the repository builds it, else what pkg-config knows as
//! `vb`.

use std::env;
use std::path::PathBuf;
use std::process::Command;

include!("version.rs");

/// The folder that pkg-config has for the library, where it is installed.
fn installed() -> Option<PathBuf> {
    let said = Command::new("pkg-config").args(["--variable=libdir", "vb"]).output().ok()?;
    let folder = String::from_utf8(said.stdout).ok()?;
    let library = Path::new(folder.trim()).join("libvb.a");
    (said.status.success() && library.exists()).then_some(library)
}

fn main() {
    let here = PathBuf::from(env::var("CARGO_MANIFEST_DIR").expect("cargo sets it"));
    tell_version(&here);
    let built = here.join("../../crates/vb_c/out/libvb_c.a");
    let given = env::var("VB_LIB").ok().map(PathBuf::from);
    let library = given.or_else(|| if built.exists() { None } else { installed() }).unwrap_or(built);
    let folder = library.parent().expect("a file has a folder");
    let stem = library.file_stem().and_then(|it| it.to_str()).unwrap_or("");
    let name = stem.strip_prefix("lib").expect("VB_LIB is lib*.a");
    println!("cargo:rerun-if-env-changed=VB_LIB");
    println!("cargo:rerun-if-changed={}", library.display());
    println!("cargo:rustc-link-search=native={}", folder.display());
    println!("cargo:rustc-link-lib=static={}", name);
}

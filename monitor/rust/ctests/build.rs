//! Says which `vm-memory` there is.

include!("../version.rs");

fn main() {
    tell_version(Path::new(&std::env::var("CARGO_MANIFEST_DIR").expect("cargo sets it")));
}

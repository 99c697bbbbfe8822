//! Links the differential tests with the archive that SUNDR_ARCHIVE names, or the one that
//! `make lib` builds.

fn main() {
    let built = concat!(env!("CARGO_MANIFEST_DIR"), "/../target/staticlib/libsundr.a");
    let archive = std::env::var("SUNDR_ARCHIVE").unwrap_or(built.to_string());
    println!("cargo:rerun-if-env-changed=SUNDR_ARCHIVE");
    println!("cargo:rerun-if-changed={archive}");
    println!("cargo:rustc-link-arg-bin=differential={archive}");
}

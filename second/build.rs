//! With the feature `revosti`: links the archive named by REVOSTI_LIBRARY.

use std::path::Path;

fn main() {
    if std::env::var_os("CARGO_FEATURE_REVOSTI").is_none() {
        return;
    }
    println!("cargo:rerun-if-env-changed=REVOSTI_LIBRARY");
    let path = std::env::var("REVOSTI_LIBRARY").expect("REVOSTI_LIBRARY names no archive");
    link(Path::new(&path));
}

/// Links one archive `lib<name>.a`.
fn link(archive: &Path) {
    let name = archive.file_stem().and_then(|stem| stem.to_str()).and_then(|stem| stem.strip_prefix("lib"));
    let name = name.unwrap_or_else(|| panic!("{} is not called lib<name>.a", archive.display()));
    let folder = archive.parent().expect("an archive lies in a folder");
    println!("cargo:rerun-if-changed={}", archive.display());
    println!("cargo:rustc-link-search=native={}", folder.display());
    println!("cargo:rustc-link-lib=static:-bundle={name}");
}

//! Finds the archive: in BARUVKESH_LIB_DIR, or where `tools/archive` puts it.
use std::env;
use std::path::PathBuf;

fn main() {
    let dir = match env::var_os("BARUVKESH_LIB_DIR") {
        Some(dir) => PathBuf::from(dir),
        None => {
            PathBuf::from(env::var_os("CARGO_MANIFEST_DIR").unwrap()).join("../../target/staticlib")
        }
    };
    let archive = dir.join("libbaruvkesh.a");
    assert!(
        archive.is_file(),
        "there is no {}: run `tools/archive`, or set BARUVKESH_LIB_DIR to the archive's folder",
        archive.display()
    );
    println!("cargo:rustc-link-search=native={}", dir.display());
    println!("cargo:rustc-link-lib=static=baruvkesh");
    println!("cargo:rerun-if-env-changed=BARUVKESH_LIB_DIR");
    println!("cargo:rerun-if-changed={}", archive.display());
}

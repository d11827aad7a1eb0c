//! Links libzimorgal.a when ZIMORGAL_LIB_DIR names the folder that holds it, and says whether it reads tree text and whether it judges
//! rows.

use std::path::Path;

fn main() {
    println!("cargo:rustc-check-cfg=cfg(linked, reads_text, judges)");
    println!("cargo:rerun-if-env-changed=ZIMORGAL_LIB_DIR");
    println!("cargo:rerun-if-changed=build.rs");
    let Ok(folder) = std::env::var("ZIMORGAL_LIB_DIR") else {
        return;
    };
    let folder = std::fs::canonicalize(&folder)
        .unwrap_or_else(|error| panic!("ZIMORGAL_LIB_DIR: {folder}: {error}"));
    let archive = Path::new(&folder).join("libzimorgal.a");
    assert!(archive.is_file(), "no {}", archive.display());
    println!("cargo:rerun-if-changed={}", archive.display());
    println!("cargo:rustc-link-search=native={}", folder.display());
    println!("cargo:rustc-link-lib=static=zimorgal");
    println!("cargo:rustc-cfg=linked");
    if names(&archive, b"zimorgal_constant") {
        println!("cargo:rustc-cfg=reads_text");
    }
    if names(&archive, b"zimorgal_judge") {
        println!("cargo:rustc-cfg=judges");
    }
}

/// Whether an archive has this call; the benchmark links older ones too.
fn names(archive: &Path, call: &[u8]) -> bool {
    let bytes = std::fs::read(archive).expect("the archive can be read");
    bytes.windows(call.len()).any(|part| part == call)
}

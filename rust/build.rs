//! Links the archive that `rt lib` leaves in crates/abi; SKELMARIX_ARCHIVE names another, for example one that tools/retarget made.
use std::env;
use std::path::PathBuf;

fn main() {
    let top = PathBuf::from(env::var("CARGO_MANIFEST_DIR").unwrap()).join("..");
    let archive = env::var("SKELMARIX_ARCHIVE").map(PathBuf::from).unwrap_or(top.join("crates/abi/out/libabi.a"));
    let file = archive.file_name().and_then(|f| f.to_str()).expect("SKELMARIX_ARCHIVE names no file");
    let name = file.strip_prefix("lib").and_then(|f| f.strip_suffix(".a")).expect("an archive is named lib*.a");
    println!("cargo:rustc-link-search=native={}", archive.parent().unwrap().display());
    println!("cargo:rustc-link-lib=static={name}");
    println!("cargo:rerun-if-env-changed=SKELMARIX_ARCHIVE");
    println!("cargo:rerun-if-changed={}", archive.display());
}

// Links the archive that `rt lib` wrote in crates/hostlink. It is not built from here: proving it from nothing takes minutes, and host/test does it.
// DRIVE_ARCHIVE names another folder that has one, as `tools/run` does for an archive that is not proved.
use std::path::PathBuf;

fn main() {
    let manifest = PathBuf::from(std::env::var_os("CARGO_MANIFEST_DIR").expect("cargo sets it"));
    let folder = std::env::var_os("DRIVE_ARCHIVE").map_or_else(|| manifest.join("../../crates/hostlink/out"), PathBuf::from);
    let archive = folder.join("libhostlink.a");
    if !archive.exists() {
        panic!("{} is not there: run `rt lib` in crates/hostlink, or host/test", archive.display());
    }
    println!("cargo:rerun-if-env-changed=DRIVE_ARCHIVE");
    println!("cargo:rerun-if-changed={}", archive.display());
    println!("cargo:rustc-link-search=native={}", folder.display());
    println!("cargo:rustc-link-lib=static=hostlink");
}

//! Links libbraid.a: from the folder that BRAID_LIBRARY names, else from the one in which `sh tests/library.sh` leaves it in this repository.
use std::env;
use std::path::PathBuf;

fn main() {
    println!("cargo:rerun-if-env-changed=BRAID_LIBRARY");
    let package = PathBuf::from(env::var("CARGO_MANIFEST_DIR").expect("cargo names the package's folder"));
    let folder = env::var("BRAID_LIBRARY").map_or_else(|_| package.join("../../target/staticlib"), PathBuf::from);
    let library = folder.join("libbraid.a");
    if !library.is_file() {
        panic!("{} is not there: build it with `sh tests/library.sh`, or name its folder in BRAID_LIBRARY", library.display());
    }
    println!("cargo:rustc-link-search=native={}", folder.display());
    println!("cargo:rustc-link-lib=static=braid");
    println!("cargo:rerun-if-changed={}", library.display());
}

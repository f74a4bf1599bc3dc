//! Links the static library that lies in the folder `native`, for the target that is built for. A configuration of cargo with the links key
//! `hardieflax` stands in for this script, and names another library (docs/EMBEDDING.md).

use std::env;
use std::path::Path;

fn main() {
    let target = env::var("TARGET").expect("cargo sets TARGET");
    let package = env::var("CARGO_MANIFEST_DIR").expect("cargo sets CARGO_MANIFEST_DIR");
    let folder = Path::new(&package).join("native").join(&target);
    let library = folder.join("libhardieflax.a");
    println!("cargo:rerun-if-changed={}", library.display());
    assert!(
        library.exists(),
        "hardieflax has no library for {target}: there is no {}. A package of it has the library for x86_64-unknown-linux-gnu; \
         name another one in [target.{target}.hardieflax] of cargo's configuration",
        library.display()
    );
    println!("cargo:rustc-link-search=native={}", folder.display());
    println!("cargo:rustc-link-lib=static=hardieflax");
}

//! Links the library that the crate carries, or the one that `./build --library` makes. EDITLENS_LIBRARY names the folder that has libeditlens.a,
//! if it is another one.
use std::env;
use std::path::PathBuf;

fn main() {
    let crate_folder = PathBuf::from(env::var_os("CARGO_MANIFEST_DIR").unwrap());
    let (carried, built) = (crate_folder.join("lib"), crate_folder.join("../../.library/lib"));
    let own = if carried.join("libeditlens.a").exists() { carried } else { built };
    let folder = env::var_os("EDITLENS_LIBRARY").map(PathBuf::from).unwrap_or(own);
    println!("cargo:rerun-if-env-changed=EDITLENS_LIBRARY");
    println!("cargo:rerun-if-changed={}", folder.join("libeditlens.a").display());
    println!("cargo:rustc-link-search=native={}", folder.display());
    println!("cargo:rustc-link-lib=static=editlens");
}

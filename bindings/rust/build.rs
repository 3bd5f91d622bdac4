// Links libfaultsim.a of the folder FAULTSIM_LIB, or of out/ at the top of the checkout. Cargo runs
// this in the folder of the package, so FAULTSIM_LIB is a path from the root.
use std::env::var;
use std::path::Path;

fn main() {
    let folder = var("FAULTSIM_LIB")
        .unwrap_or_else(|_| format!("{}/../../out", var("CARGO_MANIFEST_DIR").unwrap()));
    if !Path::new(&folder).join("libfaultsim.a").exists() {
        println!(
            "cargo:warning={folder} has no libfaultsim.a: contrib/build-library makes one in out/"
        );
        println!("cargo:warning=FAULTSIM_LIB names another folder, by its path from the root");
    }
    println!("cargo:rerun-if-env-changed=FAULTSIM_LIB");
    println!("cargo:rerun-if-changed={folder}/libfaultsim.a");
    println!("cargo:rustc-link-search=native={folder}");
    println!("cargo:rustc-link-lib=static=faultsim");
}

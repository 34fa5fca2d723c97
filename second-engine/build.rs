//! Says where `libyermoitu.a` lies: YERMOITU_LIB_DIR, or `../target/staticlib`, both from this
//! package's folder.

use std::env;
use std::path::PathBuf;

fn main() {
    let package = PathBuf::from(env::var("CARGO_MANIFEST_DIR").expect("cargo sets it"));
    let named = env::var("YERMOITU_LIB_DIR").unwrap_or("../target/staticlib".to_string());
    let folder = package.join(named);
    let library = folder.join("libyermoitu.a");
    if !library.exists() {
        println!("cargo:warning=there is no {}", library.display());
    }
    println!("cargo:rerun-if-env-changed=YERMOITU_LIB_DIR");
    println!("cargo:rerun-if-changed={}", library.display());
    println!("cargo:rerun-if-changed=build.rs");
    println!("cargo:rustc-link-search=native={}", folder.display());
}

//! Links the static library from YERMOITU_LIB_DIR, or from the repository's target folder.

use std::env;
use std::path::Path;

fn main() {
    println!("cargo:rerun-if-env-changed=YERMOITU_LIB_DIR");
    let folder = env::var("YERMOITU_LIB_DIR").unwrap_or_else(|_| "../target/staticlib".into());
    let package = env::var("CARGO_MANIFEST_DIR").expect("cargo names the package's folder");
    let folder = Path::new(&package).join(folder);
    println!("cargo:rustc-link-search=native={}", folder.display());
    println!("cargo:rustc-link-lib=static=yermoitu");
    println!(
        "cargo:rerun-if-changed={}",
        folder.join("libyermoitu.a").display()
    );
}

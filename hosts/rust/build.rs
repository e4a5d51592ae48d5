//! Finds the static library: in this crate's folder `lib`, or in the repository's target.
//! A folder of another name is given by DISKLORVA_LIB.

use std::{env, path::PathBuf};

fn main() {
    println!("cargo:rerun-if-env-changed=DISKLORVA_LIB");
    let own = PathBuf::from(env::var_os("CARGO_MANIFEST_DIR").expect("cargo names the crate's folder"));
    let given = env::var_os("DISKLORVA_LIB").map(PathBuf::from);
    let places = given.map_or_else(|| vec![own.join("lib"), own.join("../../target/staticlib")], |folder| vec![folder]);
    match places.iter().find(|folder| folder.join("libhost_c.a").is_file()) {
        Some(folder) => {
            println!("cargo:rustc-link-search=native={}", folder.display());
            println!("cargo:rerun-if-changed={}", folder.join("libhost_c.a").display());
        }
        None => panic!(
            "libhost_c.a is in none of {places:?}: hosts/library writes it, and the release archive has it"
        ),
    }
}

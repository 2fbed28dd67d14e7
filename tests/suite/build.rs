//! Links the archive that WALNUTGLEAM_ARCHIVE names, or the project's own.

use std::{env, fs, path::PathBuf};

fn main() {
    println!("cargo:rerun-if-env-changed=WALNUTGLEAM_ARCHIVE");
    let given = env::var("WALNUTGLEAM_ARCHIVE").unwrap_or_else(|_| "../../target/libwalnutgleam.a".to_string());
    let archive = PathBuf::from(&given);
    println!("cargo:rerun-if-changed={given}");
    // The archive is copied under a name of our own, so that any file name may be given.
    let folder = PathBuf::from(env::var("OUT_DIR").expect("cargo gives OUT_DIR"));
    fs::copy(&archive, folder.join("libwalnutgleam.a"))
        .unwrap_or_else(|error| panic!("the archive {given} can't be read ({error}): run `make archive` first"));
    println!("cargo:rustc-link-search=native={}", folder.display());
    println!("cargo:rustc-link-lib=static=walnutgleam");
}

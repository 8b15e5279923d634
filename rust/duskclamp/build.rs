//! Tells cargo where the static library is: the folder that DUSKCLAMP_LIB_DIR names, or target/staticlib of the repository. It is there under the name
//! that `tools/build.sh` gives it, or under that of `make install`.

use std::env;
use std::path::{Path, PathBuf};

const LIBRARIES: [&str; 2] = ["lock_engine_c", "duskclamp"];

fn main() {
    println!("cargo:rerun-if-env-changed=DUSKCLAMP_LIB_DIR");
    let folder = match env::var_os("DUSKCLAMP_LIB_DIR") {
        Some(given) => PathBuf::from(given),
        None => Path::new(env!("CARGO_MANIFEST_DIR")).join("../../target/staticlib"),
    };
    let archive = |library: &str| folder.join(format!("lib{library}.a"));
    let Some(library) = LIBRARIES.into_iter().find(|name| archive(name).is_file()) else {
        eprintln!(
            "the library is not in {}: run `tools/build.sh library` in the repository, or name its folder by DUSKCLAMP_LIB_DIR",
            folder.display()
        );
        std::process::exit(1);
    };
    // Of the one that is there: a file that is not would have cargo build again every time.
    println!("cargo:rerun-if-changed={}", archive(library).display());
    println!("cargo:rustc-link-search=native={}", folder.display());
    println!("cargo:rustc-link-lib=static={library}");
}

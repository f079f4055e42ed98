//! With the feature `engine` on, links the static libraries that SENGGUBAT_LIB names.

use std::env;
use std::path::Path;

const VARIABLE: &str = "SENGGUBAT_LIB";

fn main() {
    println!("cargo:rerun-if-changed=build.rs");
    println!("cargo:rerun-if-env-changed={VARIABLE}");
    if env::var_os("CARGO_FEATURE_ENGINE").is_none() {
        return;
    }
    let Some(paths) = env::var_os(VARIABLE) else {
        fail(
            "the feature `engine` needs it: the path of the engine's static library (several are separated by `:`)",
        );
    };
    for path in env::split_paths(&paths).filter(|path| !path.as_os_str().is_empty()) {
        link(&path);
    }
}

/// Links one archive by its exact file name, right behind this crate, so that the order of libraries is right.
fn link(path: &Path) {
    let Ok(full) = path.canonicalize() else {
        fail(&format!("there is no file {}", path.display()));
    };
    let (Some(folder), Some(name)) = (full.parent(), full.file_name()) else {
        fail(&format!("{} names no file", path.display()));
    };
    println!("cargo:rerun-if-changed={}", full.display());
    println!("cargo:rustc-link-search=native={}", folder.display());
    println!("cargo:rustc-link-lib=static:+verbatim={}", name.display());
}

fn fail(what: &str) -> ! {
    eprintln!("{VARIABLE}: {what}");
    std::process::exit(1);
}

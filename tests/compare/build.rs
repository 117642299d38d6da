//! With the feature `archive`, links the static archive that the variable DASH_REGISTER_ARCHIVE names.

use std::env;
use std::path::Path;

const VARIABLE: &str = "DASH_REGISTER_ARCHIVE";

fn main() {
    println!("cargo::rerun-if-env-changed={VARIABLE}");
    if env::var_os("CARGO_FEATURE_ARCHIVE").is_none() {
        return;
    }
    let Some(archive) = env::var_os(VARIABLE) else {
        println!("cargo::error=the feature `archive` needs {VARIABLE}, the path of the static archive");
        return;
    };
    println!("cargo::rerun-if-changed={}", Path::new(&archive).display());
    println!("cargo::rustc-link-arg={}", Path::new(&archive).display());
}

//! Links libyeqorwas.a, from the folder that YEQORWAS_LIB names, or from where `./prove --library` puts it.

use std::env;
use std::path::PathBuf;

fn main() {
    println!("cargo:rerun-if-env-changed=YEQORWAS_LIB");
    let here = PathBuf::from(env::var_os("CARGO_MANIFEST_DIR").expect("cargo names the folder"));
    let folder = env::var_os("YEQORWAS_LIB").map_or_else(|| here.join("../../../.pw"), PathBuf::from);
    println!("cargo:rerun-if-changed={}", folder.join("libyeqorwas.a").display());
    println!("cargo:rustc-link-search=native={}", folder.display());
    println!("cargo:rustc-link-lib=static=yeqorwas");
}

//! With the feature `engine`, links `libcapi.a` from the folder that FURZEPENNY_LIB names.

use std::env;

fn main() {
    println!("cargo:rerun-if-env-changed=FURZEPENNY_LIB");
    if env::var_os("CARGO_FEATURE_ENGINE").is_none() {
        return;
    }
    let folder = env::var("FURZEPENNY_LIB").expect("FURZEPENNY_LIB names the folder of libcapi.a");
    println!("cargo:rerun-if-changed={folder}/libcapi.a");
    println!("cargo:rustc-link-search=native={folder}");
    println!("cargo:rustc-link-lib=static=capi");
}

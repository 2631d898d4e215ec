//! With the feature `hand`: where the hand-written C is.

use std::env;

fn main() {
    println!("cargo:rerun-if-changed=build.rs");
    println!("cargo:rerun-if-env-changed=HAND_LIB_DIR");
    if env::var_os("CARGO_FEATURE_HAND").is_none() {
        return;
    }
    let folder = env::var("HAND_LIB_DIR").expect("HAND_LIB_DIR names the folder of libhand.a");
    println!("cargo:rerun-if-changed={folder}/libhand.a");
    println!("cargo:rustc-link-search=native={folder}");
}

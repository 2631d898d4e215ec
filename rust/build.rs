//! Where the proved library is: `target/staticlib/libexports.a` of the repository, which
//! `make lib` builds there, or in the folder that `CHAINS_LIB_DIR` names: `libchains.a`, as
//! `make install` installs it, or `libexports.a`.

use std::env;
use std::path::PathBuf;

fn main() {
    println!("cargo:rerun-if-changed=build.rs");
    println!("cargo:rerun-if-env-changed=CHAINS_LIB_DIR");
    let folder = match env::var_os("CHAINS_LIB_DIR") {
        Some(named) => PathBuf::from(named),
        None => PathBuf::from(env::var_os("CARGO_MANIFEST_DIR").expect("set by cargo"))
            .join("../target/staticlib"),
    };
    let archive = |name: &str| folder.join(format!("lib{name}.a"));
    let Some(name) = ["chains", "exports"]
        .into_iter()
        .find(|name| archive(name).exists())
    else {
        panic!(
            "there is no libchains.a or libexports.a in {}: build the library with `make lib` in the repository's folder",
            folder.display()
        );
    };
    println!("cargo:rerun-if-changed={}", archive(name).display());
    println!("cargo:rustc-link-search=native={}", folder.display());
    println!("cargo:rustc-link-lib=static={name}");
}

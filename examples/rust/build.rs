//! Links with the library that pkg-config finds, or, if MACSEC_LIB_DIR names a folder, with the one in it.
use std::{env, process::Command};

fn main() {
    println!("cargo:rerun-if-env-changed=MACSEC_LIB_DIR");
    let folder = env::var("MACSEC_LIB_DIR").unwrap_or_else(|_| {
        let asked = Command::new("pkg-config").args(["--variable=libdir", "macsec"]).output().expect("pkg-config");
        assert!(asked.status.success(), "pkg-config finds no macsec");
        String::from_utf8(asked.stdout).unwrap().trim().to_string()
    });
    println!("cargo:rustc-link-search=native={folder}");
    println!("cargo:rustc-link-lib=dylib=macsec");
}

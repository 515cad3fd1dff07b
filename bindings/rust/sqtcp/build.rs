//! Links libsqtcp.a: at the top of the checkout, or in the folder that SQTCP_LIB_DIR names.
use std::{env, path::PathBuf};

fn main() {
    let here =
        PathBuf::from(env::var("CARGO_MANIFEST_DIR").expect("cargo names the crate's folder"));
    let folder = env::var("SQTCP_LIB_DIR").map_or_else(|_| here.join("../../.."), PathBuf::from);
    if !folder.join("libsqtcp.a").exists() {
        panic!(
            "no libsqtcp.a in {}: run ./build libsqtcp, or name its folder by SQTCP_LIB_DIR",
            folder.display()
        );
    }
    println!("cargo:rustc-link-search=native={}", folder.display());
    println!("cargo:rustc-link-lib=static=sqtcp");
    println!("cargo:rerun-if-env-changed=SQTCP_LIB_DIR");
    println!(
        "cargo:rerun-if-changed={}",
        folder.join("libsqtcp.a").display()
    );
}

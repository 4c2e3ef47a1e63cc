//! Links libwadlook.a from the folder that `WADLOOK_LIB` names, or from the crate's own, in a release, or from this checkout's, into which
//! `tools/library` builds it. A crate above finds the folder of the header in `DEP_WADLOOK_INCLUDE`.
use std::{
    env,
    path::{Path, PathBuf},
    process::exit,
};

fn main() {
    println!("cargo:rerun-if-env-changed=WADLOOK_LIB");
    let folder = match env::var_os("WADLOOK_LIB") {
        Some(named) => PathBuf::from(named),
        None => {
            want_target();
            own(Path::new(&said("CARGO_MANIFEST_DIR")))
        }
    };
    let archive = folder.join("libwadlook.a");
    if !archive.exists() {
        // No end, since what is only checked isn't linked.
        println!(
            "cargo:warning=there is no {}: `tools/library --released out` lays it out in a checkout, and WADLOOK_LIB names its folder elsewhere",
            archive.display()
        );
    }
    println!("cargo:rustc-link-search=native={}", folder.display());
    println!("cargo:rustc-link-lib=static=wadlook");
    println!("cargo:rerun-if-changed={}", archive.display());
    println!("cargo:include={}", folder.join("../include").display());
}

fn said(name: &str) -> String {
    env::var(name).unwrap_or_default()
}

/// Ends where the program isn't for the machine that the archive was compiled for.
fn want_target() {
    let target = (said("CARGO_CFG_TARGET_OS"), said("CARGO_CFG_TARGET_ARCH"), said("CARGO_CFG_TARGET_POINTER_WIDTH"));
    if target != ("linux".into(), "x86_64".into(), "64".into()) {
        eprintln!("wadlook: its archive is for Linux on x86-64, and the target is {}.", said("TARGET"));
        eprintln!("Where you have libwadlook.a for that, WADLOOK_LIB names its folder.");
        exit(1);
    }
}

/// The folder of the archive beside this file, where it has one, or that of the checkout.
fn own(here: &Path) -> PathBuf {
    let released = here.join("lib");
    if released.join("libwadlook.a").exists() {
        released
    } else {
        here.join("../out/lib")
    }
}

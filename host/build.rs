//! Links the proved planner, libvisorlongan.a: from the folder that VISORLONGAN_LIB names, from
//! lib/ inside the package, or from where `tools/library` writes it in the repository.

#[path = "build/sha256.rs"]
mod sha256;

use std::env;
use std::path::{Path, PathBuf};

const ARCHIVE: &str = "libvisorlongan.a";

fn main() {
    println!("cargo::rerun-if-env-changed=VISORLONGAN_LIB");
    if let Err(target) = supported() {
        println!(
            "cargo::error=libvisorlongan.a is compiled for x86-64 Linux with 64-bit pointers, \
             and the target here is {target}: no archive for it exists"
        );
        return;
    }
    let package = PathBuf::from(env::var_os("CARGO_MANIFEST_DIR").expect("cargo sets it"));
    match folder(&package) {
        Ok(folder) => link(&package, &folder),
        Err(sentence) => println!("cargo::error={sentence}"),
    }
}

/// The target, where the archive is not for it.
fn supported() -> Result<(), String> {
    let part = |name: &str| env::var(format!("CARGO_CFG_TARGET_{name}")).unwrap_or_default();
    let fits = part("ARCH") == "x86_64" && part("OS") == "linux" && part("POINTER_WIDTH") == "64";
    if fits {
        Ok(())
    } else {
        Err(env::var("TARGET").unwrap_or_default())
    }
}

/// The folder of the archive, or what to do where there is none.
fn folder(package: &Path) -> Result<PathBuf, String> {
    if let Some(named) = env::var_os("VISORLONGAN_LIB") {
        let named = PathBuf::from(named);
        let missing = format!(
            "VISORLONGAN_LIB names {}, and there is no {ARCHIVE}",
            named.display()
        );
        return Some(named)
            .filter(|folder| folder.join(ARCHIVE).is_file())
            .ok_or(missing);
    }
    let places = [package.join("lib"), package.join("../target/library")];
    let found = places
        .into_iter()
        .find(|folder| folder.join(ARCHIVE).is_file());
    found.ok_or(format!(
        "no {ARCHIVE}: take the crate out of a release, which has it inside; or run \
         `tools/library` in the repository; or name its folder in VISORLONGAN_LIB"
    ))
}

fn link(package: &Path, folder: &Path) {
    let archive = folder.join(ARCHIVE);
    println!("cargo::rerun-if-changed={}", archive.display());
    println!("cargo::rustc-link-search=native={}", folder.display());
    println!("cargo::rustc-link-lib=static=visorlongan");
    // For crates that compile C beside this one: DEP_VISORLONGAN_INCLUDE.
    println!(
        "cargo::metadata=include={}",
        package.join("include").display()
    );
    // For the test of the C header.
    println!("cargo::rustc-env=LIBRARY={}", archive.display());
    // For `visor --version`: which archive a program has inside.
    match std::fs::read(&archive) {
        Ok(bytes) => println!("cargo::rustc-env=LIBRARY_SUM={}", sha256::text(&bytes)),
        Err(error) => println!("cargo::error={}: {error}", archive.display()),
    }
}

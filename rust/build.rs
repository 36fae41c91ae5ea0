//! Finds the archive and links it: in the folder that `ZERGLAZ_LIB_DIR` names, or else where
//! `tools/build zerglaz` writes it in the repository.

use std::env;
use std::path::{Path, PathBuf};

/// The variable that names the archive's folder.
const FOLDER: &str = "ZERGLAZ_LIB_DIR";
/// The archive.
const ARCHIVE: &str = "libzerglaz.a";

/// Links the archive, or stops the build with one sentence.
fn main() {
    println!("cargo::rerun-if-env-changed={FOLDER}");
    match built_for_target().and_then(|()| folder()) {
        Ok(folder) => link(&folder),
        Err(why) => println!("cargo::error={why}"),
    }
}

/// The archive has x86-64 code and no other.
fn built_for_target() -> Result<(), String> {
    let target = env::var("CARGO_CFG_TARGET_ARCH").unwrap_or_default();
    if target == "x86_64" {
        return Ok(());
    }
    Err(format!(
        "{ARCHIVE} is x86-64 code, so zerglaz cannot be built for {target}"
    ))
}

/// The folder that has the archive.
fn folder() -> Result<PathBuf, String> {
    let named = env::var_os(FOLDER).map(PathBuf::from);
    let folder = named.clone().unwrap_or_else(|| {
        let here = env::var_os("CARGO_MANIFEST_DIR").expect("cargo sets it");
        Path::new(&here).join("../target/staticlib")
    });
    if folder.join(ARCHIVE).is_file() {
        return Ok(folder.canonicalize().unwrap_or(folder));
    }
    let place = folder.display();
    Err(match named {
        Some(_) => format!("there is no {ARCHIVE} in {place}, the folder that {FOLDER} names"),
        None => format!(
            "there is no {ARCHIVE} in {place}: run `tools/build zerglaz` in the repository's \
             root, or set {FOLDER} to the archive's folder"
        ),
    })
}

/// Tells cargo to link the archive of this folder.
fn link(folder: &Path) {
    println!("cargo::rustc-link-search=native={}", folder.display());
    println!("cargo::rustc-link-lib=static=zerglaz");
    println!("cargo::rerun-if-changed={}", folder.join(ARCHIVE).display());
}

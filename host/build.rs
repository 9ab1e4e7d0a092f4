//! Builds the proved library's archive, or takes the one that `GATHERLOOM_ARCHIVE` names, and links it.
use std::{
    env, fs,
    path::{Path, PathBuf},
    process::Command,
};

/// The archive that is named, by its whole path: a build script runs in another folder than its user.
fn named(archive: PathBuf) -> PathBuf {
    let shown = archive.display();
    assert!(
        archive.is_absolute(),
        "GATHERLOOM_ARCHIVE must be a path from the root: {shown}"
    );
    println!("cargo:rerun-if-changed={shown}");
    archive
}

fn built() -> PathBuf {
    let root = Path::new(&env::var("CARGO_MANIFEST_DIR").unwrap()).join("..");
    for read in ["crates.txt", "tools/archive"] {
        println!("cargo:rerun-if-changed={}", root.join(read).display());
    }
    // what the proof of each crate reads; beside it lies what rt writes
    for listed in fs::read_dir(root.join("crates")).unwrap() {
        for read in ["src", "specs", "proofs"] {
            let folder = listed.as_ref().unwrap().path().join(read);
            if folder.is_dir() {
                println!("cargo:rerun-if-changed={}", folder.display());
            }
        }
    }
    let ended = Command::new(root.join("tools/archive")).status().unwrap();
    assert!(
        ended.success(),
        "tools/archive: {ended}; if there is no rt, GATHERLOOM_ARCHIVE names an archive"
    );
    root.join("target/staticlib/libgatherloom.a")
}

fn main() {
    println!("cargo:rerun-if-env-changed=GATHERLOOM_ARCHIVE");
    println!("cargo:rerun-if-changed=build.rs");
    let archive = match env::var_os("GATHERLOOM_ARCHIVE") {
        Some(path) => named(PathBuf::from(path)),
        None => built(),
    };
    // the linker takes an archive by its folder and a fixed name, so a copy gets that name
    let folder = PathBuf::from(env::var_os("OUT_DIR").unwrap());
    if let Err(e) = fs::copy(&archive, folder.join("libgatherloom.a")) {
        panic!("{}: {e}", archive.display());
    }
    println!("cargo:rustc-link-search=native={}", folder.display());
    println!("cargo:rustc-link-lib=static=gatherloom");
}

//! Links the engine's static library, and the part of the kit that gives it memory.
//!
//! `FAZHUNDEL_ENGINE` and `FAZHUNDEL_HEAP` say where the two stand. Without them the first is where `faces/build.sh` makes it
//! in this repository, and the second in the kit of the `rt` that is found on the path.

use std::env;
use std::path::{Path, PathBuf};

fn main() {
    for (variable, file, place) in [
        ("FAZHUNDEL_ENGINE", "libengine_c.a", engine()),
        ("FAZHUNDEL_HEAP", "liblibc_c.a", heap()),
    ] {
        println!("cargo:rerun-if-env-changed={variable}");
        let given = env::var_os(variable).map(PathBuf::from).or(place);
        match given.filter(|given| given.is_file()) {
            Some(archive) => link(&archive),
            None => println!(
                "cargo:warning=no {file}: {variable} says where it stands; faces/build.sh makes it"
            ),
        }
    }
}

/// The library that is made in this repository.
fn engine() -> Option<PathBuf> {
    let face = PathBuf::from(env::var_os("CARGO_MANIFEST_DIR")?);
    Some(face.join("../../crates/engine_c/out/libengine_c.a"))
}

/// The part of the kit, of which `rt` is another.
fn heap() -> Option<PathBuf> {
    let path = env::var_os("PATH")?;
    let found = env::split_paths(&path).map(|folder| folder.join("rt"));
    let rt = found.filter_map(|rt| rt.canonicalize().ok()).next()?;
    Some(rt.parent()?.parent()?.join("c/liblibc_c.a"))
}

/// Has an archive linked, whatever it is called: `libNAME.a`.
fn link(archive: &Path) {
    let (Some(folder), Some(stem)) = (archive.parent(), archive.file_stem()) else {
        return;
    };
    let stem = stem.to_string_lossy();
    let name = stem.strip_prefix("lib").unwrap_or(&stem);
    println!("cargo:rerun-if-changed={}", archive.display());
    println!("cargo:rustc-link-search=native={}", folder.display());
    println!("cargo:rustc-link-lib=static={name}");
}

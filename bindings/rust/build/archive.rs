//! Finds libredstartgilt.a, or has it made.

use crate::crates::proving_order;
use crate::folder;
use crate::kit;
use crate::progress::Progress;
use crate::proving;
use crate::stamp::{self, Crate};
use std::env;
use std::fs;
use std::path::{Path, PathBuf};
use std::process::exit;

const LIBRARY: &str = "redstartgilt";
const ARCHIVE: &str = "libredstartgilt.a";
const FOLDER_VARIABLE: &str = "REDSTARTGILT_LIB";

/// Ends the build with a message.
pub fn fail(message: &str) -> ! {
    eprintln!("{LIBRARY}: {message}");
    exit(1)
}

fn package() -> PathBuf {
    PathBuf::from(env::var_os("CARGO_MANIFEST_DIR").expect("cargo sets it"))
}

/// The archive in the folder that the variable names.
fn archive_of_folder(named: &Path) -> PathBuf {
    if named.is_relative() {
        println!("cargo:rerun-if-env-changed=PWD");
    }
    // Cargo hands PWD through as the person's shell has set it.
    let person = env::var_os("PWD").map(PathBuf::from);
    let folders = folder::meant(named, person.as_deref(), &package());
    let archives = folders.iter().map(|folder| folder.join(ARCHIVE)).collect::<Vec<_>>();
    let Some(archive) = archives.iter().find(|archive| archive.is_file()) else {
        let looked = archives.iter().map(|archive| archive.display().to_string());
        fail(&format!(
            "{FOLDER_VARIABLE} is {}, and there is no {}",
            named.display(),
            looked.collect::<Vec<_>>().join(" and no ")
        ))
    };
    println!("cargo:rerun-if-changed={}", archive.display());
    archive.clone()
}

/// The folder of the crate that the archive is made from.
fn folder_of_library(top: &Path) -> PathBuf {
    top.join("crates").join(LIBRARY)
}

/// Proves the library and writes its archive; says what rt said where it fails.
fn prove(top: &Path, crates: &[Crate]) {
    let order = crates.iter().map(|(name, _)| *name).collect::<Vec<_>>();
    let mut progress = Progress::new(LIBRARY);
    match proving::run_rt(&folder_of_library(top), &order, &mut progress) {
        Ok((status, _)) if status.success() => progress.say(&format!("{} crates proved", order.len())),
        Ok((status, said)) => {
            progress.say("not proved");
            eprint!("{said}");
            fail(&format!(
                "`rt lib` in {} failed ({status})",
                folder_of_library(top).display()
            ))
        }
        Err(error) => fail(&format!(
            "cannot run `rt`, the Rattle toolchain's command ({error}): put it on the path, or set {FOLDER_VARIABLE} \
             to a folder that has {ARCHIVE}"
        )),
    }
}

/// The top of the repository that the package is in.
fn repository() -> PathBuf {
    let package = package();
    match package.join("../..").canonicalize() {
        Ok(top) if top.join("crates.txt").is_file() => top,
        _ => fail(&format!(
            "{} is not in the repository of the library; set {FOLDER_VARIABLE} to the folder of {ARCHIVE}",
            package.display()
        )),
    }
}

/// The identity of the toolchain; `None`, where it has none, makes every build run rt.
fn kit_identity() -> Option<String> {
    let file = kit::identity_file(&env::var_os("PATH").unwrap_or_default())?;
    println!("cargo:rerun-if-changed={}", file.display());
    fs::read_to_string(file).ok()
}

/// The text of crates.txt.
fn crate_list(top: &Path) -> String {
    let list = top.join("crates.txt");
    println!("cargo:rerun-if-changed={}", list.display());
    fs::read_to_string(&list).unwrap_or_else(|error| fail(&format!("cannot read {}: {error}", list.display())))
}

/// The archive of the repository. It is made anew unless the stamp beside it says that this toolchain has made it from
/// these sources.
fn archive_of_repository() -> PathBuf {
    let top = repository();
    let list = crate_list(&top);
    let crates = proving_order(&list, LIBRARY);
    for folder in crates.iter().flat_map(|(name, _)| stamp::source_folders(&top, name)) {
        println!("cargo:rerun-if-changed={}", folder.display());
    }
    let archive = folder_of_library(&top).join("out").join(ARCHIVE);
    let stamp_file = archive.with_extension("a.stamp");
    let kit = kit_identity();

    // `None` where something cannot be read, or the toolchain has no identity: then nothing is trusted.
    let sources = || stamp::sum_of_sources(&top, &crates).ok();
    let stamp_by = |sources: Option<u64>| stamp::stamp(kit.as_deref()?, sources?, &archive).ok();
    let before = sources();
    let stamp = stamp_by(before);
    if stamp.is_some() && stamp == fs::read_to_string(&stamp_file).ok() {
        return archive;
    }
    let _ = fs::remove_file(&stamp_file);
    prove(&top, &crates);
    if !archive.is_file() {
        fail(&format!("`rt lib` wrote no {}", archive.display()));
    }
    // Sources that were written to while rt ran may not be those that it read.
    if let Some(stamp) = stamp_by(before).filter(|_| sources() == before) {
        let _ = fs::write(&stamp_file, stamp);
    }
    archive
}

/// The archive: of the folder that REDSTARTGILT_LIB names, where it is set and not empty, else of the repository.
pub fn find_or_make() -> PathBuf {
    println!("cargo:rerun-if-env-changed={FOLDER_VARIABLE}");
    match env::var_os(FOLDER_VARIABLE).filter(|folder| !folder.is_empty()) {
        Some(folder) => archive_of_folder(Path::new(&folder)),
        None => archive_of_repository(),
    }
}

/// Links a copy of the archive, as the repository's gate removes what stands in the folder of the archive.
pub fn link(archive: &Path) {
    let output = PathBuf::from(env::var_os("OUT_DIR").expect("cargo sets it"));
    let copy = output.join(ARCHIVE);
    // That of an earlier build may be read-only, as it has the archive's permissions.
    let _ = fs::remove_file(&copy);
    if let Err(error) = fs::copy(archive, copy) {
        fail(&format!("cannot copy {}: {error}", archive.display()));
    }
    println!("cargo:rustc-link-search=native={}", output.display());
    println!("cargo:rustc-link-lib=static={LIBRARY}");
}

//! What an archive was made from, as a few lines that stand beside it.

use std::collections::hash_map::DefaultHasher;
use std::fs;
use std::hash::{Hash, Hasher};
use std::io;
use std::path::{Path, PathBuf};

/// The folders of a crate that its proof and its code come from.
const FOLDERS: [&str; 3] = ["src", "specs", "proofs"];

/// A crate's name and what it depends on.
pub type Crate<'a> = (&'a str, Vec<&'a str>);

/// Those of a crate's folders that are there.
pub fn source_folders(top: &Path, name: &str) -> Vec<PathBuf> {
    let folders = FOLDERS.map(|folder| top.join("crates").join(name).join(folder));
    folders.into_iter().filter(|folder| folder.is_dir()).collect()
}

/// Adds names and contents of a folder's files, those of folders in it too, in the order of their names.
fn add_folder(folder: &Path, sum: &mut DefaultHasher) -> io::Result<()> {
    let mut places = fs::read_dir(folder)?
        .map(|place| Ok(place?.path()))
        .collect::<io::Result<Vec<_>>>()?;
    places.sort();
    places.len().hash(sum);
    for place in places {
        place.file_name().hash(sum);
        if place.is_dir() {
            add_folder(&place, sum)?;
        } else {
            fs::read(&place)?.hash(sum);
        }
    }
    Ok(())
}

/// A sum over the crates: names, what they depend on, and every file of their sources.
pub fn sum_of_sources(top: &Path, crates: &[Crate]) -> io::Result<u64> {
    let mut sum = DefaultHasher::new();
    for (name, needs) in crates {
        (name, needs).hash(&mut sum);
        for folder in source_folders(top, name) {
            folder.file_name().hash(&mut sum);
            add_folder(&folder, &mut sum)?;
        }
    }
    Ok(sum.finish())
}

/// The lines for an archive that a toolchain made from sources of this sum. The archive's own sum is among them, so one that
/// was written later, by hand, is not taken for it.
pub fn stamp(kit: &str, sources: u64, archive: &Path) -> io::Result<String> {
    let mut sum = DefaultHasher::new();
    fs::read(archive)?.hash(&mut sum);
    let (kit, archive) = (kit.trim(), sum.finish());
    Ok(format!("kit {kit}\nsources {sources:016x}\narchive {archive:016x}\n"))
}

//! The folder that a person names.

use std::path::{Path, PathBuf};

/// Where a named folder may be. A relative name is taken from where the person is, then from the package, in whose folder
/// cargo runs a build script.
pub fn meant(named: &Path, person: Option<&Path>, package: &Path) -> Vec<PathBuf> {
    let person = person.filter(|folder| folder.is_absolute());
    let mut folders = person
        .into_iter()
        .chain([package])
        .map(|from| from.join(named))
        .collect::<Vec<_>>();
    // Equal where the name is absolute, and where the person is in the package's folder.
    folders.dedup();
    folders
}

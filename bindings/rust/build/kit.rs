//! The toolchain's identity.

use std::env;
use std::ffi::OsStr;
use std::path::{Path, PathBuf};

/// The file with the identity of the toolchain that the `rt` on the path belongs to. As `rt` itself does it goes by where `rt`
/// is, symbolic links followed; `None` where there is no such file.
pub fn identity_file(path: &OsStr) -> Option<PathBuf> {
    let rt = env::split_paths(path)
        .map(|folder| folder.join("rt"))
        .find(|rt| rt.is_file())?;
    let home = rt.canonicalize().ok()?.parent().and_then(Path::parent)?.to_path_buf();
    Some(home.join("KIT-ID")).filter(|file| file.is_file())
}

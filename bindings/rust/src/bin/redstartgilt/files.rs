//! The files that are read and written: `-`, and which of them are never overwritten.

use crate::failure::{written, Failure};
use std::ffi::OsString;
use std::fs::{self, Metadata};
use std::io::{self, Read, Write};
use std::os::fd::AsFd;
use std::os::unix::fs::{FileTypeExt, MetadataExt};
use std::path::{Path, PathBuf};

/// The paths in the place of `-`, as they stand in messages; only of files that are kept apart.
const STANDARD_INPUT: &str = "standard input";
const STANDARD_OUTPUT: &str = "standard output";

/// What is done with a file.
#[derive(Debug, Clone, Copy, PartialEq, Eq)]
pub enum Use {
    Read,
    Written,
}

/// A file, and the option that it is given by.
#[derive(Debug, Clone, PartialEq, Eq)]
pub struct Given {
    pub option: String,
    pub path: PathBuf,
    pub usage: Use,
    /// Whether it is neither overwritten nor written over another.
    pub apart: bool,
    /// Whether it is standard input or standard output.
    pub standard: bool,
}

impl Given {
    /// A file that is kept apart from the others, where `-` is standard input or output.
    pub fn apart(option: &str, word: OsString, usage: Use) -> Result<Self, Failure> {
        let standard = word == "-";
        let path = match word.to_str() {
            Some("") => return Err(Failure::usage(format!("{option} needs the name of a file"))),
            Some("-") => match usage {
                Use::Read => STANDARD_INPUT.into(),
                Use::Written => STANDARD_OUTPUT.into(),
            },
            // A file that has this very name.
            Some(STANDARD_INPUT | STANDARD_OUTPUT) => Path::new(".").join(word),
            _ => word.into(),
        };
        Ok(Self {
            option: option.to_string(),
            path,
            usage,
            apart: true,
            standard,
        })
    }

    /// A file by its name, whatever it is.
    pub fn by_name(option: &str, word: OsString, usage: Use) -> Self {
        Self {
            option: option.to_string(),
            path: word.into(),
            usage,
            apart: false,
            standard: false,
        }
    }

    pub fn is_standard_output(&self) -> bool {
        self.standard && self.usage == Use::Written
    }

    fn is_standard_input(&self) -> bool {
        self.standard && self.usage == Use::Read
    }
}

/// What a file has.
pub fn read(file: &Path) -> Result<Vec<u8>, Failure> {
    fs::read(file).map_err(|error| Failure::in_file(file, error))
}

/// The same of one that is kept apart.
pub fn read_apart(file: &Path) -> Result<Vec<u8>, Failure> {
    if file != Path::new(STANDARD_INPUT) {
        return read(file);
    }
    let mut text = Vec::new();
    let read = io::stdin().lock().read_to_end(&mut text);
    read.map_err(|error| Failure::in_file(file, error))?;
    Ok(text)
}

/// Writes a file, in the place of one that is there.
pub fn write(file: &Path, text: impl AsRef<[u8]>) -> Result<(), Failure> {
    fs::write(file, text).map_err(|error| Failure::in_file(file, error))
}

/// The same of one that is kept apart.
pub fn write_apart(file: &Path, text: impl AsRef<[u8]>) -> Result<(), Failure> {
    if file != Path::new(STANDARD_OUTPUT) {
        return write(file, text);
    }
    let mut output = io::stdout().lock();
    written(output.write_all(text.as_ref()).and_then(|()| output.flush()))
}

/// That no file which is written is another one that is read or written, where one of both is to be kept apart; and that
/// standard input is one file's. What is printed counts as written.
pub fn check(files: &[Given]) -> Result<(), Failure> {
    let (read, mut written) = files.iter().partition::<Vec<_>, _>(|file| file.usage == Use::Read);
    let mut standard = read.iter().filter(|file| file.standard);
    if let (Some(one), Some(other)) = (standard.next(), standard.next()) {
        let (one, other) = (&one.option, &other.option);
        return Err(Failure::usage(format!(
            "{one} and {other}: {STANDARD_INPUT} is read once"
        )));
    }
    let printed = Given {
        option: "what is printed on".to_string(),
        path: STANDARD_OUTPUT.into(),
        usage: Use::Written,
        apart: false,
        standard: true,
    };
    if !written.iter().any(|file| file.is_standard_output()) {
        written.push(&printed);
    }
    for (place, file) in written.iter().enumerate() {
        let Some(found) = File::of(file) else { continue };
        let others = read.iter().chain(&written[..place]);
        let mut others = others.filter(|other| file.apart || other.apart);
        if let Some(other) = others.find(|other| File::of(other).as_ref() == Some(&found)) {
            return Err(Failure::usage(overwritten(file, other)));
        }
    }
    Ok(())
}

/// That one file would overwrite another, and how they are one.
fn overwritten(file: &Given, other: &Given) -> String {
    let (path, other_path) = (file.path.display(), other.path.display());
    let (option, other_option) = (&file.option, &other.option);
    if file.path == other.path {
        return format!("{option} would overwrite {other_option}: both are {path}");
    }
    let paths = [&file.path, &other.path];
    let [one, two] = paths.map(|path| fs::canonicalize(path).ok());
    let how = if paths.iter().any(|path| path.is_symlink()) {
        ", by a symbolic link"
    } else if one.is_some() && two.is_some() && one != two {
        ", by a hard link"
    } else {
        ""
    };
    format!("{option} {path} would overwrite {other_option} {other_path}: they are one file{how}")
}

/// A file or a pipe, whatever its names are. In a terminal, a socket or /dev/null nothing is overwritten.
#[derive(Debug, PartialEq, Eq)]
enum File {
    /// By its device and its number there.
    There(u64, u64),
    /// By the place where it is to be made.
    ToBeMade(PathBuf),
}

impl File {
    fn of(given: &Given) -> Option<Self> {
        if given.is_standard_input() {
            return Self::open(&io::stdin());
        }
        if given.is_standard_output() {
            return Self::open(&io::stdout());
        }
        match fs::metadata(&given.path) {
            Ok(metadata) => Self::there(&metadata),
            Err(_) => to_be_made(&given.path).map(Self::ToBeMade),
        }
    }

    fn there(metadata: &Metadata) -> Option<Self> {
        let kind = metadata.file_type();
        let file = Self::There(metadata.dev(), metadata.ino());
        (kind.is_file() || kind.is_fifo() || kind.is_block_device()).then_some(file)
    }

    fn open(stream: &impl AsFd) -> Option<Self> {
        let file = fs::File::from(stream.as_fd().try_clone_to_owned().ok()?);
        Self::there(&file.metadata().ok()?)
    }
}

/// Where a file that is not there would be made; a link to such a one leads there.
fn to_be_made(path: &Path) -> Option<PathBuf> {
    const MOST_LINKS: usize = 40;
    let mut path = path.to_path_buf();
    for _ in 0..MOST_LINKS {
        let folder = path.parent().filter(|folder| !folder.as_os_str().is_empty());
        let folder = folder.unwrap_or(Path::new("."));
        match fs::read_link(&path) {
            Ok(target) => path = folder.join(target),
            Err(_) => return Some(fs::canonicalize(folder).ok()?.join(path.file_name()?)),
        }
    }
    None
}

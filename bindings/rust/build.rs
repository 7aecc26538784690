//! Finds or makes libredstartgilt.a, the proved library, and tells the linker where it is; and SuiteSparse's CHOLMOD for
//! the command.
//!
//! REDSTARTGILT_LIB, where set, names a folder that has it. Otherwise `rt lib`, run in crates/redstartgilt, proves
//! what has changed since it was last proved and writes it; it is not run where the archive is there and was made from the
//! same sources by the same toolchain. So the profiles of cargo share one archive.

#[path = "build/archive.rs"]
mod archive;
#[path = "build/cholmod.rs"]
mod cholmod;
#[path = "build/crates.rs"]
mod crates;
#[path = "build/folder.rs"]
mod folder;
#[path = "build/kit.rs"]
mod kit;
#[path = "build/progress.rs"]
mod progress;
#[path = "build/proving.rs"]
mod proving;
#[path = "build/stamp.rs"]
mod stamp;

fn main() {
    if let Err(reason) = cholmod::find() {
        archive::fail(&reason);
    }
    archive::link(&archive::find_or_make());
}

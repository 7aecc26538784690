//! SuiteSparse's CHOLMOD for the command, where it is installed: the cfg `cholmod`, and what the command links for it.
//!
//! REDSTARTGILT_CHOLMOD, where set, is `on`, and it must be installed, or `off`, and it is not looked for.

use std::env;
use std::path::{Path, PathBuf};
use std::process::Command;

const VARIABLE: &str = "REDSTARTGILT_CHOLMOD";
const SOURCE: &str = "build/cholmod.c";

/// Compiles the command's part in C and links it with CHOLMOD, to see whether both are there.
fn compiled(output: &Path) -> Result<PathBuf, String> {
    if env::var("TARGET") != env::var("HOST") {
        return Err("the target is not this machine".to_string());
    }
    let (object, library) = (output.join("cholmod.o"), output.join("libcholmod-tried.so"));
    let compiler = env::var_os("CC").unwrap_or("cc".into());
    let run = |command: &mut Command| match command.output() {
        Ok(done) if done.status.success() => Ok(()),
        Ok(done) => Err(String::from_utf8_lossy(&done.stderr).into_owned()),
        Err(error) => Err(format!("cannot run {}: {error}", compiler.to_string_lossy())),
    };
    run(Command::new(&compiler)
        .args(["-std=c99", "-O2", "-fPIC", "-c", SOURCE, "-o"])
        .arg(&object))?;
    run(Command::new(&compiler)
        .args(["-shared", "-o"])
        .arg(&library)
        .arg(&object)
        .arg("-lcholmod"))?;
    Ok(object)
}

/// Tells cargo of CHOLMOD; `Err` where it is asked for and missing.
pub fn find() -> Result<(), String> {
    println!("cargo:rerun-if-changed={SOURCE}");
    println!("cargo:rerun-if-env-changed={VARIABLE}");
    println!("cargo:rustc-check-cfg=cfg(cholmod)");
    let wanted = env::var(VARIABLE).unwrap_or_default();
    if wanted == "off" {
        return Ok(());
    }
    let output = PathBuf::from(env::var_os("OUT_DIR").expect("cargo sets it"));
    match compiled(&output) {
        Ok(object) => {
            println!("cargo:rustc-cfg=cholmod");
            println!("cargo:rustc-link-arg-bins={}", object.display());
            println!("cargo:rustc-link-arg-bins=-lcholmod");
            Ok(())
        }
        Err(reason) if wanted == "on" => Err(format!(
            "{VARIABLE} is on, and CHOLMOD cannot be compiled and linked (Debian's package is libsuitesparse-dev): {reason}"
        )),
        Err(_) => Ok(()),
    }
}

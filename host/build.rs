//! Finds the library's archive, libchromatic.a, and fails with a sentence that says what to run where there is none.
//!
//! It looks in the folder that CHROMATIC_ARCHIVE names; without that in the repository's own target/, where `host/archive`
//! puts it. Cargo runs this again when the variable or the archive changes.

use std::env;
use std::fs;
use std::os::unix::process::parent_id;
use std::path::{Path, PathBuf};
use std::process::exit;

const VARIABLE: &str = "CHROMATIC_ARCHIVE";
const ARCHIVE: &str = "libchromatic.a";

fn main() {
    println!("cargo:rerun-if-changed=build.rs");
    println!("cargo:rerun-if-env-changed={VARIABLE}");
    if let Err(why) = link() {
        eprintln!("{why}");
        exit(1);
    }
}

fn link() -> Result<(), String> {
    let processor = variable("CARGO_CFG_TARGET_ARCH");
    let host = PathBuf::from(variable("CARGO_MANIFEST_DIR"));
    let make = format!("{} (it needs the Rattle toolchain's rt and takes some minutes)", host.join("archive").display());
    let given = env::var_os(VARIABLE).filter(|folder| !folder.is_empty()).map(PathBuf::from);
    let named = given.is_some();
    let folder = match given {
        Some(folder) => from_where_cargo_was_started(folder)?,
        None => own_folder(&host, &processor)?,
    };
    let archive = folder.join(ARCHIVE);
    println!("cargo:rerun-if-changed={}", archive.display());
    let bytes = fs::read(&archive).map_err(|error| {
        let remedy = if folder.is_file() {
            format!("{VARIABLE} names a file: name the folder that it is in.")
        } else if named {
            format!("{VARIABLE} names that folder: name one that has an archive, or unset it and make the archive with {make}.")
        } else {
            format!("Make it with {make}, or set {VARIABLE} to the folder that has one.")
        };
        format!("chromatic: there is no archive {} ({error}).\n{remedy}", archive.display())
    })?;
    let wrong = match made_for(&bytes) {
        Some(made_for) if made_for == processor => None,
        Some(made_for) => Some(format!("is made for {made_for}, and this build is for {processor}")),
        None => Some("is no archive of object files for x86_64 or aarch64".to_string()),
    };
    if let Some(wrong) = wrong {
        return Err(format!(
            "chromatic: {} {wrong}.\nTake the one that host/archive makes on a machine of this build's kind, {processor}: {make}.",
            archive.display()
        ));
    }
    println!("cargo:rustc-link-search=native={}", folder.display());
    println!("cargo:rustc-link-lib=static=chromatic");
    println!("cargo:include={}", host.join("include").display()); // DEP_CHROMATIC_INCLUDE, for a dependent's C code
    Ok(())
}

fn variable(name: &str) -> String {
    env::var(name).unwrap_or_else(|_| panic!("cargo sets {name} for a build script"))
}

/// Where `host/archive` puts the archive for this processor.
fn own_folder(host: &Path, processor: &str) -> Result<PathBuf, String> {
    let name = match (variable("CARGO_CFG_TARGET_OS").as_str(), processor) {
        ("linux", "x86_64") => "staticlib",
        ("linux", "aarch64") => "staticlib-aarch64",
        (system, _) => {
            return Err(format!(
                "chromatic: the library is made for Linux on x86_64 or aarch64, and this build is for {system} on {processor}."
            ))
        }
    };
    Ok(host.join("..").join("target").join(name))
}

/// Cargo runs this in host/, so a relative folder is taken from cargo's own: it is the parent process. (Without /proc, from
/// the shell's.)
fn from_where_cargo_was_started(folder: PathBuf) -> Result<PathBuf, String> {
    if folder.is_absolute() {
        return Ok(folder);
    }
    println!("cargo:rerun-if-env-changed=PWD");
    let started = fs::read_link(format!("/proc/{}/cwd", parent_id())).ok().or_else(|| env::var_os("PWD").map(PathBuf::from));
    match started {
        Some(started) if started.is_absolute() => Ok(started.join(folder)),
        _ => Err(format!("chromatic: {VARIABLE} is '{}', and it is not known from where: give the whole path.", folder.display())),
    }
}

/// The processor of the archive's first ELF object, as cargo calls it.
fn made_for(archive: &[u8]) -> Option<&'static str> {
    const MEMBER: usize = 60; // ar's header of a member: its size is decimal at 48, and what follows begins at an even place
    let mut rest = archive.strip_prefix(b"!<arch>\n")?;
    while rest.len() >= MEMBER {
        let (header, after) = rest.split_at(MEMBER);
        let size: usize = std::str::from_utf8(&header[48..58]).ok()?.trim_end().parse().ok()?;
        let member = after.get(..size)?;
        if member.starts_with(b"\x7fELF") {
            return match member.get(18..20)? {
                [62, 0] => Some("x86_64"),
                [183, 0] => Some("aarch64"),
                _ => None,
            };
        }
        rest = after.get(size + size % 2..).unwrap_or_default();
    }
    None
}

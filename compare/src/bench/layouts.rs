//! Builds of our library that differ in where the code lies: the times depend on it. Each is a shared object, linked from the
//! static library with more code in front.

use super::Archive;
use crate::library::Library;
use crate::options;
use std::fs;
use std::path::{Path, PathBuf};
use std::process::Command;

/// Functions begin at multiples of it.
const SHIFT: usize = 16;
const PAGE: usize = 4_096;
/// Beyond a page the layouts would repeat.
pub const MOST: usize = PAGE / SHIFT;

/// So many layouts of a static library; layout k has its code 16 · k bytes behind that of layout 0.
pub fn load(archive: &Archive, layouts: usize) -> Result<Vec<Library>, String> {
    let load = |number| Library::load(&build(archive, number)?);
    let libraries = (0..layouts).map(load).collect::<Result<Vec<Library>, String>>()?;
    for (number, library) in libraries.iter().enumerate() {
        let shifted = library.address().wrapping_sub(libraries[0].address()) % PAGE;
        if shifted != number * SHIFT {
            return Err(format!("Layout {number} of {} is shifted by {shifted} bytes.", archive.file.display()));
        }
    }
    Ok(libraries)
}

/// Writes a shared object to target/bench.
pub fn build(archive: &Archive, number: usize) -> Result<PathBuf, String> {
    if !archive.file.is_file() {
        return Err(format!("There is no library {}.", archive.file.display()));
    }
    let directory = options::repository().join("target/bench");
    let told = |error| format!("{} cannot be written: {error}.", directory.display());
    fs::create_dir_all(&directory).map_err(told)?;
    let object = directory.join(format!("{}-{number}.so", archive.name));
    let padding = object.with_extension("s");
    fs::write(&padding, assembly((number + 1) * SHIFT)).map_err(told)?;
    linked(&archive.file, &padding, &object)?;
    Ok(object)
}

/// So many bytes of code.
fn assembly(bytes: usize) -> String {
    format!(".text\n.balign {SHIFT}\n.skip {bytes}, 0x90\n.section .note.GNU-stack, \"\", @progbits\n")
}

/// Calls inside the library are bound to it, and the others when it is loaded, so that no call has to look for its callee.
fn linked(archive: &Path, padding: &Path, object: &Path) -> Result<(), String> {
    let mut command = Command::new("cc");
    command.args(["-shared", "-nostartfiles", "-Wl,-Bsymbolic", "-Wl,-z,now", "-o"]).arg(object).arg(padding);
    command.arg("-Wl,--whole-archive").arg(archive).arg("-Wl,--no-whole-archive");
    let output =
        command.output().map_err(|error| format!("The layouts are linked by cc, which does not start: {error}."))?;
    if output.status.success() {
        return Ok(());
    }
    let said = String::from_utf8_lossy(&output.stderr);
    Err(format!("cc cannot make a shared object of {}:\n{said}", archive.display()))
}

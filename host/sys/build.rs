//! Finds the static library, or has it proved and built, and says what is missing where neither can be done.

use std::env;
use std::path::{Path, PathBuf};
use std::process::{Command, Stdio, exit};

/// Names a library elsewhere.
const VARIABLE: &str = "TROYMANTLE_LIBRARY";
const FILE: &str = "libtroymantle.a";

fn main() {
    println!("cargo::rerun-if-env-changed={VARIABLE}");
    if env::var_os("CARGO_FEATURE_LINKED").is_none() {
        return;
    }
    match library() {
        Ok(folder) => {
            println!("cargo::rerun-if-changed={}", folder.join(FILE).display());
            println!("cargo::rustc-link-search=native={}", folder.display());
            println!("cargo::rustc-link-lib=static=troymantle");
        }
        Err(told) => {
            eprintln!("troymantle: {told}");
            exit(1);
        }
    }
}

/// The folder that has the library.
fn library() -> Result<PathBuf, String> {
    if let Some(file) = env::var_os(VARIABLE).filter(|value| !value.is_empty()).map(PathBuf::from) {
        return match file.parent() {
            Some(folder) if file.is_absolute() && file.ends_with(FILE) && file.is_file() => Ok(folder.to_path_buf()),
            _ => Err(format!("{VARIABLE} is to be the whole path of a {FILE}, from / on; {} is none.", file.display())),
        };
    }
    let root = Path::new(env!("CARGO_MANIFEST_DIR")).join("../..");
    let root = root.canonicalize().map_err(|error| format!("{}: {error}.", root.display()))?;
    let folder = root.join("target/staticlib");
    if !folder.join(FILE).is_file() {
        build(&root, &folder.join(FILE))?;
    }
    Ok(folder)
}

fn build(root: &Path, file: &Path) -> Result<(), String> {
    let missing = format!("There is no {}", file.display());
    let tool = root.join("tools/library");
    let output = Command::new(&tool).current_dir(root).stdin(Stdio::null()).output().map_err(|error| {
        format!("{missing}, and {}, which proves and builds it, does not start: {error}.", tool.display())
    })?;
    if output.status.success() && file.is_file() {
        return Ok(());
    }
    let said = [output.stdout, output.stderr].concat();
    Err(format!(
        "{missing}, and tools/library in {}, which proves and builds it by the command rt of the Rattle kit, did not make it ({}). \
         Where the kit is not there, install it, or set {VARIABLE} to the whole path of a {FILE} that was built elsewhere. It said:\n{}",
        root.display(),
        output.status,
        String::from_utf8_lossy(&said)
    ))
}

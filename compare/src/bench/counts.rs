//! `compare count`: instructions a call, which do not depend on the machine's load. This program runs itself under valgrind
//! as `compare once`, which does a shape once, and callgrind counts inside our function alone.

use super::shape::{Shape, plainly};
use super::{Wanted, callable, chosen, layouts, shapes};
use crate::library::Library;
use crate::{options, show};
use std::path::{Path, PathBuf};
use std::process::Command;
use std::{env, fs};

/// What is counted of the original is called from here; callgrind finds it by its name.
#[unsafe(no_mangle)]
#[inline(never)]
fn counted_of_original(work: &mut dyn FnMut()) {
    work();
}

pub fn count(wanted: &Wanted) -> Result<(), String> {
    let shapes = chosen(&wanted.words)?;
    look_for_valgrind()?;
    let mut names = vec!["original"];
    let mut objects: Vec<Option<PathBuf>> = vec![None];
    let mut libraries = vec![];
    for archive in wanted.archives()? {
        let object = layouts::build(&archive, 0)?;
        libraries.push((archive.name, Library::load(&object)?));
        names.push(archive.name);
        objects.push(Some(object));
    }
    println!("{}", title(&names));
    for shape in callable(shapes, &libraries) {
        if shape.slow && wanted.words.is_empty() {
            println!("{}: left out, since counting takes minutes; name it to have it", shape.name);
            continue;
        }
        let counts = objects.iter().map(|object| instructions(&shape, object.as_deref()));
        println!("{}", line(&shape.name, &counts.collect::<Result<Vec<u64>, String>>()?));
    }
    println!(
        "Instructions a call, by callgrind. The original's maps have random keys, so its link varies from run to run."
    );
    Ok(())
}

/// What `count` runs under valgrind: by the library of a shared object, or by the original.
pub fn once(name: &str, object: Option<&Path>) -> Result<(), String> {
    let shape = shapes().into_iter().find(|shape| shape.name == name);
    let work = shape.ok_or_else(|| format!("There is no shape `{name}`."))?.work();
    match object {
        Some(object) => {
            (work.ours)(&Library::load(object)?);
        }
        None => {
            // what the original makes at its first use, such as its regexes, is not counted
            (work.original)(plainly);
            (work.original)(counted_of_original);
        }
    }
    Ok(())
}

fn look_for_valgrind() -> Result<(), String> {
    let started = Command::new("valgrind").arg("--version").output();
    started.map(drop).map_err(|error| format!("Instructions are counted by valgrind, which does not start: {error}."))
}

fn instructions(shape: &Shape, object: Option<&Path>) -> Result<u64, String> {
    let function = if object.is_some() { shape.function } else { "counted_of_original" };
    let report = options::repository().join("target/bench/callgrind.out");
    let program = env::current_exe().map_err(|error| format!("This program does not know where it is: {error}."))?;
    let mut command = Command::new("valgrind");
    command.args(["--tool=callgrind", "--quiet", &format!("--toggle-collect={function}")]);
    command.arg(format!("--callgrind-out-file={}", report.display()));
    command.arg(program).args(["once", &shape.name]);
    command.args(object.iter().flat_map(|object| [Path::new("--library"), object]));
    let output = command.output().map_err(|error| format!("valgrind does not start: {error}."))?;
    if !output.status.success() {
        return Err(format!("`{}` failed under valgrind:\n{}", shape.name, String::from_utf8_lossy(&output.stderr)));
    }
    let text = fs::read_to_string(&report).map_err(|error| format!("{}: {error}.", report.display()))?;
    match collected(&text) {
        Some(all) if all > 0 => Ok((all + u64::from(shape.calls) / 2) / u64::from(shape.calls)),
        _ => Err(format!("callgrind counted nothing in {function} for `{}`.", shape.name)),
    }
}

/// The sum in callgrind's report.
fn collected(report: &str) -> Option<u64> {
    report.lines().find_map(|line| line.strip_prefix("totals: "))?.trim().parse().ok()
}

/// Shape, original, each library, after ÷ before where there are two.
fn columns(name: &str, rest: impl Iterator<Item = String>) -> String {
    let rest: String = rest.map(|text| format!(" {text:>15}")).collect();
    format!("{name:48}{rest}")
}

fn title(names: &[&str]) -> String {
    let ratio = (names.len() == 3).then_some("after ÷ before");
    columns("shape", names.iter().copied().chain(ratio).map(str::to_string))
}

fn line(name: &str, counts: &[u64]) -> String {
    let ratio = match counts {
        [_, before, after] => Some(format!("{:.2}", *after as f64 / *before as f64)),
        _ => None,
    };
    columns(name, counts.iter().map(|count| show::number(*count)).chain(ratio))
}

#[cfg(test)]
mod tests {
    use super::*;

    #[test]
    fn the_sum_of_a_report_is_read() {
        assert_eq!(collected("events: Ir\nfn=(1)\n3 17\n\ntotals: 10696440\n"), Some(10_696_440));
        assert_eq!(collected("events: Ir\n"), None);
    }

    #[test]
    fn a_line_has_a_ratio_where_there_are_two_libraries() {
        let told = |counts: &[u64]| line("a", counts).split_whitespace().skip(1).collect::<Vec<_>>().join(" ");
        assert_eq!(told(&[1_000]), "1,000");
        assert_eq!(told(&[1_000, 20]), "1,000 20");
        assert_eq!(told(&[1_000, 2_000, 500]), "1,000 2,000 500 0.25");
    }

    #[test]
    fn a_shape_is_done_once_by_its_name() {
        assert_eq!(once("parse: small file", None), Ok(()));
        assert!(once("small file", None).is_err());
    }
}

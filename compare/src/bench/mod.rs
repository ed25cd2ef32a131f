//! `compare bench` and `compare count`: the times and the instructions of our library and of the original on the same input.

mod counts;
mod files;
mod growth;
mod hostile;
mod layouts;
mod links;
mod names;
mod places;
mod plot;
mod runs;
mod shape;
mod times;

use crate::library::Library;
use crate::options;
pub use counts::{count, once};
use shape::Shape;
use std::path::PathBuf;

const MOST_RULES: usize = 2_048;

pub struct Wanted {
    /// Of the shapes' names; none for all shapes.
    pub words: Vec<String>,
    /// Static libraries: one in the place of ours, and one to compare it with.
    pub library: Option<PathBuf>,
    pub before: Option<PathBuf>,
    pub layouts: u64,
    /// Where to write the plot of the growth.
    pub plot: Option<PathBuf>,
}

/// A static library, and its name in the tables.
#[derive(Debug, PartialEq)]
struct Archive {
    name: &'static str,
    file: PathBuf,
}

/// A library at its layouts.
struct Side {
    name: &'static str,
    layouts: Vec<Library>,
}

pub fn bench(wanted: &Wanted) -> Result<(), String> {
    let shapes = chosen(&wanted.words)?;
    let plot = wanted.plot(growth::is_whole(&shapes))?;
    let sides = wanted.sides()?;
    let libraries: Vec<(&str, Library)> = sides.iter().map(|side| (side.name, side.layouts[0])).collect();
    let shapes = callable(shapes, &libraries);
    let (growing, plain): (Vec<Shape>, Vec<Shape>) = shapes.into_iter().partition(|shape| shape.point.is_some());
    if !plain.is_empty() {
        println!("{}", times::title(&sides));
    }
    for shape in plain {
        times::lines(&shape, &sides);
    }
    let tables = growth::tables(&growing, &sides);
    println!("{}", times::legend(&sides));
    match plot {
        Some(file) => growth::write_plot(&tables, &sides, &file),
        None => Ok(()),
    }
}

impl Wanted {
    fn layouts(&self) -> Result<usize, String> {
        match usize::try_from(self.layouts) {
            Ok(layouts) if (1..=layouts::MOST).contains(&layouts) => Ok(layouts),
            _ => Err(format!("--layouts wants a number from 1 to {}.", layouts::MOST)),
        }
    }

    /// Only where both series are timed as a whole can they be drawn.
    fn plot(&self, whole: bool) -> Result<Option<PathBuf>, String> {
        match (whole, &self.plot) {
            (true, Some(file)) => Ok(Some(file.clone())),
            (true, None) => Ok(Some(options::repository().join("target/bench/growth.svg"))),
            (false, Some(_)) => {
                Err("--plot draws the growth of parse and step, and the words do not choose all of it.".to_string())
            }
            (false, None) => Ok(None),
        }
    }

    fn sides(&self) -> Result<Vec<Side>, String> {
        let layouts = self.layouts()?;
        let side = |archive: Archive| Ok(Side { name: archive.name, layouts: layouts::load(&archive, layouts)? });
        self.archives()?.into_iter().map(side).collect()
    }

    /// The libraries, the one before first. Without options it is ours, if it is built.
    fn archives(&self) -> Result<Vec<Archive>, String> {
        let built = options::repository().join("target/staticlib/libtroymantle.a");
        let built = built.is_file().then_some(built);
        match (self.library.clone().or(built), self.before.clone()) {
            (Some(file), Some(before)) => {
                Ok(vec![Archive { name: "before", file: before }, Archive { name: "after", file }])
            }
            (None, Some(_)) => {
                Err("Our library is not built, so --before has nothing to be compared with.".to_string())
            }
            (ours, None) => Ok(ours.map(|file| Archive { name: "ours", file }).into_iter().collect()),
        }
    }
}

fn shapes() -> Vec<Shape> {
    [files::shapes(), names::shapes(), links::shapes(), runs::shapes(), places::shapes(), growth::shapes()]
        .into_iter()
        .flatten()
        .collect()
}

/// The shapes whose function every library has; the others are told. A library from before a call has it not.
fn callable(mut shapes: Vec<Shape>, libraries: &[(&str, Library)]) -> Vec<Shape> {
    shapes.retain(|shape| match libraries.iter().find(|(_, library)| !library.has(shape.function)) {
        Some((name, _)) => {
            println!("{}: left out, since the library `{name}` has no {}", shape.name, shape.function);
            false
        }
        None => true,
    });
    shapes
}

/// The shapes whose name contains one of the words; without words all.
fn chosen(words: &[String]) -> Result<Vec<Shape>, String> {
    let mut shapes = shapes();
    if let Some(word) = words.iter().find(|word| !shapes.iter().any(|shape| shape.name.contains(*word))) {
        let names: Vec<String> = shapes.iter().map(|shape| format!("    {}", shape.name)).collect();
        return Err(format!("No shape's name contains `{word}`. They are\n{}", names.join("\n")));
    }
    shapes.retain(|shape| words.is_empty() || words.iter().any(|word| shape.name.contains(word)));
    Ok(shapes)
}

#[cfg(test)]
mod tests {
    use super::*;
    use std::collections::HashSet;

    fn names(words: &[&str]) -> Result<Vec<String>, String> {
        let words: Vec<String> = words.iter().map(ToString::to_string).collect();
        Ok(chosen(&words)?.into_iter().map(|shape| shape.name).collect())
    }

    #[test]
    fn words_choose_shapes() {
        let all = names(&[]).unwrap_or_default();
        assert_eq!(all.iter().collect::<HashSet<_>>().len(), all.len(), "two shapes have one name");
        let of = |word: &str| all.iter().filter(|name| name.contains(word)).cloned().collect::<Vec<_>>();
        assert_eq!(names(&["step"]), Ok(of("step")));
        assert_eq!(names(&["growth"]), Ok(all[all.len() - 19..].to_vec()));
        assert_eq!(names(&["growth: step"]).map(|names| names.len()), Ok(12));
        assert_eq!(names(&["parse", "link", "step", "place"]), Ok(all.clone()));
        assert_eq!(names(&["small", "10 rules"]).map(|names| names.len()), Ok(9));
        assert!(names(&["step", "stop"]).is_err_and(|told| told.contains("`stop`")));
    }

    fn wanted(library: Option<&str>, before: Option<&str>, layouts: u64) -> Wanted {
        let [library, before] = [library, before].map(|file| file.map(PathBuf::from));
        Wanted { words: vec![], library, before, layouts, plot: None }
    }

    #[test]
    fn a_plot_is_written_where_both_series_are_whole() {
        let without = wanted(None, None, 1);
        assert_eq!(without.plot(false), Ok(None));
        assert!(
            without.plot(true).is_ok_and(|file| file.is_some_and(|file| file.ends_with("target/bench/growth.svg")))
        );
        let with = Wanted { plot: Some(PathBuf::from("a.svg")), ..without };
        assert_eq!(with.plot(true), Ok(Some(PathBuf::from("a.svg"))));
        assert!(with.plot(false).is_err());
    }

    #[test]
    fn a_library_before_stands_first() {
        let archive = |name, file: &str| Archive { name, file: PathBuf::from(file) };
        let both = wanted(Some("b.a"), Some("a.a"), 1).archives();
        assert_eq!(both, Ok(vec![archive("before", "a.a"), archive("after", "b.a")]));
        assert_eq!(wanted(Some("b.a"), None, 1).archives(), Ok(vec![archive("ours", "b.a")]));
    }

    #[test]
    fn layouts_are_at_least_one_and_fill_a_page() {
        let layouts = |number| wanted(None, None, number).layouts();
        assert_eq!((layouts(1), layouts(256)), (Ok(1), Ok(256)));
        assert!([0, 257, u64::MAX].iter().all(|number| layouts(*number).is_err()));
    }

    #[test]
    fn a_library_that_is_not_there_is_told() {
        let archive = Archive { name: "ours", file: PathBuf::from("no such file.a") };
        let told = layouts::load(&archive, 1).err();
        assert_eq!(told.as_deref(), Some("There is no library no such file.a."));
    }

    /// Every shape asserts that our library answers as it should.
    #[test]
    #[cfg(feature = "ours")]
    fn a_loaded_library_answers_as_the_linked_one() {
        let ours = wanted(None, None, 2).archives().unwrap_or_default();
        let tested = Archive { name: "tested", file: ours[0].file.clone() };
        let libraries = layouts::load(&tested, 2).unwrap_or_else(|told| panic!("{told}"));
        for shape in chosen(&["small file", "repeats of the newest", "10 rules", "place", "growth"].map(str::to_string))
            .unwrap_or_default()
        {
            let work = shape.work();
            for library in libraries.iter().chain([&crate::library::LINKED]) {
                assert!(!(work.ours)(library).is_zero());
            }
        }
    }
}

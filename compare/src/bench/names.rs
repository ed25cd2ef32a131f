//! Files for the search for a repeated name: names that begin alike, names that our marks cannot tell apart, and names that
//! repeat.

use super::MOST_RULES;
use super::files::{FUNCTION, alike_names, work_answered};
use super::shape::Shape;
use crate::answers::{ACCEPTED, FAULTY_FILE};
use crate::case::SOURCE_LIMIT;
use crate::one_mark::{self, Differing};
use crate::show;

/// How many names of one length, and the length: they about fill a file.
const SIZES: [(usize, usize); 2] = [(400, 150), (MOST_RULES, 26)];

pub fn shapes() -> Vec<Shape> {
    let mut shapes = vec![shape("parse: 400 rules whose names begin alike", ACCEPTED, || alike_names(400))];
    for (count, length) in SIZES {
        for (differing, word) in [(Differing::Start, "start"), (Differing::Middle, "middle"), (Differing::End, "end")] {
            let name = format!("parse: {} names of one mark, {word} differs", show::number(count as u64));
            shapes.push(shape(&name, ACCEPTED, move || file(&one_mark::of_one_length(count, length, differing))));
        }
    }
    shapes.push(shape("parse: 2,048 names of one mark, 8 lengths", ACCEPTED, eight_lengths));
    shapes.push(shape("parse: repeats of the newest of 1,024 names", FAULTY_FILE, || repeats(REPEATED - 1)));
    shapes.push(shape("parse: repeats of the oldest of 1,024 names", FAULTY_FILE, || repeats(0)));
    shapes.push(shape("parse: repeats of the oldest of 2,048 names", FAULTY_FILE, repeats_to_the_end));
    shapes
}

fn shape(name: &str, number: u64, source: impl Fn() -> String + 'static) -> Shape {
    Shape::new(name, FUNCTION, 1, move || work_answered(source(), 0, number))
}

fn file(names: &[String]) -> String {
    let lines: String = names.iter().map(|name| line(name)).collect();
    "%%\n".to_string() + &lines
}

fn line(name: &str) -> String {
    format!("a '{name}'\n")
}

fn eight_lengths() -> String {
    file(&one_mark::of_eight_lengths(MOST_RULES))
}

// ---- names that repeat

const REPEATED: usize = 1_024;

/// Names that begin alike, and then one of them as often again.
fn repeats(again: usize) -> String {
    let rules = alike_names(REPEATED);
    let repeated = rules.lines().nth(again + 1).unwrap_or_default().to_string() + "\n";
    rules + &repeated.repeat(REPEATED)
}

/// As many rules as there may be, with names of two letters, and then the oldest name again in every line that is left.
fn repeats_to_the_end() -> String {
    let letters: Vec<char> = ('A'..='Z').chain('a'..='z').collect();
    let name = |number: usize| [letters[number / 52], letters[number % 52]].iter().collect();
    let names: Vec<String> = (0..MOST_RULES).map(name).collect();
    let (rules, repeated) = (file(&names), line(&names[0]));
    let left = (SOURCE_LIMIT - rules.len()) / repeated.len();
    rules + &repeated.repeat(left)
}

#[cfg(test)]
mod tests {
    use super::*;
    use crate::case::{AREAS, Case, RECORD_SIZES};
    use crate::oracle;

    /// How many rules are kept, and how many spans the one fault has.
    fn kept(source: String) -> (usize, usize) {
        assert!(source.len() <= SOURCE_LIMIT);
        let case = Case { source: source.into_bytes(), flags: 0, verdicts: vec![], capacities: [0; AREAS] };
        let needs = oracle::needs(&case);
        (needs[1] / RECORD_SIZES[1], needs[5] / RECORD_SIZES[5])
    }

    #[test]
    fn names_about_fill_a_file() {
        for (count, length) in SIZES {
            let source = file(&one_mark::of_one_length(count, length, Differing::Middle));
            assert!(source.len() > 62_000);
            assert_eq!(kept(source), (count, 0));
        }
        assert_eq!(kept(eight_lengths()), (2_048, 0));
    }

    #[test]
    fn repeats_are_of_one_name() {
        for (again, line) in [(0, "a0000 'BEGINS_ALIKE_0000'"), (1_023, "a1023 'BEGINS_ALIKE_1023'")] {
            let source = repeats(again);
            assert_eq!(source.lines().nth(again + 1), Some(line));
            assert!(source.lines().skip(1_025).all(|repeated| repeated == line));
            assert_eq!(kept(source), (1_024, 1_025));
        }
        assert_eq!(kept(repeats_to_the_end()), (2_048, 7_314));
        assert!(repeats_to_the_end().lines().skip(2_049).all(|line| line == "a 'AA'"));
    }
}

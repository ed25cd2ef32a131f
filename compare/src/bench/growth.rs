//! How time grows: the parse's time a byte by the bytes of a file, and the step's time a rule by the rules of a sheet.

use super::files;
use super::plot::{self, Line, Panel};
use super::runs::{self, Moves};
use super::shape::{Shape, Work};
use super::times::{self, Times};
use super::{MOST_RULES, Side};
use crate::case::SOURCE_LIMIT;
use crate::random::Random;
use crate::show;
use std::fs;
use std::path::Path;
use std::time::Duration;

/// The shapes are timed in turn so many times.
const PASSES: u64 = 5;

/// Shapes of one call in which a size grows.
pub struct Series {
    call: &'static str,
    function: &'static str,
    calls: usize,
    /// What a size counts, and of what.
    unit: &'static str,
    whole: &'static str,
    sizes: &'static [usize],
    work: fn(usize) -> Work,
}

static PARSE: Series = Series {
    call: "parse",
    function: files::FUNCTION,
    calls: 1,
    unit: "byte",
    whole: "file",
    sizes: &[1_000, 2_000, 4_000, 8_000, 16_000, 32_000, SOURCE_LIMIT],
    work: |bytes| files::work(file(bytes), 0),
};

static STEP: Series = Series {
    call: "step",
    function: runs::FUNCTION,
    calls: runs::MOVES,
    unit: "rule",
    whole: "sheet",
    sizes: &[1, 2, 4, 8, 16, 32, 64, 128, 256, 512, 1_024, MOST_RULES],
    work: |rules| runs::work(Moves::mixed(rules)),
};

/// A shape's place in its series.
#[derive(Clone, Copy)]
pub struct Point {
    series: &'static Series,
    size: usize,
}

impl Point {
    fn shape(self) -> Shape {
        let Point { series, size } = self;
        let plural = if size == 1 { "" } else { "s" };
        let name = format!("growth: {}, {} {}{plural}", series.call, show::number(size as u64), series.unit);
        // nothing but the call is timed
        let make = move || Work { note: None, ..(series.work)(size) };
        Shape::new(name, series.function, series.calls as u32, make).at(self)
    }
}

fn points() -> impl Iterator<Item = Point> {
    [&PARSE, &STEP].into_iter().flat_map(|series| series.sizes.iter().map(move |size| Point { series, size: *size }))
}

pub fn shapes() -> Vec<Shape> {
    points().map(Point::shape).collect()
}

/// Whether every size of both series is among the shapes.
pub fn is_whole(shapes: &[Shape]) -> bool {
    shapes.iter().filter(|shape| shape.point.is_some()).count() == points().count()
}

/// A file of so many bytes. The rules of a smaller file are the first of a larger one.
fn file(bytes: usize) -> String {
    let mut text = "%x STRING\n%s NUMBER\n%%\n".to_string();
    for rule in (0..).map(rule) {
        if text.len() + rule.len() > bytes {
            break;
        }
        text.push_str(&rule);
    }
    files::filled_up(text, bytes)
}

/// Names, lists of states, targets and escapes as in real files.
fn rule(number: usize) -> String {
    let word = word(number);
    let name = word.to_uppercase();
    match number % 8 {
        0 => format!("{word}(ed|ing)? 'KEYWORD_{name}'\n"),
        1 => format!("{word}[0-9]+\\.[0-9]* 'NUMBER_{name}'\n"),
        2 => format!("\\+{word}\\@\\= 'OPERATOR_{name}'\n"),
        3 => format!("<STRING>{word}[^\\\"]+ 'TEXT_{name}'\n"),
        4 => format!("[a-z_]+{word}[\\t\\n\\ ]* ;\n"),
        5 => format!("<NUMBER,INITIAL>{word}(e[0-9]+)? <NUMBER>'{name}'\n"),
        6 => format!("\\\"{word} <+STRING>;\n"),
        _ => format!("<STRING>{word}\\\" <-STRING>'END_{name}'\n"),
    }
}

/// Random letters, so that chance alone decides which names share a mark (crates/names). Names of one length that end with
/// numbers in order would have a mark each.
fn word(number: usize) -> String {
    let mut random = Random::new(1, number as u64);
    let length = 4 + random.below(5);
    (0..length).map(|_| char::from(b'a' + random.below(26) as u8)).collect()
}

/// What was timed of a series.
pub struct Table {
    series: &'static Series,
    rows: Vec<Row>,
}

/// Nanoseconds a byte or a rule, of the original and of each library.
struct Row {
    size: usize,
    times: Vec<f64>,
}

impl Row {
    fn new(size: usize, times: &Times) -> Row {
        let each = |microseconds: f64| microseconds * 1_000.0 / size as f64;
        let ours = times.sides.iter().map(|side| side.median);
        Row { size, times: [times.original].into_iter().chain(ours).map(each).collect() }
    }

    fn line(&self, ratios: &[String]) -> String {
        let times = self.times.iter().map(|time| format!("{time:.2}"));
        columns(&show::number(self.size as u64), times, ratios)
    }
}

/// Times the shapes, which are points of a series, and prints the tables.
pub fn tables(shapes: &[Shape], sides: &[Side]) -> Vec<Table> {
    let shortest = shortest_of_passes(shapes.len(), |number| times::shortest(&shapes[number].work(), sides));
    let told = |shape: &Shape, shortest| Some((shape.point?, Times::new(shortest, sides, shape.calls)));
    let timed: Vec<(Point, Times)> =
        shapes.iter().zip(&shortest).filter_map(|(shape, shortest)| told(shape, shortest)).collect();
    [&PARSE, &STEP].into_iter().filter_map(|series| table(series, &timed, sides)).collect()
}

/// The shortest times of each shape. Every pass has another order, so that what disturbs the machine now and then, and be it
/// regularly, does not meet the same shape in all of them.
fn shortest_of_passes(shapes: usize, timed: impl Fn(usize) -> Vec<Duration>) -> Vec<Vec<Duration>> {
    let mut shortest: Vec<Vec<Duration>> = vec![vec![]; shapes];
    for pass in 0..PASSES {
        let mut order: Vec<usize> = (0..shapes).collect();
        Random::new(1, pass).shuffle(&mut order);
        for number in order {
            let earlier = std::mem::take(&mut shortest[number]).into_iter().chain(std::iter::repeat(Duration::MAX));
            shortest[number] =
                timed(number).into_iter().zip(earlier).map(|(time, earlier)| time.min(earlier)).collect();
        }
    }
    shortest
}

/// Prints the table of a series, if something of it was timed.
fn table(series: &'static Series, timed: &[(Point, Times)], sides: &[Side]) -> Option<Table> {
    let mut rows = vec![];
    for (point, times) in timed.iter().filter(|(point, _)| std::ptr::eq(point.series, series)) {
        if rows.is_empty() {
            println!("growth of the {}, nanoseconds a {}", series.call, series.unit);
            println!("{}", title(series, sides));
        }
        let row = Row::new(point.size, times);
        println!("{}", row.line(&times::ratios(times)));
        rows.push(row);
    }
    (!rows.is_empty()).then_some(Table { series, rows })
}

fn title(series: &Series, sides: &[Side]) -> String {
    columns(&format!("{}s", series.unit), names(sides).into_iter(), &times::ratio_names(sides.len()))
}

fn names(sides: &[Side]) -> Vec<String> {
    ["original"].into_iter().chain(sides.iter().map(|side| side.name)).map(str::to_string).collect()
}

/// Size, original, each library, ratios.
fn columns(size: &str, times: impl Iterator<Item = String>, ratios: &[String]) -> String {
    let times: String = times.map(|time| format!(" {time:>11}")).collect();
    let ratios: String = ratios.iter().map(|ratio| format!(" {ratio:>16}")).collect();
    format!("{size:>10}{times}{ratios}")
}

/// Writes the plot of the tables and tells where.
pub fn write_plot(tables: &[Table], sides: &[Side], file: &Path) -> Result<(), String> {
    let names = names(sides);
    let panels: Vec<Panel> = tables.iter().map(|table| panel(table, &names)).collect();
    let told = |error| format!("{} cannot be written: {error}.", file.display());
    if let Some(directory) = file.parent() {
        fs::create_dir_all(directory).map_err(told)?;
    }
    fs::write(file, plot::svg(&panels)).map_err(told)?;
    println!("The growth is drawn in {}.", file.display());
    Ok(())
}

fn panel(table: &Table, names: &[String]) -> Panel {
    let series = table.series;
    let line = |(number, name): (usize, &String)| Line {
        name: name.clone(),
        points: table.rows.iter().map(|row| (row.size as f64, row.times[number])).collect(),
    };
    Panel {
        title: series.call.to_string(),
        across: format!("{}s of the {}", series.unit, series.whole),
        upward: format!("nanoseconds a {}", series.unit),
        lines: names.iter().enumerate().map(line).collect(),
    }
}

#[cfg(test)]
mod tests {
    use super::*;
    use crate::bench::times::Spread;
    use crate::sheet;

    fn rules_of(text: &str) -> Vec<&str> {
        text.lines().skip(3).filter(|line| !line.is_empty()).collect()
    }

    #[test]
    fn files_have_their_size_and_are_accepted() {
        for bytes in PARSE.sizes {
            let text = file(*bytes);
            assert_eq!(text.len(), *bytes);
            assert!(original::parse_only(text.clone(), false, false).is_accepted());
            let sheet = sheet::parsed(&text, 0);
            assert!(sheet.passes());
            assert_eq!(sheet.counts[1] as usize, rules_of(&text).len());
            assert!(sheet.counts[1] as usize <= MOST_RULES);
        }
        // as docs/COMPARING.md and docs/SPEED.md have it
        let largest = sheet::parsed(&file(SOURCE_LIMIT), 0).rules();
        assert_eq!((largest.len(), largest.iter().filter(|rule| rule.is_named()).count()), (1_943, 1_457));
    }

    #[test]
    fn a_smaller_file_begins_a_larger_one() {
        let texts: Vec<String> = PARSE.sizes.iter().map(|bytes| file(*bytes)).collect();
        assert!(texts.windows(2).all(|pair| pair[1].starts_with(pair[0].trim_end())));
        // the line ends that fill a file up are less than a rule
        assert!(texts.iter().all(|text| text.len() - text.trim_end().len() < 60));
    }

    #[test]
    fn names_of_shapes_have_their_sizes() {
        let names: Vec<String> = shapes().into_iter().map(|shape| shape.name).collect();
        assert_eq!(names.len(), 19);
        assert_eq!(
            (names[0].as_str(), names[6].as_str()),
            ("growth: parse, 1,000 bytes", "growth: parse, 65,535 bytes")
        );
        assert_eq!((names[7].as_str(), names[18].as_str()), ("growth: step, 1 rule", "growth: step, 2,048 rules"));
    }

    #[test]
    fn both_series_are_whole_or_there_is_no_plot() {
        let mut shapes = shapes();
        assert!(is_whole(&shapes));
        shapes.pop();
        assert!(!is_whole(&shapes));
    }

    #[test]
    fn each_time_is_the_shortest_of_the_passes() {
        let seconds = |times: [u64; 2]| times.map(Duration::from_secs).to_vec();
        let passes = [(); 3].map(|()| std::cell::Cell::new(0));
        let timed = |number: usize| {
            let pass = passes[number].replace(passes[number].get() + 1);
            seconds([20 - pass, 10 * number as u64 + pass])
        };
        assert_eq!(shortest_of_passes(3, timed), [[16, 0], [16, 10], [16, 20]].map(seconds));
        assert!(passes.iter().all(|passes| passes.get() == PASSES));
    }

    #[test]
    fn a_row_has_nanoseconds_of_each_byte_or_rule() {
        let times = Times { original: 16.0, sides: vec![Spread::of(vec![2.0, 4.0])], note: None };
        let row = Row::new(1_000, &times);
        assert_eq!(row.times, [16.0, 3.0]);
        let line = row.line(&times::ratios(&times));
        assert_eq!(line.split_whitespace().collect::<Vec<_>>(), ["1,000", "16.00", "3.00", "5.33"]);
    }

    #[test]
    fn a_panel_has_a_line_for_each_side() {
        let row = |size, times: [f64; 2]| Row { size, times: times.to_vec() };
        let table = Table { series: &STEP, rows: vec![row(1, [20.0, 10.0]), row(2, [11.0, 5.0])] };
        let panel = panel(&table, &["original".to_string(), "ours".to_string()]);
        assert_eq!((panel.across.as_str(), panel.upward.as_str()), ("rules of the sheet", "nanoseconds a rule"));
        assert_eq!(panel.lines[1].name, "ours");
        assert_eq!(panel.lines[1].points, [(1.0, 10.0), (2.0, 5.0)]);
    }
}

//! Lines over logarithmic axes, drawn as SVG.

use crate::show;

pub struct Panel {
    pub title: String,
    /// What the axes tell.
    pub across: String,
    pub upward: String,
    /// All have points at the same numbers across. The panels have the same lines.
    pub lines: Vec<Line>,
}

pub struct Line {
    pub name: String,
    /// Numbers across, which increase, and upward; all above 0.
    pub points: Vec<(f64, f64)>,
}

const WIDTH: f64 = 1_000.0;
const HEIGHT: f64 = 392.0;
/// Of every frame.
const TOP: f64 = 72.0;
const BOTTOM: f64 = 332.0;
/// Between a frame and the edges of its panel.
const LEFT: f64 = 64.0;
const RIGHT: f64 = 26.0;

const LEGEND: f64 = 24.0;
const LEGEND_STEP: f64 = 110.0;
const SAMPLE: f64 = 28.0;

const BACKGROUND: &str = "#ffffff";
const INK: &str = "#24292f";
const GRID: &str = "#d8dee4";

/// Each panel has its share of the width.
pub fn svg(panels: &[Panel]) -> String {
    let size = format!(r#"width="{WIDTH}" height="{HEIGHT}""#);
    let font = format!(r#"font-family="sans-serif" font-size="12" fill="{INK}""#);
    let mut parts = vec![
        format!(r#"<svg xmlns="http://www.w3.org/2000/svg" {size} viewBox="0 0 {WIDTH} {HEIGHT}" {font}>"#),
        format!(r#"<rect {size} fill="{BACKGROUND}"/>"#),
    ];
    parts.extend(panels.first().map(|panel| legend(&panel.lines)));
    let width = WIDTH / panels.len() as f64;
    for (number, panel) in panels.iter().enumerate() {
        let left = number as f64 * width;
        parts.push(Frame::new(panel, left + LEFT, left + width - RIGHT).panel(panel));
    }
    parts.push("</svg>\n".to_string());
    parts.join("\n")
}

/// A logarithmic axis: the numbers from least to greatest lie from one place to the other.
struct Scale {
    least: f64,
    greatest: f64,
    from: f64,
    to: f64,
}

impl Scale {
    fn place(&self, number: f64) -> f64 {
        let share = (number / self.least).ln() / (self.greatest / self.least).ln();
        self.from + share * (self.to - self.from)
    }
}

/// Where the points of a panel lie, and the numbers that its axes show.
struct Frame {
    across: Scale,
    upward: Scale,
    sizes: Vec<f64>,
    ticks: Vec<f64>,
}

impl Frame {
    fn new(panel: &Panel, left: f64, right: f64) -> Frame {
        let points = || panel.lines.iter().flat_map(|line| &line.points);
        let sizes: Vec<f64> = panel.lines.iter().take(1).flat_map(|line| &line.points).map(|point| point.0).collect();
        let least = points().map(|point| point.1).fold(f64::INFINITY, f64::min);
        let greatest = points().map(|point| point.1).fold(0.0, f64::max);
        let ticks = ticks(least, greatest);
        Frame {
            across: Scale { least: sizes[0], greatest: sizes[sizes.len() - 1], from: left, to: right },
            upward: Scale { least: ticks[0], greatest: ticks[ticks.len() - 1], from: BOTTOM, to: TOP },
            sizes,
            ticks,
        }
    }

    fn panel(&self, panel: &Panel) -> String {
        let Scale { from: left, to: right, .. } = self.across;
        let middle = (left + right) / 2.0;
        let (side, height) = (left - 44.0, (TOP + BOTTOM) / 2.0);
        let mut parts = vec![self.grid(), self.numbers()];
        parts.push(text(middle, TOP - 14.0, r#"text-anchor="middle" font-weight="bold""#, &panel.title));
        parts.push(text(middle, BOTTOM + 42.0, r#"text-anchor="middle""#, &panel.across));
        let turned = format!(r#"text-anchor="middle" transform="rotate(-90 {side:.1} {height:.1})""#);
        parts.push(text(side, height, &turned, &panel.upward));
        for (number, line) in panel.lines.iter().enumerate() {
            let places: Vec<Place> =
                line.points.iter().map(|point| (self.across.place(point.0), self.upward.place(point.1))).collect();
            parts.push(Look::of(number, panel.lines.len()).line(&places, &places));
        }
        parts.join("\n")
    }

    /// The frame, and a line at every number that an axis shows.
    fn grid(&self) -> String {
        let Scale { from: left, to: right, .. } = self.across;
        let upright = self.sizes.iter().map(|size| format!("M{:.1} {TOP}V{BOTTOM}", self.across.place(*size)));
        let level = self.ticks.iter().map(|tick| format!("M{left:.1} {:.1}H{right:.1}", self.upward.place(*tick)));
        let paths: String = upright.chain(level).collect();
        let (width, height) = (right - left, BOTTOM - TOP);
        format!(
            r#"<path stroke="{GRID}" d="{paths}"/>
<rect x="{left:.1}" y="{TOP:.1}" width="{width:.1}" height="{height:.1}" fill="none" stroke="{INK}"/>"#
        )
    }

    fn numbers(&self) -> String {
        let below = |size: &f64| {
            let attributes = r#"text-anchor="middle" font-size="10.5""#;
            text(self.across.place(*size), BOTTOM + 18.0, attributes, &number(*size))
        };
        let beside = |tick: &f64| {
            let attributes = r#"text-anchor="end" font-size="10.5""#;
            text(self.across.from - 7.0, self.upward.place(*tick) + 4.0, attributes, &number(*tick))
        };
        let all: Vec<String> = self.sizes.iter().map(below).chain(self.ticks.iter().map(beside)).collect();
        all.join("\n")
    }
}

/// Two or more of the numbers .., 0.5, 1, 2, 5, 10, .., the first at most the least and the last at least the greatest.
fn ticks(least: f64, greatest: f64) -> Vec<f64> {
    let lowest = least.log10().floor() as i32;
    let all = (lowest..).flat_map(|power| [1.0, 2.0, 5.0].map(|digit| digit * 10_f64.powi(power)));
    let mut ticks: Vec<f64> = vec![];
    for tick in all {
        if tick <= least {
            ticks.clear();
        }
        ticks.push(tick);
        if tick > least && tick >= greatest {
            break;
        }
    }
    ticks
}

/// As the documents write numbers.
fn number(number: f64) -> String {
    match number {
        ..1.0 => format!("{number}"),
        _ => show::number(number.round() as u64),
    }
}

fn text(across: f64, upward: f64, attributes: &str, words: &str) -> String {
    format!(r#"<text x="{across:.1}" y="{upward:.1}" {attributes}>{words}</text>"#)
}

type Place = (f64, f64);

enum Marker {
    Circle,
    Square,
    Triangle,
}

struct Look {
    colour: &'static str,
    marker: Marker,
}

impl Look {
    /// The first line is the original's; the last is told apart from one between them, which is of a library before.
    fn of(number: usize, lines: usize) -> Look {
        match number {
            0 => Look { colour: "#bc4c00", marker: Marker::Circle },
            _ if number + 1 == lines => Look { colour: "#0969da", marker: Marker::Square },
            _ => Look { colour: "#6e7781", marker: Marker::Triangle },
        }
    }

    /// A line through places, with markers.
    fn line(&self, places: &[Place], marked: &[Place]) -> String {
        let colour = self.colour;
        let places: Vec<String> = places.iter().map(|(x, y)| format!("{x:.1},{y:.1}")).collect();
        let markers: String = marked.iter().map(|place| self.marked(*place)).collect();
        format!(
            r#"<g stroke="{colour}" fill="{colour}"><polyline fill="none" stroke-width="2" points="{}"/>{markers}</g>"#,
            places.join(" ")
        )
    }

    fn marked(&self, (x, y): Place) -> String {
        match self.marker {
            Marker::Circle => format!(r#"<circle cx="{x:.1}" cy="{y:.1}" r="3.5"/>"#),
            Marker::Square => format!(r#"<rect x="{:.1}" y="{:.1}" width="6" height="6"/>"#, x - 3.0, y - 3.0),
            Marker::Triangle => format!(r#"<path d="M{x:.1} {:.1}l4 7h-8z"/>"#, y - 4.0),
        }
    }
}

/// Above the frames.
fn legend(lines: &[Line]) -> String {
    let part = |(number, line): (usize, &Line)| {
        let x = LEFT + number as f64 * LEGEND_STEP;
        let sample =
            Look::of(number, lines.len()).line(&[(x, LEGEND), (x + SAMPLE, LEGEND)], &[(x + SAMPLE / 2.0, LEGEND)]);
        sample + &text(x + SAMPLE + 8.0, LEGEND + 4.0, r#"text-anchor="start""#, &line.name)
    };
    lines.iter().enumerate().map(part).collect::<Vec<_>>().join("\n")
}

#[cfg(test)]
mod tests {
    use super::*;

    fn panels() -> Vec<Panel> {
        let line = |name: &str, points: &[(f64, f64)]| Line { name: name.to_string(), points: points.to_vec() };
        let panel = |title: &str, lines| Panel {
            title: title.to_string(),
            across: "bytes of the file".to_string(),
            upward: "nanoseconds a byte".to_string(),
            lines,
        };
        vec![
            panel(
                "parse",
                vec![line("original", &[(1e3, 17.0), (65_535.0, 48.0)]), line("ours", &[(1e3, 2.0), (65_535.0, 0.7)])],
            ),
            panel("step", vec![line("original", &[(1.0, 20.0), (8.0, 5.0)]), line("ours", &[(1.0, 9.0), (8.0, 1.0)])]),
        ]
    }

    #[test]
    fn the_first_and_the_last_point_are_on_the_edges_of_the_frame() {
        let frame = Frame::new(&panels()[0], 66.0, 454.0);
        let close = |place: f64, edge: f64| (place - edge).abs() < 1e-9;
        assert!(close(frame.across.place(1_000.0), 66.0) && close(frame.across.place(65_535.0), 454.0));
        assert_eq!(frame.ticks, [0.5, 1.0, 2.0, 5.0, 10.0, 20.0, 50.0]);
        assert!(close(frame.upward.place(0.5), BOTTOM) && close(frame.upward.place(50.0), TOP));
    }

    #[test]
    fn places_follow_the_order_of_numbers() {
        let scale = Scale { least: 1.0, greatest: 2_048.0, from: 10.0, to: 120.0 };
        let places: Vec<f64> = (1..=2_048).map(|number| scale.place(f64::from(number))).collect();
        assert!(places.is_sorted_by(|one, next| one < next));
        // each doubling is as long as the others
        assert!((scale.place(2.0) - 20.0).abs() < 1e-9 && (scale.place(1_024.0) - 110.0).abs() < 1e-9);
    }

    #[test]
    fn ticks_enclose_the_numbers() {
        assert_eq!(ticks(1.0, 1.0), [1.0, 2.0]);
        assert_eq!(ticks(2.1, 4.9), [2.0, 5.0]);
        assert_eq!(ticks(0.9, 50.0), [0.5, 1.0, 2.0, 5.0, 10.0, 20.0, 50.0]);
        assert_eq!(ticks(0.015, 0.03), [0.01, 0.02, 0.05]);
        assert_eq!(ticks(700.0, 1_001.0), [500.0, 1_000.0, 2_000.0]);
    }

    #[test]
    fn numbers_are_written_as_in_the_documents() {
        assert_eq!(
            [0.05, 0.5, 1.0, 20.0, 1_000.0, 65_535.0].map(number),
            ["0.05", "0.5", "1", "20", "1,000", "65,535"]
        );
        for power in -3..4 {
            assert!(ticks(10_f64.powi(power), 10_f64.powi(power + 1)).into_iter().all(|tick| number(tick).len() <= 6));
        }
    }

    /// The names of the elements that are opened; each is closed, in turn.
    fn elements(svg: &str) -> Vec<&str> {
        let (mut all, mut open) = (vec![], vec![]);
        for tag in svg.split('<').skip(1) {
            let (tag, _) = tag.split_once('>').expect("a tag has an end");
            assert_eq!(tag.matches('"').count() % 2, 0, "an attribute has no end: {tag}");
            let name = tag.split_whitespace().next().unwrap_or_default();
            if let Some(name) = name.strip_prefix('/') {
                assert_eq!(open.pop(), Some(name));
                continue;
            }
            all.push(name);
            if !tag.ends_with('/') {
                open.push(name);
            }
        }
        assert!(open.is_empty(), "left open: {open:?}");
        all
    }

    #[test]
    fn the_drawing_is_well_formed() {
        let svg = svg(&panels());
        let elements = elements(&svg);
        let count = |name: &str| elements.iter().filter(|element| **element == name).count();
        assert_eq!(elements[..2], ["svg", "rect"]);
        // of the legend, and of each panel
        assert_eq!((count("polyline"), count("circle")), (2 + 4, 1 + 4));
        assert!(svg.contains(">65,535</text>") && svg.contains(">nanoseconds a byte</text>"));
        assert!(!svg.contains("NaN") && !svg.contains("inf") && !svg.contains("script"));
        assert_eq!(svg, super::svg(&panels()));
    }

    #[test]
    fn three_lines_look_different() {
        let looks: Vec<&str> = (0..3).map(|number| Look::of(number, 3).colour).collect();
        assert!(looks[0] != looks[1] && looks[1] != looks[2] && looks[0] != looks[2]);
        assert_eq!(Look::of(1, 2).colour, looks[2]);
    }
}

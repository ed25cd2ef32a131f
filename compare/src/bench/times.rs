//! Times in turn, and the lines that tell them. All are microseconds a call.

use super::Side;
use super::shape::{Note, Shape, Work, plainly};
use crate::library::Library;
use crate::show;
use std::time::{Duration, Instant};

/// The original and each layout of each library have a turn in each round.
const ROUNDS: usize = 4;
/// A turn has so many repetitions, and goes on up to the short time; none begins after the long time.
const REPETITIONS: usize = 10;
const SHORT_TURN: Duration = Duration::from_millis(3);
const LONG_TURN: Duration = Duration::from_millis(100);
/// No round begins after this time.
const LONG_ROUNDS: Duration = Duration::from_secs(5);

/// The times of the layouts.
#[derive(Clone, Copy, Debug, PartialEq)]
pub struct Spread {
    least: f64,
    pub median: f64,
    greatest: f64,
}

impl Spread {
    pub fn of(mut times: Vec<f64>) -> Spread {
        times.sort_by(f64::total_cmp);
        let (half, last) = (times.len() / 2, times.len() - 1);
        let median = (times[last - half] + times[half]) / 2.0;
        Spread { least: times[0], median, greatest: times[last] }
    }
}

pub struct Times {
    pub original: f64,
    pub sides: Vec<Spread>,
    pub note: Option<f64>,
}

impl Times {
    /// Of the shortest times of so many calls.
    pub fn new(shortest: &[Duration], sides: &[Side], calls: u32) -> Times {
        let times: Vec<f64> = shortest.iter().map(|time| time.as_secs_f64() * 1e6 / f64::from(calls)).collect();
        let layouts = 1 + sides.iter().map(|side| side.layouts.len()).sum::<usize>();
        let of_side = |number: usize| times[1..layouts].iter().skip(number).step_by(sides.len()).copied().collect();
        Times {
            original: times[0],
            sides: (0..sides.len()).map(|number| Spread::of(of_side(number))).collect(),
            note: (times.len() > layouts).then(|| Spread::of(times[layouts..].to_vec()).median),
        }
    }
}

type Timer<'a> = Box<dyn Fn() -> Duration + 'a>;

/// Prints a shape's lines.
pub fn lines(shape: &Shape, sides: &[Side]) {
    let work = shape.work();
    let times = Times::new(&shortest(&work, sides), sides, shape.calls);
    println!("{}", line(&shape.name, work.bytes, &times));
    if let (Some(note), Some(time)) = (&work.note, times.note) {
        println!("    {}", note_line(note, time, &times));
    }
}

/// The shortest time of the original, of each layout of each library, and of what the note has.
pub fn shortest(work: &Work, sides: &[Side]) -> Vec<Duration> {
    let mut timers: Vec<Timer> = vec![Box::new(|| (work.original)(plainly))];
    // a layout of the library before has its turn next to the same layout of the one after
    for layout in 0..sides.first().map_or(0, |side| side.layouts.len()) {
        for side in sides {
            timers.push(Box::new(move || (work.ours)(&side.layouts[layout])));
        }
    }
    timers.extend(note_timers(work.note.as_ref(), sides));
    best_in_turn(&timers)
}

/// The sheet check is that of the last library.
fn note_timers<'a>(note: Option<&'a Note>, sides: &'a [Side]) -> Vec<Timer<'a>> {
    let timer = |check: &'a dyn Fn(&Library) -> Duration, library| Box::new(move || check(library)) as Timer;
    match (note, sides.last()) {
        (Some(Note::BareWalk(timer) | Note::TextCheck(timer)), _) => vec![Box::new(timer)],
        (Some(Note::SheetCheck(check)), Some(side)) => {
            side.layouts.iter().map(|library| timer(check, library)).collect()
        }
        _ => vec![],
    }
}

/// The shortest time of each.
fn best_in_turn(timers: &[Timer]) -> Vec<Duration> {
    let start = Instant::now();
    let mut best = vec![Duration::MAX; timers.len()];
    for _ in 0..ROUNDS {
        for (timer, best) in timers.iter().zip(&mut best) {
            *best = turn(timer).min(*best);
        }
        if start.elapsed() > LONG_ROUNDS {
            break;
        }
    }
    best
}

fn turn(timer: &Timer) -> Duration {
    let start = Instant::now();
    let mut best = Duration::MAX;
    for repetition in 1.. {
        best = best.min(timer());
        let time = start.elapsed();
        if time > LONG_TURN || repetition >= REPETITIONS && time > SHORT_TURN {
            break;
        }
    }
    best
}

/// Shape, bytes, original, each library, after ÷ before where there are two, original ÷ ours.
fn columns(name: &str, bytes: &str, original: &str, sides: &[String], ratios: &[String]) -> String {
    let sides: String = sides.iter().map(|side| format!(" {side:>34}")).collect();
    let ratios: String = ratios.iter().map(|ratio| format!(" {ratio:>15}")).collect();
    format!("{name:48} {bytes:>7} {original:>11}{sides}{ratios}")
}

pub fn title(sides: &[Side]) -> String {
    let names: Vec<String> = sides.iter().map(|side| format!("{}, median (least to greatest)", side.name)).collect();
    columns("shape", "bytes", "original", &names, &ratio_names(sides.len()))
}

fn line(name: &str, bytes: usize, times: &Times) -> String {
    let sides: Vec<String> = times.sides.iter().map(spread).collect();
    columns(name, &show::number(bytes as u64), &microseconds(times.original), &sides, &ratios(times))
}

/// What `ratios` tells of so many libraries.
pub fn ratio_names(sides: usize) -> Vec<String> {
    let names: &[&str] = match sides {
        0 => &[],
        1 => &["original ÷ ours"],
        _ => &["after ÷ before", "original ÷ after"],
    };
    names.iter().map(ToString::to_string).collect()
}

pub fn ratios(times: &Times) -> Vec<String> {
    let mut ratios = vec![];
    if let [before, after] = times.sides[..] {
        ratios.push(format!("{:.2}", after.median / before.median));
    }
    if let Some(ours) = times.sides.last() {
        ratios.push(format!("{:.2}", times.original / ours.median));
    }
    ratios
}

fn spread(times: &Spread) -> String {
    let [least, median, greatest] = [times.least, times.median, times.greatest].map(microseconds);
    format!("{median} ({least} to {greatest})")
}

fn note_line(note: &Note, time: f64, times: &Times) -> String {
    let told = microseconds(time);
    match note {
        Note::SheetCheck(_) => format!("pattern_test, which does little but the sheet check: {told} microseconds"),
        Note::BareWalk(_) => {
            let ratio = times.original / time;
            format!("a bare walk, which does less than a parse: {told} microseconds, original ÷ it {ratio:.2}")
        }
        Note::TextCheck(_) => {
            let ours = times.sides.last().map(|ours| format!(", it ÷ ours {:.2}", time / ours.median));
            format!("the original behind from_utf8 of the bytes: {told} microseconds{}", ours.unwrap_or_default())
        }
    }
}

fn microseconds(time: f64) -> String {
    match time {
        ..1.0 => format!("{time:.4}"),
        1.0..1_000.0 => format!("{time:.2}"),
        _ => show::number(time.round() as u64),
    }
}

pub fn legend(sides: &[Side]) -> String {
    let repetitions = ROUNDS * REPETITIONS;
    let layouts = sides.first().map_or(String::new(), |side| format!("; layouts of our code: {}", side.layouts.len()));
    format!(
        "Microseconds a call, in tables of growth nanoseconds a byte or a rule. On one core, the best of {repetitions} \
         repetitions or more, or of fewer where they take long{layouts}; {}.",
        original::ENGINE
    )
}

#[cfg(test)]
mod tests {
    use super::*;

    #[test]
    fn the_median_is_in_the_middle() {
        assert_eq!(Spread::of(vec![3.0]), Spread { least: 3.0, median: 3.0, greatest: 3.0 });
        assert_eq!(Spread::of(vec![5.0, 1.0, 2.0]), Spread { least: 1.0, median: 2.0, greatest: 5.0 });
        assert_eq!(Spread::of(vec![9.0, 1.0, 2.0, 4.0]), Spread { least: 1.0, median: 3.0, greatest: 9.0 });
    }

    #[test]
    fn times_are_microseconds_of_few_digits() {
        assert_eq!([0.03456, 12.345, 46_123.4].map(microseconds), ["0.0346", "12.35", "46,123"]);
    }

    #[test]
    fn a_line_has_both_ratios() {
        let side = |median| Spread { least: 1.0, median, greatest: 9.0 };
        let times = Times { original: 8.0, sides: vec![side(4.0), side(2.0)], note: None };
        let line = line("step: 10 rules", 1_234, &times);
        let told: Vec<&str> = line.split_whitespace().skip(3).collect();
        assert_eq!(told.join(" "), "1,234 8.00 4.00 (1.00 to 9.00) 2.00 (1.00 to 9.00) 0.50 4.00");
    }
}

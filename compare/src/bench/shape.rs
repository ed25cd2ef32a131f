//! What is timed and counted.

use super::growth::Point;
use crate::library::Library;
use std::time::{Duration, Instant};

/// Does the work that it is given, once.
pub type Around = fn(&mut dyn FnMut());

/// A line of the bench, or of a table of growth.
pub struct Shape {
    pub name: String,
    /// The function of our library that is called.
    pub function: &'static str,
    /// How often it is called.
    pub calls: u32,
    /// Whether it takes minutes to count.
    pub slow: bool,
    /// Where it shows how time grows.
    pub point: Option<Point>,
    make: Box<dyn Fn() -> Work>,
}

impl Shape {
    pub fn new(name: impl ToString, function: &'static str, calls: u32, make: impl Fn() -> Work + 'static) -> Shape {
        Shape { name: name.to_string(), function, calls, slow: false, point: None, make: Box::new(make) }
    }

    pub fn slow(self) -> Shape {
        Shape { slow: true, ..self }
    }

    pub fn at(self, point: Point) -> Shape {
        Shape { point: Some(point), ..self }
    }

    /// A shape is done with before the next is made: the original's loop has one table of lengths.
    pub fn work(&self) -> Work {
        (self.make)()
    }
}

/// The time of all calls, by the original and by a build of our library.
pub struct Work {
    pub bytes: usize,
    pub original: Box<dyn Fn(Around) -> Duration>,
    pub ours: Box<dyn Fn(&Library) -> Duration>,
    pub note: Option<Note>,
}

/// What else is timed.
pub enum Note {
    /// A walk that does less than a parse.
    BareWalk(Box<dyn Fn() -> Duration>),
    /// Another call that does the sheet check and little else.
    SheetCheck(Box<dyn Fn(&Library) -> Duration>),
    /// The original behind a check of UTF-8, which it takes for granted.
    TextCheck(Box<dyn Fn() -> Duration>),
}

pub fn plainly(work: &mut dyn FnMut()) {
    work();
}

/// What is prepared before and dropped after it is not in the time.
pub fn timed_by<P, R>(around: Around, prepare: impl Fn() -> P, run: impl Fn(&mut P) -> R) -> Duration {
    let mut prepared = prepare();
    let mut result = None;
    let start = Instant::now();
    around(&mut || result = Some(std::hint::black_box(run(&mut prepared))));
    let time = start.elapsed();
    drop(result);
    time
}

pub fn timed<P, R>(prepare: impl Fn() -> P, run: impl Fn(&mut P) -> R) -> Duration {
    timed_by(plainly, prepare, run)
}

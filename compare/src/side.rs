//! The side that is compared with the expected answer.

use crate::case::{Answer, Case};
use crate::misreadings::Misreading;
use crate::model::{self, Reading};

pub trait Side {
    fn name(&self) -> String;
    fn parse(&self, case: &Case) -> Answer;
}

/// The expected answer with one misreading of 01.
pub struct Misread(pub Misreading);

impl Side for Misread {
    fn name(&self) -> String {
        format!("{:?}", self.0)
    }

    fn parse(&self, case: &Case) -> Answer {
        model::answer(case, Reading::wrong(self.0))
    }
}

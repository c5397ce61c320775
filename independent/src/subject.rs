//! What a text holds, and what it is refused with.

use crate::refusal::Refusal;
use crate::{figure, limits, movement, pair};

/// A pair is a figure's record and then a movement.
#[derive(Clone, Copy, Debug, PartialEq, Eq)]
pub enum Subject {
    Figure,
    Movement,
    Pair,
}

impl Subject {
    /// The ending of a file that holds it.
    pub fn ending(self) -> &'static str {
        match self {
            Subject::Figure => "bac",
            Subject::Movement => "tra",
            Subject::Pair => "pair",
        }
    }

    /// What a text is refused with, if it is.
    pub fn refusal(self, text: &[u8]) -> Option<Refusal> {
        match self {
            Subject::Figure => figure::read(text, limits::FIGURE_ROOM).err(),
            Subject::Movement => movement::read(text, limits::MOVEMENT_ROOM).err(),
            Subject::Pair => pair::load_input(text).err().map(|found| found.refusal),
        }
    }
}

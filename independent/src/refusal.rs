//! Refusals: a number and a place.

/// Why a text is refused, and where.
#[derive(Clone, Copy, Debug, PartialEq, Eq)]
pub struct Refusal {
    pub number: u8,
    pub place: i64,
}

impl Refusal {
    pub fn new(number: u8, place: usize) -> Refusal {
        Refusal {
            number,
            place: place as i64,
        }
    }
}

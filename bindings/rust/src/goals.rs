//! Where a walk led.

use crate::archive::GOAL_NUMBERS;
use crate::limits::MOST_LINKS;
use crate::tables::{place, Place};

/// How many numbers tell one place: its directory, and the words of its name block.
const PLACE_NUMBERS: usize = 5;

/// What a walk came to.
#[derive(Clone, Debug, PartialEq, Eq, Hash)]
pub struct Goal {
    /// The node that the path leads to, 0 for an absence.
    pub node: u16,
    /// The end entry, present or absent; none where the path is `/` or its last link leads there.
    pub end: Option<Place>,
    /// The elements: the links that were followed, in the order met.
    pub elements: Vec<Place>,
}

impl Goal {
    /// The goal of a node and of the numbers that the archive tells with it.
    pub fn of_numbers(node: u16, numbers: &[u32; GOAL_NUMBERS]) -> Goal {
        let mut places = numbers[1..].chunks_exact(PLACE_NUMBERS);
        let one = |told: &[u32]| place(told[0] as u16, &told[1..]);
        let end = places.next().map(one).filter(|end| end.directory != 0);
        let count = (numbers[0] as usize).min(MOST_LINKS);
        Goal { node, end, elements: places.take(count).map(one).collect() }
    }
}

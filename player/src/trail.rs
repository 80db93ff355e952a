//! A path followed through the tables once more, to tell where and why the service stopped.

use std::collections::VecDeque;

use tickbutton::limits::MOST_LINKS;
use tickbutton::tables::{Kind, Place, Tables, START};

/// Where a path led.
pub struct Trail {
    /// The links followed, in the order met.
    pub links: Vec<Place>,
    /// Where it stopped.
    pub stop: Stop,
}

/// Why a path went no further.
pub enum Stop {
    /// It was `/`, or a link to it was the end.
    AtRoot,
    /// It ended at this entry, which leads to the node; 0 is an absence.
    AtEnd(Place, u16),
    /// One link too many stands here.
    NinthLink(Place),
    /// Nothing is here, but more names follow.
    Missing(Place),
    /// A file is here, but more names follow.
    IsFile(Place),
}

impl Trail {
    /// The end entry and its node, where the path has one.
    pub fn end(&self) -> Option<(&Place, u16)> {
        match &self.stop {
            Stop::AtEnd(place, node) => Some((place, *node)),
            _ => None,
        }
    }

    /// The links followed, each once, where it was met first.
    pub fn links_once(&self) -> impl Iterator<Item = &Place> {
        let is_first = |(met, place): &(usize, &Place)| !self.links[..*met].contains(place);
        self.links.iter().enumerate().filter(is_first).map(|(_, place)| place)
    }
}

/// Follows a valid path; a link at its end is followed where asked.
pub fn follow(tables: &Tables<'_>, path: &[u8], last_too: bool) -> Trail {
    let mut ahead = names(path);
    let mut directory = START;
    let mut links = Vec::new();
    while let Some(name) = ahead.pop_front() {
        let place = Place { directory, name };
        let number = tables.led_to(&place);
        let node = tables.node(number);
        let end = ahead.is_empty();
        match node.map(|node| (node.kind, node.target)) {
            Some((Kind::Link, target)) if !end || last_too => {
                if links.len() == MOST_LINKS {
                    return Trail { links, stop: Stop::NinthLink(place) };
                }
                links.push(place);
                if target.first() == Some(&b'/') {
                    directory = START;
                }
                let mut way = names(&target);
                way.append(&mut ahead);
                ahead = way;
            }
            _ if end => return Trail { links, stop: Stop::AtEnd(place, number) },
            None => return Trail { links, stop: Stop::Missing(place) },
            Some((Kind::File, _)) => return Trail { links, stop: Stop::IsFile(place) },
            Some(_) => directory = number,
        }
    }
    Trail { links, stop: Stop::AtRoot }
}

/// The names of a path or target.
fn names(path: &[u8]) -> VecDeque<Vec<u8>> {
    let names = path.split(|byte| *byte == b'/').filter(|name| !name.is_empty());
    names.map(<[u8]>::to_vec).collect()
}

//! Random sound tables that are heavy in links: chains and rings, relative and absolute, through
//! directories, to files, directories, `/` and absences, with hard links to links; and paths
//! that lead along them.

use super::Random;
use crate::limits::{START, TARGET_BYTES};
use crate::tables::{lowest_free, Entry, Kind, Node, Tables};

/// How many links a chain may have; eight can be followed.
const LONGEST_CHAIN: usize = 10;

/// Tables of links, with the paths of the directories and of all entries in them.
#[derive(Clone, Debug)]
pub struct LinkedTables {
    /// The tables.
    pub tables: Tables,
    /// Each directory's node and path, node 1 first with an empty one.
    directories: Vec<(u16, String)>,
    /// The path of every entry.
    paths: Vec<String>,
}

/// Random tables of links.
pub fn linked_tables(random: &mut Random) -> LinkedTables {
    let mut world = LinkedTables {
        tables: Tables::fresh(),
        directories: vec![(START, String::new())],
        paths: Vec::new(),
    };
    for number in 0..random.between(1, 4) {
        world.add_directory(random, format!("d{number}"));
    }
    for number in 0..random.between(1, 3) {
        world.add(random, format!("f{number}"), Kind::File, String::new());
    }
    for number in 0..random.between(1, 2) {
        world.add_chain(random, number);
    }
    for number in 0..random.below(6) {
        let target = world.some_target(random);
        world.add(random, format!("s{number}"), Kind::Link, target);
    }
    for number in 0..random.below(5) {
        world.add_hard_link(random, format!("h{number}"));
    }
    world
}

impl LinkedTables {
    /// A path: an entry's own, now and then with more names behind it, `/`, or an absence.
    pub fn some_path(&self, random: &mut Random) -> Vec<u8> {
        if random.percent(2) {
            return b"/".to_vec();
        }
        let mut path = random.pick(&self.paths).clone();
        while random.percent(30) {
            path.push('/');
            path.push_str(&self.some_name(random));
        }
        path.into_bytes()
    }

    /// The last name of some entry, or one that is nowhere.
    fn some_name(&self, random: &mut Random) -> String {
        if random.percent(25) {
            return "absent".to_string();
        }
        let path = random.pick(&self.paths);
        path.rsplit('/').next().unwrap_or_default().to_string()
    }

    /// Adds a node and its entry in some directory, and gives the directory's place and the node.
    fn add(
        &mut self,
        random: &mut Random,
        name: String,
        kind: Kind,
        target: String,
    ) -> (usize, u16) {
        let row = lowest_free(&self.tables.nodes).unwrap_or_default();
        let target = target.into_bytes();
        self.tables.nodes[row] = Some(Node { kind, entries: 0, target });
        let node = row as u16 + 1;
        (self.lead_to(random, name, node), node)
    }

    /// Adds an entry that leads to the node in some directory, and gives the directory's place.
    fn lead_to(&mut self, random: &mut Random, name: String, node: u16) -> usize {
        let place = random.below(self.directories.len());
        let (directory, path) = &self.directories[place];
        self.paths.push(format!("{path}/{name}"));
        let row = lowest_free(&self.tables.entries).unwrap_or_default();
        self.tables.entries[row] =
            Some(Entry { directory: *directory, name: name.into_bytes(), node });
        if let Some(used) = &mut self.tables.nodes[usize::from(node) - 1] {
            used.entries += 1;
        }
        place
    }

    /// Adds a directory.
    fn add_directory(&mut self, random: &mut Random, name: String) {
        let (place, node) = self.add(random, name.clone(), Kind::Directory, String::new());
        let path = format!("{}/{name}", self.directories[place].1);
        self.directories.push((node, path));
    }

    /// Adds a chain of links; each leads to the one before, and the first to the chain's end.
    fn add_chain(&mut self, random: &mut Random, number: usize) {
        let length = random.between(1, LONGEST_CHAIN);
        let ring = random.percent(15);
        let mut target = match ring {
            true => format!("c{number}x{}", random.below(length)),
            false => self.some_target(random),
        };
        for link in 0..length {
            let name = format!("c{number}x{link}");
            let (place, _) = self.add(random, name.clone(), Kind::Link, target);
            let path = format!("{}/{name}", self.directories[place].1);
            target = if place == 0 && random.percent(60) { name } else { path };
        }
    }

    /// Adds an entry that leads to a link that is there already.
    fn add_hard_link(&mut self, random: &mut Random, name: String) {
        let rows = self.tables.nodes.iter().enumerate();
        let is_link = |row: &Option<Node>| row.as_ref().is_some_and(|node| node.kind == Kind::Link);
        let links: Vec<u16> =
            rows.filter(|(_, row)| is_link(row)).map(|(row, _)| row as u16 + 1).collect();
        let node = *random.pick(&links);
        self.lead_to(random, name, node);
    }

    /// A target: `/`, an entry's path or name, a way through a directory, or an absence.
    fn some_target(&self, random: &mut Random) -> String {
        let mut target = match random.below(10) {
            0 => "/".to_string(),
            1 => "absent".to_string(),
            2 => "/absent/more".to_string(),
            3 | 4 => random.pick(&self.directories[1..]).1.clone(),
            5 => self.some_name(random),
            _ => random.pick(&self.paths).clone(),
        };
        if random.percent(15) && target != "/" {
            target = format!("{target}/{}", self.some_name(random));
        }
        if random.percent(20) && target.len() > 1 {
            target = target.trim_start_matches('/').to_string();
        }
        if target.len() > TARGET_BYTES {
            return "/".to_string();
        }
        target
    }
}

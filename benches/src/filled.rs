//! Tables to measure on, each made by calls through the service itself.

use tickbutton::limits::{LONGEST_PATH, LONGEST_RECORD, LONGEST_TARGET, MOST_LINKS};
use tickbutton::tables::{ENTRY_ROWS, HOLD_ROWS, NODE_ROWS, PROCESS_ROWS};
use tickbutton::{archive, Answer, Service};

/// Tables, the records that made them, and a check that finds its path held already.
pub struct Filled {
    pub words: Vec<u32>,
    pub records: Vec<u8>,
    pub check: Vec<u8>,
}

/// A record of the call.
pub fn packed(call: u32, process: u16, argument: u16, path1: &str, path2: &str) -> Vec<u8> {
    let mut record = vec![0; LONGEST_RECORD];
    match archive::pack(call, process, argument, path1.as_bytes(), path2.as_bytes(), &mut record) {
        Answer::Done(length) => record.truncate(length as usize),
        other => panic!("not packed: {other:?}"),
    }
    record
}

impl Filled {
    fn fresh() -> Filled {
        Filled { words: Service::new().into_words(), records: Vec::new(), check: Vec::new() }
    }

    fn call(&mut self, call: u32, process: u16, argument: u16, path1: &str, path2: &str) {
        let record = packed(call, process, argument, path1, path2);
        if let (Answer::Refused(number), _) = archive::serve(&mut self.words, &record) {
            panic!("call {call} of {path1} {path2} by process {process} is refused with {number}");
        }
        self.records.extend(record);
    }

    fn enter(&mut self, process: u16, user: u16) {
        self.call(1, process, user, "", "");
    }

    /// Drops the holds of process 1, which makes the tree.
    fn exec(&mut self) {
        self.call(3, 1, 0, "", "");
    }

    fn mkdir(&mut self, path: &str) {
        self.call(9, 1, 0, path, "");
        self.exec();
    }

    fn create(&mut self, path: &str) {
        self.call(8, 1, 0, path, "");
        self.exec();
    }

    fn symlink(&mut self, path: &str, target: &str) {
        self.call(10, 1, 0, path, target);
        self.exec();
    }

    fn link(&mut self, path: &str, old: &str) {
        self.call(11, 1, 0, path, old);
        self.exec();
    }

    fn check(&mut self, process: u16, path: &str) {
        self.call(5, process, 0, path, "");
        self.check = packed(5, process, 0, path, "");
    }

    /// Processes up to so many, each of its own user, and end holds on so many of these paths.
    fn hold(&mut self, processes: usize, holds: usize, paths: &[String]) {
        for process in 2..=processes as u16 {
            self.enter(process, process);
        }
        for (row, path) in paths[..holds].iter().enumerate() {
            self.check((2 + row % (processes - 1)) as u16, path);
        }
    }
}

/// Fresh tables.
pub fn fresh() -> Filled {
    Filled::fresh()
}

/// Fresh tables but for one process, which holds one absent name.
pub fn nearly_fresh() -> Filled {
    let mut filled = Filled::fresh();
    filled.enter(1, 1);
    filled.check(1, "/entry-of-00000");
    filled
}

/// Every table full (share 1) or half full (share 2), with names of 12 and 14 bytes, no links.
pub fn filled(share: usize) -> Filled {
    let (nodes, entries, directories) = (NODE_ROWS / share, ENTRY_ROWS / share, 16 / share);
    let mut filled = Filled::fresh();
    filled.enter(1, 0);
    for directory in 0..directories {
        filled.mkdir(&format!("/directory-{directory:02}"));
    }
    let mut paths = Vec::new();
    for node in 1 + directories..nodes {
        paths.push(format!("/directory-{:02}/entry-of-{node:05}", node % directories));
        filled.create(&paths[paths.len() - 1]);
    }
    for entry in directories + paths.len()..entries {
        let path = format!("/directory-{:02}/link-of-{entry:06}", entry % directories);
        filled.link(&path, &paths[entry % (nodes - 1 - directories)].clone());
        paths.push(path);
    }
    filled.hold(PROCESS_ROWS / share, HOLD_ROWS / share, &paths);
    filled
}

/// Full tables in which 120 of the nodes are links with targets of 60 bytes.
pub fn full_of_links() -> Filled {
    let mut filled = Filled::fresh();
    filled.enter(1, 0);
    let mut paths = Vec::new();
    for node in 2..=NODE_ROWS {
        let path = format!("/entry-of-{node:05}");
        if node % 2 == 0 && paths.len() > 16 {
            filled.symlink(
                &path,
                &format!("/directory-00/some-other-dir/entry-of-{node:05}/and/more/names"),
            );
        } else {
            filled.create(&path);
            paths.push(path);
        }
    }
    for entry in NODE_ROWS - 1..ENTRY_ROWS {
        let path = format!("/link-of-{entry:06}");
        filled.link(&path, &paths[entry % 100].clone());
        paths.push(path);
    }
    filled.hold(PROCESS_ROWS, HOLD_ROWS, &paths);
    filled
}

/// What the hashes of crates/index (by 1,021) and of the holds' chains (by 509) are taken of, for
/// names of 14 bytes in node 1 that differ in their last seven.
const BUCKETS: u64 = 1_021 * 509;
const THIRD: u64 = 389;
const FOURTH: u64 = 727;

/// So many names of 14 bytes that fall into one chain of entries and into one of holds.
fn names_of_one_chain(count: usize) -> Vec<String> {
    let letters: Vec<u8> =
        (b'a'..=b'z').chain(b'A'..=b'Z').chain(b'0'..=b'9').chain(*b"-_").collect();
    let letter = |number: usize, place: u32| letters[number / 64usize.pow(place) % 64];
    let mut by_rest = vec![None; BUCKETS as usize];
    for number in 0..64 * 64 * 64 {
        let bytes = [letter(number, 2), letter(number, 1), letter(number, 0)];
        let word = u64::from(u32::from_be_bytes([bytes[0], bytes[1], bytes[2], 0]));
        by_rest[(word * FOURTH % BUCKETS) as usize] = Some(bytes);
    }
    let mut names = Vec::new();
    for number in 0.. {
        let third = [letter(number, 3), letter(number, 2), letter(number, 1), letter(number, 0)];
        let rest = u64::from(u32::from_be_bytes(third)) * THIRD % BUCKETS;
        if let Some(fourth) = by_rest[((BUCKETS - rest) % BUCKETS) as usize] {
            names.push(
                String::from_utf8([b"entry-o".as_slice(), &third, &fourth].concat())
                    .expect("letters"),
            );
        }
        if names.len() == count {
            break;
        }
    }
    names
}

/// Full tables in which all entries are in one chain, and all holds.
pub fn one_chain() -> Filled {
    let mut filled = Filled::fresh();
    filled.enter(1, 0);
    let paths: Vec<String> =
        names_of_one_chain(ENTRY_ROWS).iter().map(|name| format!("/{name}")).collect();
    let files = NODE_ROWS - 1;
    for path in &paths[..files] {
        filled.create(path);
    }
    for (place, path) in paths[files..].iter().enumerate() {
        filled.link(path, &paths[place % files].clone());
    }
    filled.hold(2, HOLD_ROWS, &paths);
    filled
}

/// The most names of a path, and of a target: one byte each, and a slash before it.
const PATH_NAMES: usize = LONGEST_PATH / 2;
const TARGET_NAMES: usize = LONGEST_TARGET / 2;

/// A path of so many names, all of them `a` but the last.
fn path_of(names: usize, last: usize) -> String {
    format!("{}/{last}", "/a".repeat(names - 1))
}

/// Tables with a walk of the most names, and its path: 8 of its first names are links, each of which leads through a whole target and is left behind
/// before the next name.
pub fn long_walk() -> (Filled, Vec<u8>) {
    let mut filled = Filled::fresh();
    filled.enter(1, 0);
    let deep = "/a".repeat(TARGET_NAMES);
    let rest = PATH_NAMES - MOST_LINKS;
    for depth in 1..=TARGET_NAMES {
        filled.mkdir(&"/a".repeat(depth));
    }
    filled.symlink("/l", &deep);
    filled.symlink(&format!("{deep}/l"), &deep);
    for depth in 1..=rest {
        filled.mkdir(&format!("/l{}", "/a".repeat(depth)));
    }
    (filled, format!("{}{}", "/l".repeat(MOST_LINKS), "/a".repeat(rest)).into_bytes())
}

/// Tables with the deepest walk, and its path: the last of its names is a link, and the last of each target's names is the next one, so that each name
/// is looked up within the one before.
pub fn nested_walk() -> (Filled, Vec<u8>) {
    let mut filled = Filled::fresh();
    filled.enter(1, 0);
    for depth in 1..PATH_NAMES {
        filled.mkdir(&"/a".repeat(depth));
    }
    let path = path_of(PATH_NAMES, 1);
    filled.symlink(&path, &path_of(TARGET_NAMES, 2));
    for link in 2..=MOST_LINKS {
        filled.symlink(&path_of(TARGET_NAMES, link), &path_of(TARGET_NAMES, link + 1));
    }
    filled.create(&path_of(TARGET_NAMES, MOST_LINKS + 1));
    (filled, path.into_bytes())
}

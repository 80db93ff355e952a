//! What the tests share: a world that plays scripts of calls with their answers.
#![allow(dead_code)]

use reference::records::{assemble, CALLS};
use reference::tables::{used_rows, Hold, Role};
use reference::{serve, serve_tables, sound, Answer, Tables};

/// Tables as rows and as words, which every call must keep equal.
pub struct World {
    pub tables: Tables,
    pub words: Vec<u32>,
}

impl World {
    /// Fresh tables.
    pub fn fresh() -> World {
        World::of(Tables::fresh())
    }

    /// These tables, which must be sound.
    pub fn of(tables: Tables) -> World {
        let words = tables.pack();
        assert!(sound(&words));
        World { tables, words }
    }

    /// Serves a record on rows and on words, compares the two, and sees to it that a refusal
    /// changes nothing and that tables stay sound.
    pub fn serve(&mut self, record: &[u8]) -> (Answer, usize) {
        let before = self.words.clone();
        let answered = serve(&mut self.words, record);
        assert_eq!(answered, serve_tables(&mut self.tables, record));
        assert_eq!(self.words, self.tables.pack());
        if answered.0.is_refused() {
            assert_eq!(self.words, before);
        } else {
            assert!(sound(&self.words));
        }
        answered
    }

    /// Plays lines such as `10 mkdir /in -> done 2`; blank lines and comments are skipped.
    pub fn play(&mut self, script: &str) -> &mut World {
        for line in script.lines().map(str::trim) {
            if line.is_empty() || line.starts_with('#') {
                continue;
            }
            let (call, wanted) = line.split_once("->").expect("an arrow");
            let record = reference::text::record(call).expect("a call").expect("a call");
            let (answer, taken) = self.serve(&record);
            let found = format!("{} {}", answer.word(), answer.number());
            assert_eq!(found, wanted.trim(), "in {line}");
            let whole = if answer == Answer::Refused(17) { 0 } else { record.len() };
            assert_eq!(taken, whole, "taken in {line}");
        }
        self
    }

    /// How many hold rows are used.
    pub fn holds(&self) -> usize {
        used_rows(&self.tables.holds)
    }

    /// The used holds in row order, as process, directory, name and role.
    pub fn held(&self) -> Vec<(u16, u16, String, Role)> {
        self.tables.holds.iter().flatten().map(shown).collect()
    }

    /// Sees to it that a script changes no bit.
    pub fn unchanged(&mut self, script: &str) -> &mut World {
        let before = self.words.clone();
        self.play(script);
        assert_eq!(before, self.words, "changed by {script}");
        self
    }
}

/// A hold as process, directory, name and role.
fn shown(hold: &Hold) -> (u16, u16, String, Role) {
    let name = String::from_utf8_lossy(&hold.name).into_owned();
    (hold.process, hold.directory, name, hold.role)
}

/// A world after a script.
pub fn played(script: &str) -> World {
    let mut world = World::fresh();
    world.play(script);
    world
}

/// Root (10) made `/in` (node 2) and gave its holds up; 20 is of user 500 and 30 of 600.
pub fn three_users() -> World {
    played(
        "10 enter 0 -> done 10
         10 mkdir /in -> done 2
         10 exec -> done 10
         20 enter 500 -> done 20
         30 enter 600 -> done 30",
    )
}

/// The record of a call's word, whatever its fields.
pub fn record(word: &str, process: u16, argument: u16, path1: &[u8], path2: &[u8]) -> Vec<u8> {
    let place = CALLS.iter().position(|row| row.word == word).expect("a call");
    assemble(place as u64 + 1, process, argument, path1, path2).expect("short paths")
}

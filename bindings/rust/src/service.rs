//! A service that owns its tables.

use crate::limits::{HEAD, LONGEST_RECORD};
use crate::tables::{Tables, WORDS};
use crate::{archive, Answer, Call, Goal, Granted, Refusal};

/// The name guard with its own tables, which are sound at all times.
#[derive(Clone, Debug, PartialEq, Eq)]
pub struct Service {
    words: Vec<u32>,
}

impl Service {
    /// A service with fresh tables: the directory `/`, and nothing else.
    ///
    /// # Panics
    ///
    /// Where the archive refuses to make fresh tables of as many words as they have; it is proved
    /// not to.
    pub fn new() -> Service {
        let mut words = vec![0; WORDS];
        assert_eq!(archive::fresh(&mut words), Answer::Done(0), "fresh tables have {WORDS} words");
        Service { words }
    }

    /// A service that goes on from these words; refused where they are no sound tables.
    ///
    /// ```
    /// use tickbutton::{Call, Refusal, Service};
    ///
    /// let mut service = Service::new();
    /// service.call(&Call::Enter { process: 20, user: 500 })?;
    /// let words = service.into_words();
    /// let mut service = Service::from_words(words)?;
    /// let again = service.call(&Call::Enter { process: 20, user: 500 });
    /// assert_eq!(again, Err(Refusal::AlreadyListed));
    /// assert_eq!(Service::from_words(vec![7; 8_512]), Err(Refusal::Unsound));
    /// # Ok::<(), Refusal>(())
    /// ```
    pub fn from_words(words: Vec<u32>) -> Result<Service, Refusal> {
        match archive::sound(&words) {
            Answer::Done(_) => Ok(Service { words }),
            _ => Err(Refusal::Unsound),
        }
    }

    /// The words of the tables, to be stored.
    pub fn words(&self) -> &[u32] {
        &self.words
    }

    /// Gives the words back.
    pub fn into_words(self) -> Vec<u32> {
        self.words
    }

    /// What stands in the tables.
    pub fn tables(&self) -> Tables<'_> {
        Tables::of(&self.words)
    }

    /// Makes one call. A refusal changes nothing.
    ///
    /// ```
    /// use tickbutton::{Call, Granted, Service};
    ///
    /// let mut service = Service::new();
    /// service.call(&Call::Enter { process: 10, user: 0 })?;
    /// let made = service.call(&Call::Mkdir { process: 10, path: "/in".into() })?;
    /// assert_eq!(made, Granted::Done(2));
    /// # Ok::<(), tickbutton::Refusal>(())
    /// ```
    pub fn call(&mut self, call: &Call) -> Result<Granted, Refusal> {
        let mut record = [0; LONGEST_RECORD];
        let length = call.pack(&mut record)?;
        self.serve(&record[..length]).0.granted()
    }

    /// Serves the record at the front of the bytes: the answer, and the bytes taken.
    pub fn serve(&mut self, record: &[u8]) -> (Answer, usize) {
        archive::serve(&mut self.words, record)
    }

    /// Serves record after record as long as a whole one is left: the answers, and the bytes taken.
    /// The tables are tested once, not before each record.
    ///
    /// ```
    /// use tickbutton::{Answer, Call, Refusal, Service};
    ///
    /// let enter = Call::Enter { process: 20, user: 500 }.record()?;
    /// let cut_off = &enter[..3];
    /// let (answers, taken) = Service::new().serve_run(&[&enter, &enter, cut_off].concat());
    /// assert_eq!(answers, [Answer::Done(20), Answer::Refused(5)]);
    /// assert_eq!(taken, 2 * enter.len());
    /// # Ok::<(), Refusal>(())
    /// ```
    pub fn serve_run(&mut self, records: &[u8]) -> (Vec<Answer>, usize) {
        let mut slots = vec![0; records.len() / HEAD];
        let (served, taken) = archive::serve_run(&mut self.words, records, &mut slots);
        (slots[..served].iter().map(|slot| archive::told_answer(*slot)).collect(), taken)
    }

    /// Walks a path, a link at its last name too where that is asked, and tells where it leads.
    /// Takes no hold: what is told may change with the next call.
    ///
    /// ```
    /// use tickbutton::{Call, Refusal, Service};
    ///
    /// let mut service = Service::new();
    /// service.call(&Call::Enter { process: 10, user: 0 })?;
    /// service.call(&Call::Symlink { process: 10, path: "/way".into(), target: "/fox".into() })?;
    /// let goal = service.walk(b"/way", true)?;
    /// assert_eq!(goal.node, 0);
    /// assert_eq!(goal.end.map(|end| end.name), Some(b"fox".to_vec()));
    /// assert_eq!(goal.elements[0].name, b"way");
    /// # Ok::<(), Refusal>(())
    /// ```
    pub fn walk(&self, path: &[u8], follow_last: bool) -> Result<Goal, Refusal> {
        let mut numbers = [0; archive::GOAL_NUMBERS];
        match archive::walk(&self.words, path, follow_last, &mut numbers).granted()? {
            Granted::Held(node) | Granted::Seen(node) | Granted::Done(node) => {
                Ok(Goal::of_numbers(node, &numbers))
            }
        }
    }
}

impl Default for Service {
    /// A service with fresh tables.
    fn default() -> Service {
        Service::new()
    }
}

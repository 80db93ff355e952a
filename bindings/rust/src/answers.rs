//! What a call answers.

use std::fmt;

use crate::Refusal;

/// An answer as the archive tells it.
#[derive(Clone, Copy, Debug, PartialEq, Eq, Hash)]
pub enum Answer {
    /// The name is held for the caller's user: the node it leads to, 0 for an absence.
    Held(u32),
    /// Another user holds the name: the node it leads to, 0 for an absence.
    Seen(u32),
    /// The call was made: a node, a process, or a length.
    Done(u32),
    /// The call was not made, and nothing changed: the number of the reason.
    Refused(u32),
}

impl Answer {
    /// The word of the answer.
    pub fn word(self) -> &'static str {
        match self {
            Answer::Held(_) => "held",
            Answer::Seen(_) => "seen",
            Answer::Done(_) => "done",
            Answer::Refused(_) => "refused",
        }
    }

    /// The number behind the word.
    pub fn number(self) -> u32 {
        match self {
            Answer::Held(number)
            | Answer::Seen(number)
            | Answer::Done(number)
            | Answer::Refused(number) => number,
        }
    }

    /// The answer as a result: what was granted, or why it was refused.
    ///
    /// # Panics
    ///
    /// Where the archive gives a number that no answer of its rules has; it is proved not to.
    pub fn granted(self) -> Result<Granted, Refusal> {
        let small = |number| u16::try_from(number).expect("nodes and processes have 16 bits");
        match self {
            Answer::Held(node) => Ok(Granted::Held(small(node))),
            Answer::Seen(node) => Ok(Granted::Seen(small(node))),
            Answer::Done(number) => Ok(Granted::Done(small(number))),
            Answer::Refused(number) => {
                Err(Refusal::of_number(number).expect("refusals have the numbers 1 to 18"))
            }
        }
    }
}

impl fmt::Display for Answer {
    /// The word and the number, as in `held 0` and `refused 14`.
    fn fmt(&self, out: &mut fmt::Formatter<'_>) -> fmt::Result {
        write!(out, "{} {}", self.word(), self.number())
    }
}

/// The answer of a call that was granted.
#[derive(Clone, Copy, Debug, PartialEq, Eq, Hash)]
pub enum Granted {
    /// The name is held for the caller's user, and no other user but root can make it lead
    /// elsewhere: the node it leads to, 0 for an absence.
    Held(u16),
    /// Another user holds the name, and may change it: the node it leads to, 0 for an absence.
    Seen(u16),
    /// The call was made: the node that was made, linked or removed, or the process, or the child.
    Done(u16),
}

impl fmt::Display for Granted {
    /// The word and the number, as in `held 0`.
    fn fmt(&self, out: &mut fmt::Formatter<'_>) -> fmt::Result {
        match self {
            Granted::Held(node) => write!(out, "held {node}"),
            Granted::Seen(node) => write!(out, "seen {node}"),
            Granted::Done(number) => write!(out, "done {number}"),
        }
    }
}

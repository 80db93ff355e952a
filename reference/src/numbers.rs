//! Heading 'Numbers given back': answers and the reasons of refusal.

/// A call's answer; 'Forms by place in the code' asks for these four cases.
#[derive(Clone, Copy, Debug, PartialEq, Eq, Hash)]
pub enum Answer {
    /// Check, look or use that guards; carries the node, 0 for an absence.
    Held(u32),
    /// Check, look or use beside another user's end hold; carries the node.
    Seen(u32),
    /// Any other accepted call; carries a node, a process or a child.
    Done(u32),
    /// A refused call; carries the reason.
    Refused(u32),
}

impl Answer {
    /// 'The listing': the word printed for the answer.
    pub fn word(self) -> &'static str {
        match self {
            Answer::Held(_) => "held",
            Answer::Seen(_) => "seen",
            Answer::Done(_) => "done",
            Answer::Refused(_) => "refused",
        }
    }

    /// 'The listing': the number printed behind the word.
    pub fn number(self) -> u32 {
        match self {
            Answer::Held(number)
            | Answer::Seen(number)
            | Answer::Done(number)
            | Answer::Refused(number) => number,
        }
    }

    /// Whether the call was refused, so that nothing may have changed.
    pub fn is_refused(self) -> bool {
        matches!(self, Answer::Refused(_))
    }
}

/// Reason 1: the slice has another length, or its tables aren't sound.
pub const UNSOUND: u32 = 1;
/// Reason 2: a field of the record has a value it may not have.
pub const BAD_FIELD: u32 = 2;
/// Reason 3: a path or target that isn't valid.
pub const BAD_PATH: u32 = 3;
/// Reason 4: the calling process isn't listed.
pub const NOT_LISTED: u32 = 4;
/// Reason 5: the process to be listed is there already.
pub const ALREADY_LISTED: u32 = 5;
/// Reason 6: every process row is used.
pub const NO_PROCESS_ROW: u32 = 6;
/// Reason 7: the walk would follow one link too many.
pub const NINTH_LINK: u32 = 7;
/// Reason 8: the walk misses a name that isn't the last.
pub const NAME_MISSING: u32 = 8;
/// Reason 9: the walk finds a file at a name that isn't the last.
pub const NAME_IS_FILE: u32 = 9;
/// Reason 10: what is to be used, removed or linked is absent.
pub const ABSENT: u32 = 10;
/// Reason 11: what is to be created is present.
pub const PRESENT: u32 = 11;
/// Reason 12: the node is of a kind the call doesn't take.
pub const WRONG_KIND: u32 = 12;
/// Reason 13: the directory to be removed has entries.
pub const NOT_EMPTY: u32 = 13;
/// Reason 14: another user's hold stands against the call.
pub const HELD_BY_ANOTHER: u32 = 14;
/// Reason 15: no entry row or no node is free.
pub const NO_NAME_ROW: u32 = 15;
/// Reason 16: too few hold rows are free.
pub const NO_HOLD_ROW: u32 = 16;
/// Reason 17: fewer bytes than the record has.
pub const SHORT_RECORD: u32 = 17;
/// Reason 18: packing's destination is too short.
pub const SHORT_DESTINATION: u32 = 18;

//! Why a call was refused: the eighteen numbers and their short texts. include/tickbutton.h and
//! docs/SUPPORT.md have the same texts, and tests/texts.rs holds them to it.

use std::error::Error;
use std::fmt;

/// The reason of a refusal. Nothing was changed by the refused call.
#[derive(Clone, Copy, Debug, PartialEq, Eq, Hash, PartialOrd, Ord)]
pub enum Refusal {
    /// 1: the slice has not 8,512 words, or its tables are not sound.
    Unsound = 1,
    /// 2: a number of the call is one that it may not have.
    BadField = 2,
    /// 3: path 1, path 2 or a link's target is no valid one.
    BadPath = 3,
    /// 4: the calling process is not listed.
    NotListed = 4,
    /// 5: the process to be listed is listed already.
    AlreadyListed = 5,
    /// 6: the 64 process rows are all used.
    NoProcessRow = 6,
    /// 7: the path leads through a ninth link.
    NinthLink = 7,
    /// 8: a name before the last of the walk is missing.
    NameMissing = 8,
    /// 9: a name before the last of the walk is a file.
    NameIsFile = 9,
    /// 10: what is to be used, removed or linked is absent.
    Absent = 10,
    /// 11: what is to be made is there already.
    Present = 11,
    /// 12: a directory where none is taken, or none where one is asked for.
    WrongKind = 12,
    /// 13: the directory to be removed has entries.
    NotEmpty = 13,
    /// 14: a hold of another user is in the way.
    HeldByAnother = 14,
    /// 15: the 512 entry rows or the 256 nodes are all used.
    NoNameRow = 15,
    /// 16: fewer of the 256 hold rows are free than the call needs.
    NoHoldRow = 16,
    /// 17: there are fewer bytes than the record has.
    ShortRecord = 17,
    /// 18: packing only, the destination is shorter than the record.
    ShortDestination = 18,
}

impl Refusal {
    /// Every refusal, in the order of the numbers.
    pub const ALL: [Refusal; 18] = [
        Refusal::Unsound,
        Refusal::BadField,
        Refusal::BadPath,
        Refusal::NotListed,
        Refusal::AlreadyListed,
        Refusal::NoProcessRow,
        Refusal::NinthLink,
        Refusal::NameMissing,
        Refusal::NameIsFile,
        Refusal::Absent,
        Refusal::Present,
        Refusal::WrongKind,
        Refusal::NotEmpty,
        Refusal::HeldByAnother,
        Refusal::NoNameRow,
        Refusal::NoHoldRow,
        Refusal::ShortRecord,
        Refusal::ShortDestination,
    ];

    /// The refusal of a number, if it is 1 to 18.
    pub fn of_number(number: u32) -> Option<Refusal> {
        Refusal::ALL.into_iter().find(|refusal| refusal.number() == number)
    }

    /// The number, 1 to 18.
    pub fn number(self) -> u32 {
        self as u32
    }

    /// The short text, as `Display` prints it.
    pub fn text(self) -> &'static str {
        match self {
            Refusal::Unsound => "the tables are damaged",
            Refusal::BadField => "a number in the call is not allowed",
            Refusal::BadPath => "a path is not written as paths must be",
            Refusal::NotListed => "the process is not listed",
            Refusal::AlreadyListed => "the process is listed already",
            Refusal::NoProcessRow => "there is no room for another process",
            Refusal::NinthLink => "the path leads through more than 8 links",
            Refusal::NameMissing => "a name on the way is missing",
            Refusal::NameIsFile => "a name on the way is a file",
            Refusal::Absent => "there is nothing by that name",
            Refusal::Present => "the name is taken already",
            Refusal::WrongKind => "what is there is not of the kind that the call takes",
            Refusal::NotEmpty => "the directory is not empty",
            Refusal::HeldByAnother => "another user holds the name",
            Refusal::NoNameRow => "there is no room for another name",
            Refusal::NoHoldRow => "there is no room for another hold",
            Refusal::ShortRecord => "the record is cut off",
            Refusal::ShortDestination => "the record does not fit where it should go",
        }
    }
}

impl fmt::Display for Refusal {
    /// The short text.
    fn fmt(&self, out: &mut fmt::Formatter<'_>) -> fmt::Result {
        out.write_str(self.text())
    }
}

impl Error for Refusal {}

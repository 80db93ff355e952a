//! The thirteen calls.

use std::error::Error;
use std::fmt;

use crate::limits::LONGEST_RECORD;
use crate::{archive, Answer, Refusal};

/// One call. Any numbers and bytes may stand in it; what is not allowed is refused when the call
/// is made. `process` is the one that calls, and `path` is path 1. A path is bytes:
/// `"/in/fox".into()`.
#[allow(missing_docs)]
#[derive(Clone, Debug, PartialEq, Eq, Hash)]
pub enum Call {
    /// Call 1: the process is listed as one of the user; user 0 is root.
    Enter { process: u16, user: u16 },
    /// Call 2: the child is listed with the user of the process and copies of its holds.
    Fork { process: u16, child: u16 },
    /// Call 3: the process lets go of its holds.
    Exec { process: u16 },
    /// Call 4: the process lets go of its holds and is listed no more.
    Exit { process: u16 },
    /// Call 5: the path is looked up, a link at its end followed, and what it leads to is held.
    Check { process: u16, path: Vec<u8> },
    /// Call 6: as check, but a link at its end is not followed.
    Look { process: u16, path: Vec<u8> },
    /// Call 7: as check, but something must be there.
    Use { process: u16, path: Vec<u8> },
    /// Call 8: a new file.
    Create { process: u16, path: Vec<u8> },
    /// Call 9: a new directory.
    Mkdir { process: u16, path: Vec<u8> },
    /// Call 10: a new link to the target, which need not be there.
    Symlink { process: u16, path: Vec<u8>, target: Vec<u8> },
    /// Call 11: a new name for the file or link that has the old path.
    Link { process: u16, path: Vec<u8>, old: Vec<u8> },
    /// Call 12: the name of a file or link is removed.
    Unlink { process: u16, path: Vec<u8> },
    /// Call 13: an empty directory is removed.
    Rmdir { process: u16, path: Vec<u8> },
}

/// Why no call was read, and how many bytes were taken all the same: the record's, or none where
/// it is cut off, so that a loop over a stream has to stop there.
#[derive(Clone, Copy, Debug, PartialEq, Eq, Hash)]
pub struct NotRead {
    /// The reason.
    pub refusal: Refusal,
    /// The bytes taken.
    pub taken: usize,
}

impl fmt::Display for NotRead {
    /// The refusal's short text and the bytes taken.
    fn fmt(&self, out: &mut fmt::Formatter<'_>) -> fmt::Result {
        write!(out, "{}, {} bytes taken", self.refusal, self.taken)
    }
}

impl Error for NotRead {}

/// A call as the fields of its record; what it has not is 0 or empty.
#[derive(Clone, Copy, Debug, PartialEq, Eq)]
pub(crate) struct Fields<'call> {
    pub number: u32,
    pub process: u16,
    pub argument: u16,
    pub path1: &'call [u8],
    pub path2: &'call [u8],
}

impl Call {
    /// The number of the call, 1 to 13.
    pub fn number(&self) -> u32 {
        self.fields().number
    }

    /// The calling process; for enter, the one that is to be listed.
    pub fn process(&self) -> u16 {
        self.fields().process
    }

    /// Path 1, where the call has one.
    pub fn path(&self) -> Option<&[u8]> {
        let fields = self.fields();
        (fields.number >= 5).then_some(fields.path1)
    }

    /// The record of the call; refused as a bad field or a bad path.
    ///
    /// ```
    /// use tickbutton::Call;
    ///
    /// let call = Call::Check { process: 20, path: "/in/fox".into() };
    /// let record = call.record().expect("a valid call");
    /// assert_eq!(record, b"\x28\x00\xA0\x00\x00\x38\x00/in/fox");
    /// ```
    pub fn record(&self) -> Result<Vec<u8>, Refusal> {
        let mut record = vec![0; LONGEST_RECORD];
        let length = self.pack(&mut record)?;
        record.truncate(length);
        Ok(record)
    }

    /// Packs the record into the front of the destination: its length, or the refusal, and then
    /// nothing is written.
    pub fn pack(&self, destination: &mut [u8]) -> Result<usize, Refusal> {
        let Fields { number, process, argument, path1, path2 } = self.fields();
        match archive::pack(number, process, argument, path1, path2, destination) {
            Answer::Refused(number) => {
                Err(Refusal::of_number(number).expect("packing refuses with 2, 3 or 18"))
            }
            length => Ok(length.number() as usize),
        }
    }

    /// Reads the record at the front of the bytes: the call and the bytes taken.
    ///
    /// ```
    /// use tickbutton::{Call, NotRead, Refusal};
    ///
    /// let read = Call::read(b"\x28\x00\xA0\x00\x00\x38\x00/in/fox and more");
    /// assert_eq!(read, Ok((Call::Check { process: 20, path: "/in/fox".into() }, 14)));
    /// let cut_off = NotRead { refusal: Refusal::ShortRecord, taken: 0 };
    /// assert_eq!(Call::read(b"\x28\x00"), Err(cut_off));
    /// ```
    pub fn read(bytes: &[u8]) -> Result<(Call, usize), NotRead> {
        let (answer, taken, [process, argument, start1, length1, start2, length2]) =
            archive::read(bytes);
        let part = |start, length| bytes[start as usize..][..length as usize].to_vec();
        match answer {
            Answer::Refused(number) => {
                let refusal = Refusal::of_number(number).expect("reading refuses with 17, 2 or 3");
                Err(NotRead { refusal, taken })
            }
            number => {
                let paths = [part(start1, length1), part(start2, length2)];
                let call = Call::of_fields(number.number(), process as u16, argument as u16, paths);
                Ok((call.expect("an accepted record has a call 1 to 13"), taken))
            }
        }
    }

    /// The fields of the call's record.
    pub(crate) fn fields(&self) -> Fields<'_> {
        let with = |number, process, argument, path1, path2| Fields {
            number,
            process,
            argument,
            path1,
            path2,
        };
        match self {
            Call::Enter { process, user } => with(1, *process, *user, &[], &[]),
            Call::Fork { process, child } => with(2, *process, *child, &[], &[]),
            Call::Exec { process } => with(3, *process, 0, &[], &[]),
            Call::Exit { process } => with(4, *process, 0, &[], &[]),
            Call::Check { process, path } => with(5, *process, 0, path, &[]),
            Call::Look { process, path } => with(6, *process, 0, path, &[]),
            Call::Use { process, path } => with(7, *process, 0, path, &[]),
            Call::Create { process, path } => with(8, *process, 0, path, &[]),
            Call::Mkdir { process, path } => with(9, *process, 0, path, &[]),
            Call::Symlink { process, path, target } => with(10, *process, 0, path, target),
            Call::Link { process, path, old } => with(11, *process, 0, path, old),
            Call::Unlink { process, path } => with(12, *process, 0, path, &[]),
            Call::Rmdir { process, path } => with(13, *process, 0, path, &[]),
        }
    }

    /// The call of a number; what it has not is left out. Nothing for another number.
    pub(crate) fn of_fields(
        number: u32,
        process: u16,
        argument: u16,
        [path, second]: [Vec<u8>; 2],
    ) -> Option<Call> {
        Some(match number {
            1 => Call::Enter { process, user: argument },
            2 => Call::Fork { process, child: argument },
            3 => Call::Exec { process },
            4 => Call::Exit { process },
            5 => Call::Check { process, path },
            6 => Call::Look { process, path },
            7 => Call::Use { process, path },
            8 => Call::Create { process, path },
            9 => Call::Mkdir { process, path },
            10 => Call::Symlink { process, path, target: second },
            11 => Call::Link { process, path, old: second },
            12 => Call::Unlink { process, path },
            13 => Call::Rmdir { process, path },
            _ => return None,
        })
    }
}

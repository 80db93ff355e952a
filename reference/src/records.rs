//! Heading 'The thirteen calls': the table of calls and the packed record.

use crate::limits::HEADER_BYTES;
use crate::numbers::{BAD_FIELD, BAD_PATH, SHORT_DESTINATION, SHORT_RECORD};
use crate::paths::{valid_path, valid_target};

/// The thirteen calls by name.
#[derive(Clone, Copy, Debug, PartialEq, Eq, Hash)]
pub enum CallName {
    /// Call 1: a process is listed.
    Enter,
    /// Call 2: a child is listed with copies of holds.
    Fork,
    /// Call 3: holds are given up.
    Exec,
    /// Call 4: holds and the process are given up.
    Exit,
    /// Call 5: a path is guarded, a last link followed.
    Check,
    /// Call 6: a path is guarded, a last link not followed.
    Look,
    /// Call 7: what is present is guarded, a last link followed.
    Use,
    /// Call 8: a new file.
    Create,
    /// Call 9: a new directory.
    Mkdir,
    /// Call 10: a new link with a target.
    Symlink,
    /// Call 11: a new entry for an old node.
    Link,
    /// Call 12: removal of a file's or link's entry.
    Unlink,
    /// Call 13: removal of an empty directory.
    Rmdir,
}

/// The column 'class'.
#[derive(Clone, Copy, Debug, PartialEq, Eq)]
pub enum Class {
    /// Calls 1 to 4.
    Process,
    /// Calls 5 and 6.
    Check,
    /// Call 7.
    Use,
    /// Calls 8 to 11.
    Creation,
    /// Calls 12 and 13.
    Removal,
}

/// What a cell of the column 'argument' asks for.
#[derive(Clone, Copy, Debug, PartialEq, Eq)]
pub enum ArgumentCell {
    /// The argument must be 0.
    Blank,
    /// The user of an entering process, any number.
    User,
    /// The child's process number, not 0.
    Child,
}

/// What a cell of the columns 'path 1' and 'path 2' asks for.
#[derive(Clone, Copy, Debug, PartialEq, Eq)]
pub enum PathCell {
    /// The length must be 0.
    Blank,
    /// A valid path.
    Path,
    /// A valid target.
    Target,
}

/// One row of the table of calls.
#[derive(Clone, Copy, Debug)]
pub struct CallRow {
    /// Which call the row is about.
    pub name: CallName,
    /// The call's word in text.
    pub word: &'static str,
    /// The call's class.
    pub class: Class,
    /// The cell 'argument'.
    pub argument: ArgumentCell,
    /// The cell 'path 1'.
    pub path1: PathCell,
    /// The cell 'path 2'.
    pub path2: PathCell,
}

/// Makes one row of the table of calls.
const fn row(
    name: CallName,
    word: &'static str,
    class: Class,
    argument: ArgumentCell,
    path1: PathCell,
    path2: PathCell,
) -> CallRow {
    CallRow { name, word, class, argument, path1, path2 }
}

use ArgumentCell::{Blank as NoArgument, Child, User};
use PathCell::{Blank as NoPath, Path, Target};

/// The table of calls; call number n is row n - 1.
pub const CALLS: [CallRow; 13] = [
    row(CallName::Enter, "enter", Class::Process, User, NoPath, NoPath),
    row(CallName::Fork, "fork", Class::Process, Child, NoPath, NoPath),
    row(CallName::Exec, "exec", Class::Process, NoArgument, NoPath, NoPath),
    row(CallName::Exit, "exit", Class::Process, NoArgument, NoPath, NoPath),
    row(CallName::Check, "check", Class::Check, NoArgument, Path, NoPath),
    row(CallName::Look, "look", Class::Check, NoArgument, Path, NoPath),
    row(CallName::Use, "use", Class::Use, NoArgument, Path, NoPath),
    row(CallName::Create, "create", Class::Creation, NoArgument, Path, NoPath),
    row(CallName::Mkdir, "mkdir", Class::Creation, NoArgument, Path, NoPath),
    row(CallName::Symlink, "symlink", Class::Creation, NoArgument, Path, Target),
    row(CallName::Link, "link", Class::Creation, NoArgument, Path, Path),
    row(CallName::Unlink, "unlink", Class::Removal, NoArgument, Path, NoPath),
    row(CallName::Rmdir, "rmdir", Class::Removal, NoArgument, Path, NoPath),
];

/// The row of a call number, if it is 1 to 13.
pub fn row_of_number(number: u64) -> Option<&'static CallRow> {
    CALLS.iter().zip(1u64..).find(|(_, place)| *place == number).map(|(row, _)| row)
}

/// The row of a call.
pub fn row_of_name(name: CallName) -> &'static CallRow {
    &CALLS[name as usize]
}

/// The number of a call, 1 to 13.
pub fn number_of_name(name: CallName) -> u64 {
    name as u64 + 1
}

/// An accepted record, taken apart.
#[derive(Clone, Debug, PartialEq, Eq)]
pub struct Call {
    /// Which of the thirteen calls.
    pub name: CallName,
    /// The calling process.
    pub process: u16,
    /// The user or child, else 0.
    pub argument: u16,
    /// Path 1, or empty.
    pub path1: Vec<u8>,
    /// Path 2, or empty.
    pub path2: Vec<u8>,
}

/// The first 7 bytes of a record as fields, whatever their values.
#[derive(Clone, Copy, Debug, PartialEq, Eq)]
pub struct Header {
    /// Call number, 5 bits.
    pub call: u64,
    /// Process, 16 bits.
    pub process: u16,
    /// Argument, 16 bits.
    pub argument: u16,
    /// Length of path 1.
    pub length1: u8,
    /// Length of path 2.
    pub length2: u8,
    /// The 3 bits that ought to be zero.
    pub zero_bits: u8,
}

impl Header {
    /// Takes the fields out of the first 7 bytes, most significant bit first;
    /// nothing if there are fewer.
    pub fn read(record: &[u8]) -> Option<Header> {
        let bytes = record.get(..HEADER_BYTES)?;
        let bits = bytes.iter().fold(0u64, |bits, byte| bits << 8 | u64::from(*byte));
        Some(Header {
            call: bits >> 51 & 0x1F,
            process: (bits >> 35) as u16,
            argument: (bits >> 19) as u16,
            length1: (bits >> 11) as u8,
            length2: (bits >> 3) as u8,
            zero_bits: (bits & 7) as u8,
        })
    }

    /// The 7 bytes of the fields.
    pub fn bytes(&self) -> [u8; HEADER_BYTES] {
        let bits = (self.call & 0x1F) << 51
            | u64::from(self.process) << 35
            | u64::from(self.argument) << 19
            | u64::from(self.length1) << 11
            | u64::from(self.length2) << 3
            | u64::from(self.zero_bits & 7);
        let mut bytes = [0; HEADER_BYTES];
        bytes.copy_from_slice(&bits.to_be_bytes()[1..]);
        bytes
    }

    /// The record's full length by its own lengths.
    pub fn full_length(&self) -> usize {
        HEADER_BYTES + usize::from(self.length1) + usize::from(self.length2)
    }
}

/// Whether a path's emptiness fits a blank cell.
fn blank_respected(cell: PathCell, path: &[u8]) -> bool {
    cell != PathCell::Blank || path.is_empty()
}

/// Whether a path is valid for its cell; a blank cell was judged before.
fn path_fits(cell: PathCell, path: &[u8]) -> bool {
    match cell {
        PathCell::Blank => true,
        PathCell::Path => valid_path(path),
        PathCell::Target => valid_target(path),
    }
}

/// 'Numbers given back': the tests 2 (zero bits aside) and 3, shared by reading and packing.
fn judge(
    call: u64,
    process: u16,
    argument: u16,
    path1: &[u8],
    path2: &[u8],
) -> Result<&'static CallRow, u32> {
    let row = row_of_number(call).ok_or(BAD_FIELD)?;
    let argument_fits = match row.argument {
        ArgumentCell::Blank => argument == 0,
        ArgumentCell::User => true,
        ArgumentCell::Child => argument != 0,
    };
    let blanks = blank_respected(row.path1, path1) && blank_respected(row.path2, path2);
    if process == 0 || !argument_fits || !blanks {
        return Err(BAD_FIELD);
    }
    if !path_fits(row.path1, path1) || !path_fits(row.path2, path2) {
        return Err(BAD_PATH);
    }
    Ok(row)
}

/// Reads one record from the front of the bytes: the call and the bytes taken, or the
/// refusal (17, 2 or 3) and the bytes taken. Bytes behind the record don't count.
pub fn read(record: &[u8]) -> Result<(Call, usize), (u32, usize)> {
    let header = Header::read(record).ok_or((SHORT_RECORD, 0))?;
    let taken = header.full_length();
    let paths = record.get(HEADER_BYTES..taken).ok_or((SHORT_RECORD, 0))?;
    let (path1, path2) = paths.split_at(usize::from(header.length1));
    if header.zero_bits != 0 {
        return Err((BAD_FIELD, taken));
    }
    let row = judge(header.call, header.process, header.argument, path1, path2)
        .map_err(|number| (number, taken))?;
    let call = Call {
        name: row.name,
        process: header.process,
        argument: header.argument,
        path1: path1.to_vec(),
        path2: path2.to_vec(),
    };
    Ok((call, taken))
}

/// 'Numbers given back': packs a record into the front of the destination and answers its
/// length; tests 2, 3 and 18 in this order, and a refusal writes nothing.
pub fn pack(
    call: u64,
    process: u16,
    argument: u16,
    path1: &[u8],
    path2: &[u8],
    destination: &mut [u8],
) -> Result<usize, u32> {
    judge(call, process, argument, path1, path2)?;
    let record = assemble(call, process, argument, path1, path2).ok_or(BAD_PATH)?;
    let place = destination.get_mut(..record.len()).ok_or(SHORT_DESTINATION)?;
    place.copy_from_slice(&record);
    Ok(record.len())
}

/// The bytes of a record without any test but that the lengths fit their 8 bits.
pub fn assemble(
    call: u64,
    process: u16,
    argument: u16,
    path1: &[u8],
    path2: &[u8],
) -> Option<Vec<u8>> {
    let length1 = u8::try_from(path1.len()).ok()?;
    let length2 = u8::try_from(path2.len()).ok()?;
    let header = Header { call, process, argument, length1, length2, zero_bits: 0 };
    Some([&header.bytes()[..], path1, path2].concat())
}

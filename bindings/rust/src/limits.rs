//! How long things may be, and how many links a walk follows. include/tickbutton.h has the same
//! numbers, and tests/texts.rs holds it to them.

/// The bytes of the longest name.
pub const LONGEST_NAME: usize = 14;
/// The bytes of the longest target of a link.
pub const LONGEST_TARGET: usize = 64;
/// The bytes of the longest path.
pub const LONGEST_PATH: usize = 255;
/// The most links that one walk follows.
pub const MOST_LINKS: usize = 8;
/// The bytes of a record in front of its paths.
pub const HEAD: usize = 7;
/// The bytes of the longest record.
pub const LONGEST_RECORD: usize = HEAD + 2 * LONGEST_PATH;
/// The bytes of stack that are enough for every function of the archive. The deepest walk takes
/// 10 KiB of them (docs/BENCHMARKS.md).
pub const STACK: usize = 32768;

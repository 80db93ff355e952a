//! Heading 'Paths': valid names, paths and targets, and the names of a path.

use crate::limits::{NAME_BYTES, PATH_BYTES, TARGET_BYTES};

/// A name: 1 to 14 bytes, no zero byte, no slash, and neither `.` nor `..`.
pub fn valid_name(name: &[u8]) -> bool {
    !name.is_empty()
        && name.len() <= NAME_BYTES
        && !name.contains(&0)
        && !name.contains(&b'/')
        && name != b"."
        && name != b".."
}

/// Valid names with one slash between each two; at least one name.
fn valid_names(bytes: &[u8]) -> bool {
    bytes.split(|byte| *byte == b'/').all(valid_name)
}

/// A path without its limit of length: a slash alone, or a slash and names.
fn rooted(bytes: &[u8]) -> bool {
    match bytes.split_first() {
        Some((b'/', [])) => true,
        Some((b'/', rest)) => valid_names(rest),
        _ => false,
    }
}

/// A path: rooted, and at most 255 bytes.
pub fn valid_path(path: &[u8]) -> bool {
    path.len() <= PATH_BYTES && rooted(path)
}

/// A target: at most 64 bytes, rooted or names alone.
pub fn valid_target(target: &[u8]) -> bool {
    target.len() <= TARGET_BYTES && (rooted(target) || valid_names(target))
}

/// The names of a valid path or target from first to last; `/` has none.
pub fn names(path: &[u8]) -> Vec<Vec<u8>> {
    path.split(|byte| *byte == b'/')
        .filter(|name| !name.is_empty())
        .map(|name| name.to_vec())
        .collect()
}

/// Whether a valid target is walked from node 1 and not from its directory.
pub fn is_absolute(target: &[u8]) -> bool {
    target.first() == Some(&b'/')
}

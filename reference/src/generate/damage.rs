//! Damaged records. Each keeps its bytes as many as its own lengths say, so that the records
//! behind it are still met.

use super::Random;
use crate::limits::HEADER_BYTES;
use crate::records::Header;

/// Paths that aren't valid, and a few that just are.
const PATHS: [&[u8]; 22] = [
    b"",
    b"in",
    b"//",
    b"/in/",
    b"//in",
    b"/in//fox",
    b"/.",
    b"/..",
    b"/in/.",
    b"/in/..",
    b"/./in",
    b"/../in",
    b"/...",
    b"/in/.fox",
    b"/\0",
    b"/in\0fox",
    b"/in/fox\0",
    b"/fifteen-bytes--",
    b"/fourteen-bytes",
    b"/in/fifteen-bytes--",
    b"\xFF",
    b"/\xFF\x01 \\",
];

/// What a path is filled up with where its length was raised.
const FILLINGS: [&[u8; 2]; 5] = [b"/a", b"ab", b"//", b"a/", b"\0/"];

/// Damages a record in one of several ways.
pub fn damage(random: &mut Random, record: &mut Vec<u8>) {
    let Some(mut header) = Header::read(record) else {
        return;
    };
    let mut paths = record.split_off(HEADER_BYTES);
    match random.below(9) {
        0 => header.call = *random.pick(&[0, 14, 15, 16, 20, 30, 31]),
        1 => header.process = 0,
        2 => header.argument = *random.pick(&[0, 1, 20, 0x8000, 0xFFFF]),
        3 => header.zero_bits = random.between(1, 7) as u8,
        4 => header = with_flipped_bit(random, &header),
        5 => header.length1 = random.between(0, 255) as u8,
        6 => header.length2 = *random.pick(&[0, 1, 3, 64, 65, 255]),
        7 => damage_byte(random, &mut paths),
        _ => replace_path(random, &mut header, &mut paths),
    }
    let wanted = header.full_length() - HEADER_BYTES;
    let filling = random.pick(&FILLINGS).iter().cycle().take(wanted.saturating_sub(paths.len()));
    paths.extend(filling);
    paths.truncate(wanted);
    record.clear();
    record.extend(header.bytes());
    record.extend(paths);
}

/// The header with one of its 56 bits turned.
fn with_flipped_bit(random: &mut Random, header: &Header) -> Header {
    let mut bytes = header.bytes();
    bytes[random.below(HEADER_BYTES)] ^= 1 << random.below(8);
    Header::read(&bytes).unwrap_or(*header)
}

/// Sets one byte of the paths to a value that often hurts.
fn damage_byte(random: &mut Random, paths: &mut [u8]) {
    if !paths.is_empty() {
        let place = random.below(paths.len());
        paths[place] = *random.pick(b"\0/..a\xFF");
    }
}

/// Puts an odd path, or one at the limits of length, in the place of path 1 or path 2.
fn replace_path(random: &mut Random, header: &mut Header, paths: &mut Vec<u8>) {
    let path = match random.below(4) {
        0 => b"/thirteen-long".iter().cycle().take(random.between(250, 255)).copied().collect(),
        1 => b"abcdefg/".iter().cycle().take(random.between(60, 70)).copied().collect(),
        _ => random.pick(&PATHS).to_vec(),
    };
    let first = usize::from(header.length1).min(paths.len());
    if random.percent(50) || header.length2 == 0 {
        header.length1 = path.len() as u8;
        paths.splice(..first, path);
    } else {
        header.length2 = path.len() as u8;
        paths.splice(first.., path);
    }
}

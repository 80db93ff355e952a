//! Reading and packing the longest record, beside a plain loop over its bytes.

use std::hint::black_box;

use tickbutton::limits::{LONGEST_NAME, LONGEST_PATH, LONGEST_RECORD};
use tickbutton::{archive, Answer};

use crate::clock::{Group, Work};

/// The longest path, of the longest names, and the link call that has it twice.
fn longest() -> (Vec<u8>, Vec<u8>) {
    let name = [b"/", &b"abcdefghijklmn"[..LONGEST_NAME]].concat();
    let path = name.repeat(LONGEST_PATH / name.len());
    let mut record = vec![0; LONGEST_RECORD];
    let packed = archive::pack(11, 10, 0, &path, &path, &mut record);
    assert_eq!(packed, Answer::Done(LONGEST_RECORD as u32), "the longest record");
    (path, record)
}

/// A checksum that takes one byte after the other, as reading a record must.
fn checksum(bytes: &[u8]) -> u64 {
    bytes.iter().fold(0, |sum: u64, byte| sum.wrapping_mul(31).wrapping_add(u64::from(*byte)))
}

pub fn group() -> Group {
    let works = vec![
        Work::new("a checksum over the 517 bytes of the longest record, byte by byte", || {
            let (_, record) = longest();
            Box::new(move || {
                black_box(checksum(black_box(&record)));
            })
        }),
        Work::new("read it", || {
            let (_, record) = longest();
            Box::new(move || {
                black_box(archive::read(black_box(&record)));
            })
        }),
        Work::new("pack it", || {
            let (path, mut destination) = longest();
            Box::new(move || {
                black_box(archive::pack(
                    11,
                    10,
                    0,
                    black_box(&path),
                    black_box(&path),
                    &mut destination,
                ));
            })
        }),
    ];
    Group { name: "records", rounds: 25, runs: 2_000, works }
}

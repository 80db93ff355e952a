//! Heading 'Numbers given back': one record served, tests 17, 1, 2 and 3 first.

use crate::calls;
use crate::numbers::{Answer, SHORT_RECORD, UNSOUND};
use crate::records::{read, Header};
use crate::tables::Tables;

/// Serves the record at the front of the bytes on a lent slice of any length and any bits:
/// the answer and the bytes taken. A refusal changes no word.
pub fn serve(words: &mut [u32], record: &[u8]) -> (Answer, usize) {
    let full_length = Header::read(record).map(|header| header.full_length());
    let Some(taken) = full_length.filter(|length| *length <= record.len()) else {
        return (Answer::Refused(SHORT_RECORD), 0);
    };
    let Some(mut tables) = Tables::unpack(words) else {
        return (Answer::Refused(UNSOUND), taken);
    };
    let (answer, taken) = serve_tables(&mut tables, record);
    if !answer.is_refused() {
        words.copy_from_slice(&tables.pack());
    }
    (answer, taken)
}

/// Serves the record on rows that are sound already; test 1 isn't run.
pub fn serve_tables(tables: &mut Tables, record: &[u8]) -> (Answer, usize) {
    match read(record) {
        Err((number, taken)) => (Answer::Refused(number), taken),
        Ok((call, taken)) => (calls::answer(tables, &call), taken),
    }
}

/// The 64-bit FNV-1a hash of the words' little-endian bytes, for comparing tables.
pub fn hash(words: &[u32]) -> u64 {
    let bytes = words.iter().flat_map(|word| word.to_le_bytes());
    bytes.fold(0xCBF2_9CE4_8422_2325, |hash, byte| {
        (hash ^ u64::from(byte)).wrapping_mul(0x0000_0100_0000_01B3)
    })
}

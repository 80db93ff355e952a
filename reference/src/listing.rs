//! Heading 'The listing': records read one after another, a line for each.

use std::io::{self, Read, Write};

use crate::limits::HEADER_BYTES;
use crate::numbers::{Answer, SHORT_RECORD};
use crate::records::Header;
use crate::serve::{hash, serve, serve_tables};
use crate::tables::Tables;

/// Adds up to so many bytes of the input to the buffer, fewer only at its end.
fn read_more(input: &mut impl Read, count: usize, buffer: &mut Vec<u8>) -> io::Result<()> {
    input.take(count as u64).read_to_end(buffer)?;
    Ok(())
}

/// The bytes of the next record by its own lengths; fewer at the end of the input, and none
/// where no byte is left.
pub fn next_record(input: &mut impl Read) -> io::Result<Vec<u8>> {
    let mut record = Vec::new();
    read_more(input, HEADER_BYTES, &mut record)?;
    if let Some(header) = Header::read(&record) {
        read_more(input, header.full_length() - HEADER_BYTES, &mut record)?;
    }
    Ok(record)
}

/// Whether the answer ends a listing.
fn is_last(answer: Answer) -> bool {
    answer == Answer::Refused(SHORT_RECORD)
}

/// Prints place, word and number per record, from fresh tables; a 17 is the last line.
pub fn verdicts(input: &mut impl Read, output: &mut impl Write) -> io::Result<()> {
    let mut tables = Tables::fresh();
    for place in 1u64.. {
        let record = next_record(input)?;
        if record.is_empty() {
            break;
        }
        let (answer, _) = serve_tables(&mut tables, &record);
        writeln!(output, "{place} {} {}", answer.word(), answer.number())?;
        if is_last(answer) {
            break;
        }
    }
    output.flush()
}

/// Prints place, word, number, bytes taken and hash of the words after the call per record;
/// soundness is tested at each call, and a 17 is the last line.
pub fn digest(words: &mut [u32], input: &mut impl Read, output: &mut impl Write) -> io::Result<()> {
    for place in 1u64.. {
        let record = next_record(input)?;
        if record.is_empty() {
            break;
        }
        let (answer, taken) = serve(words, &record);
        let (word, number) = (answer.word(), answer.number());
        writeln!(output, "{place} {word} {number} {taken} {:016x}", hash(words))?;
        if is_last(answer) {
            break;
        }
    }
    output.flush()
}

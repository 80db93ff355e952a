//! The reference's verdicts on the calls of a story, each record served alone, so that one that is
//! cut off does not end the listing.

use reference::{serve_tables, text, Tables};

/// Prints place, word and number for each call of the file.
pub fn judge(file: &str) -> Result<(), String> {
    let story = std::fs::read_to_string(file).map_err(|error| format!("{file}: {error}"))?;
    let mut tables = Tables::fresh();
    let mut place = 0;
    for (number, line) in (1..).zip(story.lines()) {
        let record = text::record(line).map_err(|reason| format!("{file}:{number}: {reason}"))?;
        if let Some(record) = record {
            place += 1;
            let (answer, _) = serve_tables(&mut tables, &record);
            println!("{place} {} {}", answer.word(), answer.number());
        }
    }
    Ok(())
}

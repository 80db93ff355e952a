//! The commands of the program.

use std::io::{self, BufRead, BufReader, BufWriter, StdoutLock, Write};

use reference::generate::{
    broken_tables, flip_bits, some_breakable, sound_tables, Mode, Random, Trace, MODES,
};
use reference::records::{number_of_name, pack};
use reference::sound::{Rule, RULES};
use reference::{listing, text, Tables};

use crate::options::Options;

/// Why a command failed.
pub enum Failure {
    /// The program's words are wrong.
    Usage(String),
    /// A line of text can't be read.
    Text(String),
    /// A file can't be read or written.
    File(io::Error),
}

impl From<io::Error> for Failure {
    /// A failed read or write as the reason.
    fn from(error: io::Error) -> Failure {
        Failure::File(error)
    }
}

/// What a command gives back.
type Outcome = Result<(), Failure>;

/// Buffered standard output.
fn output() -> BufWriter<StdoutLock<'static>> {
    BufWriter::with_capacity(1 << 16, io::stdout().lock())
}

/// Buffered standard input.
fn input() -> BufReader<io::StdinLock<'static>> {
    BufReader::with_capacity(1 << 16, io::stdin().lock())
}

/// Runs the command that the words name.
pub fn run(words: &[String]) -> Outcome {
    let Some((command, rest)) = words.split_first() else {
        return Err(Failure::Usage("no command".to_string()));
    };
    match command.as_str() {
        "verdicts" => {
            Options::read(rest, &[], &[])?;
            Ok(listing::verdicts(&mut input(), &mut output())?)
        }
        "digest" => digest(rest),
        "asm" => assemble(rest),
        "dis" => disassemble(rest),
        "pack" => pack_one(rest),
        "gen" => generate(rest),
        "tables" => tables(rest),
        _ => Err(Failure::Usage(format!("unknown command {command}"))),
    }
}

/// `digest`: answers with the hash of the words, from fresh tables or from a file's words.
fn digest(words: &[String]) -> Outcome {
    let options = Options::read(words, &["--words"], &[])?;
    let mut slice = match options.text("--words") {
        None => Tables::fresh().pack(),
        Some(file) => words_of_file(file)?,
    };
    Ok(listing::digest(&mut slice, &mut input(), &mut output())?)
}

/// The little-endian words of a file.
fn words_of_file(file: &str) -> Result<Vec<u32>, Failure> {
    let bytes = std::fs::read(file)
        .map_err(|error| Failure::File(io::Error::new(error.kind(), format!("{file}: {error}"))))?;
    if !bytes.len().is_multiple_of(4) {
        return Err(Failure::Text(format!("{file}: not a whole number of words")));
    }
    let words = bytes.chunks_exact(4);
    Ok(words.map(|four| u32::from_le_bytes([four[0], four[1], four[2], four[3]])).collect())
}

/// `asm`: records of text lines.
fn assemble(words: &[String]) -> Outcome {
    Options::read(words, &[], &[])?;
    let mut output = output();
    for (number, line) in (1u64..).zip(input().split(b'\n')) {
        let line = String::from_utf8(line?)
            .map_err(|_| Failure::Text(format!("line {number}: not UTF-8")))?;
        let record = text::record(&line)
            .map_err(|reason| Failure::Text(format!("line {number}: {reason}")))?;
        output.write_all(&record.unwrap_or_default())?;
    }
    Ok(output.flush()?)
}

/// `dis`: text lines of records; what is left over at the end is a last raw line.
fn disassemble(words: &[String]) -> Outcome {
    Options::read(words, &[], &[])?;
    let mut input = input();
    let mut output = output();
    loop {
        let record = listing::next_record(&mut input)?;
        if record.is_empty() {
            return Ok(output.flush()?);
        }
        writeln!(output, "{}", text::line(&record))?;
    }
}

/// `pack`: one record packed into a destination of so many bytes 0xEE.
fn pack_one(words: &[String]) -> Outcome {
    let [call, process, argument, path1, path2, length] = words else {
        return Err(Failure::Usage("pack needs six arguments".to_string()));
    };
    let call = match text::row_of_word(call) {
        Ok(row) => number_of_name(row.name),
        Err(reason) => call.parse().map_err(|_| Failure::Usage(reason))?,
    };
    let length = text::small_number(length).map_err(Failure::Usage)?;
    let process = text::small_number(process).map_err(Failure::Usage)?;
    let argument = text::small_number(argument).map_err(Failure::Usage)?;
    let path1 = text::unescape(path1).map_err(Failure::Usage)?;
    let path2 = text::unescape(path2).map_err(Failure::Usage)?;
    let mut destination = vec![0xEE; usize::from(length)];
    let mut output = output();
    match pack(call, process, argument, &path1, &path2, &mut destination) {
        Ok(count) => writeln!(output, "packed {count} {}", text::hexadecimal(&destination))?,
        Err(number) => writeln!(output, "refused {number}")?,
    }
    Ok(output.flush()?)
}

/// `gen`: a random trace of so many records.
fn generate(words: &[String]) -> Outcome {
    let options = Options::read(words, &["--seed", "--calls", "--mode"], &[])?;
    let name = options.text("--mode").unwrap_or_default();
    let mode = mode_of_name(name).ok_or_else(|| Failure::Usage(format!("no mode {name}")))?;
    let calls = options.number("--calls")?;
    let mut trace = Trace::new(mode, options.number("--seed")?);
    let mut output = output();
    for _ in 1..calls {
        output.write_all(&trace.next_record())?;
    }
    if calls > 0 {
        output.write_all(&trace.last_record())?;
    }
    Ok(output.flush()?)
}

/// The mode of a name.
fn mode_of_name(name: &str) -> Option<Mode> {
    MODES.iter().find(|(_, known)| *known == name).map(|(mode, _)| *mode)
}

/// The rule of a name.
fn rule_of_name(name: &str) -> Option<Rule> {
    RULES.iter().find(|(_, known)| *known == name).map(|(rule, _)| *rule)
}

/// `tables`: so many random tables, or the names of the rules.
fn tables(words: &[String]) -> Outcome {
    let with_value = ["--seed", "--count", "--rule", "--bits"];
    let options = Options::read(words, &with_value, &["--unsound", "--list"])?;
    if options.text("--list").is_some() {
        return list_rules();
    }
    if options.count(&["--rule", "--unsound", "--bits"]) > 1 {
        return Err(Failure::Usage("one of --rule, --unsound and --bits".to_string()));
    }
    let mut random = Random::new(options.number("--seed")?);
    let mut output = output();
    for _ in 0..options.number("--count")? {
        for word in one_slice(&mut random, &options)? {
            output.write_all(&word.to_le_bytes())?;
        }
    }
    Ok(output.flush()?)
}

/// Prints the names of the rules.
fn list_rules() -> Outcome {
    let mut output = output();
    for (_, name) in RULES {
        writeln!(output, "{name}")?;
    }
    Ok(output.flush()?)
}

/// One random slice of words as the options ask.
fn one_slice(random: &mut Random, options: &Options) -> Result<Vec<u32>, Failure> {
    if let Some(name) = options.text("--rule") {
        let rule = rule_of_name(name).filter(|rule| *rule != Rule::SliceLength);
        let rule = rule.ok_or_else(|| Failure::Usage(format!("no rule to break: {name}")))?;
        return Ok(broken_tables(random, rule));
    }
    if options.text("--unsound").is_some() {
        let rule = some_breakable(random);
        return Ok(broken_tables(random, rule));
    }
    let mut words = sound_tables(random).pack();
    if options.text("--bits").is_some() {
        flip_bits(random, &mut words, options.number("--bits")? as usize);
    }
    Ok(words)
}

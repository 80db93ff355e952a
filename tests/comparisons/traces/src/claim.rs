//! One claim: what the reference says of some records, as text that the prover computes.

use std::fmt::Write;

use reference::{serve, serve_tables, Answer, Tables};

/// The kinds of claims, and with them how the reference answers.
#[derive(Clone, Copy, PartialEq, Eq)]
pub enum Over {
    /// Over the rows of the words, which are sound; soundness is not tested again.
    Rows,
    /// Over the words, whatever they hold; soundness is tested at each call.
    Words,
}

/// Records with the words they start from and all that the reference says of them.
pub struct Claim {
    /// Which of the model's definitions the claim is about.
    pub over: Over,
    start: Vec<u32>,
    records: Vec<Vec<u8>>,
    answers: Vec<Answer>,
    taken: Vec<usize>,
    end: Vec<u32>,
}

impl Claim {
    /// What the reference says of these records, served one after another from these words.
    pub fn new(over: Over, start: &[u32], records: Vec<Vec<u8>>) -> Claim {
        let mut words = start.to_vec();
        let mut answers = Vec::new();
        let mut taken = Vec::new();
        for record in &records {
            let (answer, bytes) = one(over, &mut words, record);
            answers.push(answer);
            taken.push(bytes);
        }
        Claim { over, start: start.to_vec(), records, answers, taken, end: words }
    }

    /// The answers, for counting.
    pub fn answers(&self) -> &[Answer] {
        &self.answers
    }

    /// The module that states and computes the claim.
    pub fn module(&self) -> String {
        let definition = match self.over {
            Over::Rows => "rows_agree",
            Over::Words => "words_agree",
        };
        let lists: Vec<String> = self.records.iter().map(|record| list(record)).collect();
        let mut answered = String::new();
        for (place, answer) in self.answers.iter().enumerate() {
            let _ = write!(answered, "{} {} {}\\n", place + 1, answer.word(), answer.number());
        }
        format!(
            "{}unfoldable start : List ℕ\nstart = {}\n\nunfoldable records : List (List ℕ)\nrecords = {}\n\nunfoldable end : List ℕ\nend = {}\n\n\
             agrees : {definition} start records \"{answered}\" {} end ≡ true\n\
             unfolding computing_traces start records end\nagrees = refl\n",
            header(definition),
            words(&self.start),
            chain(&lists),
            words(&self.end),
            list(&self.taken),
        )
    }

    /// The words that the records start from, as they are stored for a story: four bytes each, the lowest first.
    pub fn stored_words(&self) -> Vec<u8> {
        self.start.iter().flat_map(|word| word.to_le_bytes()).collect()
    }

    /// The records as a story that goes on from the stored words, with the answer behind each, for a person who looks for the first difference.
    pub fn story(&self, words_file: &str) -> String {
        let mut story = format!("tables {words_file}\n");
        for (record, answer) in self.records.iter().zip(&self.answers) {
            let line = reference::text::line(record);
            let _ = write!(story, "{line}\n# {} {}\n", answer.word(), answer.number());
        }
        story
    }
}

fn one(over: Over, words: &mut [u32], record: &[u8]) -> (Answer, usize) {
    match (over, Tables::unpack(words)) {
        (Over::Rows, Some(mut tables)) => {
            let answered = serve_tables(&mut tables, record);
            words.copy_from_slice(&tables.pack());
            answered
        }
        _ => serve(words, record),
    }
}

/// The lines with which every claim's module begins.
pub fn header(definition: &str) -> String {
    format!(
        "-- What the reference answered, for the model to compute. Assumes nothing.\n\
         use mathlib.Core.Path.{{◌≡◌, refl}}\nuse mathlib.Core.Bool.{{Bool, true}}\n\
         use mathlib.Core.List.{{List, [], ◌∷◌, ◌++◌}}\nuse Prim.Native.Nat.{{ℕ}}\n\
         use lib.ListN.{{replicate}}\n\
         use Rattle.traces.proofs.Playing.{{{definition}, computing_traces}}\n\n"
    )
}

/// Numbers as a list in parentheses.
pub fn list<Number: ToString>(numbers: &[Number]) -> String {
    let texts: Vec<String> = numbers.iter().map(Number::to_string).collect();
    chain(&texts)
}

fn chain(texts: &[String]) -> String {
    let mut all = String::from("(");
    for text in texts {
        all.push_str(text);
        all.push_str(" ∷ ");
    }
    all.push_str("[])");
    all
}

/// Words as a list, long runs of zeros told by their length.
fn words(all: &[u32]) -> String {
    let mut parts = Vec::new();
    let mut at = 0;
    while at < all.len() {
        let zeros = all[at..].iter().take_while(|word| **word == 0).count();
        if zeros > 8 {
            parts.push(format!("replicate {zeros} 0"));
            at += zeros;
            continue;
        }
        let mut end = at;
        while end < all.len() && !all[end..].iter().take(9).all(|word| *word == 0) {
            end += 1;
        }
        let end = end.max(at + 1);
        parts.push(list(&all[at..end]));
        at = end;
    }
    parts.push("[]".to_string());
    parts.join(" ++ ")
}

//! The functions of the archive as they are, behind safe signatures.

#![allow(unsafe_code)]

use crate::Answer;

extern "C" {
    fn tickbutton_fresh(words: *mut u32, count: usize) -> u64;
    fn tickbutton_serve(words: *mut u32, count: usize, record: *const u8, length: usize) -> u64;
    fn tickbutton_read(bytes: *const u8, count: usize, fields: *mut u32) -> u64;
    fn tickbutton_pack(
        call: u32,
        process: u16,
        argument: u16,
        path1: *const u8,
        length1: usize,
        path2: *const u8,
        length2: usize,
        destination: *mut u8,
        room: usize,
    ) -> u64;
    fn tickbutton_sound(words: *const u32, count: usize) -> u64;
    fn tickbutton_walk(
        words: *const u32,
        count: usize,
        path: *const u8,
        length: usize,
        follow_last: bool,
        goal: *mut u32,
    ) -> u64;
    fn tickbutton_serve_run(
        words: *mut u32,
        count: usize,
        bytes: *const u8,
        length: usize,
        answers: *mut u64,
        room: usize,
        taken: *mut u64,
    ) -> u64;
}

/// How many numbers the goal of a walk has.
pub const GOAL_NUMBERS: usize = 46;
/// How many fields reading a record gives.
pub const FIELDS: usize = 6;

/// An answer and the bytes taken, as the archive tells them in one number: the answer's number in
/// the lower 32 bits, its word in the two above, the bytes taken above those.
fn answer(told: u64) -> (Answer, usize) {
    let number = told as u32;
    let answer = match (told >> 32) & 3 {
        0 => Answer::Held(number),
        1 => Answer::Seen(number),
        2 => Answer::Done(number),
        _ => Answer::Refused(number),
    };
    (answer, (told >> 34) as usize)
}

/// Reads the record at the front of the bytes: done with the call's number or refused with 17, 2
/// or 3; the bytes taken; and the process, the argument, and the start and length of path 1 and
/// path 2, all 0 where it is refused.
pub fn read(bytes: &[u8]) -> (Answer, usize, [u32; FIELDS]) {
    let mut fields = [0; FIELDS];
    // SAFETY: the bytes are read alone, and six numbers are written.
    let told = unsafe { tickbutton_read(bytes.as_ptr(), bytes.len(), fields.as_mut_ptr()) };
    let (answer, taken) = answer(told);
    (answer, taken, fields)
}

/// Packs a call into the front of the destination: done with the record's length, or refused with
/// 2, 3 or 18, and then nothing is written.
pub fn pack(
    call: u32,
    process: u16,
    argument: u16,
    path1: &[u8],
    path2: &[u8],
    destination: &mut [u8],
) -> Answer {
    // SAFETY: each slice is passed with its own length, and the destination alone is written.
    let told = unsafe {
        tickbutton_pack(
            call,
            process,
            argument,
            path1.as_ptr(),
            path1.len(),
            path2.as_ptr(),
            path2.len(),
            destination.as_mut_ptr(),
            destination.len(),
        )
    };
    answer(told).0
}

/// Makes the words fresh tables: done with 0, or refused with 1 where there are not 8,512 of them,
/// and then nothing is written.
pub fn fresh(words: &mut [u32]) -> Answer {
    // SAFETY: the words are passed with their own count, and are the only thing written.
    answer(unsafe { tickbutton_fresh(words.as_mut_ptr(), words.len()) }).0
}

/// Serves the record at the front of the bytes over the words: the answer and the bytes taken. A
/// refusal changes no word.
pub fn serve(words: &mut [u32], record: &[u8]) -> (Answer, usize) {
    // SAFETY: each slice is passed with its own length, and the words alone are written.
    answer(unsafe {
        tickbutton_serve(words.as_mut_ptr(), words.len(), record.as_ptr(), record.len())
    })
}

/// Whether the words are sound tables: done with 0 where they are, else refused with 1.
pub fn sound(words: &[u32]) -> Answer {
    // SAFETY: the words are passed with their own count and are read alone.
    answer(unsafe { tickbutton_sound(words.as_ptr(), words.len()) }).0
}

/// Walks a path over the words, a link at its last name too where that is asked: done with the
/// node that it leads to, 0 for an absence, or refused with 1, 3, 7, 8 or 9. The goal becomes the
/// number of elements, the end entry and the elements in the order met, each as its directory and
/// the four words of its name block, and zeros behind them; where there is no end entry its words
/// are zeros, and all are where the walk is refused. [`Goal::of_numbers`](crate::Goal::of_numbers)
/// reads them.
pub fn walk(
    words: &[u32],
    path: &[u8],
    follow_last: bool,
    goal: &mut [u32; GOAL_NUMBERS],
) -> Answer {
    // SAFETY: each slice is passed with its own length, and the goal's numbers alone are written.
    answer(unsafe {
        tickbutton_walk(
            words.as_ptr(),
            words.len(),
            path.as_ptr(),
            path.len(),
            follow_last,
            goal.as_mut_ptr(),
        )
    })
    .0
}

/// Serves record after record over the words, as long as a whole one is left and a slot for its
/// answer: how many were served and how many bytes they are. Each slot in front gets its record's
/// answer, which `told_answer` reads; those behind stay. The tables are tested once; where they are
/// not sound, every record is answered with refused 1, and the run goes on to its end all the same.
pub fn serve_run(words: &mut [u32], records: &[u8], answers: &mut [u64]) -> (usize, usize) {
    let mut taken = 0;
    // SAFETY: each slice is passed with its own length; words, answers and one number are written.
    let served = unsafe {
        tickbutton_serve_run(
            words.as_mut_ptr(),
            words.len(),
            records.as_ptr(),
            records.len(),
            answers.as_mut_ptr(),
            answers.len(),
            &mut taken,
        )
    };
    (served as usize, taken as usize)
}

/// The answer that a slot of `serve_run` holds.
pub fn told_answer(slot: u64) -> Answer {
    answer(slot).0
}

//! Reading and packing against the reference, on random and damaged input.

use reference::generate::{Mode, Random, Trace};
use reference::records::{pack, read};
use tickbutton::archive::{self, FIELDS};
use tickbutton::limits::{HEAD, LONGEST_NAME, LONGEST_PATH};
use tickbutton::Answer;

use crate::tally::{refusals, Tally};

const LEAST: usize = 100;

/// Compares so many records and so many packings.
pub fn compare(seed: u64, count: usize) -> Result<(), String> {
    let mut random = Random::new(seed);
    let mut readings = Tally::default();
    let mut trace = Trace::new(Mode::Damaged, seed);
    for _ in 0..count {
        let bytes = some_bytes(&mut random, &mut trace);
        readings.count(one_reading(&bytes)?);
    }
    let mut expected = refusals([2, 3, 17]);
    expected.push("done".to_string());
    readings.report("readings", &expected, LEAST)?;
    let mut packings = Tally::default();
    for _ in 0..count {
        packings.count(one_packing(&mut random)?);
    }
    let mut expected = refusals([2, 3, 18]);
    expected.push("done".to_string());
    packings.report("packings", &expected, LEAST)
}

/// A record of a trace, damaged or not, cut off or with bytes behind it; or bytes at random.
fn some_bytes(random: &mut Random, trace: &mut Trace) -> Vec<u8> {
    if random.percent(10) {
        let count = random.below(600);
        return (0..count).map(|_| random.below(256) as u8).collect();
    }
    let mut bytes = trace.next_record();
    if random.percent(10) {
        bytes.truncate(random.below(bytes.len() + 1));
    } else if random.percent(30) {
        let more = random.below(40);
        bytes.extend((0..more).map(|_| random.below(256) as u8));
    }
    if random.percent(15) && !bytes.is_empty() {
        let place = random.below(bytes.len());
        bytes[place] ^= 1 << random.below(8);
    }
    bytes
}

fn one_reading(bytes: &[u8]) -> Result<Answer, String> {
    let (answer, taken, fields) = archive::read(bytes);
    let (expected, expected_taken, expected_fields) = match read(bytes) {
        Err((number, taken)) => (Answer::Refused(number), taken, [0; FIELDS]),
        Ok((call, taken)) => {
            let (head, first) = (HEAD as u32, call.path1.len() as u32);
            let numbers = [
                u32::from(call.process),
                u32::from(call.argument),
                head,
                first,
                head + first,
                call.path2.len() as u32,
            ];
            let number = reference::records::number_of_name(call.name) as u32;
            (Answer::Done(number), taken, numbers)
        }
    };
    if (answer, taken, fields) == (expected, expected_taken, expected_fields) {
        return Ok(answer);
    }
    Err(format!("reading {bytes:02x?}: {answer:?}, taken {taken}, {fields:?}; the reference: {expected:?}, taken {expected_taken}, {expected_fields:?}"))
}

fn one_packing(random: &mut Random) -> Result<Answer, String> {
    let call = match random.below(10) {
        0 => random.below(64) as u32,
        1 => random.bits() as u32,
        _ => random.between(1, 13) as u32,
    };
    let process = if random.percent(3) { 0 } else { random.below(65_536) as u16 };
    let argument = if call <= 2 || random.percent(3) { random.below(65_536) as u16 } else { 0 };
    let path1 = if call <= 4 && random.percent(95) { Vec::new() } else { some_path(random, true) };
    let path2 = if call == 11 || call == 10 || random.percent(3) {
        some_path(random, call == 11)
    } else {
        Vec::new()
    };
    let most = if random.percent(50) { 40 } else { 600 };
    let size = random.below(most);
    let mut destination: Vec<u8> = (0..size).map(|_| random.below(256) as u8).collect();
    let mut expected_destination = destination.clone();
    let answer = archive::pack(call, process, argument, &path1, &path2, &mut destination);
    let paths: [&[u8]; 2] = [&path1, &path2];
    let expected = packed_by_reference(call, process, argument, paths, &mut expected_destination);
    if answer == expected && destination == expected_destination {
        return Ok(answer);
    }
    Err(format!("packing {call} {process} {argument} {path1:02x?} {path2:02x?} into {size}: {answer:?}; the reference: {expected:?}"))
}

/// What the reference answers to the same packing.
pub fn packed_by_reference(
    call: u32,
    process: u16,
    argument: u16,
    [path1, path2]: [&[u8]; 2],
    destination: &mut [u8],
) -> Answer {
    match pack(u64::from(call), process, argument, path1, path2, destination) {
        Ok(length) => Answer::Done(length as u32),
        Err(number) => Answer::Refused(number),
    }
}

/// A path that is mostly valid, sometimes at the limits or a byte beyond them.
fn some_path(random: &mut Random, absolute: bool) -> Vec<u8> {
    let mut path = Vec::new();
    let names = if random.percent(20) { random.between(1, 18) } else { random.between(1, 4) };
    for place in 0..names {
        if absolute || place > 0 {
            path.push(b'/');
        }
        let length = if random.percent(10) {
            random.between(0, LONGEST_NAME + 1)
        } else {
            random.between(1, LONGEST_NAME)
        };
        path.extend((0..length).map(|_| *random.pick(b"abcdefgh.")));
    }
    match random.below(40) {
        0 => path.push(b'/'),
        1 => path.resize(LONGEST_PATH + 1, b'a'),
        2 if !path.is_empty() => {
            let place = random.below(path.len());
            path[place] = 0;
        }
        _ => {}
    }
    path
}

//! The service that owns its tables: calls, runs, walks, refusals, stored words, and what the tables
//! show.

use std::error::Error;

use tickbutton::archive::{serve_run, told_answer};
use tickbutton::limits::{LONGEST_NAME, LONGEST_TARGET, MOST_LINKS};
use tickbutton::tables::{Hold, Kind, Place, Process, Role, Tables, WORDS};
use tickbutton::{Answer, Call, Goal, Granted, NotRead, Refusal, Service};

/// A service on which these lines of text were called, all granted.
fn after(lines: &[&str]) -> Service {
    let mut service = Service::new();
    for line in lines {
        let call: Call = line.parse().unwrap_or_else(|reason| panic!("{line}: {reason}"));
        service.call(&call).unwrap_or_else(|refusal| panic!("{line}: {refusal}"));
    }
    service
}

/// The answer to one line of text.
fn answer(service: &mut Service, line: &str) -> Result<Granted, Refusal> {
    let call: Call = line.parse().unwrap_or_else(|reason| panic!("{line}: {reason}"));
    service.call(&call)
}

const OPENING: [&str; 4] = ["10 enter 0", "10 mkdir /in", "10 exec", "20 enter 500"];

#[test]
fn the_fox_is_refused_and_changes_nothing() {
    let mut service = after(&OPENING);
    answer(&mut service, "30 enter 600").expect("enters");
    assert_eq!(answer(&mut service, "20 check /in/fox"), Ok(Granted::Held(0)));
    let before = service.words().to_vec();
    assert_eq!(answer(&mut service, "30 create /in/fox"), Err(Refusal::HeldByAnother));
    assert_eq!(service.words(), before);
    assert_eq!(answer(&mut service, "30 check /in/fox"), Ok(Granted::Seen(0)));
    assert_eq!(answer(&mut service, "20 create /in/fox"), Ok(Granted::Done(3)));
}

#[test]
fn calls_that_cannot_be_packed_are_refused() {
    let mut service = after(&OPENING);
    let long = Call::Check { process: 20, path: [b"/".to_vec(), vec![b'a'; 300]].concat() };
    assert_eq!(service.call(&long), Err(Refusal::BadPath));
    assert_eq!(answer(&mut service, "0 check /in"), Err(Refusal::BadField));
    assert_eq!(answer(&mut service, "20 check in"), Err(Refusal::BadPath));
    let mut small = [7; 6];
    let exec = Call::Exec { process: 20 };
    assert_eq!(exec.pack(&mut small), Err(Refusal::ShortDestination));
    assert_eq!(small, [7; 6]);
}

#[test]
fn words_are_given_back_and_taken() {
    let service = after(&OPENING);
    let again = Service::from_words(service.words().to_vec()).expect("sound words");
    assert_eq!(again, service);
    assert_eq!(Service::new().into_words().len(), WORDS);
}

#[test]
fn unsound_words_are_refused() {
    assert_eq!(Service::from_words(Vec::new()), Err(Refusal::Unsound));
    assert_eq!(Service::from_words(vec![0; WORDS]), Err(Refusal::Unsound));
    let sound = after(&OPENING).into_words();
    for place in [0, 4, 2_560, 6_912, 8_448, WORDS - 1] {
        let mut words = sound.clone();
        words[place] ^= 1;
        let refused = Service::from_words(words.clone()) == Err(Refusal::Unsound);
        let user_changed = place == 8_448;
        assert_eq!(refused, !user_changed, "word {place}");
    }
    let mut longer = sound.clone();
    longer.push(0);
    assert_eq!(Service::from_words(longer), Err(Refusal::Unsound));
}

#[test]
fn records_are_served_one_after_another() {
    let mut service = after(&OPENING);
    let check = "20 check /in/fox".parse::<Call>().expect("a call").record().expect("valid");
    let two = [check.clone(), check.clone()].concat();
    assert_eq!(service.serve(&two), (Answer::Held(0), check.len()));
    assert_eq!(service.serve(&check[1..3]), (Answer::Refused(17), 0));
    let (call, taken) = Call::read(&two).expect("a record");
    assert_eq!((call.to_string().as_str(), taken), ("20 check /in/fox", check.len()));
}

#[test]
fn what_is_not_read_is_an_error() {
    let not_read = |bytes: &[u8]| Call::read(bytes).expect_err("no record of a call");
    let cut_off = NotRead { refusal: Refusal::ShortRecord, taken: 0 };
    assert_eq!(not_read(&[0x28, 0, 0xA0, 0, 0, 8]), cut_off);
    assert_eq!(not_read(&[0; 7]), NotRead { refusal: Refusal::BadField, taken: 7 });
    let error: Box<dyn Error> = cut_off.into();
    assert_eq!(error.to_string(), "the record is cut off, 0 bytes taken");
}

/// The records of these lines, one behind the other.
fn records(lines: &[&str]) -> Vec<u8> {
    let record = |line: &&str| line.parse::<Call>().expect("a call").record().expect("valid");
    lines.iter().flat_map(record).collect()
}

#[test]
fn a_run_answers_as_its_records_one_by_one() {
    let lines = ["20 check /in/fox", "30 exec", "20 create /in/fox", "20 exit"];
    let mut one_by_one = after(&OPENING);
    let mut run = one_by_one.clone();
    let expected: Vec<Answer> =
        lines.iter().map(|line| one_by_one.serve(&records(&[line])).0).collect();
    let whole = records(&lines);
    let cut_off = [&whole[..], &[0x28, 0, 0xA0]].concat();
    assert_eq!(run.serve_run(&cut_off), (expected, whole.len()));
    assert_eq!(run, one_by_one);
    assert_eq!(run.serve_run(&[]), (Vec::new(), 0));
}

#[test]
fn a_run_over_unsound_tables_refuses_each_record() {
    let mut words = vec![0; WORDS];
    let mut slots = [7; 3];
    let two = records(&["20 enter 500", "20 check /"]);
    assert_eq!(serve_run(&mut words, &two, &mut slots), (2, two.len()));
    assert_eq!(slots.map(told_answer)[..2], [Answer::Refused(1); 2]);
    assert_eq!((slots[2], words), (7, vec![0; WORDS]));
}

#[test]
fn a_walk_tells_its_end_and_its_elements() {
    let service = after(&[
        "10 enter 0",
        "10 mkdir /in",
        "10 create /in/fox",
        "10 symlink /way in/next",
        "10 symlink /in/next fox",
        "10 symlink /loop loop",
        "10 symlink /top /",
    ]);
    let place = |directory, name: &[u8]| Place { directory, name: name.to_vec() };
    let elements = vec![place(1, b"way"), place(2, b"next")];
    let found = Goal { node: 3, end: Some(place(2, b"fox")), elements };
    assert_eq!(service.walk(b"/way", true), Ok(found));
    let link = Goal { node: 4, end: Some(place(1, b"way")), elements: Vec::new() };
    assert_eq!(service.walk(b"/way", false), Ok(link));
    let longest = [b'n'; LONGEST_NAME];
    let absent = Goal { node: 0, end: Some(place(1, &longest)), elements: Vec::new() };
    assert_eq!(service.walk(&[b"/", &longest[..]].concat(), true), Ok(absent));
    let start = |elements| Ok(Goal { node: 1, end: None, elements });
    assert_eq!(service.walk(b"/", true), start(Vec::new()));
    assert_eq!(service.walk(b"/top", true), start(vec![place(1, b"top")]));
    assert_eq!(service.walk(b"/loop", true), Err(Refusal::NinthLink));
    assert_eq!(service.walk(b"in", true), Err(Refusal::BadPath));
    assert_eq!(service.walk(b"/in/fox/fur", true), Err(Refusal::NameIsFile));
}

#[test]
fn a_walk_follows_the_most_links() {
    let mut service = after(&["10 enter 0"]);
    for link in 1..=MOST_LINKS {
        answer(&mut service, &format!("10 symlink /{link} {}", link + 1)).expect("made");
    }
    let goal = service.walk(b"/1", true).expect("as many links as are followed");
    let names: Vec<Vec<u8>> = goal.elements.into_iter().map(|element| element.name).collect();
    assert_eq!(
        names,
        (1..=MOST_LINKS).map(|link| link.to_string().into_bytes()).collect::<Vec<_>>()
    );
    assert_eq!(goal.end, Some(Place { directory: 1, name: b"9".to_vec() }));
}

#[test]
fn the_tables_show_what_was_done() {
    let mut service = after(&OPENING);
    answer(&mut service, "20 create /in/fox").expect("made");
    answer(&mut service, "20 symlink /way in").expect("made");
    answer(&mut service, "20 check /way/fox").expect("held");
    let tables = service.tables();
    let fox = Place { directory: 2, name: b"fox".to_vec() };
    let way = Place { directory: 1, name: b"way".to_vec() };
    assert_eq!((tables.led_to(&fox), tables.path_of(&fox)), (3, Some(b"/in/fox".to_vec())));
    assert_eq!(tables.node(3).map(|node| (node.kind, node.entries)), Some((Kind::File, 1)));
    assert_eq!(tables.node(4).map(|node| node.target), Some(b"in".to_vec()));
    assert_eq!((tables.used_nodes(), tables.entries().count()), (4, 3));
    assert_eq!(tables.user(20), Some(500));
    assert!(tables
        .processes()
        .eq([(10, 0), (20, 500)].map(|(number, user)| Process { number, user })));
    let of_20 = |place: &Place, role| Hold { place: place.clone(), process: 20, role };
    let holds = [of_20(&fox, Role::End), of_20(&way, Role::End), of_20(&way, Role::Element)];
    assert!(tables.holds().eq(holds));
}

#[test]
fn rows_that_are_not_sound_are_read_all_the_same() {
    let mut words = vec![0; WORDS];
    words[0] = 0x0001_0002;
    words[1..5].fill(0xFF61_6161);
    words[2_560] = 0xFF80_0000;
    words[2_561..2_577].fill(0x6161_6161);
    for (row, role) in [0u32, 1, 2, 3].into_iter().enumerate() {
        words[6_912 + row * 6] = 0x0001_0014;
        words[6_912 + row * 6 + 5] = role << 30;
    }
    let tables = Tables::of(&words);
    let lengths: Vec<usize> = tables.entries().map(|entry| entry.place.name.len()).collect();
    assert_eq!(lengths, [LONGEST_NAME]);
    assert_eq!(tables.node(1).map(|node| node.target.len()), Some(LONGEST_TARGET));
    let roles: Vec<Role> = tables.holds().map(|hold| hold.role).collect();
    assert_eq!(roles, [Role::Element, Role::End, Role::Element, Role::Element]);
}

//! Tests that each line is answered as the connection's session or as none, whatever the line is.
//!
//! Random lines, valid and broken, are passed unchanged to a service in which each session that a
//! line may name has a dictionary; and to the front's service, in which only the connection's
//! session has one. The replies are equal, except that a line without a session is answered as the
//! connection's.

use super::*;
use crate::members::Members;

const OWN: u32 = 777;
const LINES: usize = 40_000;
const INT: &str = "f1cf02000000000000000000000000000000000000000000000000000c00000005000000\
                   01000000000c04002000000100696e7400";

const PIECES: [&str; 31] = [
    "{",
    "}",
    "\"s\"",
    ":",
    ",",
    "\"",
    "\\",
    "1",
    "\"op\"",
    "\"info\"",
    "\"kind\"",
    "[",
    "]",
    " ",
    "\t",
    "s",
    "\"\\u0073\"",
    "0",
    "-",
    "5.0",
    "\"x\"",
    "null",
    "\"s\":9,",
    "\"op\":\"info\",\"d\":1",
    "{\"s\":9,\"op\":\"info\",\"d\":1",
    "}",
    "\"s\":3",
    "\"s\" :4",
    ",\"s\":5}",
    "\"s\":{\"s\":2}",
    "\u{1}",
];
const WHOLE: &str = r#"{"s":9,"op":"info","d":1,"x":"a"}"#;
const KEYS: [&str; 8] =
    [r#""s""#, r#""\u0073""#, r#""x""#, r#""s\\""#, r#""\"s""#, r#""\\\u0073""#, r#""S""#, r#""""#];
const TEXTS: [&str; 8] = [
    r#""s""#,
    r#""]""#,
    r#""{[\"""#,
    r#""\\""#,
    r#""a,\"s\":5}""#,
    r#""\"s\" :""#,
    r#""\u0073""#,
    r#""}{""#,
];
const NUMBERS: [&str; 11] = [
    "1",
    "5",
    "4294967295",
    "4294967296",
    "0",
    "-1",
    "1.0",
    "7e0",
    "null",
    "true",
    "123456789012345678901234567890",
];
/// Pseudo-random numbers, the same in each run.
struct Chance(u64);

impl Chance {
    /// A number below a bound.
    fn below(&mut self, bound: usize) -> usize {
        self.0 ^= self.0 << 13;
        self.0 ^= self.0 >> 7;
        self.0 ^= self.0 << 17;
        (self.0 >> 11) as usize % bound
    }

    fn of<'a>(&mut self, all: &[&'a str]) -> &'a str {
        all[self.below(all.len())]
    }
}

/// A line made of pieces, a whole line with some changes, or an object.
fn line(chance: &mut Chance) -> String {
    match chance.below(3) {
        0 => (0..=chance.below(14)).map(|_| chance.of(&PIECES)).collect(),
        1 => mutated_line(chance),
        _ => request(chance),
    }
}

fn mutated_line(chance: &mut Chance) -> String {
    let mut text = WHOLE.to_owned();
    for _ in 0..chance.below(5) {
        let place = chance.below(text.len() + 1);
        if chance.below(2) == 0 {
            let end = (place + chance.below(4)).min(text.len());
            text.replace_range(place..end, "");
        } else {
            text.insert_str(place, chance.of(&PIECES));
        }
    }
    text
}

/// A request with its session anywhere in it, perhaps several times.
fn request(chance: &mut Chance) -> String {
    let mut members = vec![r#""op":"info""#.to_owned(), r#""d":1"#.to_owned()];
    for _ in 0..chance.below(6) {
        let place = chance.below(members.len() + 1);
        members.insert(place, member(chance, 0));
    }
    let blank = chance.of(&["", "", " ", "\t "]);
    format!("{{{blank}{}}}", members.join(&format!("{blank},{blank}")))
}

fn member(chance: &mut Chance, depth: usize) -> String {
    let (key, blank) = (chance.of(&KEYS), chance.of(&["", "", " ", "\t\r"]));
    format!("{key}{blank}:{blank}{}", value(chance, depth))
}

fn value(chance: &mut Chance, depth: usize) -> String {
    let count = chance.below(4);
    match chance.below(20) {
        0..=9 => chance.of(&NUMBERS).to_owned(),
        10..=13 => chance.of(&TEXTS).to_owned(),
        _ if depth > 3 => chance.of(&NUMBERS).to_owned(),
        14..=16 => {
            let all: Vec<_> = (0..count).map(|_| value(chance, depth + 1)).collect();
            format!("[{}]", all.join(","))
        }
        _ => {
            let all: Vec<_> = (0..count).map(|_| member(chance, depth + 1)).collect();
            format!("{{{}}}", all.join(","))
        }
    }
}

/// The reply of a service in which each session that a line names has a dictionary.
fn own_reply(own: &mut Service, line: &[u8]) -> Vec<u8> {
    let mut reply = Vec::new();
    own.answer_into(line, &mut reply).unwrap();
    if fault_of(&reply) == Some(Fault::NoSlot) {
        let text = String::from_utf8(std::mem::take(&mut reply)).unwrap();
        let digits = text.trim_end().rsplit(':').next().unwrap().trim_end_matches('}');
        hand_in(own, digits.parse().unwrap());
        own.answer_into(line, &mut reply).unwrap();
    }
    reply
}

/// Opens a dictionary in a session.
fn hand_in(service: &mut Service, session: u32) {
    for request in [
        format!(r#"{{"s":{session},"op":"part","section":"ctf","bytes":"{INT}"}}"#),
        format!(r#"{{"s":{session},"op":"open"}}"#),
    ] {
        let reply = service.answer(&request).unwrap();
        assert!(reply.contains("\"ok\""), "{reply}");
    }
}

#[test]
fn random_lines_are_answered_as_the_session_or_as_none() {
    let (mut own, mut answers) = (Service::new().unwrap(), Answers::new().unwrap());
    hand_in(&mut answers.service, OWN);
    let mut chance = Chance(7);
    let (mut replies, mut granted, mut nameless) = (Vec::new(), 0, 0);
    for _ in 0..LINES {
        let line = line(&mut chance);
        let wanted = own_reply(&mut own, line.as_bytes());
        replies.clear();
        answers.answer(OWN, line.as_bytes(), &mut replies).unwrap();
        granted += usize::from(replies.starts_with(b"{\"ok\""));
        if replies == wanted {
            continue;
        }
        // A line without a session has the connection's; no other line differs.
        nameless += 1;
        let members: Vec<_> = Members::of(line.as_bytes()).collect();
        assert!(fault_of(&wanted) == Some(Fault::BadRequest), "{line}");
        assert!(!members.iter().any(|member| member.key.is("s")), "{line}");
        assert!(replies.ends_with(b",\"s\":777}\n"), "{line}");
    }
    assert!(granted > LINES / 10 && nameless > LINES / 20, "{granted} {nameless}");
}

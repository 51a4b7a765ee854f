//! Hubs: cases of whole runs against their stored answers, also with a hub that is resumed after each line, parts, and refusals.
use editlens::{Answer, Cause, Error, Hub, HubStateFault};
use std::path::Path;

const PROGRAMS: &str = "main {hours ~ time: id int, left done: bool}\n+++\nmain {hours ~ all: id int, done ~ ready: id bool}";

/// What `editlens hub` writes for a script, by a hub; or by many, each of which takes one line, and the next goes on from its texts.
fn report(script: &str, is_resumed: bool) -> String {
    let (mut programs, mut journal) = (script, "");
    let mut begin = 0;
    for line in script.split_inclusive('\n') {
        if matches!(line, "---" | "---\n" | "---\r" | "---\r\n") {
            (programs, journal) = (&script[..begin], &script[begin + line.len()..]);
            break;
        }
        begin += line.len();
    }
    let mut hub = match Hub::open(programs) {
        Ok(hub) => hub,
        Err(Error::ProgramsRefused { line, .. }) => return line,
        Err(error) => panic!("{error}"),
    };
    let (mut text, mut items) = (String::new(), 0);
    for line in journal.strip_suffix('\n').unwrap_or(journal).split('\n') {
        let answer = hub.step(line).unwrap();
        items += u64::from(answer != Answer::Blank);
        if is_resumed {
            text += &numbered(answer.line(), items);
            let mut next = Hub::resume(programs, hub.texts().unwrap()).unwrap();
            assert_eq!((next.state(), next.items()), (hub.state(), 0));
            hub = next;
        } else {
            text += answer.line();
            assert_eq!(hub.items(), items);
        }
    }
    text + &hub.state().unwrap()
}

/// An answer line with this number in place of 1.
fn numbered(line: &str, number: u64) -> String {
    match line.split_once(" 1 ") {
        Some((begin, rest)) => format!("{begin} {number} {rest}"),
        None => line.into(),
    }
}

#[test]
fn cases() {
    let folder = Path::new(env!("CARGO_MANIFEST_DIR")).join("../../crates/case_commands/data");
    let data: Vec<u8> = ["hub.cases", "hub_rows.cases"].iter().flat_map(|name| std::fs::read(folder.join(name)).unwrap()).collect();
    let (mut rest, mut tried) = (&data[..], 0);
    while !rest.is_empty() {
        let end = rest.iter().position(|byte| *byte == b'\n').unwrap();
        let step = std::str::from_utf8(&rest[..end]).unwrap();
        let (input, output) = (member(step, "input"), member(step, "output"));
        let begin = end + 1;
        let (given, wanted) = (&rest[begin..begin + input], &rest[begin + input..begin + input + output]);
        if let Ok(given) = std::str::from_utf8(given) {
            assert_eq!(report(given, false).as_bytes(), wanted, "{step}");
            assert_eq!(report(given, true).as_bytes(), wanted, "{step}, resumed");
            tried += 1;
        }
        rest = &rest[begin + input + output + 1..];
    }
    // (most scripts of hub.cases have a comment that is no UTF-8)
    assert!(tried >= 60, "{tried}");
}

fn member(step: &str, name: &str) -> usize {
    let behind = step.split_once(&format!("\"{name}\":")).unwrap().1;
    behind[..behind.find(|it: char| !it.is_ascii_digit()).unwrap()].parse().unwrap()
}

#[test]
fn parts_and_refusals() {
    let mut hub = Hub::open(PROGRAMS).unwrap();
    hub.step(r#"{"at":1,"edit":[{"at":["all",[{"set":8}]]}]}"#).unwrap();
    assert_eq!(hub.document().unwrap(), r#"{"done":false,"hours":8}"#);
    assert_eq!(hub.view(0).unwrap().as_deref(), Some(r#"{"time":8}"#));
    assert!(hub.complement(1).unwrap().is_some());
    assert_eq!((hub.view(2).unwrap(), hub.complement(u64::MAX).unwrap()), (None, None));
    let refused = hub.step(r#"{"at":2,"edit":[]}"#).unwrap();
    assert_eq!(refused, Answer::Refused { line: "refused 2 no-view\n".into(), cause: Cause::NoView, part: 0, at: 0 });
    assert_eq!(hub.step("{}\n{}"), Err(Error::LineFeed));
    assert_eq!(hub.items(), 2);
    let programs = "main id int\n+++\nmain id text";
    for hub in [Hub::open(programs), Hub::resume(programs, ["{}"])] {
        match hub {
            Err(Error::ProgramsRefused { line, view, .. }) => assert_eq!((line.as_str(), view), ("program refused: views-differ 1\n", 1)),
            other => panic!("{other:?}"),
        }
    }
}

#[test]
fn a_state_is_resumed_if_it_is_consistent() {
    let mut hub = Hub::open(PROGRAMS).unwrap();
    hub.step(r#"{"at":1,"edit":[{"at":["all",[{"set":8}]]}]}"#).unwrap();
    let texts = hub.texts().unwrap();
    let mut other = Hub::resume(PROGRAMS, &texts).unwrap();
    assert_eq!((other.texts(), other.state(), other.items()), (hub.texts(), hub.state(), 0));
    assert_eq!(texts.len(), 5);
    let with = |number: usize, text: &str| {
        let mut texts = texts.clone();
        texts[number] = text.into();
        texts
    };
    let more: Vec<_> = texts.iter().chain([&texts[4]]).cloned().collect();
    for (given, fault) in [
        (texts[1..].to_vec(), HubStateFault::OtherCount),
        (more, HubStateFault::OtherCount),
        (with(0, "{}"), HubStateFault::NotHub),
        (with(1, "not JSON"), HubStateFault::NotView(0)),
        (with(3, &texts[1]), HubStateFault::NotView(1)),
        (with(2, "7"), HubStateFault::NotComplement(0)),
        (with(4, &texts[2]), HubStateFault::NotComplement(1)),
        (with(1, r#"{"time":9}"#), HubStateFault::NotConsistent(0)),
        (with(0, r#"{"done":true,"hours":8}"#), HubStateFault::NotConsistent(1)),
    ] {
        assert_eq!(Hub::resume(PROGRAMS, &given).map(|_| ()), Err(Error::HubStateRefused(fault)), "{given:?}");
    }
    assert_eq!(Error::HubStateRefused(HubStateFault::NotConsistent(1)).to_string(), "view 1 is not consistent with the hub");
}

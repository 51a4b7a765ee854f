//! The example of the tasks, sessions in threads, refusals, and cases of whole runs against their stored answers.
use editlens::{Answer, Cause, Error, RecordFault, Session, Side, StateFault};
use std::path::{Path, PathBuf};

const SMALL: &str = "main {hours ~ time: id int, left done: bool}\n";

fn top() -> PathBuf {
    Path::new(env!("CARGO_MANIFEST_DIR")).join("../..")
}

/// What `editlens run` writes for a script, by a session.
fn report(script: &str) -> String {
    let (mut program, mut journal) = (script, "");
    let mut begin = 0;
    for line in script.split_inclusive('\n') {
        if matches!(line, "---" | "---\n" | "---\r" | "---\r\n") {
            (program, journal) = (&script[..begin], &script[begin + line.len()..]);
            break;
        }
        begin += line.len();
    }
    let mut session = match Session::open(program) {
        Ok(session) => session,
        Err(Error::ProgramRefused { line, .. }) => return line,
        Err(error) => panic!("{error}"),
    };
    let mut text = String::new();
    for line in journal.strip_suffix('\n').unwrap_or(journal).split('\n') {
        text += session.step(line).unwrap().line();
    }
    text + &session.state().unwrap()
}

#[test]
fn the_example_of_the_tasks() {
    let script = std::fs::read_to_string(top().join("examples/tasks.script")).unwrap();
    assert_eq!(report(&script), std::fs::read_to_string(top().join("examples/tasks.out")).unwrap());
}

#[test]
fn five_hundred_cases() {
    let data: Vec<u8> = ["runs", "groups", "lenses", "lenses_reference"]
        .iter()
        .flat_map(|name| std::fs::read(top().join(format!("crates/case_commands/data/{name}.cases"))).unwrap())
        .collect();
    let (mut rest, mut tried) = (&data[..], 0);
    while !rest.is_empty() && tried < 500 {
        let end = rest.iter().position(|byte| *byte == b'\n').unwrap();
        let step = std::str::from_utf8(&rest[..end]).unwrap();
        let input = member(step, "input");
        let output = member(step, "output");
        let begin = end + 1;
        let given = &rest[begin..begin + input];
        let wanted = &rest[begin + input..begin + input + output];
        if step.contains(r#""words":["run"]"#) {
            if let Ok(given) = std::str::from_utf8(given) {
                assert_eq!(report(given).as_bytes(), wanted, "{step}");
                tried += 1;
            }
        }
        rest = &rest[begin + input + output + 1..];
    }
    assert_eq!(tried, 500);
}

fn member(step: &str, name: &str) -> usize {
    let begin = step.find(&format!("\"{name}\":")).unwrap() + name.len() + 3;
    step[begin..].split(|it: char| !it.is_ascii_digit()).next().unwrap().parse().unwrap()
}

#[test]
fn refusals_are_values() {
    let mut session = Session::open(SMALL).unwrap();
    assert_eq!(session.step("  \t").unwrap(), Answer::Blank);
    assert_eq!(session.step("{\"side\":\"left\",\n\"edit\":[]}"), Err(Error::LineFeed));
    let line = r#"{"group":[{"side":"left","edit":[]},{"side":"left","edit":[{"at":["hours",[{"set":1}]]},{"at":["none",[{"set":8}]]}]}]}"#;
    let wanted = Answer::Refused { line: "refused 1 group 1 no-apply 1 place\n".into(), cause: Cause::Place, part: 1, at: 1 };
    assert_eq!(session.step(line).unwrap(), wanted);
    assert_eq!(session.left().unwrap(), r#"{"done":false,"hours":0}"#);
    assert_eq!(session.items(), 1);
    let wanted = Error::ProgramRefused { line: "program refused: not-a-program 6\n".into(), cause: 22, at: 6 };
    assert_eq!(Session::open("main {").map(|_| ()), Err(wanted));
}

#[test]
fn a_state_is_resumed_if_it_is_consistent() {
    let mut session = Session::open(SMALL).unwrap();
    session.step(r#"{"side":"left","edit":[{"at":["hours",[{"set":8}]]},{"at":["done",[{"set":true}]]}]}"#).unwrap();
    let (left, comp, right) = (session.left().unwrap(), session.complement().unwrap(), session.right().unwrap());
    let mut other = Session::resume(SMALL, &left, &comp, &right).unwrap();
    assert_eq!(other.state(), session.state());
    let refused = |left: &str, comp: &str, right: &str| Session::resume(SMALL, left, comp, right).map(|_| ()).unwrap_err();
    assert_eq!(refused(&left, &comp, r#"{"time":9}"#), Error::StateRefused(StateFault::NotConsistent));
    assert_eq!(refused("{}", &comp, &right), Error::StateRefused(StateFault::NotLeft));
    assert_eq!(refused(&left, "7", &right), Error::StateRefused(StateFault::NotComplement));
    assert_eq!(refused(&left, &comp, "not JSON"), Error::StateRefused(StateFault::NotRight));
}

#[test]
fn a_log_is_reopened() {
    let mut session = Session::open(SMALL).unwrap();
    let mut records = vec![session.opening().to_string()];
    assert_eq!(records[0], r#"{"program":"main {hours ~ time: id int, left done: bool}","version":2}"#);
    assert_eq!(session.change(), Err(Error::NoChange));
    for line in [
        r#"{"side":"left","edit":[{"at":["hours",[{"set":8}]]}]}"#,
        r#"{"side":"left","edit":[{"at":["none",[]]}]}"#,
        r#"{"group":[{"side":"right","edit":[{"at":["time",[{"add":1}]]}]},{"side":"left","edit":[{"at":["done",[{"set":true}]]}]}]}"#,
    ] {
        match session.step(line).unwrap() {
            Answer::Accepted { .. } => records.push(session.change().unwrap()),
            _ => assert_eq!(session.change(), Err(Error::NoChange)),
        }
    }
    assert_eq!(records.len(), 3);
    assert_eq!(session.undo(Side::Right).unwrap(), r#"[{"at":["time",[{"set":8}]]}]"#);
    let mut again = Session::reopen(&records).unwrap();
    assert_eq!((again.state(), again.opening(), again.items()), (session.state(), "", 0));
    records.push(again.snapshot().unwrap());
    assert_eq!(Session::reopen(&records).unwrap().state(), session.state());
    let refused = |records: &[String]| Session::reopen(records).map(|_| ()).unwrap_err();
    assert_eq!(refused(&[]), Error::RecordsRefused(RecordFault::BadRecord(1)));
    records.insert(2, "{}".into());
    assert_eq!(refused(&records), Error::RecordsRefused(RecordFault::BadRecord(3)));
    records[2] = records.pop().unwrap().replace("\"hours\":9", "\"hours\":7");
    assert_eq!(refused(&records), Error::RecordsRefused(RecordFault::NotConsistent(3)));
}

#[test]
fn one_document_is_given() {
    let mut session = Session::import(SMALL, Side::Right, r#"{"time":8}"#).unwrap();
    assert_eq!((session.left().unwrap().as_str(), session.items()), (r#"{"done":false,"hours":8}"#, 0));
    let records = [session.opening().to_string(), session.snapshot().unwrap()];
    assert_eq!(Session::reopen(&records).unwrap().state(), session.state());
    let mut session = Session::import(SMALL, Side::Left, r#"{"done":true,"hours":8}"#).unwrap();
    assert_eq!(session.right().unwrap(), r#"{"time":8}"#);
    let refused = |side| Session::import(SMALL, side, "{}").map(|_| ()).unwrap_err();
    assert_eq!(refused(Side::Left), Error::StateRefused(StateFault::NotLeft));
    assert_eq!(refused(Side::Right), Error::StateRefused(StateFault::NotRight));
}

#[test]
fn sessions_in_threads() {
    let threads: Vec<_> = (0..4)
        .map(|_| {
            let work = || {
                let mut session = Session::open(SMALL).unwrap();
                for hours in 0..5000 {
                    let line = format!(r#"{{"side":"left","edit":[{{"at":["hours",[{{"set":{hours}}}]]}}]}}"#);
                    assert!(session.step(&line).unwrap().line().starts_with("ok "));
                }
                session.right().unwrap()
            };
            std::thread::Builder::new().stack_size(256 << 10).spawn(work).unwrap()
        })
        .collect();
    for thread in threads {
        assert_eq!(thread.join().unwrap(), r#"{"time":4999}"#);
    }
}

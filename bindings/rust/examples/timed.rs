//! The caller in Rust of bench/library_c: nanoseconds of processor time of a change in a list of RECORDS records, over CHANGES of them.
use editlens::{Answer, Session};
use std::time::Instant;

fn give(session: &mut Session, line: &str) {
    assert!(matches!(session.step(line).unwrap(), Answer::Accepted { .. }));
}

fn main() {
    let numbers: Vec<usize> = std::env::args().skip(1).map(|it| it.parse().unwrap()).collect();
    let (records, changes) = (numbers[0], numbers[1]);
    let mut session = Session::open("main each {name ~ label: id text, left age: int, right note: text}\n").unwrap();
    for begin in (0..records).step_by(10000) {
        give(&mut session, &format!(r#"{{"side":"left","edit":[{{"ins":{}}}]}}"#, (records - begin).min(10000)));
    }
    let start = Instant::now();
    for number in 0..changes {
        let place = number * 7919 % records;
        give(&mut session, &format!(r#"{{"side":"left","edit":[{{"mod":[{place},[{{"at":["name",[{{"set":"n{number}"}}]]}}]]}}]}}"#));
    }
    println!("{}", start.elapsed().as_nanos() / changes as u128);
}

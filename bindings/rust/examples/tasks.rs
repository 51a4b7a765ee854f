//! The script that the standard input has, answered as `editlens run` answers it.
use editlens::{Error, Session};
use std::io::Read;

fn main() -> Result<(), Error> {
    let mut script = String::new();
    std::io::stdin().read_to_string(&mut script).expect("a script in UTF-8");
    let (program, journal) = script.split_once("\n---\n").unwrap_or((&script, ""));
    let mut session = Session::open(&format!("{program}\n"))?;
    for line in journal.lines() {
        print!("{}", session.step(line)?.line());
    }
    print!("{}", session.state()?);
    Ok(())
}

//! Parses each line of the standard input with `serde_json` into types that borrow from the line, without a tree, and writes its edit
//! back. It is the second program that `bench/stream.sh` compares with. It knows the primitives of that journal and a few more.
use serde_derive::{Deserialize, Serialize};
use std::borrow::Cow;
use std::io::{self, BufRead, Write};

#[derive(Deserialize)]
#[serde(deny_unknown_fields)]
struct Entry<'a> {
    #[serde(borrow)]
    side: Cow<'a, str>,
    #[serde(borrow)]
    edit: Vec<Primitive<'a>>,
}

#[derive(Deserialize, Serialize)]
#[serde(rename_all = "lowercase")]
enum Primitive<'a> {
    At(#[serde(borrow)] Cow<'a, str>, Vec<Primitive<'a>>),
    Stay(#[serde(borrow)] Cow<'a, str>, Vec<Primitive<'a>>),
    Mod(u64, #[serde(borrow)] Vec<Primitive<'a>>),
    Set(i64),
    Add(i64),
    Ins(u32),
    Del(u32),
}

fn main() -> io::Result<()> {
    let mut source = io::stdin().lock();
    let mut sink = io::BufWriter::new(io::stdout());
    let mut line = Vec::new();
    let mut number = 0u64;
    while source.read_until(b'\n', &mut line)? > 0 {
        number += 1;
        if let Ok(entry) = serde_json::from_slice::<Entry>(&line) {
            let side = if entry.side == "left" { "right" } else { "left" };
            write!(sink, "ok {number} {side} ")?;
            serde_json::to_writer(&mut sink, &entry.edit)?;
            sink.write_all(b"\n")?;
        }
        line.clear();
    }
    sink.flush()
}

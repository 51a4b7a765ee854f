//! Parses each line of the standard input with `serde_json`, and writes its edit back. It is what `bench/stream.sh` compares the
//! program with.
use std::io::{self, BufRead, Write};

fn main() -> io::Result<()> {
    let mut sink = io::BufWriter::new(io::stdout());
    let lines = io::stdin().lock().split(b'\n');
    for (line, number) in lines.zip(1u64..) {
        if let Ok(entry) = serde_json::from_slice::<serde_json::Value>(&line?) {
            writeln!(sink, "ok {number} right {}", entry["edit"])?;
        }
    }
    sink.flush()
}

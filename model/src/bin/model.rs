//! Reads a script on standard input and writes one answer for each command on standard output.

use model::slots::Model;
use std::io::{self, BufWriter, Read, Write};

fn main() -> io::Result<()> {
    let mut script = Vec::new();
    io::stdin().lock().read_to_end(&mut script)?;
    let mut out = BufWriter::new(io::stdout().lock());
    let mut model = Model::default();
    // What follows the last line feed is a line too; where that is nothing, it has no answer.
    for line in script.split(|byte| *byte == b'\n') {
        if let Some(answer) = model.answer(line) {
            writeln!(out, "{answer}")?;
        }
    }
    out.flush()
}

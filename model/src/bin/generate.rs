//! `generate KIND SEED` writes a script to standard output. KIND is exhaustive, random or damaged.

use std::io::{self, Write};
use std::process::ExitCode;

fn main() -> ExitCode {
    let args: Vec<String> = std::env::args().skip(1).collect();
    let asked = match args.as_slice() {
        [kind, seed] => seed.parse().ok().and_then(|seed| model::generate::script(kind, seed)),
        _ => None,
    };
    let Some(script) = asked else {
        eprintln!("usage: generate exhaustive|random|damaged SEED");
        return ExitCode::from(2);
    };
    match io::stdout().lock().write_all(&script) {
        Ok(()) => ExitCode::SUCCESS,
        Err(error) => {
            eprintln!("generate: {error}");
            ExitCode::FAILURE
        }
    }
}

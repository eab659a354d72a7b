//! `compare NAME SCRIPT DRIVER MODEL` holds the answers of the driver beside those of the model. It prints how
//! many commands the script has, how they were answered, and the first difference, where there is one.

use std::collections::BTreeMap;
use std::process::ExitCode;

struct Answers<'a> {
    lines: Vec<&'a [u8]>,
}

impl<'a> Answers<'a> {
    fn of(bytes: &'a [u8]) -> Answers<'a> {
        let mut lines: Vec<&[u8]> = bytes.split(|byte| *byte == b'\n').collect();
        // Every answer ends with a line feed. Where the last one does not, it stays, and shows as a difference.
        if lines.last() == Some(&&b""[..]) {
            lines.pop();
        }
        Answers { lines }
    }

    fn shown(&self, i: usize) -> String {
        match self.lines.get(i) {
            Some(line) => line.escape_ascii().to_string(),
            None => "(no answer)".to_string(),
        }
    }
}

/// The commands of a script, each with the number of its line.
fn commands(script: &[u8]) -> Vec<(usize, &[u8])> {
    let lines = script.split(|byte| *byte == b'\n').enumerate();
    lines.filter(|(_, line)| !line.is_empty() && line[0] != b'#').map(|(i, line)| (i + 1, line)).collect()
}

/// How often each kind of answer occurs: ok, refused by each number, misuse, and other.
fn tally(answers: &Answers) -> String {
    let mut refused: BTreeMap<u32, usize> = BTreeMap::new();
    let (mut ok, mut misuse, mut other) = (0, 0, 0);
    for line in &answers.lines {
        let text = String::from_utf8_lossy(line);
        let mut words = text.split(' ');
        match (words.next(), words.next().and_then(|word| word.parse().ok())) {
            (Some("ok"), None) => ok += 1,
            (Some("misuse"), None) => misuse += 1,
            (Some("refused"), Some(number)) => *refused.entry(number).or_default() += 1,
            _ => other += 1,
        }
    }
    let by_number: Vec<String> =
        refused.iter().map(|(number, count)| format!("by {number}: {count}")).collect();
    format!("ok {ok}, refused {{{}}}, misuse {misuse}, other {other}", by_number.join(", "))
}

/// The first answer that differs. A driver that answers too much or stops early differs as well.
fn first_difference(driver: &Answers, model: &Answers) -> Option<usize> {
    let most = driver.lines.len().max(model.lines.len());
    (0..most).find(|&i| driver.lines.get(i) != model.lines.get(i))
}

fn report(name: &str, files: &[Vec<u8>]) -> bool {
    let script = commands(&files[0]);
    let (driver, model) = (Answers::of(&files[1]), Answers::of(&files[2]));
    println!("{name}: {} commands; {}", script.len(), tally(&model));
    if files[1] == files[2] {
        println!("  driver and model agree");
        return true;
    }
    let Some(i) = first_difference(&driver, &model) else {
        println!("  they differ in how the last answer ends");
        return false;
    };
    match script.get(i) {
        Some((line, command)) => println!("  they differ at line {line}: {}", command.escape_ascii()),
        None => println!("  they differ after the last command"),
    }
    println!("  driver: {}", driver.shown(i));
    println!("  model:  {}", model.shown(i));
    false
}

fn main() -> ExitCode {
    let args: Vec<String> = std::env::args().skip(1).collect();
    let [name, paths @ ..] = args.as_slice() else {
        return usage();
    };
    if paths.len() != 3 {
        return usage();
    }
    let files: Result<Vec<Vec<u8>>, _> = paths.iter().map(std::fs::read).collect();
    match files {
        Ok(files) if report(name, &files) => ExitCode::SUCCESS,
        Ok(_) => ExitCode::FAILURE,
        Err(error) => {
            eprintln!("compare: {error}");
            ExitCode::from(2)
        }
    }
}

fn usage() -> ExitCode {
    eprintln!("usage: compare NAME SCRIPT DRIVER MODEL");
    ExitCode::from(2)
}

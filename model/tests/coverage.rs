//! The scripts together reach every command and every refusal that a command can be answered with, and none of
//! them makes a selection that is too long.

use model::generate::script;
use model::slots::Model;
use std::collections::BTreeSet;

const COMMANDS: [&str; 25] = [
    "reset", "runs", "mask", "ranges", "copy", "convert", "andthen", "and", "or", "join", "split", "offset",
    "limit", "trim", "rows", "bytes", "count", "sum", "eq", "strategy", "scan", "pagerows", "nth",
    "fillmask", "fillruns",
];

/// No script makes a longer selection, so that neither side needs much memory.
const MOST_ROWS: usize = 2_000_000;

/// What the script of a kind reaches: command names that were done, and numbers of refusals.
fn reached(kind: &str, seed: u64) -> (BTreeSet<String>, BTreeSet<u32>) {
    let mut model = Model::default();
    let (mut names, mut numbers) = (BTreeSet::new(), BTreeSet::new());
    for line in script(kind, seed).expect("a kind").split(|byte| *byte == b'\n') {
        let Some(answer) = model.answer(line) else { continue };
        assert!((0..16).filter_map(|slot| model.slot(slot)).all(|held| held.rows.len() <= MOST_ROWS));
        if answer == "misuse" {
            continue;
        }
        if let Some(rest) = answer.strip_prefix("refused ") {
            numbers.insert(rest.split(' ').next().and_then(|number| number.parse().ok()).expect("a number"));
            continue;
        }
        let text = std::str::from_utf8(line).expect("no command has other bytes");
        names.insert(text.split(' ').next().expect("a name").to_string());
    }
    (names, numbers)
}

fn all_reached(kind: &str, seed: u64) {
    let (names, numbers) = reached(kind, seed);
    let commands: BTreeSet<String> = COMMANDS.map(str::to_string).into();
    assert_eq!(names, commands, "{kind} {seed}");
    assert_eq!(numbers, BTreeSet::from([1, 2, 3, 4, 5, 6, 7, 12]), "{kind} {seed}");
}

#[test]
fn exhaustive() {
    all_reached("exhaustive", 0);
}

#[test]
fn random() {
    all_reached("random", 1);
}

#[test]
fn damaged() {
    all_reached("damaged", 1);
}

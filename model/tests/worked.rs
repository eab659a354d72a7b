//! The worked selections of docs/RULES.md, where a command shows them: all but the chunks.

use model::slots::Model;

/// Says every line but the last, each of which must be done, and answers the last.
fn answer(lines: &[&str]) -> String {
    let mut model = Model::default();
    let (last, before) = lines.split_last().expect("a line");
    for line in before {
        assert_eq!(model.answer(line.as_bytes()).as_deref(), Some("ok"), "{line}");
    }
    model.answer(last.as_bytes()).expect("a command")
}

const S: &str = "runs 0 4 -2 +3 -1 +2";

#[test]
fn a_mask_of_s() {
    assert_eq!(answer(&[S, "bytes 0 1"]), "bytes dc");
    assert_eq!(answer(&["mask 0 0 8 dc", "rows 0"]), "rows -2 +3 -1 +2");
}

#[test]
fn and_then() {
    let second = "runs 1 3 +1 -1 +3";
    assert_eq!(answer(&[S, second, "andthen 2 0 1 -", "rows 2"]), "rows -2 +1 -1 +1 -1 +2");
    assert_eq!(answer(&[S, "runs 1 1 +4", "andthen 2 0 1 -"]), "refused 4 4 selection");
    assert_eq!(answer(&[S, "runs 1 1 +6", "andthen 2 0 1 -"]), "refused 5 5 selection");
    assert_eq!(answer(&["runs 0 1 -3", "runs 1 0", "andthen 2 0 1 -", "rows 2"]), "rows -3");
}

#[test]
fn combining() {
    let (first, second) = ("runs 0 2 +3 -2", "runs 1 2 -1 +1");
    assert_eq!(answer(&[first, second, "and 2 0 1 -", "rows 2"]), "rows -1 +2 -2");
    assert_eq!(answer(&[first, second, "or 2 0 1 -", "rows 2"]), "rows +3 -2");
}

#[test]
fn offset_and_limit() {
    assert_eq!(answer(&[S, "offset 0 2 -", "rows 0"]), "rows -4 +1 -1 +2");
    assert_eq!(answer(&[S, "offset 0 5 -", "rows 0"]), "rows");
    assert_eq!(answer(&["runs 0 2 +2 -3", "limit 0 2 -", "rows 0"]), "rows +2");
    assert_eq!(answer(&["runs 0 2 +2 -3", "limit 0 3 -", "rows 0"]), "rows +2 -3");
}

#[test]
fn split_and_trim() {
    assert_eq!(answer(&[S, "split 1 0 4 - -", "rows 1"]), "rows -2 +2");
    assert_eq!(answer(&[S, "split 1 0 4 - -", "rows 0"]), "rows +1 -1 +2");
    assert_eq!(answer(&["runs 0 1 -4", "trim 0 -", "rows 0"]), "rows");
}

#[test]
fn pages() {
    let p = "100 50 0 150 50 4 200 30 6";
    assert_eq!(answer(&["runs 0 2 -4 +2", &format!("scan 0 3 {p}")]), "ranges 150 200");
    assert_eq!(answer(&["runs 0 2 -4 +3", &format!("scan 0 3 {p}")]), "ranges 150 200 200 230");
}

#[test]
fn strategy() {
    assert_eq!(answer(&[S, "strategy 0 2"]), "strategy selectors");
    assert_eq!(answer(&[S, "strategy 0 3"]), "strategy mask");
}

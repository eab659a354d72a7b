//! Refusals in their order, and readings of docs/RULES.md and docs/SCRIPT.md that no worked selection shows.

use model::refusal::of_selection;
use model::slots::{joined_length, Model};

/// Each line with its answer, over the same slots.
fn check(lines: &[(&str, &str)]) {
    let mut model = Model::default();
    for (line, expected) in lines {
        assert_eq!(model.answer(line.as_bytes()).as_deref(), Some(*expected), "{line}");
    }
}

#[test]
fn the_row_limit() {
    check(&[
        ("runs 0 4 +1073741824 -1", "refused 1 1 selection"),
        ("runs 0 4 +1 +18446744073709551615", "refused 1 1 selection"),
        ("runs 0 0 +1073741824", "refused 12 1 selection"),
        ("mask 0 0 1073741825 ff", "refused 1 0 selection"),
        ("ranges 0 0 1073741825 5 4", "refused 1 0 selection"),
        ("fillmask 0 1 1073741825 0 0", "refused 1 0 selection"),
        ("fillruns 0 0 1 1 1", "refused 12 1 selection"),
        ("rows 0", "misuse"),
    ]);
    // By its arithmetic alone: as a command it would take a thousand million rows.
    assert_eq!(joined_length(1 << 30, 0), Ok(()));
    assert_eq!(joined_length(1 << 30, 1), Err(of_selection(1, 1)));
}

#[test]
fn masks_past_their_bytes() {
    check(&[
        ("mask 0 3 6 ff", "refused 2 5 bits"),
        ("mask 0 9 0 ff", "refused 2 0 bits"),
        ("mask 0 8 0 ff", "ok"),
        ("mask 0 18446744073709551615 1 ff", "refused 2 0 bits"),
        ("mask 0 3 5 f7", "ok"),
        ("rows 0", "rows -1 +4"),
    ]);
}

#[test]
fn ranges_in_order() {
    check(&[
        ("ranges 0 4 6 9 9 1 3 0 0 3 4", "ok"),
        ("rows 0", "rows -1 +3 -2"),
        ("ranges 0 4 6 1 3 2 4", "refused 3 1 selection"),
        ("ranges 0 4 6 3 1", "refused 3 0 selection"),
        ("ranges 0 4 6 0 0 5 7", "refused 3 1 selection"),
        ("ranges 0 2 6 1 3", "refused 12 3 selection"),
        ("rows 0", "rows -1 +3 -2"),
    ]);
}

#[test]
fn page_lists() {
    check(&[
        ("runs 0 2 -1 +1", "ok"),
        ("scan 0 4", "refused 6 0 selection"),
        ("scan 0 4 0 1 0 0 1 1", "refused 6 1 selection"),
        ("scan 0 4 0 1 0 5 -1 1", "refused 6 1 selection"),
        ("scan 0 4 0 1 0 5 1 1073741824", "ranges 0 1"),
        ("scan 0 4 0 1 0 5 1 1073741825", "refused 6 1 selection"),
        ("scan 0 0 -0 1 0", "refused 12 1 selection"),
        ("pagerows 0 0 1073741825", "refused 1 0 selection"),
        ("pagerows 0 0 1", "refused 6 0 selection"),
        ("pagerows 0 0 1 0 1 0", "refused 7 1 selection"),
        ("pagerows 0 0 2 0 1 0", "refused 12 1 selection"),
        ("pagerows 0 1 2 0 1 0 5 1 1", "ranges 1 2"),
        ("pagerows 0 1 2 0 1 0 5 1 2", "refused 7 2 selection"),
    ]);
}

#[test]
fn places_and_forms() {
    check(&[
        ("mask 0 1 3 0e", "ok"),
        ("runs 1 2 +2 -1", "ok"),
        ("nth 1 1", "misuse"),
        ("and 2 0 1 -", "ok"),
        ("nth 2 1", "misuse"),
        ("andthen 2 0 1 -", "ok"),
        ("nth 2 3", "nth 3"),
        ("andthen 2 0 1 r 1", "refused 12 2 selection"),
        ("andthen 2 0 1 m 0", "refused 12 1 bits"),
        ("split 2 1 2 r 0 m 0", "refused 12 1 selection"),
        ("split 2 1 2 r 1 m 0", "refused 12 1 bits"),
        ("rows 1", "rows +2 -1"),
        ("split 1 1 2 - -", "misuse"),
        ("bytes 1 0", "refused 12 1 bits"),
        ("count 1", "count 2 3 1"),
        ("strategy 1 18446744073709551615", "strategy mask"),
        ("reset", "ok"),
        ("rows 1", "misuse"),
    ]);
}

#[test]
fn lines() {
    let mut model = Model::default();
    assert_eq!(model.answer(b""), None);
    assert_eq!(model.answer(b"# \xff"), None);
    for line in [&b" "[..], b"reset ", b" reset", b"reset\r", b"reset\t", b"rese\xf4", b"RESET", b"open 0"] {
        assert_eq!(model.answer(line).as_deref(), Some("misuse"), "{}", line.escape_ascii());
    }
    check(&[
        ("runs 015 004 +01 -000 +2", "ok"),
        ("rows 15", "rows +3"),
        ("rows 16", "misuse"),
        ("sum 15", "sum 3 3 1 12638149817160282822"),
        ("fillmask 0 0 1 0 0", "misuse"),
        ("fillmask 0 1 1 0 3", "misuse"),
        ("fillruns 0 1 1 1 0", "misuse"),
    ]);
}

/// The draws of seed 1 are 47e4ce4b896cdd1d, abcfa6a8e079651d, b9d10d8feb731f57, 4db418a0bb1b019d and so on.
#[test]
fn made_selections() {
    check(&[
        ("fillmask 0 1 64 0 0", "ok"),
        ("bytes 0 8", "bytes 1ddd6c894bcee447"),
        ("fillmask 0 1 4 8 0", "ok"),
        ("rows 0", "rows +1 -1 +2"),
        ("fillmask 0 1 200 60 1", "ok"),
        ("rows 0", "rows -4 +128 -68"),
        ("fillmask 0 1 64 0 2", "ok"),
        ("bytes 0 8", "bytes 1501008000008001"),
        ("fillruns 0 3 1 3 100", "ok"),
        ("rows 0", "rows -38 +56 -76"),
        ("fillruns 0 2 1 3 100", "refused 12 3 selection"),
        ("nth 0 1", "misuse"),
    ]);
}

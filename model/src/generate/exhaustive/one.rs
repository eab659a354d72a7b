//! Commands of one selection: convert, trim, limit, offset and split, each with every place up to its result.

use super::super::writer::{mask_line, places};
use super::{lists, Tour};

pub fn all(tour: &mut Tour) {
    tour.say("# one selection");
    for rows in lists(5) {
        tour.both_forms(0, 1, &rows);
        for source in [0, 1] {
            converted(tour, source, &rows);
            changed(tour, source, "trim 2".to_string());
            for n in numbers(rows.len()) {
                changed(tour, source, format!("limit 2 {n}"));
                changed(tour, source, format!("offset 2 {n}"));
                split(tour, source, n, &rows);
            }
        }
        at_each_offset(tour, &rows);
    }
}

/// The same commands on masks that begin at each bit of a byte, in their natural form.
fn at_each_offset(tour: &mut Tour, rows: &[bool]) {
    for offset in 0..8 {
        let junk = tour.any(2) == 1;
        tour.say(&mask_line(1, rows, offset, junk, 0));
        let mut commands = vec!["trim 2 -".to_string()];
        for n in numbers(rows.len()) {
            commands.push(format!("limit 2 {n} -"));
            commands.push(format!("offset 2 {n} -"));
            commands.push(format!("split 3 2 {n} - -"));
        }
        for command in commands {
            tour.say("copy 2 1");
            tour.say(&command);
            tour.say("rows 2");
            if command.starts_with("split") {
                tour.say("rows 3");
            }
        }
    }
}

/// Every number up to one past the length, and the greatest one.
fn numbers(length: usize) -> Vec<u64> {
    let mut all: Vec<u64> = (0..=length as u64 + 1).collect();
    all.push(u64::MAX);
    all
}

fn converted(tour: &mut Tour, source: usize, rows: &[bool]) {
    tour.each_place(&places(rows), "", |place| format!("convert 2 {source} {place}"), 2);
    tour.say(&format!("copy 3 {source}"));
    tour.look(3, "-");
    tour.say(&format!("convert {source} {source} -"));
    tour.look(source, "-");
}

/// A command that changes slot 2, into each place up to its result.
fn changed(tour: &mut Tour, source: usize, command: String) {
    let copy = format!("copy 2 {source}");
    tour.say(&copy);
    let result = tour.out.rows_of(&format!("{command} -")).expect("room is enough");
    let every = places(&result);
    tour.each_place(&every, &copy, |place| format!("{command} {place}"), 2);
}

/// Each place of the answer beside each of the rest, where the rows are few. Else each of either beside one of
/// the other.
fn split(tour: &mut Tour, source: usize, n: u64, rows: &[bool]) {
    let cut = rows.len().min(n as usize);
    let (answer, rest) = (places(&rows[..cut]), places(&rows[cut..]));
    if rows.len() <= 3 {
        for place in &answer {
            for other in &rest {
                split_into(tour, source, n, place, other);
            }
        }
        return;
    }
    for place in &answer {
        let other = &rest[tour.any(rest.len())];
        split_into(tour, source, n, place, other);
    }
    for place in &rest {
        let other = &answer[tour.any(answer.len())];
        split_into(tour, source, n, other, place);
    }
}

fn split_into(tour: &mut Tour, source: usize, n: u64, answer: &str, rest: &str) {
    tour.say(&format!("copy 2 {source}"));
    tour.say(&format!("split 3 2 {n} {answer} {rest}"));
    tour.look(2, rest);
    tour.look(3, answer);
}

//! Lines by hand: the row limit, numbers around what 64 bits hold, misuse, and the form of lines. Whatever is
//! near the row limit here is refused, so that nobody has to make that many rows.

use super::Tour;

const LIMIT: [&str; 33] = [
    "runs 0 4 +1073741824 -1",
    "runs 0 4 +1073741825",
    "runs 0 4 -0 +1073741823 -0 -2",
    "runs 0 0 +1 +18446744073709551615",
    "runs 0 4 +18446744073709551615 -18446744073709551615",
    "runs 0 4 -536870912 -536870912 +0 -1",
    "runs 0 0 +1073741824",
    "runs 0 1 +1073741823 -1",
    "runs 0 0 -0 +536870912 -0 +536870912",
    "mask 0 0 1073741824 ff",
    "mask 0 0 1073741825 ff",
    "mask 0 18446744073709551615 0 ff",
    "mask 0 18446744073709551615 1 ff",
    "mask 0 18446744073709551615 1073741824 ff",
    "mask 0 18446744073709551615 18446744073709551615 ff",
    "mask 0 8 0 ff",
    "mask 0 9 0 ff",
    "mask 0 1 0 -",
    "mask 0 0 0 -",
    "ranges 0 4 1073741825",
    "ranges 0 4 18446744073709551615 5 4",
    "ranges 0 0 1073741824",
    "ranges 0 1 1073741824 0 1",
    "ranges 0 2 1073741824 1 1073741823",
    "ranges 0 4 1073741824 0 1073741825",
    "ranges 0 4 1073741824 0 1 0 18446744073709551615",
    "ranges 0 4 1073741824 18446744073709551615 0",
    "ranges 0 4 5 18446744073709551615 18446744073709551615 1 2",
    "fillmask 0 1 1073741825 0 0",
    "fillmask 0 1 18446744073709551615 3 2",
    "fillruns 0 0 1 9 18446744073709551615",
    "fillruns 0 40 5 40 200000000",
    "fillruns 0 2 5 3 1000000000",
];

const MISUSE: [&str; 28] = [
    "reset 0",
    "copy 0 9",
    "convert 1 9 -",
    "and 0 0 9 -",
    "and 0 9 0 -",
    "scan 9 4",
    "pagerows 9 4 1073741825",
    "split 0 0 1 - -",
    "split 9 9 1 - -",
    "nth 1 0",
    "nth 9 0",
    "rows 16",
    "rows 18446744073709551616",
    "fillmask 0 0 5 0 0",
    "fillmask 0 1 5 0 3",
    "fillmask 0 0 1073741825 0 0",
    "fillruns 0 4 0 1 1",
    "fillruns 0 4 1 1 0",
    "mask 0 0 4 F0",
    "mask 0 0 4 f",
    "runs 0 4 3",
    "runs 0 4 +",
    "scan 0 4 1 2147483648 0",
    "scan 0 4 9223372036854775808 1 0",
    "ranges 0 4 5 1",
    "convert 1 0 r",
    "convert 1 0 x 4",
    "trim 0",
];

/// Odd to look at, but of the form.
const FORM: [&str; 9] = [
    "rows 000",
    "rows 0000000000000000000000000000000000000000000000015",
    "runs 015 0004 +0003 -00",
    "scan 00 04 -0 -0 -0",
    "scan 0 4 0000000000000000000000000 -00 00",
    "scan 0 4 -9223372036854775808 -2147483648 -9223372036854775808",
    "scan 0 4 9223372036854775806 2147483647 0 9223372036854775807 2147483647 1",
    "strategy 0 00018446744073709551615",
    "runs 1 0",
];

/// Commands that need a cursor, and the view of a mask.
const NOT_YET: [&str; 8] = [
    "open 0",
    "pos 0",
    "next 0",
    "give 0 1",
    "chunk 0 2 -",
    "batch 0 2 - 9 9",
    "shots 0 2 - 9 9",
    "view 1 0 1",
];

pub fn all(tour: &mut Tour) {
    tour.say("# edges");
    tour.say("reset");
    for slot in 0..16 {
        tour.say(&format!("rows {slot}"));
    }
    for line in LIMIT {
        tour.say("runs 0 4 -2 +3 -1 +2");
        let answer = tour.say(line);
        // What was there before stays there where a command is refused.
        let look = if answer == "ok" { "sum 0" } else { "rows 0" };
        tour.say(look);
    }
    tour.say("runs 0 4 -2 +3 -1 +2");
    tour.say("runs 1 1 +5");
    for line in MISUSE.iter().chain(&FORM).chain(&NOT_YET) {
        tour.say(line);
        tour.say("rows 0");
    }
    tour.say("rows 1");
    line_forms(tour);
    tour.say("reset");
    tour.say("rows 0");
}

/// Remarks, empty lines, and lines with bytes or spaces that do not belong.
fn line_forms(tour: &mut Tour) {
    let lines: [&[u8]; 17] = [
        b"",
        b"#",
        b"#rows 0",
        b"# \x80\x00\xff\t",
        b" # rows 0",
        b" ",
        b"rows  0",
        b" rows 0",
        b"rows 0 ",
        b"mask 0 0 0 ",
        b"mask 0 0 0 - ",
        b"runs 0 4 ",
        b"rows\t0",
        b"rows 0\r",
        b"\r",
        b"rows 0\x00",
        b"rows \xc2\xa00",
    ];
    for line in lines {
        tour.out.say_bytes(line);
    }
    for line in ["ROWS 0", "rows", "rows 0 0", "rows +0", "rows -0", "rows 0x0", "row 0", "-", "0"] {
        tour.say(line);
    }
}

//! Scanning: every list of rows over every short page list, and page lists with every small fault.

use super::making::digits;
use super::{lists, Tour};

pub fn all(tour: &mut Tour) {
    tour.say("# pages");
    for rows in lists(5) {
        tour.both_forms(0, 1, &rows);
        for first_rows in page_borders() {
            scanned(tour, &first_rows);
            rows_of_pages(tour, &first_rows, rows.len() as u64);
        }
    }
    faulty_pages(tour);
    lone_faults(tour);
}

/// First rows of one, two and three pages, from row 0 up to past the rows.
fn page_borders() -> Vec<Vec<u64>> {
    let mut all = vec![vec![0]];
    for second in 1..=6 {
        all.push(vec![0, second]);
        for third in second + 1..=6 {
            all.push(vec![0, second, third]);
        }
    }
    all
}

/// Pages that leave gaps between their bytes, so that no two ranges can be taken for one.
fn page_tokens(first_rows: &[u64]) -> String {
    let page = |(k, first_row): (usize, &u64)| format!(" {} {} {first_row}", 100 * k + 7, 10 * k);
    first_rows.iter().enumerate().map(page).collect()
}

/// How many ranges a command answers with, room being enough.
fn ranges_answered(answer: &str) -> usize {
    answer.split(' ').count() / 2
}

fn scanned(tour: &mut Tour, first_rows: &[u64]) {
    let tokens = page_tokens(first_rows);
    let answer = tour.say(&format!("scan 0 3{tokens}"));
    for capacity in 0..=ranges_answered(&answer) {
        tour.say(&format!("scan 1 {capacity}{tokens}"));
    }
}

/// Totals from 0 on: below the length, not above the last page's first row, and enough.
fn rows_of_pages(tour: &mut Tour, first_rows: &[u64], length: u64) {
    let tokens = page_tokens(first_rows);
    let least = length.max(first_rows[first_rows.len() - 1] + 1);
    for total in [0, least - 1, least + 3] {
        let form = tour.any(2);
        tour.say(&format!("pagerows {form} 3 {total}{tokens}"));
    }
    let answer = tour.say(&format!("pagerows 0 3 {least}{tokens}"));
    for capacity in 0..=ranges_answered(&answer) {
        tour.say(&format!("pagerows 1 {capacity} {least}{tokens}"));
    }
}

/// Two pages with every number from -1 to 2, and three with every order of offsets and first rows. Some of
/// the totals and places are wrong too, which must not be told before the pages.
fn faulty_pages(tour: &mut Tour) {
    tour.say("runs 0 4 -1 +1 -1 +1");
    for code in 0..4u64.pow(6) {
        let tokens: String = digits(code, 4, 6).iter().map(|d| format!(" {}", *d as i64 - 1)).collect();
        let (capacity, total) = ([2, 0][tour.any(2)], [4, 3, 9][tour.any(3)]);
        tour.say(&format!("scan 0 {capacity}{tokens}"));
        tour.say(&format!("pagerows 0 {capacity} {total}{tokens}"));
    }
    for code in 0..3u64.pow(6) {
        let d = digits(code, 3, 6);
        let pages = format!("{} 5 {} {} 5 {} {} 5 {}", d[0], d[1], d[2], d[3], d[4], d[5]);
        tour.say(&format!("scan 0 3 {pages}"));
    }
}

/// One number of one page at the border of what it may be, in lists of one to three pages.
fn lone_faults(tour: &mut Tour) {
    let good = [[0, 0, 0], [9, 1, 1], [19, 1, 3]];
    let borders = [i64::MIN, -2147483648, -1, 2147483647, 1073741823, 1073741824, 1073741825, i64::MAX];
    for count in 1..=3 {
        for page in 0..count {
            for field in 0..3 {
                for border in borders {
                    let mut pages = good;
                    pages[page][field] = border;
                    let tokens: String =
                        pages[..count].iter().flatten().map(|number| format!(" {number}")).collect();
                    tour.say(&format!("scan 0 3{tokens}"));
                    tour.say(&format!("pagerows 0 3 1073741824{tokens}"));
                    tour.say(&format!("pagerows 0 3 1073741825{tokens}"));
                }
            }
        }
    }
    tour.say("scan 0 4");
    tour.say("pagerows 0 4 4");
    tour.say("pagerows 0 4 1073741825");
}

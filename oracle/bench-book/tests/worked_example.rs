//! Document 01's worked example.

use oracle_bench_book::{book, lines, trace, MOST_ROOM};
use oracle_driver::right::Host;

const WORDS: [u32; 20] = [
    8_000_000, 1, 1, 1, 1, 0, 3, 1, 50_000_001, 0, 0, 2, 0, 1, 0, 1, 25_000_000, 0, 1, 2048,
];

#[test]
fn prints_exactly_four_lines() {
    let mut out = Vec::new();
    lines::<Host>(&book::bytes(&WORDS), &mut out);
    let expected = "\
host answer 0
1 answer 17 words 0 rows 0
2 answer 16 words 0 rows 0
3 answer 2 words 1 rows 20
";
    assert_eq!(String::from_utf8(out).unwrap(), expected);
}

#[test]
fn traces_two_resets_and_no_record() {
    let mut out = Vec::new();
    trace::<Host>(&book::bytes(&WORDS), MOST_ROOM, &mut out);
    let state = "state clock=400000 signalling=SDR12 gated=0 clkcr=0 record=none\n";
    let reset = "row 9 0\nrow 10 0\nrow 7 0\nrow 4 0\nrow 1 0\nrow 2 0\nrow 3 0\nrow 5 0\nrow 6 0\nrow 8 12584959\n";
    let expected = format!(
        "host answer 0\n{state}1 answer 17 words 0 rows 0\n{state}2 answer 16 words 0 rows 0\n{state}\
         3 answer 2 words 1 rows 20\n{reset}{reset}{state}"
    );
    assert_eq!(String::from_utf8(out).unwrap(), expected);
}

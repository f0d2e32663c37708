//! The order of readings and rows, on books written by hand.

use oracle_bench_book::{book, events, trace, MOST_ROOM};
use oracle_driver::right::Host;
use oracle_driver::script::{data, initialisation, short};

/// Source 8 MHz, all limits 1, one line.
fn written(calls: &[(u32, u32, u32, Vec<u32>)]) -> Vec<u8> {
    let mut words = vec![8_000_000, 1, 1, 1, 1, 0, calls.len() as u32];
    for (kind, a, b, script) in calls {
        words.extend([*kind, *a, *b, script.len() as u32]);
    }
    words.extend(calls.iter().flat_map(|call| &call.3));
    book::bytes(&words)
}

fn print(calls: &[(u32, u32, u32, Vec<u32>)], room: usize) -> String {
    let mut text = Vec::new();
    events::<Host>(&written(calls), room, &mut text);
    String::from_utf8(text).unwrap()
}

/// What follows the first call's state line, of a call on a card of 2,048 blocks.
fn second(call: (u32, u32, u32, Vec<u32>)) -> String {
    let (_, a, b, _) = call;
    let head = format!("\n2 {} {a} {b}\n", call.0);
    let text = print(&[(1, 25_000_000, 0, initialisation(1)), call], MOST_ROOM);
    let at = text.find(&head).expect("a second call") + 1;
    text[at..].to_owned()
}

const STATE: &str = "state clock=400000 signalling=SDR12 gated=0 clkcr=0 record=none\n";
const RESET: &str =
    "row 9 0\nrow 10 0\nrow 7 0\nrow 4 0\nrow 1 0\nrow 2 0\nrow 3 0\nrow 5 0\nrow 6 0\nrow 8 12584959\n";

#[test]
fn the_worked_example() {
    let calls = [
        (1, 50_000_001, 0, vec![]),
        (2, 0, 1, vec![]),
        (1, 25_000_000, 0, vec![2_048]),
    ];
    let expected = format!(
        "host answer 0\n{STATE}\
        1 1 50000001 0\n1 answer 17 words 0 rows 0\n{STATE}\
        2 2 0 1\n2 answer 16 words 0 rows 0\n{STATE}\
        3 1 25000000 0\n{RESET}read status 0x00000800\n{RESET}3 answer 2 words 1 rows 20\n{STATE}"
    );
    assert_eq!(print(&calls, MOST_ROOM), expected);
}

#[test]
fn a_script_that_ends_tells_the_reading_without_a_word_and_then_what_closes() {
    let text = print(&[(1, 25_000_000, 0, vec![])], MOST_ROOM);
    let expected = format!("{RESET}read status none\n{RESET}1 answer 21 words 0 rows 20\n{STATE}");
    assert_eq!(text, format!("host answer 0\n{STATE}1 1 25000000 0\n{expected}"));
}

#[test]
fn a_closing_row_without_room_is_no_event() {
    let text = print(&[(1, 25_000_000, 0, vec![])], 12);
    let expected = format!("{RESET}read status none\nrow 9 0\nrow 10 0\n1 answer 22 words 0 rows 12\n{STATE}");
    assert_eq!(text, format!("host answer 0\n{STATE}1 1 25000000 0\n{expected}"));
}

#[test]
fn a_gated_command_that_ends_closes_its_clock() {
    let text = second((3, 0, 0, vec![0, 0x40, 55]));
    let expected = "2 3 0 0\nrow 2 256\nread status 0x00000000\nrow 8 197\nrow 3 305397760\nrow 4 1143\n\
        read status 0x00000040\nread respcmd 0x00000037\nread response 0 none\nrow 2 0\n\
        2 answer 21 words 3 rows 5\nstate clock=4000000 signalling=SDR12 gated=1 clkcr=0 record=SDHC,";
    assert!(text.starts_with(expected), "{text}");
}

#[test]
fn a_row_without_room_is_no_event() {
    let text = print(&[(1, 25_000_000, 0, vec![0])], 10);
    let expected = format!("{RESET}read status 0x00000000\n1 answer 22 words 1 rows 10\n{STATE}");
    assert_eq!(text, format!("host answer 0\n{STATE}1 1 25000000 0\n{expected}"));
}

#[test]
fn each_kind_of_reading_in_a_read() {
    let words: Vec<u32> = (0..128).map(|word| 0x1111_0000 + word).collect();
    let script = [short(13, 0x900), data(17, &words), short(13, 0x900)].concat();
    let gated = |rows: &str| format!("row 2 256\n{rows}row 2 0\n");
    let command = |index: u32, argument: u32, word: u32| {
        format!(
            "read status 0x00000000\nrow 8 197\nrow 3 {argument}\nrow 4 {}\nread status 0x00000040\n\
            read respcmd 0x{index:08x}\nread response 0 0x{word:08x}\n\
            read response 1 0x00000000\nread response 2 0x00000000\nread response 3 0x00000000\n",
            index + 64 + 1_024
        )
    };
    let ready = gated(&command(13, 0x1234_0000, 0x900));
    let stop = "row 9 0\nrow 7 0\nrow 8 1850\n";
    let places: String = (0..128)
        .map(|place| format!("read data {place} 0x1111{place:04x}\n"))
        .collect();
    let expected = format!(
        "2 2 5 1\n{ready}read status 0x00000000\nrow 10 0\n{stop}row 5 1\nrow 6 512\nrow 7 155\nrow 2 256\n{}\
        read status 0x00000000\nread dma 0x00000000\nread status 0x00000100\nread dma 0x00000000\n\
        read dcount 0x00000000\n{places}{stop}row 2 0\n{ready}2 answer 0 words 155 rows 25\nstate ",
        command(17, 5, 0)
    );
    let text = second((2, 5, 1, script));
    assert!(text.starts_with(&expected), "{text}");
}

/// The events of CMD13 answered ready, and of a write's data phase up to the readings of its command.
fn write_begins(index: u32, argument: u32, bytes: u32) -> String {
    let command = |index: u32, argument: u32, word: u32| {
        format!(
            "read status 0x00000000\nrow 8 197\nrow 3 {argument}\nrow 4 {}\nread status 0x00000040\n\
            read respcmd 0x{index:08x}\nread response 0 0x{word:08x}\n\
            read response 1 0x00000000\nread response 2 0x00000000\nread response 3 0x00000000\n",
            index + 64 + 1_024
        )
    };
    format!(
        "row 2 256\n{}row 2 0\nread status 0x00000000\nrow 10 0\nrow 9 0\nrow 7 0\nrow 8 1850\nrow 5 1\nrow 6 {bytes}\n\
        row 2 256\n{}",
        command(13, 0x1234_0000, 0x900),
        command(index, argument, 0)
    )
}

const POLL: &str = "read status 0x00000000\nread dma 0x00000000\nread status 0x00000100\nread dma 0x00000000\n\
    read dcount 0x00000000\n";

#[test]
fn a_write_sends_its_words_between_dctrl_and_the_first_poll() {
    let words: Vec<u32> = (0..256).map(|word| 0x1111_0000 + word).collect();
    let script = [short(13, 0x900), data(25, &[]), short(12, 0), short(13, 0x900)].concat();
    let sent: String = words.iter().map(|word| format!("row 12 {word}\n")).collect();
    let expected = format!(
        "2 4 7 2\n{}row 7 153\n{sent}{POLL}row 9 0\nrow 7 0\nrow 8 1850\nrow 2 0\nrow 2 256\nread status 0x00000000\n",
        write_begins(25, 7, 1_024)
    );
    let text = second((4, 7, 2, [words, script.clone()].concat()));
    assert!(text.starts_with(&expected), "{text}");
    let line = format!("\n2 answer 0 words {} rows 286\nstate ", script.len());
    assert!(text.contains(&line), "{text}");
    assert!(!text.contains("read data"));
}

#[test]
fn a_write_whose_script_ends_before_its_first_poll_has_sent_its_words() {
    let words = vec![5; 128];
    let script = [short(13, 0x900), vec![0], short(24, 0)].concat();
    let sent = "row 12 5\n".repeat(128);
    let expected = format!(
        "2 4 7 1\n{}row 7 153\n{sent}read status none\n{RESET}2 answer 21 words 15 rows 154\nstate ",
        write_begins(24, 7, 512)
    );
    let text = second((4, 7, 1, [words.clone(), script.clone()].concat()));
    assert!(text.starts_with(&expected), "{text}");
    assert!(text.ends_with("record=none\n"));
    // One word less, and the command was not answered: nothing was sent.
    let text = second((4, 7, 1, [&words[..], &script[..14]].concat()));
    assert!(!text.contains("row 12") && !text.contains("row 7 153"), "{text}");
    let end = format!("read response 3 none\n{RESET}2 answer 21 words 14 rows 25\nstate ");
    assert!(text.contains(&end), "{text}");
}

#[test]
fn a_refused_book_or_host_has_one_line() {
    for book in [vec![0; 3], vec![0; 44], book::bytes(&[1, 1, 1, 1, 1, 0, 1, 3, 0, 0, 0])] {
        let (mut steps, mut traced) = (Vec::new(), Vec::new());
        events::<Host>(&book, MOST_ROOM, &mut steps);
        trace::<Host>(&book, MOST_ROOM, &mut traced);
        assert_eq!(steps, traced);
        assert_eq!(steps.iter().filter(|byte| **byte == b'\n').count(), 1);
    }
}

//! Books written by hand, with what they must print.

use oracle_bench_book::{book, trace, MOST_ROOM};
use oracle_driver::right::Host;
use oracle_driver::script::{data, initialisation, short, RESET};

/// A card of 2,048 blocks.
fn good_card() -> Vec<u32> {
    initialisation(1)
}

/// Source 8 MHz, all limits 1, one line.
fn print(calls: &[(u32, u32, u32, Vec<u32>)], room: usize) -> String {
    let mut words = vec![8_000_000, 1, 1, 1, 1, 0, calls.len() as u32];
    for (kind, a, b, script) in calls {
        words.extend([*kind, *a, *b, script.len() as u32]);
    }
    words.extend(calls.iter().flat_map(|call| &call.3));
    let mut text = Vec::new();
    trace::<Host>(&book::bytes(&words), room, &mut text);
    String::from_utf8(text).unwrap()
}

fn rows(rows: &[(u32, u32)]) -> String {
    rows.iter()
        .map(|(register, value)| format!("row {register} {value}\n"))
        .collect()
}

const RCA: u32 = 0x1234_0000;
const STOP: [(u32, u32); 3] = [(9, 0), (7, 0), (8, 0x73a)];

/// ICR, ARG and CMD; wait kind 1.
fn command(index: u32, argument: u32) -> Vec<(u32, u32)> {
    vec![(8, 0xc5), (3, argument), (4, index + 64 + 1024)]
}

fn waits_long(index: u32, argument: u32) -> Vec<(u32, u32)> {
    vec![(8, 0xc5), (3, argument), (4, index + 192 + 1024)]
}

fn record(status: &str) -> String {
    let cid = "00000001000000020000000300000004";
    let csd = "40000032000900000001000000000000";
    format!("SDHC,c0300000,1234,{cid},{csd},0005000000000000,{status},2048,protect=0")
}

/// The record of a card whose status was not read yet.
fn known() -> String {
    record(&vec!["00000000"; 16].join(":"))
}

/// The state line after the initialisation, and after the calls behind it.
fn after(record: &str) -> String {
    format!("state clock=4000000 signalling=SDR12 gated=1 clkcr=0 record={record}\n")
}

#[test]
fn a_good_card_is_initialised() {
    let text = print(&[(1, 25_000_000, 0, good_card())], MOST_ROOM);
    let expected = [
        RESET.to_vec(),
        vec![(2, 18), (1, 3), (2, 18 + 256), (11, 20 * 80)],
        vec![(8, 0xc5), (3, 0), (4, 1024)],
        command(8, 0x1aa),
        command(55, 0),
        command(41, 0x4030_0000),
        waits_long(2, 0),
        command(3, 0),
        waits_long(9, RCA),
        command(7, RCA),
        command(13, RCA),
        command(55, RCA),
        vec![(10, 0)],
        STOP.to_vec(),
        vec![(5, 1), (6, 8), (7, 9 + 2 + 16 * 3), (2, 18 + 256)],
        command(51, 0),
        STOP.to_vec(),
        command(13, RCA),
        command(55, RCA),
        command(6, 0),
        vec![(2, 0)],
    ]
    .concat();
    let head = "host answer 0\nstate clock=400000 signalling=SDR12 gated=0 clkcr=0 record=none\n";
    let line = format!("1 answer 0 words 100 rows {} protect 0\n", expected.len());
    let state = after(&known());
    assert_eq!(text, format!("{head}{line}{}{state}", rows(&expected)));
}

/// What follows the first call's state line.
fn second(call: (u32, u32, u32, Vec<u32>)) -> String {
    let text = print(&[(1, 25_000_000, 0, good_card()), call], MOST_ROOM);
    let at = text.find("\n2 answer").expect("a second call") + 1;
    text[at..].to_owned()
}

fn gated(rows: Vec<(u32, u32)>) -> Vec<(u32, u32)> {
    [vec![(2, 256)], rows, vec![(2, 0)]].concat()
}

#[test]
fn a_block_is_read() {
    let words: Vec<u32> = (0..128).map(|word| 0x0403_0201 + word).collect();
    let script = [short(13, 0x900), data(17, &words), short(13, 0x900)].concat();
    let expected = [
        gated(command(13, RCA)),
        vec![(10, 0)],
        STOP.to_vec(),
        vec![(5, 1), (6, 512), (7, 9 + 2 + 16 * 9), (2, 256)],
        command(17, 5),
        STOP.to_vec(),
        vec![(2, 0)],
        gated(command(13, RCA)),
    ]
    .concat();
    let bytes: String = words
        .iter()
        .flat_map(|word| word.to_le_bytes())
        .map(|byte| format!("{byte:02x}"))
        .collect();
    let line = format!("2 answer 0 words {} rows {}\n", script.len(), expected.len());
    let state = after(&known());
    let text = format!("{line}{}{state}block {bytes}\n", rows(&expected));
    assert_eq!(second((2, 5, 1, script)), text);
}

/// The body of a write: its data and its script.
fn body(data: &[u32], script: &[u32]) -> Vec<u32> {
    [data, script].concat()
}

/// Data whose bytes are told apart, and a script whose words are not its.
fn bytes(blocks: u32) -> Vec<u32> {
    (0..128 * blocks).map(|word| 0x0403_0201 + word).collect()
}

fn sent(words: &[u32]) -> Vec<(u32, u32)> {
    words.iter().map(|word| (12, *word)).collect()
}

/// Up to the readings of a write's command: what precedes the data phase, and its first rows.
fn write_begins(index: u32, argument: u32, bytes: u32) -> Vec<(u32, u32)> {
    [
        gated(command(13, RCA)),
        vec![(10, 0)],
        STOP.to_vec(),
        vec![(5, 1), (6, bytes), (2, 256)],
        command(index, argument),
    ]
    .concat()
}

/// CMD13 ready, the idle wait of a data phase and the command, answered.
fn write_answered(index: u32) -> Vec<u32> {
    [short(13, 0x900), vec![0], short(index, 0x900)].concat()
}

const COMPLETE: [u32; 5] = [0, 0, 0x100, 0, 0];

#[test]
fn a_block_is_written() {
    let words = bytes(1);
    let script = [write_answered(24), COMPLETE.to_vec(), short(13, 0x900)].concat();
    let expected = [
        write_begins(24, 5, 512),
        vec![(7, 153)],
        sent(&words),
        STOP.to_vec(),
        vec![(2, 0)],
        gated(command(13, RCA)),
    ]
    .concat();
    let line = format!("2 answer 0 words {} rows {}\n", script.len(), expected.len());
    let state = after(&known());
    let text = second((4, 5, 1, body(&words, &script)));
    // The record is as it was, and no block is printed.
    assert_eq!(text, format!("{line}{}{state}", rows(&expected)));
    assert_eq!((script.len(), expected.len()), (27, 153));
    assert!(text.contains("row 7 153\nrow 12 67305985\nrow 12 67305986\n"));
}

#[test]
fn two_blocks_are_written_and_stopped() {
    let words = bytes(2);
    let script = [
        write_answered(25),
        COMPLETE.to_vec(),
        short(12, 0x900),
        short(13, 0x900),
    ]
    .concat();
    let expected = [
        write_begins(25, 2_046, 1_024),
        vec![(7, 153)],
        sent(&words),
        STOP.to_vec(),
        vec![(2, 0)],
        gated(command(12, 0)),
        gated(command(13, RCA)),
    ]
    .concat();
    let line = format!("2 answer 0 words {} rows {}\n", script.len(), expected.len());
    let text = second((4, 2_046, 2, body(&words, &script)));
    assert_eq!(text, format!("{line}{}{}", rows(&expected), after(&known())));
}

#[test]
fn what_is_checked_before_a_write_leaves_everything_as_it_was() {
    let state = after(&known());
    for (index, blocks, answer) in [
        (0, 0, 19),
        (2_048, 0, 19),
        (2_048, 1, 20),
        (2_047, 2, 20),
        (u32::MAX, 1, 20),
    ] {
        let text = second((4, index, blocks, body(&bytes(blocks), &write_answered(24))));
        assert_eq!(text, format!("2 answer {answer} words 0 rows 0\n{state}"));
    }
    let none = "state clock=400000 signalling=SDR12 gated=0 clkcr=0 record=none\n";
    for blocks in [0, 1] {
        let text = print(&[(4, 0, blocks, bytes(blocks))], MOST_ROOM);
        assert_eq!(text, format!("host answer 0\n{none}1 answer 16 words 0 rows 0\n{none}"));
    }
}

#[test]
fn a_locked_card_in_the_ready_wait_before_a_write_keeps_the_record() {
    let text = second((4, 0, 1, body(&bytes(1), &short(13, 0x0200_0900))));
    let expected = rows(&gated(command(13, RCA)));
    assert_eq!(
        text,
        format!("2 answer 11 words 7 rows 5\n{expected}{}", after(&known()))
    );
}

#[test]
fn a_command_that_is_refused_sends_nothing() {
    let script = [short(13, 0x900), vec![0], short(24, 0x8000_0900)].concat();
    let expected = [write_begins(24, 5, 512), RESET.to_vec()].concat();
    let text = second((4, 5, 1, body(&bytes(1), &script)));
    let end = format!("carried 80000900\n{}", after("none"));
    assert_eq!(text, format!("2 answer 10 words 15 rows 25\n{}{end}", rows(&expected)));
}

/// A poll of a write is a read's: overrun and start bit too, the DMA error, what remains, DCOUNT.
#[test]
fn a_poll_that_is_refused_comes_behind_all_words() {
    let words = bytes(1);
    let expected = [write_begins(24, 5, 512), vec![(7, 153)], sent(&words), RESET.to_vec()].concat();
    for (poll, answer) in [
        (&[0x20][..], 5),
        (&[0x10], 6),
        (&[0x200], 4),
        (&[0, 0x8000_0000], 7),
        (&[0, 0x4000_0000], 2),
        (&[0, 0, 0x120], 5),
        (&[0, 0, 0x100, 0x8000_0000], 7),
        (&[0, 0, 0x1100, 0], 2),
        (&[0, 0, 0x100, 1], 8),
        (&[0, 0, 0x100, 0, 1], 8),
    ] {
        // A word more, which is not taken.
        let script = [&write_answered(24), poll, &[0]].concat();
        let used = script.len() - 1;
        let text = second((4, 5, 1, body(&words, &script)));
        let line = format!("2 answer {answer} words {used} rows {}\n", expected.len());
        assert_eq!(text, format!("{line}{}{}", rows(&expected), after("none")), "{poll:?}");
    }
}

/// Whatever the first DMA word says is left, all words are sent.
#[test]
fn what_the_dma_word_leaves_over_does_not_count_before_the_end() {
    let words = bytes(1);
    let poll = [0, 0x0000_0040, 0x100, 0x7fff_0000, 0];
    let script = [write_answered(24), poll.to_vec(), short(13, 0x900)].concat();
    let text = second((4, 5, 1, body(&words, &script)));
    assert!(text.starts_with("2 answer 0 words 27 rows 153\n"), "{text}");
}

/// The second call of a book that has room for an initialisation, 68 rows, and for as many as asked.
#[test]
fn little_room_for_what_is_sent_leaves_the_host_as_before() {
    // Not ready ten times, so that DCTRL is the 76th row.
    let script = [short(13, 0).repeat(10), write_answered(24), COMPLETE.to_vec()].concat();
    let data = bytes(1);
    let mut words = vec![8_000_000, 1, 20, 1, 1, 0, 2];
    words.extend([1, 25_000_000, 0, good_card().len() as u32]);
    words.extend([4, 5, 1, (data.len() + script.len()) as u32]);
    words.extend([good_card(), data.clone(), script].concat());
    let state = after(&known());
    let used = 7 * 10 + 15;
    let all = [vec![(7, 153)], sent(&data), vec![(9, 0)]].concat();
    // At DCTRL, at the first word, at another and at the last one, all words of the command were used and no other.
    for room in [75, 76, 77, 100, 202, 203] {
        let mut text = Vec::new();
        trace::<Host>(&book::bytes(&words), room, &mut text);
        let text = String::from_utf8(text).unwrap();
        let line = format!("\n2 answer 22 words {used} rows {room}\n");
        assert!(text.contains(&line), "{text}");
        let last = [vec![(4, 24 + 64 + 1024)], all[..room - 75].to_vec()].concat();
        assert!(text.ends_with(&format!("{}{state}", rows(&last))), "{text}");
    }
    // Behind the last word the poll was taken.
    let mut text = Vec::new();
    trace::<Host>(&book::bytes(&words), 204, &mut text);
    let text = String::from_utf8(text).unwrap();
    assert!(
        text.contains(&format!("\n2 answer 22 words {} rows 204\n", used + 5)),
        "{text}"
    );
    assert!(text.ends_with(&state));
}

#[test]
fn the_status_is_read_and_kept() {
    let words: Vec<u32> = (1..=16).collect();
    let script = [short(55, 0x20), data(13, &words), short(13, 0x900)].concat();
    let text = second((3, 0, 0, script));
    // Word 0 is the last one sent, its bytes turned round.
    let status: Vec<String> = (1..=16u32)
        .rev()
        .map(|word| format!("{:08x}", word.swap_bytes()))
        .collect();
    let status = status.join(":");
    assert!(text.starts_with("2 answer 0 words "));
    assert!(text.contains(&format!("record={}\n", record(&status))));
    assert!(text.ends_with(&format!("\nstatus {status}\n")));
}

#[test]
fn a_locked_card_in_the_first_ready_wait_keeps_the_record() {
    let text = second((2, 0, 1, short(13, 0x0200_0900)));
    let expected = rows(&gated(command(13, RCA)));
    let state = after(&known());
    assert_eq!(text, format!("2 answer 11 words 7 rows 5\n{expected}{state}"));
}

#[test]
fn an_error_in_the_data_command_carries_its_word_and_drops_the_record() {
    let script = [short(13, 0x900), vec![0], short(17, 0x8000_0900)].concat();
    let text = second((2, 0, 1, script));
    let end = format!("{}carried 80000900\n{}", rows(&RESET), after("none"));
    assert!(text.starts_with("2 answer 10 words 15 rows 26\n"));
    assert!(text.ends_with(&end));
}

#[test]
fn dcount_is_not_read_while_words_remain() {
    let script = [short(13, 0x900), vec![0], short(17, 0), vec![0, 0, 0x100, 1, 0]].concat();
    let text = second((2, 0, 1, script));
    assert!(text.starts_with("2 answer 8 words 19 "), "{text}");
}

#[test]
fn a_card_pulled_out_before_the_data_closes_the_clock_and_keeps_the_record() {
    let text = second((2, 0, 1, vec![0, 0x40]));
    let expected = rows(&gated(command(13, RCA)));
    let state = after(&known());
    assert_eq!(text, format!("2 answer 21 words 2 rows 5\n{expected}{state}"));
}

#[test]
fn a_card_pulled_out_among_the_data_is_gone() {
    let script = [short(13, 0x900), data(17, &[1, 2, 3])].concat();
    let text = second((2, 5, 1, script));
    let expected = [
        gated(command(13, RCA)),
        vec![(10, 0)],
        STOP.to_vec(),
        vec![(5, 1), (6, 512), (7, 9 + 2 + 16 * 9), (2, 256)],
        command(17, 5),
        RESET.to_vec(),
    ]
    .concat();
    let state = after("none");
    assert_eq!(
        text,
        format!("2 answer 21 words 23 rows 26\n{}{state}", rows(&expected))
    );
}

#[test]
fn a_card_pulled_out_before_the_first_reading_is_gone_after_ten_rows_and_ten_more() {
    let text = second((1, 25_000_000, 0, vec![]));
    let state = "state clock=400000 signalling=SDR12 gated=0 clkcr=0 record=none\n";
    let expected = rows(&[RESET, RESET].concat());
    assert_eq!(text, format!("2 answer 21 words 0 rows 20\n{expected}{state}"));
}

/// Not ready eleven times: 66 rows, and four of the twelfth question, where the
/// card is pulled out. The initialisation has 68.
#[test]
fn little_room_for_what_closes_leaves_the_host_as_before() {
    let script = [short(13, 0).repeat(11), vec![0]].concat();
    let mut words = vec![8_000_000, 1, 20, 1, 1, 0, 2];
    words.extend([1, 25_000_000, 0, good_card().len() as u32]);
    words.extend([2, 0, 1, script.len() as u32]);
    words.extend([good_card(), script].concat());
    let state = after(&known());
    let last = rows(&command(13, RCA));
    for (room, line, end) in [
        (
            71,
            "\n2 answer 21 words 78 rows 71\n",
            format!("{last}row 2 0\n{state}"),
        ),
        (70, "\n2 answer 22 words 78 rows 70\n", format!("{last}{state}")),
    ] {
        let mut text = Vec::new();
        trace::<Host>(&book::bytes(&words), room, &mut text);
        let text = String::from_utf8(text).unwrap();
        assert!(text.contains(line), "{text}");
        assert!(text.ends_with(&end), "{text}");
    }
}

#[test]
fn little_room_is_told_at_its_row() {
    let text = print(&[(1, 25_000_000, 0, good_card())], 12);
    let expected = rows(&[RESET.to_vec(), vec![(2, 18), (1, 3)]].concat());
    let state = "state clock=400000 signalling=SDR12 gated=0 clkcr=0 record=none\n";
    assert_eq!(
        text,
        format!("host answer 0\n{state}1 answer 22 words 1 rows 12\n{expected}{state}")
    );
}

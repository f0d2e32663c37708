//! Write protection, state by state and order by order, on books written by hand.

mod card;

use oracle_bench_book::{events, lines, trace, Book, Entry};
use oracle_driver::bench::Feed;
use oracle_driver::host::WRITE_PROTECTED;
use oracle_driver::script::{data, short};
use oracle_driver::{right, Block, Call, Host};
use oracle_paper as paper;
use oracle_paper::asked;
use oracle_paper::wrong;

use card::{run, Card, CALL, GOOD, ROOM, SETTINGS};

const BLOCK: Block = [7; 128];
const NONE: &str = "record=none";

/// A card of 1,024 blocks.
fn high(protect: u32) -> Card {
    Card { protect, ..GOOD }
}

/// A card of four blocks.
fn standard(protect: u32) -> Card {
    Card {
        protect,
        ..Card::of(false, 0, 9)
    }
}

fn entry(call: Call<'_>, script: Vec<u32>) -> Entry {
    let call = call.kept();
    Entry { call, script }
}

fn take(card: Card) -> Entry {
    entry(CALL, card.script())
}

/// A write with a script that serves it whole.
fn write(index: u32, blocks: usize) -> Entry {
    let script = match blocks {
        1 => [short(13, 0x900), data(24, &[]), short(13, 0x900)].concat(),
        _ => [short(13, 0x900), data(25, &[]), short(12, 0), short(13, 0x900)].concat(),
    };
    let data = &vec![BLOCK; blocks];
    entry(Call::Write { index, data }, script)
}

fn read() -> Entry {
    let script = [short(13, 0x900), data(17, &BLOCK), short(13, 0x900)].concat();
    entry(Call::Read { index: 0, blocks: 1 }, script)
}

/// The same, but it fails in its data phase, and the record is lost.
fn failing_read() -> Entry {
    let script = [short(13, 0x900), vec![0], short(17, 0x8000_0000)].concat();
    entry(Call::Read { index: 0, blocks: 1 }, script)
}

fn status() -> Entry {
    entry(
        Call::Status,
        [short(55, 0x20), data(13, &[0; 16]), short(13, 0x900)].concat(),
    )
}

fn book(entries: Vec<Entry>) -> Vec<u8> {
    let settings = SETTINGS;
    Book { settings, entries }.bytes()
}

type Print = fn(&[u8], &mut Vec<u8>);

fn text(print: Print, book: &[u8]) -> String {
    let mut text = Vec::new();
    print(book, &mut text);
    String::from_utf8(text).unwrap()
}

/// The lines of the calls, which the Rust, where it is asked, has too.
fn told(entries: Vec<Entry>) -> Vec<String> {
    let book = book(entries);
    let told = text(lines::<paper::Host>, &book);
    assert_eq!(text(lines::<asked::Host>, &book), told);
    told.lines().skip(1).map(str::to_owned).collect()
}

fn traced<H: Host>(book: &[u8]) -> String {
    text(|book, out| trace::<H>(book, ROOM, out), book)
}

/// Lines of calls and states of a book; the Rust, where it is asked, prints the same text, and the same events.
fn lines_and_states(entries: Vec<Entry>) -> Vec<String> {
    let book = book(entries);
    let told = traced::<paper::Host>(&book);
    assert_eq!(traced::<asked::Host>(&book), told);
    assert_eq!(
        text(|book, out| events::<asked::Host>(book, ROOM, out), &book),
        text(|book, out| events::<paper::Host>(book, ROOM, out), &book)
    );
    let lines = told.lines().skip(2);
    let lines = lines.filter(|line| line.contains(" answer ") || line.starts_with("state "));
    lines.map(str::to_owned).collect()
}

/// The answers of a book's calls.
fn answers(entries: Vec<Entry>) -> Vec<u8> {
    let answer = |line: &String| line.split(' ').nth(2).unwrap().parse().unwrap();
    told(entries).iter().map(answer).collect()
}

#[test]
fn the_four_states_of_both_classes_in_line_and_state() {
    for protect in 0..=3 {
        for (card, line, class) in [
            (high(protect), "1 answer 0 words 100 rows 68", "SDHC,c0300000"),
            (standard(protect), "1 answer 0 words 107 rows 71", "SDSC,80300000"),
        ] {
            let outcome = run::<paper::Host>(&card.script());
            assert_eq!(outcome, run::<right::Host>(&card.script()));
            let told = lines_and_states(vec![take(card)]);
            let [line_told, state] = &told[..] else {
                panic!("a line and a state: {told:?}");
            };
            assert_eq!(*line_told, format!("{line} protect {protect}"));
            assert!(state.contains(&format!("record={class},")), "{state}");
            assert!(state.ends_with(&format!(",protect={protect}")), "{state}");
        }
    }
}

/// The initialisation of a card of high capacity whose CSD has these bits besides its fields.
fn with_csd(bits: u128) -> Entry {
    let mut script = GOOD.script();
    let [first, second] = GOOD.csd;
    let csd = script.windows(2).position(|words| words == [first, second]);
    let csd = csd.expect("the card tells its CSD");
    for (place, shift) in (csd..).zip([96, 64, 32, 0]) {
        script[place] |= (bits >> shift) as u32;
    }
    entry(CALL, script)
}

#[test]
fn no_other_bit_of_the_csd_counts() {
    let fields = 3 << 126 | 0xff << 96 | 15 << 80 | 0x3f_ffff << 48;
    let others = !(fields | 3 << 12);
    for (bits, protect) in [(0, 0), (1 << 12, 1), (1 << 13, 2), (3 << 12, 3)] {
        for bits in [bits, bits | others] {
            let due = format!("1 answer 0 words 100 rows 68 protect {protect}");
            assert_eq!(told(vec![with_csd(bits)]), [due]);
        }
    }
}

#[test]
fn a_write_is_stopped_before_its_other_checks_and_leaves_everything() {
    let writes = [
        (0, 1),
        (5, 2),
        (0, 0),
        (1_024, 1),
        (1_023, 2),
        (u32::MAX, 0),
        (u32::MAX, 16),
    ];
    for protect in 1..=3 {
        for (index, blocks) in writes {
            let told = lines_and_states(vec![take(high(protect)), write(index, blocks)]);
            assert_eq!(told[2], "2 answer 26 words 0 rows 0", "{index}, {blocks}");
            assert_eq!(told[3], told[1], "{index}, {blocks}");
        }
    }
    let answers = writes.map(|(index, blocks)| answers(vec![take(high(0)), write(index, blocks)])[1]);
    assert_eq!(answers, [0, 0, 19, 20, 20, 19, 20]);
}

/// With no word in its script and no room for a row.
#[test]
fn a_stopped_write_needs_neither_words_nor_room() {
    let mut host = paper::Host::make(&SETTINGS).ok().unwrap();
    host.call(CALL, Feed::Script(&high(1).script()), ROOM, false);
    let stood = host.state();
    let call = Call::Write {
        index: 0,
        data: &[BLOCK],
    };
    let outcome = host.call(call, Feed::Script(&[]), 0, true);
    assert_eq!(outcome.answer, WRITE_PROTECTED);
    assert!(outcome.events.is_empty());
    assert_eq!(host.state(), stood);
}

#[test]
fn without_a_record_it_is_16() {
    assert_eq!(answers(vec![write(0, 1), write(0, 0)]), [16, 16]);
    for protect in 1..=3 {
        let lost = vec![take(high(protect)), failing_read(), write(0, 1)];
        assert_eq!(answers(lost), [0, 10, 16], "{protect}");
        // Refused once its CSD was told.
        let mut refused = take(high(protect));
        refused.script.truncate(90);
        let told = lines_and_states(vec![refused, write(0, 1)]);
        assert!(
            told[0].starts_with("1 answer 21 words 90 ") && told[1].ends_with(NONE),
            "{told:?}"
        );
        assert_eq!(told[2], "2 answer 16 words 0 rows 0");
    }
}

#[test]
fn reads_and_status_calls_are_served_and_keep_the_flags() {
    for protect in 0..=3 {
        let told = lines_and_states(vec![take(high(protect)), read(), status(), write(0, 1)]);
        assert_eq!(told[2], "2 answer 0 words 155 rows 25");
        assert_eq!(told[4], "3 answer 0 words 43 rows 25");
        for state in [1, 3, 5, 7].map(|place| &told[place]) {
            assert!(state.ends_with(&format!(",protect={protect}")), "{state}");
        }
        let written = "4 answer 0 words 27 rows 153";
        let stopped = "4 answer 26 words 0 rows 0";
        assert_eq!(told[6], if protect == 0 { written } else { stopped });
    }
}

#[test]
fn a_new_initialisation_brings_its_own_flags() {
    for before in 0..=3 {
        for now in 0..=3 {
            let told = told(vec![take(high(before)), take(standard(now)), write(0, 1)]);
            assert!(told[0].ends_with(&format!(" protect {before}")));
            assert!(told[1].ends_with(&format!(" protect {now}")));
            let answer = if now == 0 {
                "3 answer 0 words 27 "
            } else {
                "3 answer 26 words 0 "
            };
            assert!(told[2].starts_with(answer), "{before}, {now}: {}", told[2]);
        }
    }
}

#[test]
fn only_the_line_of_an_accepted_initialisation_ends_with_it() {
    let refused = entry(CALL, GOOD.script()[..60].to_vec());
    let told = told(vec![
        take(high(0)),
        read(),
        status(),
        write(0, 1),
        write(0, 0),
        refused,
        take(high(3)),
        write(0, 1),
        read(),
        entry(Call::Initialise { frequency: 0 }, vec![]),
    ]);
    let ends: Vec<bool> = told.iter().map(|line| line.contains("protect")).collect();
    let initialised = [0, 6];
    let due: Vec<bool> = (0..told.len()).map(|call| initialised.contains(&call)).collect();
    assert_eq!(ends, due, "{told:?}");
    assert!(told[0].ends_with(" rows 68 protect 0") && told[6].ends_with(" rows 68 protect 3"));
}

/// It does write, and tells what its record's CSD says.
#[test]
fn what_the_rust_does_where_it_is_not_asked() {
    let rust = traced::<right::Host>(&book(vec![take(high(2)), write(0, 1)]));
    let last = rust.lines().next_back().unwrap();
    assert!(rust.contains("\n1 answer 0 words 100 rows 68 protect 2\n"), "{rust}");
    assert!(rust.contains("\n2 answer 0 words 27 rows 153\n"), "{rust}");
    assert!(last.ends_with(",protect=2"), "{last}");
}

/// What a model prints of a book.
fn by_model(name: &str, print: Print, entries: Vec<Entry>) -> String {
    let model = wrong::all().find(|wrong| wrong.name == name).expect(name);
    model.with(|| text(print, &book(entries)))
}

/// Which number a single bit of the CSD makes, by the model.
#[test]
fn a_model_with_other_bits_takes_those_that_it_says() {
    let bits = [11, 12, 13, 14, 20, 21, 76, 77];
    let models = [
        ("protect-bits-exchanged", [0, 2, 1, 0, 0, 0, 0, 0]),
        ("protect-bits-above", [0, 0, 1, 2, 0, 0, 0, 0]),
        ("protect-bits-below", [1, 2, 0, 0, 0, 0, 0, 0]),
        ("protect-permanent-at-14", [0, 1, 0, 2, 0, 0, 0, 0]),
        ("protect-temporary-at-11", [1, 0, 2, 0, 0, 0, 0, 0]),
        ("protect-bytes-turned", [0, 0, 0, 0, 1, 2, 0, 0]),
        ("protect-other-half", [0, 0, 0, 0, 0, 0, 1, 2]),
        ("protect-one-flag", [0, 3, 3, 0, 0, 0, 0, 0]),
        ("protect-never", [0; 8]),
    ];
    for (name, numbers) in models {
        for (bit, number) in bits.into_iter().zip(numbers) {
            let told = by_model(name, lines::<paper::Host>, vec![with_csd(1 << bit)]);
            assert!(
                told.ends_with(&format!(" protect {number}\n")),
                "{name}, bit {bit}: {told}"
            );
        }
    }
}

#[test]
fn a_model_that_keeps_the_flags_of_a_refused_card_does_so() {
    let mut refused = take(high(1));
    refused.script.truncate(90);
    let name = "protect-without-record";
    let told = by_model(name, lines::<paper::Host>, vec![refused, write(0, 1)]);
    assert!(told.ends_with("\n2 answer 26 words 0 rows 0\n"), "{told}");
    let lost = vec![take(high(1)), failing_read(), write(0, 1)];
    let told = by_model(name, lines::<paper::Host>, lost);
    assert!(told.ends_with("\n3 answer 16 words 0 rows 0\n"), "{told}");
}

/// The answers that each model gives otherwise than the right host does: call by call, those of the right host first.
#[test]
fn a_model_that_stops_wrongly_does_what_its_name_says() {
    let calls = || {
        vec![
            write(0, 1),
            take(high(1)),
            write(0, 1),
            write(0, 2),
            write(0, 0),
            write(9_999, 1),
            read(),
            status(),
            failing_read(),
            write(0, 1),
            take(standard(2)),
            write(0, 1),
            take(high(3)),
            write(0, 1),
            take(high(0)),
            write(0, 1),
        ]
    };
    let answers = |name: &str| {
        let told = by_model(name, lines::<paper::Host>, calls());
        let answer = |line: &str| line.split(' ').nth(2).unwrap().parse::<u8>().unwrap();
        told.lines().skip(1).map(answer).collect::<Vec<_>>()
    };
    let right = self::answers(calls());
    assert_eq!(right, [16, 0, 26, 26, 26, 26, 0, 0, 10, 16, 0, 26, 0, 26, 0, 0]);
    let models: [(&str, &[(usize, u8)]); 24] = [
        (
            "protect-stops-nothing",
            &[(3, 0), (4, 0), (5, 19), (6, 20), (12, 0), (14, 0)],
        ),
        ("protect-never", &[(3, 0), (4, 0), (5, 19), (6, 20), (12, 0), (14, 0)]),
        ("protect-permanent-alone", &[(3, 0), (4, 0), (5, 19), (6, 20)]),
        ("protect-temporary-alone", &[(12, 0)]),
        ("protect-both-needed", &[(3, 0), (4, 0), (5, 19), (6, 20), (12, 0)]),
        ("protect-one-alone", &[(14, 0)]),
        ("protect-high-capacity-alone", &[(12, 0)]),
        (
            "protect-standard-capacity-alone",
            &[(3, 0), (4, 0), (5, 19), (6, 20), (14, 0)],
        ),
        ("protect-one-block-alone", &[(4, 0)]),
        ("protect-many-blocks-alone", &[(3, 0), (6, 20), (12, 0), (14, 0)]),
        ("protect-after-no-blocks", &[(5, 19)]),
        ("protect-after-address", &[(5, 19), (6, 20)]),
        ("protect-after-past-the-card", &[(6, 20)]),
        ("protect-for-no-card", &[(1, 26), (10, 26)]),
        ("protect-before-no-card", &[(10, 26)]),
        ("protect-stops-reads", &[(7, 26), (9, 26), (10, 26)]),
        ("protect-stops-status", &[(8, 26)]),
        (
            "protect-as-20",
            &[(3, 20), (4, 20), (5, 20), (6, 20), (12, 20), (14, 20)],
        ),
        (
            "protect-as-16",
            &[(3, 16), (4, 16), (5, 16), (6, 16), (12, 16), (14, 16)],
        ),
        (
            "protect-drops-record",
            &[(4, 16), (5, 16), (6, 16), (7, 16), (8, 16), (9, 16)],
        ),
        ("protect-drops-flags", &[(4, 0), (5, 19), (6, 20)]),
        ("protect-sticks", &[(16, 26)]),
        ("protect-first-card-kept", &[(16, 26)]),
        ("protect-stops-initialisations", &[(13, 26), (15, 26), (16, 26)]),
    ];
    for (name, others) in models {
        let answers = answers(name);
        let differ = (0..right.len()).filter(|call| answers[*call] != right[*call]);
        let differ: Vec<_> = differ.map(|call| (call + 1, answers[call])).collect();
        assert_eq!(differ, others, "{name}");
    }
}

/// The lines and the ends of states that each model prints otherwise, of a card with one flag and of calls behind it.
#[test]
fn a_model_that_tells_wrongly_does_what_its_name_says() {
    let calls = || {
        vec![
            take(high(1)),
            read(),
            status(),
            write(0, 1),
            take(high(0)),
            entry(CALL, vec![]),
        ]
    };
    let kept = |text: String| -> Vec<String> {
        let end = |line: &str| match line.rsplit_once("protect=") {
            Some((_, number)) => format!("state {number}"),
            None => line.to_owned(),
        };
        let kept = |line: &&str| line.contains(" answer ") || line.starts_with("state ");
        text.lines().skip(2).filter(kept).map(end).collect()
    };
    let print: Print = |book, out| trace::<paper::Host>(book, ROOM, out);
    let right = kept(text(print, &book(calls())));
    assert_eq!(right[..2], ["1 answer 0 words 100 rows 68 protect 1", "state 1"]);
    assert_eq!(right[10], "6 answer 21 words 0 rows 20");
    let (taken, free) = ("1 answer 0 words 100 rows 68", "5 answer 0 words 100 rows 68");
    let with = |line: &str, number: u8| format!("{line} protect {number}");
    let written = "4 answer 0 words 27 rows 153".to_owned();
    let state = |number: u8, times: usize| vec![format!("state {number}"); times];
    let models = [
        ("protect-line-exchanged", vec![with(taken, 2)], vec![]),
        ("protect-line-without", vec![taken.to_owned(), free.to_owned()], vec![]),
        ("protect-line-without-0", vec![free.to_owned()], vec![]),
        (
            "protect-line-always",
            vec![with(&right[2], 1), with(&right[4], 1)],
            vec![],
        ),
        ("protect-line-of-reads", vec![with(&right[2], 1)], vec![]),
        ("protect-line-of-26", vec![with(&right[6], 1)], vec![]),
        ("protect-line-of-refused", vec![with(&right[10], 0)], vec![]),
        ("protect-state-exchanged", vec![], state(2, 4)),
        ("protect-state-0", vec![], state(0, 4)),
        ("protect-lost-by-reads", vec![written.clone()], state(0, 3)),
        ("protect-lost-by-status", vec![written], state(0, 2)),
        ("protect-resets", vec!["4 answer 26 words 0 rows 10".to_owned()], vec![]),
        (
            "protect-after-ready-wait",
            vec!["4 answer 26 words 7 rows 5".to_owned()],
            vec![],
        ),
        (
            "protect-closes-clock",
            vec!["4 answer 26 words 0 rows 1".to_owned()],
            vec![],
        ),
    ];
    for (name, lines, states) in models {
        let printed = kept(by_model(name, print, calls()));
        assert_eq!(printed.len(), right.len(), "{name}");
        let differ = printed.into_iter().zip(&right).filter(|(one, two)| one != *two);
        let differ = differ.map(|(one, _)| one);
        let (states_found, lines_found): (Vec<_>, Vec<_>) = differ.partition(|line| line.starts_with("state "));
        assert_eq!((lines_found, states_found), (lines, states), "{name}");
    }
}

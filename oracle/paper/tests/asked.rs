//! The Rust where it is asked: in which calls it is not, what these leave behind, and that the calls after them are its own.

mod card;

use std::cell::Cell;

use oracle_bench_book::{trace, Book, Entry, MOST_ROOM};
use oracle_driver::bench::{Feed, Live, Reading};
use oracle_driver::host::{Leaves as _, TRACE_FULL, UNSUPPORTED, WRITE_PROTECTED};
use oracle_driver::script::{data, short, RESET};
use oracle_driver::{right, Call, Host, Outcome, Settings, State};
use oracle_model::aside::{self, Aside};
use oracle_model::generate;
use oracle_paper as paper;
use oracle_paper::asked;
use oracle_paper::telling::without_fields;

use card::{run, Card, CALL, GOOD, ROOM, SETTINGS};

/// High capacity with block length 10.
const STRANGE: Card = Card {
    csd: [0x4000_0032, 0x000a_0000],
    ..GOOD
};

/// Its words up to and with the CSD, its rows up to and with CMD9, and those with the reset rows.
const WORDS: usize = 42;
const ROWS: usize = 35;
const CLOSED: usize = ROWS + RESET.len();

thread_local! {
    static CALLS: Cell<u64> = const { Cell::new(0) };
}

/// The Rust, counting the calls that it is given.
struct Counted(right::Host);

impl Host for Counted {
    type Snapshot = right::Snapshot;

    fn make(settings: &Settings) -> Result<Self, u8> {
        right::Host::make(settings).map(Counted)
    }

    fn call(&mut self, call: Call, feed: Feed<'_>, room: usize, watched: bool) -> Outcome {
        CALLS.set(CALLS.get() + 1);
        self.0.call(call, feed, room, watched)
    }

    fn state(&self) -> State {
        self.0.state()
    }

    fn snapshot(&self) -> right::Snapshot {
        self.0.snapshot()
    }

    fn restore(&mut self, before: &right::Snapshot) {
        self.0.restore(before);
    }
}

/// What comes of an act, and how many calls the Rust was given in it.
fn counted<R>(act: impl FnOnce() -> R) -> (R, u64) {
    CALLS.set(0);
    (act(), CALLS.get())
}

fn made<H: Host>() -> H {
    H::make(&SETTINGS).ok().unwrap()
}

/// A host that has taken this card.
fn with<H: Host>(card: Card) -> H {
    let mut host: H = made();
    assert_eq!(host.call(CALL, Feed::Script(&card.script()), ROOM, false).answer, 0);
    let state = host.state();
    assert!(state.record.is_some() && state.gated && state.clkcr != 0);
    host
}

/// A host that has taken a good one.
fn taken() -> asked::Host {
    with(GOOD)
}

#[test]
fn the_documents_refuse_what_the_rust_takes() {
    let script = STRANGE.script();
    assert_eq!(run::<right::Host>(&script).answer, 0);
    let document = run::<paper::Host>(&script);
    assert_eq!((document.answer, document.field), (UNSUPPORTED, Some(2)));
    assert_eq!((document.words_used, document.rows.len()), (WORDS, CLOSED));
    assert_eq!(document.rows[ROWS - 1], (4, 9 + 3 * 64 + 1_024));
    assert_eq!(document.rows[ROWS..], RESET);
    let plain = Outcome {
        field: None,
        ..document
    };
    assert_eq!(run::<asked::Host>(&script), plain);
}

#[test]
fn a_refused_card_leaves_a_host_as_it_was_made() {
    let mut host = taken();
    let outcome = host.call(CALL, Feed::Script(&STRANGE.script()), ROOM, false);
    assert_eq!(outcome.answer, UNSUPPORTED);
    assert_eq!(host.state(), made::<right::Host>().state());
    // As the Rust itself leaves one that it refuses at this place.
    let mut rust: right::Host = made();
    let script = Card::of(false, 1, 10).script();
    assert_eq!(rust.call(CALL, Feed::Script(&script), ROOM, false).answer, UNSUPPORTED);
    assert_eq!(host.state(), rust.state());
}

#[test]
fn without_room_for_its_closing_rows_the_host_is_as_before() {
    let mut host = taken();
    let before = host.state();
    let mut served = |room| {
        let outcome = host.call(CALL, Feed::Script(&STRANGE.script()), room, false);
        (outcome.answer, outcome.rows.len(), outcome.words_used, host.state())
    };
    for room in ROWS..CLOSED {
        assert_eq!(served(room), (TRACE_FULL, room, WORDS, before), "room {room}");
    }
    let new = made::<right::Host>().state();
    assert_eq!(served(CLOSED), (UNSUPPORTED, CLOSED, WORDS, new));
}

/// What a host prints of a book, but for the rows.
fn printed<H: Host>(book: &[u8], room: usize) -> Vec<String> {
    let mut text = Vec::new();
    trace::<H>(book, room, &mut text);
    let text = String::from_utf8(text).unwrap();
    let lines = text.lines().filter(|line| !line.starts_with("row "));
    lines.map(str::to_owned).collect()
}

#[test]
fn a_good_card_after_a_refused_one() {
    let entry = |call: Call<'_>, script| Entry {
        call: call.kept(),
        script,
    };
    let book = Book {
        settings: SETTINGS,
        entries: vec![
            entry(CALL, GOOD.script()),
            entry(CALL, STRANGE.script()),
            entry(Call::Status, short(55, 0x20)),
            entry(CALL, GOOD.script()),
            entry(Call::Read { index: 1, blocks: 1 }, short(13, 0)),
        ],
    };
    let lines = printed::<paper::Host>(&book.bytes(), MOST_ROOM);
    let [_, new, taken, record, refused, none, status, still, again, its, read, kept] = &lines[..] else {
        panic!("a line and a state for the host and for each of five calls: {lines:?}");
    };
    assert_eq!(new, "state clock=400000 signalling=SDR12 gated=0 clkcr=0 record=none");
    assert!(taken.starts_with("1 answer 0 words 100 ") && record.contains("gated=1"));
    assert_eq!((&refused[..], none), ("2 answer 13 field 2 words 42 rows 45", new));
    assert_eq!((&status[..], still), ("3 answer 16 words 0 rows 0", new));
    assert_eq!((&again[2..], its), (&taken[2..], record));
    assert!(read.starts_with("5 answer 21 words 7 ") && kept == record);
    // The Rust says the same, and was asked in the calls around the second.
    let (rust, calls) = counted(|| printed::<asked::Host<Counted>>(&book.bytes(), MOST_ROOM));
    assert_eq!(
        rust,
        without_fields(|| printed::<paper::Host>(&book.bytes(), MOST_ROOM))
    );
    assert_eq!(calls, 4);
}

#[test]
fn not_asked_where_a_length_of_version_1_is_judged_and_nowhere_else() {
    let asked = |script: &[u32], room| {
        let serve = || made::<asked::Host<Counted>>().call(CALL, Feed::Script(script), room, false);
        counted(serve).1 == 1
    };
    for (high, version, length) in (0..128).map(|n| (n >= 64, n / 16 % 4, n % 16)) {
        let script = Card::of(high, version, length).script();
        let strange = high && version == 1 && length != 9;
        assert_eq!(asked(&script, ROOM), !strange, "{high}, {version}, {length}");
    }
    let script = STRANGE.script();
    for cut in 0..script.len() {
        assert_eq!(asked(&script[..cut], ROOM), cut < WORDS, "cut at {cut}");
    }
    for room in 0..CLOSED + 10 {
        assert_eq!(asked(&script, room), room < ROWS, "room {room}");
    }
}

/// A write of one block, and a script that serves it whole.
const WRITE: Call = Call::Write {
    index: 3,
    data: &[[7; 128]],
};

fn write_script() -> Vec<u32> {
    [short(13, 0x900), data(24, &[]), short(13, 0x900)].concat()
}

fn protected(protect: u32) -> Card {
    Card { protect, ..GOOD }
}

#[test]
fn not_asked_at_a_write_to_a_protected_card_and_nowhere_else() {
    let script = write_script();
    let none = Call::Write { index: 3, data: &[] };
    let past = Call::Write {
        index: u32::MAX,
        data: &[[7; 128]],
    };
    let read = Call::Read { index: 3, blocks: 1 };
    for protect in 0..=3 {
        let asked = |call, script: &[u32], room| {
            let mut host = with::<asked::Host<Counted>>(protected(protect));
            counted(|| host.call(call, Feed::Script(script), room, false)).1 == 1
        };
        for (script, room) in [(&script[..], ROOM), (&script[..9], ROOM), (&[], 0)] {
            for call in [WRITE, none, past] {
                assert_eq!(
                    asked(call, script, room),
                    protect == 0,
                    "{protect}, {call:?}, room {room}"
                );
            }
            for call in [read, Call::Status, CALL] {
                assert!(asked(call, script, room), "{protect}, {call:?}, room {room}");
            }
        }
    }
    let mut host: asked::Host<Counted> = made();
    let (outcome, calls) = counted(|| host.call(WRITE, Feed::Script(&script), ROOM, false));
    assert_eq!((outcome.answer, calls), (16, 1));
}

#[test]
fn a_stopped_write_leaves_the_rust_as_it_was_and_it_goes_on() {
    let read = [short(13, 0x900), data(17, &[9; 128]), short(13, 0x900)].concat();
    for protect in 1..=3 {
        let mut host = with::<asked::Host<Counted>>(protected(protect));
        let stood = host.state();
        let outcome = host.call(WRITE, Feed::Script(&write_script()), ROOM, true);
        assert_eq!(
            (outcome.answer, outcome.words_used, outcome.rows.len()),
            (WRITE_PROTECTED, 0, 0)
        );
        assert_eq!((host.state(), outcome.events.len()), (stood, 0));
        let call = Call::Read { index: 3, blocks: 1 };
        let (outcome, calls) = counted(|| host.call(call, Feed::Script(&read), ROOM, false));
        assert_eq!((outcome.answer, calls, host.state()), (0, 1, stood));
    }
}

#[test]
fn not_asked_as_often_as_the_count_says() {
    let mut total = Aside::default();
    for k in 1..=300 {
        let book = generate::book(96, k);
        for room in [MOST_ROOM, 40 + k as usize % 60] {
            let (lines, calls) = counted(|| printed::<asked::Host<Counted>>(&book, room));
            let served = lines.iter().skip(1).filter(|line| line.contains(" answer ")).count() as u64;
            let aside = aside::of_book(&book, room);
            assert_eq!(calls + aside.calls(), served, "book {k} of seed 96 with room {room}");
            total += aside;
        }
    }
    assert!(total.block_length > 10 && total.write_protected > 10, "{total}");
}

/// A live card that gives these words.
struct Words(std::vec::IntoIter<u32>);

impl Live for Words {
    fn answer(&mut self, _: Reading) -> Option<u32> {
        self.0.next()
    }

    fn wrote(&mut self, _: u32, _: u32) {}
}

#[test]
fn a_live_card_gives_its_words_to_a_host_that_goes_on() {
    // With much room the Rust takes the card, to its last word; with little it gets as far as CMD7.
    let whole = STRANGE.script();
    for (room, answer, given) in [(ROOM, UNSUPPORTED, whole.len()), (ROWS, TRACE_FULL, WORDS + 1)] {
        let mut host = taken();
        let card = Words(whole.clone().into_iter());
        let outcome = host.call(CALL, Feed::Live(Box::new(card)), room, true);
        assert_eq!((outcome.answer, &outcome.script[..]), (answer, &whole[..given]));
        // All else is as if this had been a script.
        let mut other = taken();
        assert_eq!(other.call(CALL, Feed::Script(&whole[..given]), room, true), outcome);
        assert_eq!(other.state(), host.state());
    }
}

#[test]
fn a_live_card_gives_its_words_to_a_write_that_is_made() {
    let whole = write_script();
    let mut host: asked::Host = with(protected(2));
    let stood = host.state();
    let card = Words(whole.clone().into_iter());
    let outcome = host.call(WRITE, Feed::Live(Box::new(card)), ROOM, true);
    assert_eq!((outcome.answer, &outcome.script), (WRITE_PROTECTED, &whole));
    assert_eq!(host.state(), stood);
    let mut other: asked::Host = with(protected(2));
    assert_eq!(other.call(WRITE, Feed::Script(&whole), ROOM, true), outcome);
}

#[test]
fn of_the_plain_functions_only_the_count() {
    for (version, length) in (0..64).map(|n| (n / 16, n % 16)) {
        let high = version << 62 | length << 16;
        let (rust, here) = (right::Leaves::count(high, 0), <asked::Leaves>::count(high, 0));
        let strange = version == 1 && length != 9;
        assert_eq!(here, if strange { 13 << 56 } else { rust }, "{version}, {length}");
        assert_eq!(here == rust, !strange, "{version}, {length}");
        assert_eq!(paper::Leaves::beyond_the_rust(high, 0), strange, "{version}, {length}");
    }
}

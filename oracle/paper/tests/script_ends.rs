//! Scripts cut at every place, each with every room that is too small for what
//! closes the call, and with just enough: document 01 and the Rust say the same.

use oracle_driver::bench::{Event, Feed};
use oracle_driver::script::{data, initialisation, short, switching};
use oracle_driver::{right, Block, Call, Host, Outcome, Settings, State};
use oracle_paper as paper;

const SETTINGS: Settings = Settings {
    source: 48_000_000,
    poll_limit: 2,
    ready_attempts: 2,
    data_timeout: 7,
    software_timeout: 9,
    bypass: true,
    wide: true,
};
const MUCH: usize = 4_096;

/// A host with a card, or without.
fn made<H: Host>(card: bool) -> H {
    let mut host = H::make(&SETTINGS).ok().unwrap();
    if card {
        let call = Call::Initialise { frequency: 24_000_000 };
        let outcome = host.call(call, Feed::Script(&initialisation(0)), MUCH, false);
        assert_eq!(outcome.answer, 0);
    }
    host
}

fn run<H: Host>(card: bool, call: Call, script: &[u32], room: usize) -> (Outcome, State) {
    let mut host = made::<H>(card);
    let outcome = host.call(call, Feed::Script(script), room, true);
    (outcome, host.state())
}

/// The Rust's outcome, which is document 01's too.
fn both(card: bool, call: Call, script: &[u32], room: usize) -> Outcome {
    let rust = run::<right::Host>(card, call, script, room);
    let document = run::<paper::Host>(card, call, script, room);
    assert_eq!(rust, document, "{call:?} cut at {}, room {room}", script.len());
    rust.0
}

fn rows_before_the_end(outcome: &Outcome) -> usize {
    let events = outcome.events.iter();
    let events = events.take_while(|event| !matches!(event, Event::Ended(_)));
    events.filter(|event| matches!(event, Event::Row(..))).count()
}

fn cut_everywhere(card: bool, call: Call, script: &[u32]) {
    assert_eq!(both(card, call, script, MUCH).answer, 0);
    for length in 0..script.len() {
        let script = &script[..length];
        let outcome = both(card, call, script, MUCH);
        assert_eq!((outcome.answer, outcome.words_used), (21, length));
        let all = outcome.rows.len();
        assert_eq!(both(card, call, script, all).answer, 21);
        for room in rows_before_the_end(&outcome)..all {
            assert_eq!(both(card, call, script, room).answer, 22);
        }
    }
}

#[test]
fn in_an_initialisation() {
    let unready = [short(55, 0x20), vec![0x800, 0, 0x40, 0x0030_0000, 0, 0, 0]].concat();
    let script = switching(0);
    let slow = [&script[..10], &unready, &script[10..]].concat();
    for card in [false, true] {
        for script in [&script, &slow] {
            cut_everywhere(card, Call::Initialise { frequency: 50_000_000 }, script);
        }
    }
}

#[test]
fn in_a_read_of_one_block_and_of_two() {
    let words: Vec<u32> = (0..256).collect();
    let ready = [short(13, 0x100), short(13, 0x900)].concat();
    let one = [&ready[..], &data(17, &words[..128]), &ready].concat();
    cut_everywhere(true, Call::Read { index: 3, blocks: 1 }, &one);
    let two = [&ready[..], &data(18, &words), &short(12, 0), &ready].concat();
    cut_everywhere(true, Call::Read { index: 3, blocks: 2 }, &two);
}

#[test]
fn in_a_write_of_one_block_and_of_two() {
    let words: [Block; 2] = std::array::from_fn(|block| std::array::from_fn(|place| (1000 * block + place) as u32));
    let ready = [short(13, 0x100), short(13, 0x900)].concat();
    // A poll that goes on before the one that completes.
    let polls = [vec![0, 0x4000_0000], vec![0, 0, 0x100, 0, 0]].concat();
    let command = |index| [vec![0], short(index, 0)].concat();
    let one = [&ready[..], &command(24), &polls, &ready].concat();
    let write = |blocks| Call::Write {
        index: 3,
        data: &words[..blocks],
    };
    cut_everywhere(true, write(1), &one);
    let two = [&ready[..], &command(25), &polls, &short(12, 0), &ready].concat();
    cut_everywhere(true, write(2), &two);
    for (blocks, script) in [(1, one), (2, two)] {
        let all = both(true, write(blocks), &script, MUCH).rows.len();
        for room in 0..all {
            let outcome = both(true, write(blocks), &script, room);
            assert_eq!((outcome.answer, outcome.rows.len()), (22, room));
        }
        assert_eq!(both(true, write(blocks), &script, all).answer, 0);
    }
}

#[test]
fn in_a_status_call() {
    let script = [short(55, 0x20), data(13, &[5; 16]), short(13, 0x900)].concat();
    cut_everywhere(true, Call::Status, &script);
}

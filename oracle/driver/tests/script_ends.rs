//! Calls whose script ends, written by hand: what closes them, and what is left of
//! the host. Each is then given less room, down to none for its first closing row.

use oracle_driver::bench::{Event, Reading};
use oracle_driver::right::Host;
use oracle_driver::script::{data, initialisation, short, switching, RESET};
use oracle_driver::{bench::Feed, Block, Call, Host as _, Outcome, Settings, State};

const SETTINGS: Settings = Settings {
    source: 8_000_000,
    poll_limit: 1,
    ready_attempts: 1,
    data_timeout: 1,
    software_timeout: 1,
    bypass: false,
    wide: true,
};

type Row = (u32, u32);

/// Four lines; closed, and open.
const OFF: Row = (2, 2_048);
const ON: Row = (2, 2_048 + 256);
const RCA: u32 = 0x1234_0000;
const MUCH: usize = 4_096;

fn read(blocks: usize) -> Call<'static> {
    Call::Read { index: 5, blocks }
}

static DATA: [Block; 2] = [[0x0403_0201; 128], [0; 128]];

fn write(blocks: usize) -> Call<'static> {
    Call::Write {
        index: 5,
        data: &DATA[..blocks],
    }
}

fn initialise(frequency: u32) -> Call<'static> {
    Call::Initialise { frequency }
}

/// ICR, ARG and CMD.
fn command(index: u32, argument: u32) -> Vec<Row> {
    vec![(8, 0xc5), (3, argument), (4, index + 64 + 1_024)]
}

fn blocks(count: usize) -> Vec<u32> {
    (0..128 * count as u32).collect()
}

/// A host that has taken a card of 2,048 blocks, at 4 MHz.
fn taken() -> Host {
    let mut host = Host::make(&SETTINGS).ok().unwrap();
    let script = initialisation(1);
    let outcome = host.call(initialise(25_000_000), Feed::Script(&script), MUCH, false);
    assert_eq!((outcome.answer, outcome.rows.len()), (0, 68));
    host
}

/// Runs a call on a script that ends too early, with all the room that there is,
/// and holds it to the rows that close it. With just enough room it is the same,
/// with less it is answered 22 and leaves the host as before.
fn ends(call: Call, script: &[u32], closing: &[Row]) -> (Outcome, State) {
    let mut host = taken();
    let (snapshot, stood) = (host.snapshot(), host.state());
    let outcome = host.call(call, Feed::Script(script), MUCH, true);
    let left = host.state();
    let at = format!("{call:?} cut at {}", script.len());
    assert_eq!((outcome.answer, outcome.carried), (21, 0), "{at}");
    assert_eq!(outcome.words_used, script.len(), "{at}");
    assert!(outcome.status.is_none() && outcome.blocks.is_empty(), "{at}");
    let end = outcome.events.iter().position(|event| matches!(event, Event::Ended(_)));
    let after: Vec<Event> = closing
        .iter()
        .map(|&(register, value)| Event::Row(register, value))
        .collect();
    assert_eq!(outcome.events[end.unwrap() + 1..], after, "{at}");
    assert!(outcome.rows.ends_with(closing), "{at}");

    let all = outcome.rows.len();
    host.restore(&snapshot);
    assert_eq!(host.call(call, Feed::Script(script), all, true), outcome, "{at}");
    assert_eq!(host.state(), left, "{at}");
    for room in all - closing.len()..all {
        host.restore(&snapshot);
        let less = host.call(call, Feed::Script(script), room, true);
        assert_eq!((less.answer, less.words_used), (22, script.len()), "{at}, room {room}");
        assert_eq!(less.rows, outcome.rows[..room], "{at}, room {room}");
        assert_eq!(less.events.last(), Some(&Event::Full(outcome.rows[room].0)));
        assert_eq!(host.state(), stood, "{at}, room {room}");
    }
    (outcome, left)
}

/// The reading that found no word.
fn missed(outcome: &Outcome) -> Reading {
    let ended = outcome.events.iter().filter_map(|event| match event {
        Event::Ended(reading) => Some(*reading),
        _ => None,
    });
    let ended: Vec<Reading> = ended.collect();
    assert_eq!(ended.len(), 1, "one reading finds no word");
    ended[0]
}

fn host_without_record(clock: u32, gated: bool) -> State {
    State {
        clock,
        sdr25: false,
        gated,
        clkcr: 0,
        record: None,
    }
}

const SHORT_READINGS: [Reading; 7] = [
    Reading::Status,
    Reading::Status,
    Reading::Respcmd,
    Reading::Response(0),
    Reading::Response(1),
    Reading::Response(2),
    Reading::Response(3),
];

#[test]
fn before_the_first_reading_of_an_initialisation() {
    let (outcome, left) = ends(initialise(25_000_000), &[], &RESET);
    assert_eq!(outcome.rows, [RESET, RESET].concat());
    assert_eq!(missed(&outcome), Reading::Status);
    assert_eq!(left, host_without_record(400_000, false));
}

#[test]
fn at_cmd8_it_is_no_version_1_card() {
    let script = [vec![0, 0, 0x80], short(8, 0x1aa)].concat();
    for (length, reading) in (3..).zip(SHORT_READINGS) {
        let (outcome, left) = ends(initialise(25_000_000), &script[..length], &RESET);
        assert_eq!(missed(&outcome), reading);
        let cmd8 = if length == 3 { vec![] } else { command(8, 0x1aa) };
        let first = vec![(2, 18), (1, 3), (2, 18 + 256), (11, 20 * 80)];
        let cmd0 = vec![(8, 0xc5), (3, 0), (4, 1_024)];
        let rows = [RESET.to_vec(), first, cmd0, cmd8, RESET.to_vec()].concat();
        assert_eq!(outcome.rows, rows);
        assert_eq!(left, host_without_record(400_000, false));
    }
}

#[test]
fn in_the_first_ready_wait_of_a_read_or_write_the_clock_closes_and_the_record_stays() {
    let script = short(13, 0x900);
    for call in [read(1), write(1), write(2)] {
        for (length, reading) in SHORT_READINGS.into_iter().enumerate() {
            let (outcome, left) = ends(call, &script[..length], &[OFF]);
            assert_eq!(missed(&outcome), reading);
            let sent = if length == 0 { vec![] } else { command(13, RCA) };
            assert_eq!(outcome.rows, [vec![ON], sent, vec![OFF]].concat());
            assert_eq!(left, taken().state());
            assert!(left.record.is_some());
        }
    }
}

#[test]
fn at_a_status_calls_cmd55_likewise() {
    let script = short(55, 0x20);
    for length in 0..7 {
        let (_, left) = ends(Call::Status, &script[..length], &[OFF]);
        assert_eq!(left, taken().state());
    }
}

#[test]
fn in_a_data_phase_the_guard_closes_and_the_record_is_gone() {
    for (call, index, head, words) in [
        (read(1), 17, short(13, 0x900), blocks(1)),
        (read(2), 18, short(13, 0x900), blocks(2)),
        (Call::Status, 13, short(55, 0x20), vec![7; 16]),
    ] {
        let script = [head.clone(), data(index, &words)].concat();
        for length in head.len()..script.len() {
            let (outcome, left) = ends(call, &script[..length], &RESET);
            assert_eq!(left, host_without_record(4_000_000, true));
            if length == script.len() - words.len() {
                assert_eq!(missed(&outcome), Reading::Data(0));
            }
        }
        let (outcome, _) = ends(call, &script[..script.len() - 1], &RESET);
        assert_eq!(missed(&outcome), Reading::Data(words.len() as u16 - 1));
    }
}

#[test]
fn in_a_writes_data_phase_likewise_and_its_words_are_sent_once_the_command_is_answered() {
    for (call, index, blocks) in [(write(1), 24, 1), (write(2), 25, 2)] {
        let head = short(13, 0x900);
        let script = [head.clone(), data(index, &[])].concat();
        for length in head.len()..script.len() {
            let (outcome, left) = ends(call, &script[..length], &RESET);
            assert_eq!(left, host_without_record(4_000_000, true));
            let sent: Vec<u32> = outcome.rows.iter().filter(|row| row.0 == 12).map(|row| row.1).collect();
            let armed = outcome.rows.contains(&(7, 153));
            let answered = length >= head.len() + 8;
            assert_eq!(armed, answered);
            let due = if answered { DATA[..blocks].as_flattened() } else { &[] };
            assert_eq!(sent, due);
        }
    }
}

#[test]
fn in_cmd12_and_in_the_closing_ready_wait_the_clock_closes_and_then_the_guard() {
    let closing = [vec![OFF], RESET.to_vec()].concat();
    let one = [short(13, 0x900), data(17, &blocks(1))].concat();
    let two = [short(13, 0x900), data(18, &blocks(2))].concat();
    let stopped = [&two[..], &short(12, 0)].concat();
    let status = [short(55, 0x20), data(13, &[7; 16])].concat();
    let written = [short(13, 0x900), data(24, &[])].concat();
    let all_written = [short(13, 0x900), data(25, &[])].concat();
    let write_stopped = [&all_written[..], &short(12, 0)].concat();
    for (call, head, tail) in [
        (write(1), written, short(13, 0x900)),
        (write(2), all_written, short(12, 0)),
        (write(2), write_stopped, short(13, 0x900)),
        (read(1), one, short(13, 0x900)),
        (read(2), two, short(12, 0)),
        (read(2), stopped, short(13, 0x900)),
        (Call::Status, status, short(13, 0x900)),
    ] {
        for (length, reading) in SHORT_READINGS.into_iter().enumerate() {
            let script = [&head[..], &tail[..length]].concat();
            let (outcome, left) = ends(call, &script, &closing);
            assert_eq!(missed(&outcome), reading);
            assert_eq!(left, host_without_record(4_000_000, true));
        }
    }
}

#[test]
fn inside_initialisation_a_data_phase_is_closed_twice() {
    let script = switching(1);
    let twice = [RESET, RESET].concat();
    let gated = [vec![OFF], twice.clone()].concat();
    // Where the three data phases and their ready waits begin, with their words.
    let phases = [(63, 2, &twice), (100, 16, &gated), (136, 16, &gated)];
    for (at, words, waiting) in phases {
        let wait = at + 13 + words;
        for length in at..wait {
            ends(initialise(50_000_000), &script[..length], &twice);
        }
        for length in wait..wait + 7 {
            ends(initialise(50_000_000), &script[..length], waiting);
        }
    }
    // The other steps, at last the third clock, whose idle word is the last one.
    for length in (0..63).chain(85..100).chain([172]) {
        ends(initialise(50_000_000), &script[..length], &RESET);
    }
    let mut host = taken();
    let outcome = host.call(initialise(50_000_000), Feed::Script(&script), MUCH, false);
    assert_eq!((outcome.answer, outcome.words_used), (0, 173));
    assert!(host.state().sdr25);
}

#[test]
fn clock_gate_and_signalling_stand_as_they_are_then() {
    let script = switching(1);
    // Before the second clock, and after it.
    let (_, left) = ends(initialise(50_000_000), &script[..99], &RESET);
    assert_eq!(left, host_without_record(400_000, false));
    let (_, left) = ends(initialise(50_000_000), &script[..100], &[RESET, RESET].concat());
    assert_eq!(left, host_without_record(4_000_000, true));
    let (_, left) = ends(initialise(50_000_000), &script[..script.len() - 1], &RESET);
    assert_eq!(left, host_without_record(4_000_000, true));
}

#[test]
fn a_row_without_room_before_the_end_leaves_the_host_as_before_too() {
    let mut host = taken();
    let (snapshot, stood) = (host.snapshot(), host.state());
    for (call, index, rows) in [(read(1), 17, 16), (write(1), 24, 144), (write(2), 25, 272)] {
        let script = [short(13, 0x900), vec![0], short(index, 0)].concat();
        for room in 0..rows {
            host.restore(&snapshot);
            let outcome = host.call(call, Feed::Script(&script), room, false);
            assert_eq!((outcome.answer, outcome.rows.len()), (22, room));
            assert_eq!(host.state(), stood);
        }
    }
}

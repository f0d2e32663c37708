//! Names the arm that refused a call: the step and the cause.

use oracle_driver::bench::{Event, Reading};
use oracle_driver::host::WRITE_PROTECTED;
use oracle_driver::{Call, Outcome};

use crate::coverage::kind;
use crate::walk::{Place, Walk};

/// Step and cause, as the coverage table has them.
pub type Arm = (&'static str, &'static str);

/// The arm of a call that a reading, a setting or the record refused (1 to 20, 26). `again`
/// runs the same call from the same host on another script.
pub fn refused(call: Call<'_>, outcome: &Outcome, again: impl Fn(&[u32]) -> Vec<Event>) -> Arm {
    match (outcome.answer, call) {
        (16, _) => return (kind(call), "no card"),
        (19, _) => return (kind(call), "no blocks"),
        (20, _) => return (kind(call), "past the card"),
        (WRITE_PROTECTED, _) => return (kind(call), "write protected"),
        (17, Call::Initialise { frequency: 0 }) => return ("initialise", "asked for 0 Hz"),
        (17, _) if outcome.rows.is_empty() => return ("initialise", "asked for over 50 MHz"),
        _ => {}
    }
    let mut walk = Walk::new(call);
    let Some((place, site)) = walk.through(&outcome.events) else {
        return ("a step", "unknown");
    };
    match (place, outcome.answer) {
        (Place::Idle, 2) => {
            // As if the last status had been idle.
            let mut script = outcome.script[..outcome.words_used].to_vec();
            script.pop();
            idle(call, script, again)
        }
        (Place::Sent, 1) => (site, "timeout"),
        (Place::Sent, 2) => (site, "spent"),
        (Place::Sent, 3) => (site, "CRC"),
        (Place::Echo, 9) => (site, "echo"),
        (Place::Words, answer) => words(site, answer, outcome),
        (Place::FirstStatus, answer) => (site, in_data(answer, true)),
        (Place::SecondStatus, answer) => (site, in_data(answer, false)),
        (Place::FirstDma, 7) => (site, "1: DMA"),
        (Place::SecondDma, 7) => (site, "2: DMA"),
        (Place::FirstDma, 2) => (site, "running"),
        (Place::SecondDma, 2) => (site, "not ended"),
        (Place::SecondDma, 8) => (site, "remaining"),
        (Place::Dcount, 8) => (site, "DCOUNT"),
        _ => (site, "unknown"),
    }
}

/// The step in which a script ended: the place of the command, and the reading
/// that found no word.
pub fn ended(call: Call<'_>, outcome: &Outcome, again: impl Fn(&[u32]) -> Vec<Event>) -> Arm {
    let end = outcome.events.iter().find_map(|event| match event {
        Event::Ended(reading) => Some(*reading),
        _ => None,
    });
    let Some(reading) = end else {
        return ("a step", "unknown");
    };
    let mut walk = Walk::new(call);
    walk.through(&outcome.events);
    match walk.step(reading) {
        Some(step) => (walk.site, step),
        None => idle(call, outcome.script.clone(), again),
    }
}

/// An idle wait does not say what it waits for: the same call is run with an idle
/// status after these words, and the row that then comes tells.
fn idle(call: Call<'_>, mut script: Vec<u32>, again: impl Fn(&[u32]) -> Vec<Event>) -> Arm {
    script.push(0);
    let used = script.len();
    // Enough for the idle wait of a data phase's own command.
    script.push(0);
    let mut walk = Walk::new(call);
    let mut words = 0;
    let mut next = None;
    for event in again(&script) {
        match event {
            Event::Word(reading, word) => {
                walk.word(reading, word);
                words += 1;
            }
            Event::Row(register, value) if words >= used => {
                next = next.or(Some((register, walk.site)));
                walk.row(register, value);
                if register == 4 {
                    break;
                }
            }
            Event::Row(register, value) => walk.row(register, value),
            Event::Ended(_) | Event::Full(_) => break,
        }
    }
    match next {
        Some((8, _)) => (walk.site, "idle"),
        Some((10, _)) => (walk.site, "data idle"),
        Some((2, "nothing")) => ("first clock", "idle"),
        Some((2, "ACMD6")) => ("second clock", "idle"),
        Some((2, "CMD13 after switch")) => ("third clock", "idle"),
        _ => (walk.site, "unknown"),
    }
}

/// Refused once all words of an answer were read.
fn words(site: &'static str, answer: u8, outcome: &Outcome) -> Arm {
    match (site, answer) {
        ("CMD8", 12) => (site, "version"),
        ("CMD55 for ACMD41", 13) if sent(outcome, 55) > 1 => (site, "not taken, later attempt"),
        ("CMD55 for ACMD41", 13) => (site, "not taken, first attempt"),
        ("ACMD41", 13) if sent(outcome, 41) > 1 => (site, "voltage, later attempt"),
        ("ACMD41", 13) => (site, "voltage, first attempt"),
        ("ACMD41", 2) => (site, "attempts"),
        ("CMD3", 9) => (site, "RCA 0"),
        ("CMD9", 13) => (site, csd(outcome)),
        ("CMD13 after ACMD51", 14) => ("SCR", width(outcome)),
        ("ACMD6", 13) => ("CSD", rate(word_of(outcome, 9, 0))),
        ("ACMD6", 17) => ("second clock", "too slow"),
        ("CMD13 after switch", 15) => ("CMD6 switch", "not switched"),
        (_, 13) => (site, "not taken"),
        (_, 10) => (site, "error bits"),
        (_, 11) => (site, "locked"),
        (_, 2) => (site, "attempts"),
        _ => (site, "unknown"),
    }
}

/// OCR and CSD disagree, or the CSD itself is refused.
fn csd(outcome: &Outcome) -> &'static str {
    let high = word_of(outcome, 41, 0) >> 30 & 1 == 1;
    let length = word_of(outcome, 9, 1) >> 16 & 15;
    match (high, word_of(outcome, 9, 0) >> 30, length) {
        (true, 0, _) => "OCR high, CSD 0",
        (true, 2, _) => "OCR high, CSD 2",
        (true, 3, _) => "OCR high, CSD 3",
        // The comparison comes before the block length.
        (false, 1, 9) => "OCR standard, CSD 1",
        (false, 1, _) => "OCR standard, CSD 1, block length not 9",
        (false, 2, _) => "OCR standard, CSD 2",
        (false, 3, _) => "OCR standard, CSD 3",
        (false, 0, ..=8) => "CSD 0: block length under 9",
        (false, 0, 12..) => "CSD 0: block length over 11",
        (true, 1, ..=8) => "CSD 1: block length under 9",
        // Version 0 may have these two.
        (true, 1, 10) => "CSD 1: block length 10",
        (true, 1, 11) => "CSD 1: block length 11",
        (true, 1, 12..) => "CSD 1: block length over 11",
        _ => "unknown",
    }
}

/// The rules that the rate in the top word of a CSD breaks.
fn rate(top: u32) -> &'static str {
    let (reserved, unit, value) = (top >> 7 & 1 == 1, top & 7 > 3, top >> 3 & 15 == 0);
    match (reserved, unit, value) {
        (true, false, false) => "rate: reserved bit",
        (false, true, false) => "rate: unit",
        (false, false, true) => "rate: value",
        (true, true, false) => "rate: reserved bit, unit",
        (true, false, true) => "rate: reserved bit, value",
        (false, true, true) => "rate: unit, value",
        (true, true, true) => "rate: reserved bit, unit, value",
        (false, false, false) => "unknown",
    }
}

/// A word of the last answer to a command.
pub fn word_of(outcome: &Outcome, index: u32, place: u8) -> u32 {
    let mut command = 0;
    let mut answer = 0;
    for event in &outcome.events {
        match event {
            Event::Row(4, value) => command = value & 0x3f,
            Event::Word(Reading::Response(at), word) if command == index && *at == place => answer = *word,
            _ => {}
        }
    }
    answer
}

/// How often a command was sent.
pub fn sent(outcome: &Outcome, index: u32) -> usize {
    let sent = |row: &&(u32, u32)| row.0 == 4 && row.1 & 0x3f == index;
    outcome.rows.iter().filter(sent).count()
}

fn width(outcome: &Outcome) -> &'static str {
    let data = outcome.events.iter().find_map(|event| match event {
        Event::Word(Reading::Data(0), word) => Some(*word),
        _ => None,
    });
    // The bytes are sent top first: byte 1 holds bits 55 to 48.
    match data.map(|word| word >> 8 & 1) {
        Some(0) => "no one-bit bus",
        _ => "no four-bit bus",
    }
}

fn in_data(answer: u8, first: bool) -> &'static str {
    match (answer, first) {
        (1, true) => "1: timeout",
        (3, true) => "1: CRC",
        (5, true) => "1: overrun",
        (6, true) => "1: underrun",
        (4, true) => "1: start bit",
        (1, false) => "2: timeout",
        (3, false) => "2: CRC",
        (5, false) => "2: overrun",
        (6, false) => "2: underrun",
        (4, false) => "2: start bit",
        _ => "unknown",
    }
}

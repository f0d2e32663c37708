//! Every arm that the documents have, every step in which a script can end and every
//! closing row, so that one never reached shows.

use oracle_driver::host::WRITE_PROTECTED;

use crate::arms::Arm;
use crate::closing::SHAPES;
use crate::coverage::Closing;

pub const COMMAND: [&str; 7] = ["idle", "timeout", "spent", "CRC", "echo", "error bits", "locked"];

pub const DATA: [&str; 17] = [
    "data idle",
    "1: timeout",
    "1: CRC",
    "1: overrun",
    "1: underrun",
    "1: start bit",
    "1: DMA",
    "running",
    "2: timeout",
    "2: CRC",
    "2: overrun",
    "2: underrun",
    "2: start bit",
    "2: DMA",
    "not ended",
    "remaining",
    "DCOUNT",
];

/// The readings of a command and of a data phase, each of which can be the one
/// that finds no word.
pub const COMMAND_ENDS: [&str; 7] = ["idle", "poll", "echo", "word 0", "word 1", "word 2", "word 3"];
const WITHOUT_ECHO: [&str; 6] = ["idle", "poll", "word 0", "word 1", "word 2", "word 3"];

/// Data words are taken in a read alone.
pub const DATA_ENDS: [&str; 9] = [
    "data idle",
    "1: status",
    "1: DMA word",
    "2: status",
    "2: DMA word",
    "DCOUNT",
    "data, first",
    "data, between",
    "data, last",
];

/// A command, which causes of a command it can have, and its own; at which of its
/// own readings a script can end.
pub struct Site {
    pub name: &'static str,
    pub command: &'static [&'static str],
    pub own: &'static [&'static str],
    pub ends: &'static [&'static str],
    pub data: bool,
}

/// R1: all causes of a command.
const fn r1(name: &'static str, own: &'static [&'static str]) -> Site {
    Site {
        name,
        command: &COMMAND,
        own,
        ends: &COMMAND_ENDS,
        data: false,
    }
}

const fn data(name: &'static str, own: &'static [&'static str]) -> Site {
    Site {
        data: true,
        ..r1(name, own)
    }
}

/// Another kind of answer, to which only some causes apply.
const fn other(
    name: &'static str,
    command: &'static [&'static str],
    own: &'static [&'static str],
    ends: &'static [&'static str],
) -> Site {
    Site {
        name,
        command,
        own,
        ends,
        data: false,
    }
}

/// No step, but what a call is refused for.
const fn cause(name: &'static str, own: &'static [&'static str]) -> Site {
    other(name, &[], own, &[])
}

/// A clock change: an idle wait and no command.
const fn clock(name: &'static str, own: &'static [&'static str]) -> Site {
    other(name, &["idle"], own, &["idle"])
}

pub const SITES: &[Site] = &[
    cause("initialise", &["asked for 0 Hz", "asked for over 50 MHz"]),
    clock("first clock", &[]),
    other("CMD0", &["idle", "timeout", "spent"], &[], &["idle", "poll"]),
    // A timeout of CMD8 is a version 1 card.
    other("CMD8", &["idle", "spent", "CRC", "echo"], &["version"], &COMMAND_ENDS),
    r1(
        "CMD55 for ACMD41",
        &["not taken, first attempt", "not taken, later attempt"],
    ),
    other(
        "ACMD41",
        &["idle", "timeout", "spent"],
        &["voltage, first attempt", "voltage, later attempt", "attempts"],
        &WITHOUT_ECHO,
    ),
    other("CMD2", &["idle", "timeout", "spent", "CRC"], &[], &WITHOUT_ECHO),
    other(
        "CMD3",
        &["idle", "timeout", "spent", "CRC", "echo", "error bits"],
        &["RCA 0"],
        &COMMAND_ENDS,
    ),
    other(
        "CMD9",
        &["idle", "timeout", "spent", "CRC"],
        &[
            "OCR high, CSD 0",
            "OCR high, CSD 2",
            "OCR high, CSD 3",
            "OCR standard, CSD 1",
            "OCR standard, CSD 1, block length not 9",
            "OCR standard, CSD 2",
            "OCR standard, CSD 3",
            "CSD 0: block length under 9",
            "CSD 0: block length over 11",
            "CSD 1: block length under 9",
            "CSD 1: block length 10",
            "CSD 1: block length 11",
            "CSD 1: block length over 11",
        ],
        &WITHOUT_ECHO,
    ),
    r1("CMD7", &[]),
    r1("CMD13 after CMD7", &["attempts"]),
    r1("CMD16", &[]),
    r1("CMD55 for ACMD51", &["not taken"]),
    data("ACMD51", &[]),
    r1("CMD13 after ACMD51", &["attempts"]),
    cause("SCR", &["no one-bit bus", "no four-bit bus"]),
    r1("CMD55 for ACMD6", &["not taken"]),
    r1("ACMD6", &[]),
    cause(
        "CSD",
        &[
            "rate: reserved bit",
            "rate: unit",
            "rate: value",
            "rate: reserved bit, unit",
            "rate: reserved bit, value",
            "rate: unit, value",
            "rate: reserved bit, unit, value",
        ],
    ),
    clock("second clock", &["too slow"]),
    data("CMD6 check", &[]),
    r1("CMD13 after check", &["attempts"]),
    data("CMD6 switch", &["not switched"]),
    r1("CMD13 after switch", &["attempts"]),
    clock("third clock", &[]),
    cause("read", &["no card", "no blocks", "past the card"]),
    r1("CMD13 first", &["attempts"]),
    data("CMD17", &[]),
    r1("CMD13 after CMD17", &["attempts"]),
    data("CMD18", &[]),
    r1("CMD12", &[]),
    r1("CMD13 after CMD12", &["attempts"]),
    cause("write", &["no card", "write protected", "no blocks", "past the card"]),
    r1("CMD13 before a write", &["attempts"]),
    data("CMD24", &[]),
    r1("CMD13 after CMD24", &["attempts"]),
    data("CMD25", &[]),
    r1("CMD12 of a write", &[]),
    r1("CMD13 after a write's CMD12", &["attempts"]),
    cause("status", &["no card"]),
    r1("CMD55 for ACMD13", &["not taken"]),
    data("ACMD13", &[]),
    r1("CMD13 after ACMD13", &["attempts"]),
];

pub fn arms() -> Vec<Arm> {
    let of = |site: &'static Site| {
        let data: &[&str] = if site.data { &DATA } else { &[] };
        let causes = site.command.iter().chain(site.own).chain(data);
        causes.map(|cause| (site.name, *cause))
    };
    SITES.iter().flat_map(of).collect()
}

/// The field that goes with an arm whose answer is 13, by document 02's requests P4 and
/// P6; none: the arm has another answer.
pub fn field((_, cause): Arm) -> Option<u8> {
    match cause {
        "OCR standard, CSD 2" | "OCR standard, CSD 3" => Some(1),
        _ if cause.starts_with("CSD 0: block length") || cause.starts_with("CSD 1: block length") => Some(2),
        "rate: unit" | "rate: unit, value" => Some(3),
        "rate: value" => Some(4),
        _ if cause.starts_with("rate: reserved bit") => Some(5),
        _ if cause.starts_with("OCR high, CSD") || cause.starts_with("OCR standard, CSD 1") => Some(6),
        _ if cause.starts_with("voltage") => Some(7),
        _ if cause.starts_with("not taken") => Some(8),
        _ => None,
    }
}

/// Whether what is refused at this place is refused before anything is done: the refusal
/// table has the host as before, no row and no word used.
pub fn untouched(site: &str) -> bool {
    matches!(site, "initialise" | "read" | "write" | "status")
}

/// Whether a script can end in this step of the data phase. The SCR has two words,
/// a first and a last; a write has its data elsewhere.
pub fn data_ends(site: &Site, step: &str) -> bool {
    site.data
        && match site.name {
            "ACMD51" => step != "data, between",
            "CMD24" | "CMD25" => !step.starts_with("data, "),
            _ => true,
        }
}

/// The steps in which a script can end.
pub fn ends() -> Vec<Arm> {
    let of = |site: &'static Site| {
        let data = DATA_ENDS.iter().filter(|step| data_ends(site, step));
        site.ends.iter().chain(data).map(|step| (site.name, *step))
    };
    SITES.iter().flat_map(of).collect()
}

/// What closes a call whose script ends in a step of this place, by the refusal
/// table: the gate of a command that stands alone, the guard of a data phase, which
/// takes in CMD12 and the ready wait after it, and that of initialisation.
pub fn closed_by(site: &str) -> &'static str {
    match site {
        "CMD13 first" | "CMD13 before a write" | "CMD55 for ACMD13" => "CLKCR off",
        "CMD17" | "CMD18" | "CMD24" | "CMD25" | "ACMD13" => "reset",
        "CMD12" | "CMD13 after CMD17" | "CMD13 after CMD12" | "CMD13 after ACMD13" => "CLKCR off, reset",
        "CMD12 of a write" | "CMD13 after CMD24" | "CMD13 after a write's CMD12" => "CLKCR off, reset",
        // The gate is set with the second clock, after ACMD51.
        "ACMD51" | "CMD13 after ACMD51" | "CMD6 check" | "CMD6 switch" => "reset twice",
        "CMD13 after check" | "CMD13 after switch" => "CLKCR off, reset twice",
        // The other steps of initialisation.
        _ => "reset",
    }
}

/// The answers that a call of this kind can have, but 22.
pub fn answers(kind: &str) -> Vec<u8> {
    match kind {
        "initialise" => (0..=15).chain([17, 21]).collect(),
        "status" => (0..=11).chain([13, 16, 21]).collect(),
        "write" => (0..=11).chain([16, 19, 20, 21, WRITE_PROTECTED]).collect(),
        // A read.
        _ => (0..=11).chain([16, 19, 20, 21]).collect(),
    }
}

/// What reads and writes can be, accepted but for the last.
pub const BLOCKS: [&str; 7] = [
    "one block",
    "many blocks",
    "16 blocks",
    "standard capacity",
    "high capacity",
    "up to the last block",
    "none, past the card",
];

/// How the body of a write can be made up.
pub const BODIES: [&str; 4] = [
    "no blocks, no script",
    "no blocks, a script",
    "data alone",
    "data and a script",
];

/// By what a body can be too short for its data.
pub const SHORTAGES: [&str; 3] = ["no word", "one word missing", "more missing"];

/// Whether a write of too many blocks has words for all of them.
pub const TOO_MANY: [&str; 2] = ["all data there", "less data"];

/// The rows of a write from DCTRL to the last word that may find no room, by the number of blocks.
pub const SENDING: [&str; 4] = ["DCTRL", "FIFO, first", "FIFO, between", "FIFO, last"];

/// What can close a call of this kind.
pub fn closes(kind: &str, shape: &str) -> bool {
    match kind {
        "initialise" => matches!(shape, "reset" | "reset twice" | "CLKCR off, reset twice"),
        _ => matches!(shape, "CLKCR off" | "reset" | "CLKCR off, reset"),
    }
}

/// Each closing row that may find no room.
pub fn closings(kind: &'static str) -> Vec<Closing> {
    let shapes = SHAPES.iter().filter(|shape| closes(kind, shape.name));
    let rows = shapes.flat_map(|shape| shape.rows().into_iter().map(|row| (shape.name, row)));
    rows.map(|(shape, row)| (kind, shape, row)).collect()
}

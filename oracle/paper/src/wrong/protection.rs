//! Request P8: the two flags taken from elsewhere, kept too long or lost, told wrongly, and
//! a write that they stop too early, too late, otherwise or not at all.

use oracle_driver::host::{Call, Protection, WRITE_PROTECTED};

use super::{protects, Wrong};
use crate::leaf::{address, bits, protection};
use crate::protecting::{line, stops, Protecting, RIGHTLY};
use crate::tape::{beyond_the_rust, refuse, Beyond, Step, Tape};
use crate::Host;

/// The flags are others, and all goes by them.
const fn flags(
    name: &'static str,
    what: &'static str,
    flags: fn(csd: u128, before: Option<Protection>) -> Protection,
) -> Wrong {
    protects(name, what, Protecting { flags, ..RIGHTLY })
}

/// The right flags, which stop something else.
const fn admits(
    name: &'static str,
    what: &'static str,
    admits: fn(&mut Host, &mut Tape<'_>, Call<'_>) -> Step<()>,
) -> Wrong {
    protects(name, what, Protecting { admits, ..RIGHTLY })
}

/// What comes of them once a call is over is something else.
const fn tells(
    name: &'static str,
    what: &'static str,
    line: fn(&mut Host, Call<'_>, answer: u8) -> Option<Protection>,
) -> Wrong {
    protects(name, what, Protecting { line, ..RIGHTLY })
}

/// The state, and only the state, shows others.
const fn shows(name: &'static str, what: &'static str, state: fn(Protection) -> Protection) -> Wrong {
    protects(name, what, Protecting { state, ..RIGHTLY })
}

fn rightly(host: &mut Host, tape: &mut Tape<'_>, call: Call<'_>) -> Step<()> {
    (RIGHTLY.admits)(host, tape, call)
}

/// The flags by the places of the two bits.
fn at(csd: u128, permanent: u32, temporary: u32) -> Protection {
    Protection {
        permanent: bits(csd, permanent, permanent) == 1,
        temporary: bits(csd, temporary, temporary) == 1,
    }
}

fn exchanged(flags: Protection) -> Protection {
    Protection {
        permanent: flags.temporary,
        temporary: flags.permanent,
    }
}

/// A write is stopped where the flags are such.
fn write_stops(host: &Host, call: Call<'_>, such: fn(Protection) -> bool) -> Step<()> {
    match call {
        Call::Write { .. } => stops(host, such),
        _ => Ok(()),
    }
}

/// Something is done where a write is stopped; a step of it may be refused itself.
fn where_stopped(
    host: &mut Host,
    tape: &mut Tape<'_>,
    call: Call<'_>,
    act: impl FnOnce(&mut Host, &mut Tape<'_>) -> Step<()>,
) -> Step<()> {
    let right = rightly(host, tape, call);
    if beyond_the_rust(&right) == Some(Beyond::WriteProtected) {
        act(host, tape)?;
    }
    right
}

/// 19 and 20 come before 26.
fn address_first(host: &mut Host, tape: &mut Tape<'_>, call: Call<'_>) -> Step<()> {
    if let Call::Write { index, data } = call {
        let record = host.record()?;
        address(record.high_capacity, record.blocks, index, data.len())?;
    }
    rightly(host, tape, call)
}

fn lose_flags(host: &mut Host) {
    if let Some(record) = &mut host.state.record {
        record.protection = Protection::default();
    }
}

pub const ALL: &[Wrong] = &[
    flags(
        "protect-bits-exchanged",
        "bit 12 is permanent and bit 13 temporary",
        |csd, _| at(csd, 12, 13),
    ),
    flags("protect-bits-above", "bits 14 and 13 are the flags", |csd, _| {
        at(csd, 14, 13)
    }),
    flags("protect-bits-below", "bits 12 and 11 are the flags", |csd, _| {
        at(csd, 12, 11)
    }),
    flags("protect-permanent-at-14", "bit 14 is permanent", |csd, _| {
        at(csd, 14, 12)
    }),
    flags("protect-temporary-at-11", "bit 11 is temporary", |csd, _| {
        at(csd, 13, 11)
    }),
    flags(
        "protect-other-half",
        "the flags are taken from the upper half of the CSD",
        |csd, _| at(csd, 64 + 13, 64 + 12),
    ),
    flags(
        "protect-bytes-turned",
        "the bytes of the CSD's last word are turned round",
        |csd, _| protection((csd as u32).swap_bytes().into()),
    ),
    flags("protect-one-flag", "both flags are set if one is", |csd, _| {
        let any = protection(csd).any();
        Protection {
            permanent: any,
            temporary: any,
        }
    }),
    flags("protect-never", "no card has a flag", |_, _| Protection::default()),
    flags(
        "protect-first-card-kept",
        "the flags of the card before stay at a new initialisation",
        |csd, before| before.unwrap_or(protection(csd)),
    ),
    flags(
        "protect-sticks",
        "a flag of the card before stays set at a new initialisation",
        |csd, before| {
            let (now, before) = (protection(csd), before.unwrap_or_default());
            Protection {
                permanent: now.permanent || before.permanent,
                temporary: now.temporary || before.temporary,
            }
        },
    ),
    admits("protect-stops-nothing", "a write is made, as in the Rust", |_, _, _| {
        Ok(())
    }),
    admits(
        "protect-permanent-alone",
        "only the permanent flag stops a write",
        |host, _, call| write_stops(host, call, |flags| flags.permanent),
    ),
    admits(
        "protect-temporary-alone",
        "only the temporary flag stops a write",
        |host, _, call| write_stops(host, call, |flags| flags.temporary),
    ),
    admits(
        "protect-both-needed",
        "only both flags together stop a write",
        |host, _, call| write_stops(host, call, |flags| flags.permanent && flags.temporary),
    ),
    admits(
        "protect-one-alone",
        "both flags together do not stop a write",
        |host, _, call| write_stops(host, call, |flags| flags.permanent != flags.temporary),
    ),
    admits(
        "protect-high-capacity-alone",
        "a card of standard capacity is written to",
        |host, tape, call| match host.record() {
            Ok(record) if !record.high_capacity => Ok(()),
            _ => rightly(host, tape, call),
        },
    ),
    admits(
        "protect-standard-capacity-alone",
        "a card of high capacity is written to",
        |host, tape, call| match host.record() {
            Ok(record) if record.high_capacity => Ok(()),
            _ => rightly(host, tape, call),
        },
    ),
    admits(
        "protect-one-block-alone",
        "a write of more than one block is made",
        |host, tape, call| match call {
            Call::Write { data: [_, _, ..], .. } => Ok(()),
            _ => rightly(host, tape, call),
        },
    ),
    admits(
        "protect-many-blocks-alone",
        "a write of one block is made",
        |host, tape, call| match call {
            Call::Write { data: [_], .. } => Ok(()),
            _ => rightly(host, tape, call),
        },
    ),
    admits(
        "protect-after-no-blocks",
        "19 comes before 26",
        |host, tape, call| match call {
            Call::Write { data: [], .. } => Ok(()),
            _ => rightly(host, tape, call),
        },
    ),
    admits("protect-after-address", "19 and 20 come before 26", address_first),
    admits(
        "protect-after-past-the-card",
        "20 comes before 26, but not 19",
        |host, tape, call| match call {
            Call::Write { data: [], .. } => rightly(host, tape, call),
            _ => address_first(host, tape, call),
        },
    ),
    admits(
        "protect-for-no-card",
        "a write without a card is answered 26",
        |host, tape, call| match (call, host.state.record) {
            (Call::Write { .. }, None) => refuse(WRITE_PROTECTED),
            _ => rightly(host, tape, call),
        },
    ),
    admits(
        "protect-before-no-card",
        "26 comes before 16, by the flags of the card last taken",
        |host, tape, call| match (call, host.stale.taken) {
            (Call::Write { .. }, Some(flags)) if flags.any() => refuse(WRITE_PROTECTED),
            _ => rightly(host, tape, call),
        },
    ),
    admits(
        "protect-without-record",
        "a card that was selected and then refused leaves its flags, and 26 comes before 16",
        |host, tape, call| match (call, host.state.record) {
            (Call::Write { .. }, None) if host.stale.refused.any() => refuse(WRITE_PROTECTED),
            _ => rightly(host, tape, call),
        },
    ),
    admits(
        "protect-stops-reads",
        "a read of a protected card is refused too",
        |host, tape, call| match call {
            Call::Read { .. } => stops(host, Protection::any),
            _ => rightly(host, tape, call),
        },
    ),
    admits(
        "protect-stops-status",
        "a status call on a protected card is refused too",
        |host, tape, call| match call {
            Call::Status => stops(host, Protection::any),
            _ => rightly(host, tape, call),
        },
    ),
    admits(
        "protect-stops-initialisations",
        "an initialisation behind a protected card is refused too",
        |host, tape, call| match call {
            Call::Initialise { .. } if host.state.record.is_some() => stops(host, Protection::any),
            _ => rightly(host, tape, call),
        },
    ),
    admits(
        "protect-as-20",
        "a write to a protected card is answered 20",
        |host, tape, call| where_stopped(host, tape, call, |_, _| refuse(20)),
    ),
    admits(
        "protect-as-16",
        "a write to a protected card is answered 16",
        |host, tape, call| where_stopped(host, tape, call, |_, _| refuse(16)),
    ),
    admits("protect-drops-record", "26 drops the record", |host, tape, call| {
        where_stopped(host, tape, call, |host, _| {
            host.state.record = None;
            Ok(())
        })
    }),
    admits(
        "protect-drops-flags",
        "26 drops the flags, and the next write is made",
        |host, tape, call| {
            where_stopped(host, tape, call, |host, _| {
                lose_flags(host);
                Ok(())
            })
        },
    ),
    admits(
        "protect-after-ready-wait",
        "26 comes behind the ready wait",
        |host, tape, call| {
            where_stopped(host, tape, call, |host, tape| {
                let rca = host.record()?.rca;
                host.bench(tape).ready(rca)
            })
        },
    ),
    admits("protect-resets", "reset rows come before 26", |host, tape, call| {
        where_stopped(host, tape, call, |_, tape| tape.reset())
    }),
    admits(
        "protect-closes-clock",
        "CLKCR off comes before 26",
        |host, tape, call| where_stopped(host, tape, call, |_, tape| tape.open_clock(false)),
    ),
    tells(
        "protect-line-exchanged",
        "in the line, and only there, 1 and 2 are exchanged",
        |host, call, answer| line(host, call, answer).map(exchanged),
    ),
    tells("protect-line-without", "no line ends with it", |_, _, _| None),
    tells(
        "protect-line-without-0",
        "the line of a card without a flag does not end with it",
        |host, call, answer| line(host, call, answer).filter(|flags| flags.any()),
    ),
    tells(
        "protect-line-always",
        "the line of every accepted call ends with it",
        |host, _, answer| host.flags().filter(|_| answer == 0),
    ),
    tells(
        "protect-line-of-reads",
        "the line of an accepted read ends with it too",
        |host, call, answer| match call {
            Call::Read { .. } => host.flags().filter(|_| answer == 0),
            _ => line(host, call, answer),
        },
    ),
    tells(
        "protect-line-of-26",
        "the line of a write that is stopped ends with it too",
        |host, call, answer| match answer {
            WRITE_PROTECTED => host.flags(),
            _ => line(host, call, answer),
        },
    ),
    tells(
        "protect-line-of-refused",
        "the line of a refused initialisation ends with it too",
        |host, call, answer| match call {
            Call::Initialise { .. } => Some(host.flags().unwrap_or_default()),
            _ => line(host, call, answer),
        },
    ),
    tells(
        "protect-lost-by-status",
        "a status call that is accepted leaves the record without flags",
        |host, call, answer| {
            if let (Call::Status, 0) = (call, answer) {
                lose_flags(host);
            }
            line(host, call, answer)
        },
    ),
    tells(
        "protect-lost-by-reads",
        "a read that is accepted leaves the record without flags",
        |host, call, answer| {
            if let (Call::Read { .. }, 0) = (call, answer) {
                lose_flags(host);
            }
            line(host, call, answer)
        },
    ),
    shows(
        "protect-state-exchanged",
        "in the state, and only there, 1 and 2 are exchanged",
        exchanged,
    ),
    shows("protect-state-0", "in the state, and only there, it is 0", |_| {
        Protection::default()
    }),
];

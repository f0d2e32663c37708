//! The three calls: initialise, read, status.

use super::{driver, wrong, Site};

pub const SITES: &[Site] = &[
    driver(
        "fn blocking_init_card(",
        "reset_controller::<T>",
        &[
            wrong("init-guard-missing", "a refused initialisation writes no reset rows", "(|| {}) as fn()"),
            wrong(
                "ended-init-guard-passed",
                "a script's end passes initialisation's guard by",
                "(|| if !crate::bench::ended() { reset_controller::<T>() }) as fn()",
            ),
        ],
    ),
    driver(
        "fn blocking_init_card(",
        "for _ in 0..self.config.card_ready_attempts {\n            ocr = self.power_up(version2)?;\n            if ocr.is_some() {\n                break;\n            }\n            retry_delay::<T>();\n        }",
        &[
            wrong(
                "power-attempts-plus-one",
                "one ACMD41 too many",
                "for _ in 0..self.config.card_ready_attempts.saturating_add(1) { ocr = self.power_up(version2)?; if ocr.is_some() { break; } retry_delay::<T>(); }",
            ),
            wrong(
                "power-attempts-minus-one",
                "one ACMD41 too few",
                "for _ in 0..self.config.card_ready_attempts - 1 { ocr = self.power_up(version2)?; if ocr.is_some() { break; } retry_delay::<T>(); }",
            ),
            wrong(
                "power-without-delay",
                "no delay between two ACMD41",
                "for _ in 0..self.config.card_ready_attempts { ocr = self.power_up(version2)?; if ocr.is_some() { break; } }",
            ),
            wrong(
                "power-no-last-delay",
                "no delay after the last ACMD41",
                "for turn in 0..self.config.card_ready_attempts { ocr = self.power_up(version2)?; if ocr.is_some() { break; } if turn + 1 < self.config.card_ready_attempts { retry_delay::<T>(); } }",
            ),
        ],
    ),
    driver(
        "fn blocking_init_card(",
        "ocr.ok_or(Error::SoftwareTimeout)?",
        &[wrong("power-spent-as-13", "a card never ready gives 13", "ocr.ok_or(Error::UnsupportedCardType)?")],
    ),
    driver(
        "fn blocking_init_card(",
        "blocking_wait_ready::<T>(card.rca, self.config, self.gated)?;",
        &[wrong("init-without-ready-wait", "no ready wait after CMD7", "")],
    ),
    driver(
        "fn blocking_init_card(",
        "matches!(card.card_type, CardCapacity::SDSC)",
        &[
            wrong("cmd16-missing", "no CMD16", "false"),
            wrong("cmd16-always", "CMD16 for every card", "true"),
        ],
    ),
    driver(
        "fn blocking_init_card(",
        "command::<T>(16, 512, Response::R1, self.config, self.gated)?;",
        &[wrong(
            "cmd16-argument",
            "CMD16 sets blocks of 1,024",
            "command::<T>(16, 1024, Response::R1, self.config, self.gated)?;",
        )],
    ),
    driver(
        "fn blocking_init_card(",
        "app_command::<T>(card.rca, self.config, self.gated)?;",
        &[wrong("acmd51-unannounced", "no CMD55 before ACMD51", "")],
    ),
    driver(
        "fn blocking_init_card(",
        "self.blocking_data(Buffer::Read(&mut scr), 51, 0, 3, Some(card.rca))?;",
        &[
            wrong(
                "acmd51-block-size",
                "ACMD51 has blocks of 4 bytes",
                "self.blocking_data(Buffer::Read(&mut scr), 51, 0, 2, Some(card.rca))?;",
            ),
            wrong(
                "acmd51-no-closing-wait",
                "no ready wait after ACMD51",
                "self.blocking_data(Buffer::Read(&mut scr), 51, 0, 3, None)?;",
            ),
        ],
    ),
    driver(
        "fn blocking_init_card(",
        "(u64::from(u32::from_be(scr[0])) << 32) | u64::from(u32::from_be(scr[1]))",
        &[
            wrong(
                "scr-words-exchanged",
                "SCR's first word is below",
                "(u64::from(u32::from_be(scr[1])) << 32) | u64::from(u32::from_be(scr[0]))",
            ),
            wrong(
                "scr-not-turned",
                "SCR's bytes are not turned round",
                "(u64::from(scr[0]) << 32) | u64::from(scr[1])",
            ),
        ],
    ),
    driver(
        "fn blocking_init_card(",
        "self.set_width(&card)?",
        &[
            wrong(
                "rate-before-width",
                "the rate is judged before the width",
                "{ transfer_rate(card.csd.transfer_rate())?; self.set_width(&card)? }",
            ),
            wrong(
                "record-noted-early",
                "the record is kept before the card is accepted",
                "{ self.card = Some(card); self.set_width(&card)? }",
            ),
        ],
    ),
    driver(
        "fn blocking_init_card(",
        "frequency\n                .0\n                .min(25_000_000)\n                .min(transfer_rate(card.csd.transfer_rate())?)",
        &[
            wrong(
                "rate-ignored",
                "the clock may pass the card's rate",
                "{ transfer_rate(card.csd.transfer_rate())?; frequency.0.min(25_000_000) }",
            ),
            wrong(
                "rate-unjudged",
                "a bad rate counts as 25 MHz",
                "frequency.0.min(25_000_000).min(transfer_rate(card.csd.transfer_rate()).unwrap_or(25_000_000))",
            ),
            wrong(
                "second-clock-unlimited",
                "the second clock may pass 25 MHz",
                "frequency.0.min(transfer_rate(card.csd.transfer_rate())?)",
            ),
        ],
    ),
    driver(
        "fn blocking_init_card(",
        "frequency.0 > 25_000_000 && (card.scr.0 >> 56) & 15 != 0",
        &[
            wrong("switch-at-25", "25 MHz asks for the switch", "frequency.0 >= 25_000_000 && (card.scr.0 >> 56) & 15 != 0"),
            wrong("switch-any-version", "version 0 cards are asked to switch", "frequency.0 > 25_000_000"),
            wrong(
                "switch-other-field",
                "the SCR structure decides on the switch",
                "frequency.0 > 25_000_000 && (card.scr.0 >> 60) & 15 != 0",
            ),
            wrong(
                "switch-from-version-2",
                "version 1 cards are not asked to switch",
                "frequency.0 > 25_000_000 && (card.scr.0 >> 56) & 15 > 1",
            ),
            wrong("switch-never", "no card is asked to switch", "false"),
        ],
    ),
    driver(
        "fn blocking_init_card(",
        "self.blocking_data(Buffer::Read(&mut status), 6, 0x00ff_fff1, 6, Some(card.rca))?;",
        &[
            wrong(
                "check-argument",
                "the check asks for no change",
                "self.blocking_data(Buffer::Read(&mut status), 6, 0x00ff_ffff, 6, Some(card.rca))?;",
            ),
            wrong(
                "check-block-size",
                "the check has blocks of 32 bytes",
                "self.blocking_data(Buffer::Read(&mut status), 6, 0x00ff_fff1, 5, Some(card.rca))?;",
            ),
        ],
    ),
    driver(
        "fn blocking_init_card(",
        "bytes[13] & 2 != 0 && bytes[29] & 2 == 0",
        &[
            wrong("support-unchecked", "byte 13 is not looked at", "bytes[29] & 2 == 0"),
            wrong("busy-unchecked", "byte 29 is not looked at", "bytes[13] & 2 != 0"),
            wrong("support-byte-12", "byte 12 instead of 13", "bytes[12] & 2 != 0 && bytes[29] & 2 == 0"),
            wrong("support-bit-0", "bit 0 of byte 13", "bytes[13] & 1 != 0 && bytes[29] & 2 == 0"),
            wrong("busy-byte-28", "byte 28 instead of 29", "bytes[13] & 2 != 0 && bytes[28] & 2 == 0"),
            wrong("busy-inverted", "only a busy function is chosen", "bytes[13] & 2 != 0 && bytes[29] & 2 != 0"),
        ],
    ),
    driver(
        "fn blocking_init_card(",
        "self.blocking_data(Buffer::Read(&mut status), 6, 0x80ff_fff1, 6, Some(card.rca))?;",
        &[
            wrong(
                "switch-argument",
                "the switch sets every group to 0",
                "self.blocking_data(Buffer::Read(&mut status), 6, 0x8000_0001, 6, Some(card.rca))?;",
            ),
            wrong("switch-missing", "the check's bytes count as the switch's", ""),
        ],
    ),
    driver(
        "fn blocking_init_card(",
        "status_bytes(&status)[16] & 15 != 1",
        &[
            wrong("switch-unjudged", "byte 16 is not looked at", "false"),
            wrong("switch-high-half", "the upper half of byte 16", "status_bytes(&status)[16] >> 4 != 1"),
            wrong("switch-byte-17", "byte 17 instead of 16", "status_bytes(&status)[17] & 15 != 1"),
            wrong("switch-only-15", "only 15 is refused", "status_bytes(&status)[16] & 15 == 15"),
            wrong("switch-whole-byte", "the whole of byte 16", "status_bytes(&status)[16] != 1"),
        ],
    ),
    driver(
        "fn blocking_init_card(",
        "return Err(Error::SignalingSwitchFailed);",
        &[wrong("switch-refused-as-13", "a refused switch gives 13", "return Err(Error::UnsupportedCardType);")],
    ),
    driver(
        "fn blocking_init_card(",
        "clock_delay::<T>(self.clock, 8);",
        &[
            wrong("switch-delay-missing", "no delay after the switch", ""),
            wrong(
                "switch-delay-of-400k",
                "the delay after the switch goes by the first clock",
                "clock_delay::<T>(initial.frequency, 8);",
            ),
            wrong(
                "signalling-noted-early",
                "the signalling is noted before the third clock",
                "clock_delay::<T>(self.clock, 8); self.signalling = Signalling::SDR25;",
            ),
        ],
    ),
    driver(
        "fn blocking_init_card(",
        "self.set_clock(frequency.0.min(50_000_000), wide)?;",
        &[
            wrong(
                "third-clock-by-rate",
                "the third clock is held to the card's rate",
                "self.set_clock(frequency.0.min(50_000_000).min(transfer_rate(card.csd.transfer_rate())?), wide)?;",
            ),
            wrong("third-clock-missing", "the clock stays after the switch", ""),
            wrong("third-clock-narrow", "the third clock is for one line", "self.set_clock(frequency.0.min(50_000_000), false)?;"),
        ],
    ),
    driver(
        "fn blocking_init_card(",
        "self.signalling = Signalling::SDR25;",
        &[wrong("signalling-not-noted", "the signalling stays SDR12", "")],
    ),
    driver(
        "fn blocking_init_card(",
        "self.card = Some(card);",
        &[wrong("record-not-kept", "an accepted initialisation leaves no record", "")],
    ),
    driver(
        "fn blocking_read_blocks(",
        "*self.card()?",
        &[wrong(
            "length-before-card",
            "no blocks give 19 without a card",
            "{ if blocks.is_empty() { return Err(Error::InvalidBufferLength); } *self.card()? }",
        )],
    ),
    driver(
        "fn blocking_read_blocks(",
        "blocking_wait_ready::<T>(card.rca, self.config, self.gated)?;",
        &[
            wrong("read-without-ready-wait", "no ready wait before a read", ""),
            wrong(
                "read-wait-ungated",
                "the ready wait before a read does not open the clock",
                "blocking_wait_ready::<T>(card.rca, self.config, false)?;",
            ),
            wrong(
                "read-wait-drops-record",
                "a read refused in its first ready wait drops the record",
                "if let Err(error) = blocking_wait_ready::<T>(card.rca, self.config, self.gated) { self.card = None; return Err(error); }",
            ),
            wrong(
                "read-wait-resets",
                "a read refused in its first ready wait writes reset rows",
                "if let Err(error) = blocking_wait_ready::<T>(card.rca, self.config, self.gated) { reset_controller::<T>(); return Err(error); }",
            ),
            wrong(
                "ended-read-wait-drops-record",
                "a script's end in a read's first ready wait drops the record",
                "let (config, gated, record) = (self.config, self.gated, &mut self.card); let drops = OnDrop::new(|| *record = None); let waited = blocking_wait_ready::<T>(card.rca, config, gated); drops.defuse(); waited?;",
            ),
            wrong(
                "ended-read-wait-resets",
                "a script's end in a read's first ready wait writes reset rows",
                "let resets = OnDrop::new(reset_controller::<T>); let waited = blocking_wait_ready::<T>(card.rca, self.config, self.gated); resets.defuse(); waited?;",
            ),
        ],
    ),
    driver(
        "fn blocking_read_blocks(",
        "if blocks.len() == 1 { 17 } else { 18 }",
        &[
            wrong("read-always-18", "one block is read with CMD18", "18"),
            wrong("read-always-17", "many blocks are read with CMD17", "17"),
        ],
    ),
    driver(
        "fn blocking_read_blocks(",
        "self.blocking_data(Buffer::Read(words), index, address, 9, Some(card.rca))",
        &[
            wrong(
                "read-no-closing-wait",
                "no ready wait after a read",
                "self.blocking_data(Buffer::Read(words), index, address, 9, None)",
            ),
            wrong(
                "read-block-size",
                "a read has blocks of 256",
                "self.blocking_data(Buffer::Read(words), index, address, 8, Some(card.rca))",
            ),
        ],
    ),
    driver(
        "fn blocking_read_sd_status(",
        "app_command::<T>(rca, self.config, self.gated)?;",
        &[
            wrong("status-unannounced", "no CMD55 before the status", ""),
            wrong(
                "status-ready-wait",
                "a ready wait before the status",
                "blocking_wait_ready::<T>(rca, self.config, self.gated)?; app_command::<T>(rca, self.config, self.gated)?;",
            ),
            wrong(
                "status-announced-ungated",
                "CMD55 before the status does not open the clock",
                "app_command::<T>(rca, self.config, false)?;",
            ),
            wrong(
                "status-announce-drops-record",
                "a status refused at CMD55 drops the record",
                "if let Err(error) = app_command::<T>(rca, self.config, self.gated) { self.card = None; return Err(error); }",
            ),
            wrong(
                "ended-status-announce-drops-record",
                "a script's end at a status call's CMD55 drops the record",
                "let (config, gated, record) = (self.config, self.gated, &mut self.card); let drops = OnDrop::new(|| *record = None); let taken = app_command::<T>(rca, config, gated); drops.defuse(); taken?;",
            ),
        ],
    ),
    driver(
        "fn blocking_read_sd_status(",
        "self.blocking_data(Buffer::Read(&mut words), 13, 0, 6, Some(rca))?;",
        &[
            wrong(
                "status-argument",
                "the status command has the RCA",
                "self.blocking_data(Buffer::Read(&mut words), 13, u32::from(rca) << 16, 6, Some(rca))?;",
            ),
            wrong(
                "status-no-closing-wait",
                "no ready wait after the status",
                "self.blocking_data(Buffer::Read(&mut words), 13, 0, 6, None)?;",
            ),
        ],
    ),
    driver(
        "fn blocking_read_sd_status(",
        "self.card.as_mut().unwrap().status = status;",
        &[wrong("status-not-kept", "an accepted status is not kept in the record", "")],
    ),
];

//! Making a host and initialisation.

use super::{driver, wrong, Site};

pub const SITES: &[Site] = &[
    driver(
        "fn new_inner(",
        "config.software_timeout_ms == 0",
        &[wrong("zero-setting-accepted", "a software timeout of 0 makes a host", "false")],
    ),
    driver(
        "fn new_inner(",
        "initial.frequency",
        &[wrong("new-clock-is-source", "a new host's clock is its source", "T::frequency()")],
    ),
    driver(
        "fn init_clock(",
        "requested.0 == 0 || requested.0 > 50_000_000",
        &[
            wrong("asked-zero-accepted", "0 Hz may be asked for", "requested.0 > 50_000_000"),
            wrong(
                "asked-limit-exclusive",
                "50,000,000 Hz may not be asked for",
                "requested.0 == 0 || requested.0 >= 50_000_000",
            ),
            wrong(
                "asked-limit-plus-one",
                "50,000,001 Hz may be asked for",
                "requested.0 == 0 || requested.0 > 50_000_001",
            ),
        ],
    ),
    driver(
        "fn init_clock(",
        "clock_setting(T::frequency(), 400_000, false)",
        &[
            wrong(
                "first-clock-bypass",
                "the first clock may be bypassed",
                "clock_setting(T::frequency(), 400_000, true)",
            ),
            wrong(
                "first-clock-asked",
                "the first clock is the one asked for, if slower",
                "clock_setting(T::frequency(), requested.0.min(400_000), false)",
            ),
        ],
    ),
    driver(
        "fn begin_init(",
        "self.card = None;",
        &[
            wrong("old-record-kept", "a refused initialisation keeps the old record", ""),
            wrong("old-record-dropped-late", "the old record stays until the first reading is there", ""),
        ],
    ),
    driver(
        "fn begin_init(",
        "self.gated = false;",
        &[wrong("old-gate-kept", "the gate of an earlier card stays", "")],
    ),
    driver(
        "fn begin_init(",
        "self.signalling = Signalling::SDR12;",
        &[wrong("old-signalling-kept", "the signalling of an earlier card stays", "")],
    ),
    driver(
        "fn begin_init(",
        "self.clock = initial.frequency;",
        &[wrong("old-clock-kept", "the clock of an earlier card stays", "")],
    ),
    driver(
        "fn begin_init(",
        "reset_controller::<T>();",
        &[wrong("init-without-reset", "no reset rows at the beginning", "")],
    ),
    driver(
        "fn begin_init(",
        "configure_clock::<T>(initial, false, false, self.config)?;\n        T::REGS.power().write_value(pac::sdio::regs::Power(3));\n        set_clken::<T>(true);",
        &[
            wrong(
                "power-before-clock",
                "POWER before the first clock",
                "T::REGS.power().write_value(pac::sdio::regs::Power(3)); configure_clock::<T>(initial, false, false, self.config)?; set_clken::<T>(true);",
            ),
            wrong(
                "power-halfway",
                "POWER 2 instead of 3",
                "configure_clock::<T>(initial, false, false, self.config)?; T::REGS.power().write_value(pac::sdio::regs::Power(2)); set_clken::<T>(true);",
            ),
            wrong(
                "first-clock-wide",
                "the first clock is wide already",
                "configure_clock::<T>(initial, self.pins[5].is_some(), false, self.config)?; T::REGS.power().write_value(pac::sdio::regs::Power(3)); set_clken::<T>(true);",
            ),
            wrong(
                "first-clock-open-at-once",
                "one CLKCR row instead of two",
                "configure_clock::<T>(initial, false, true, self.config)?; T::REGS.power().write_value(pac::sdio::regs::Power(3));",
            ),
            wrong(
                "old-record-dropped-late",
                "",
                "configure_clock::<T>(initial, false, false, self.config)?; self.card = None; T::REGS.power().write_value(pac::sdio::regs::Power(3)); set_clken::<T>(true);",
            ),
        ],
    ),
    driver(
        "fn begin_init(",
        "clock_delay::<T>(initial.frequency, 80);",
        &[
            wrong("first-delay-74", "74 clocks instead of 80", "clock_delay::<T>(initial.frequency, 74);"),
            wrong("first-delay-missing", "no delay before CMD0", ""),
        ],
    ),
    driver(
        "fn begin_init(",
        "command::<T>(0, 0, Response::None, self.config, false)?;",
        &[
            wrong("cmd0-missing", "no CMD0", ""),
            wrong(
                "cmd0-as-r1",
                "CMD0 waits for an answer",
                "command::<T>(0, 0, Response::R1, self.config, false)?;",
            ),
        ],
    ),
    driver(
        "fn begin_init(",
        "match command::<T>(8, 0x1aa, Response::R7, self.config, false) {\n            Ok(words) if words[0] == 0x1aa => Ok(true),\n            Ok(words) if words[0] & R1_ERRORS == 0x0040_0000 => Ok(false),\n            Err(Error::Timeout) => Ok(false),\n            Ok(_) => Err(Error::UnsupportedCardVersion),\n            Err(error) => Err(error),\n        }",
        &[
            wrong(
                "cmd8-argument",
                "CMD8 asks with another pattern",
                "match command::<T>(8, 0x155, Response::R7, self.config, false) { Ok(words) if words[0] == 0x1aa => Ok(true), Ok(words) if words[0] & R1_ERRORS == 0x0040_0000 => Ok(false), Err(Error::Timeout) => Ok(false), Ok(_) => Err(Error::UnsupportedCardVersion), Err(error) => Err(error) }",
            ),
            wrong(
                "cmd8-low-bits",
                "only the low 12 bits of CMD8's answer count",
                "match command::<T>(8, 0x1aa, Response::R7, self.config, false) { Ok(words) if words[0] & 0xfff == 0x1aa => Ok(true), Ok(words) if words[0] & R1_ERRORS == 0x0040_0000 => Ok(false), Err(Error::Timeout) => Ok(false), Ok(_) => Err(Error::UnsupportedCardVersion), Err(error) => Err(error) }",
            ),
            wrong(
                "cmd8-illegal-bit",
                "the illegal-command bit alone means version 1",
                "match command::<T>(8, 0x1aa, Response::R7, self.config, false) { Ok(words) if words[0] == 0x1aa => Ok(true), Ok(words) if words[0] & 0x0040_0000 != 0 => Ok(false), Err(Error::Timeout) => Ok(false), Ok(_) => Err(Error::UnsupportedCardVersion), Err(error) => Err(error) }",
            ),
            wrong(
                "cmd8-illegal-exact",
                "version 1 only if the whole word is the illegal-command bit",
                "match command::<T>(8, 0x1aa, Response::R7, self.config, false) { Ok(words) if words[0] == 0x1aa => Ok(true), Ok([0x0040_0000, ..]) => Ok(false), Err(Error::Timeout) => Ok(false), Ok(_) => Err(Error::UnsupportedCardVersion), Err(error) => Err(error) }",
            ),
            wrong(
                "cmd8-timeout-refused",
                "no answer to CMD8 is refused",
                "match command::<T>(8, 0x1aa, Response::R7, self.config, false) { Ok(words) if words[0] == 0x1aa => Ok(true), Ok(words) if words[0] & R1_ERRORS == 0x0040_0000 => Ok(false), Ok(_) => Err(Error::UnsupportedCardVersion), Err(error) => Err(error) }",
            ),
            wrong(
                "cmd8-any-refusal",
                "any refusal of CMD8 means version 1",
                "match command::<T>(8, 0x1aa, Response::R7, self.config, false) { Ok(words) if words[0] == 0x1aa => Ok(true), Ok(words) if words[0] & R1_ERRORS == 0x0040_0000 => Ok(false), Ok(_) => Err(Error::UnsupportedCardVersion), Err(_) => Ok(false) }",
            ),
            wrong(
                "ended-cmd8-version-1",
                "a script that ends at CMD8 means version 1",
                "match crate::wrong::rescued(|| command::<T>(8, 0x1aa, Response::R7, self.config, false)).unwrap_or(Err(Error::Timeout)) { Ok(words) if words[0] == 0x1aa => Ok(true), Ok(words) if words[0] & R1_ERRORS == 0x0040_0000 => Ok(false), Err(Error::Timeout) => Ok(false), Ok(_) => Err(Error::UnsupportedCardVersion), Err(error) => Err(error) }",
            ),
            wrong(
                "cmd8-spent",
                "a spent CMD8 means version 1",
                "match command::<T>(8, 0x1aa, Response::R7, self.config, false) { Ok(words) if words[0] == 0x1aa => Ok(true), Ok(words) if words[0] & R1_ERRORS == 0x0040_0000 => Ok(false), Err(Error::Timeout | Error::SoftwareTimeout) => Ok(false), Ok(_) => Err(Error::UnsupportedCardVersion), Err(error) => Err(error) }",
            ),
            wrong(
                "cmd8-other-answer",
                "any other answer to CMD8 means version 1",
                "match command::<T>(8, 0x1aa, Response::R7, self.config, false) { Ok(words) => Ok(words[0] == 0x1aa), Err(Error::Timeout) => Ok(false), Err(error) => Err(error) }",
            ),
            wrong(
                "cmd8-other-as-13",
                "any other answer to CMD8 gives 13",
                "match command::<T>(8, 0x1aa, Response::R7, self.config, false) { Ok(words) if words[0] == 0x1aa => Ok(true), Ok(words) if words[0] & R1_ERRORS == 0x0040_0000 => Ok(false), Err(Error::Timeout) => Ok(false), Ok(_) => Err(Error::UnsupportedCardType), Err(error) => Err(error) }",
            ),
            wrong(
                "cmd8-as-r1",
                "CMD8's answer is judged like R1",
                "match command::<T>(8, 0x1aa, Response::R1, self.config, false) { Ok(words) if words[0] == 0x1aa => Ok(true), Ok(words) if words[0] & R1_ERRORS == 0x0040_0000 => Ok(false), Err(Error::Timeout) => Ok(false), Ok(_) => Err(Error::UnsupportedCardVersion), Err(error) => Err(error) }",
            ),
        ],
    ),
    driver(
        "fn power_up(",
        "0x0030_0000 | if version2 { 1 << 30 } else { 0 }",
        &[
            wrong("acmd41-always-high", "ACMD41 always offers high capacity", "0x4030_0000"),
            wrong("acmd41-never-high", "ACMD41 never offers high capacity", "0x0030_0000"),
            wrong(
                "acmd41-window",
                "ACMD41 offers every voltage",
                "0x00ff_8000 | if version2 { 1 << 30 } else { 0 }",
            ),
        ],
    ),
    driver(
        "fn power_up(",
        "Response::R3",
        &[wrong("acmd41-as-r1", "ACMD41's answer is judged like R1", "Response::R1")],
    ),
    driver(
        "fn power_up(",
        "response & 0x0030_0000 == 0",
        &[
            wrong("voltage-unchecked", "the voltage is not looked at", "false"),
            wrong("voltage-one-bit", "bit 21 alone is no voltage", "response & 0x0010_0000 == 0"),
            wrong("voltage-both-bits", "both voltage bits are asked for", "response & 0x0030_0000 != 0x0030_0000"),
            wrong(
                "voltage-when-ready",
                "the voltage is looked at once the card is ready",
                "response & (1 << 31) != 0 && response & 0x0030_0000 == 0",
            ),
        ],
    ),
    driver(
        "fn power_up(",
        "(response & (1 << 31) != 0).then_some(response)",
        &[
            wrong("power-bit", "bit 30 says powered up", "(response & (1 << 30) != 0).then_some(response)"),
            wrong("power-at-once", "the first answer to ACMD41 is enough", "Some(response)"),
            wrong(
                "ocr-without-power-bit",
                "the OCR kept lacks bit 31",
                "(response & (1 << 31) != 0).then_some(response & !(1 << 31))",
            ),
        ],
    ),
    driver(
        "fn identify(",
        "(command::<T>(3, 0, Response::R6, self.config, false)?[0] >> 16) as u16",
        &[
            wrong(
                "rca-low-half",
                "the RCA is the low half of CMD3's answer",
                "command::<T>(3, 0, Response::R6, self.config, false)?[0] as u16",
            ),
            wrong(
                "cmd3-as-r1",
                "CMD3's answer is judged like R1",
                "(command::<T>(3, 0, Response::R1, self.config, false)?[0] >> 16) as u16",
            ),
        ],
    ),
    driver("fn identify(", "rca == 0", &[wrong("rca-zero-accepted", "an RCA of 0 is accepted", "false")]),
    driver(
        "fn identify(",
        "Error::ResponseMismatch",
        &[wrong("rca-zero-as-13", "an RCA of 0 gives 13", "Error::UnsupportedCardType")],
    ),
    driver(
        "fn identify(",
        "command::<T>(9, u32::from(rca) << 16, Response::R2, self.config, false)?",
        &[wrong(
            "cmd9-argument",
            "CMD9 lacks the RCA",
            "command::<T>(9, 0, Response::R2, self.config, false)?",
        )],
    ),
    driver(
        "fn identify(",
        "high_capacity != (csd_raw >> 126 == 1)",
        &[
            wrong("csd-ocr-unchecked", "OCR and CSD may disagree", "false"),
            wrong(
                "csd-ocr-high-only",
                "CSD 1 goes with a standard OCR",
                "high_capacity && csd_raw >> 126 != 1",
            ),
            wrong(
                "csd-ocr-standard-only",
                "a high OCR goes with any CSD",
                "!high_capacity && csd_raw >> 126 == 1",
            ),
        ],
    ),
    driver(
        "fn identify(",
        "block_count(csd_raw)?",
        &[wrong(
            "cmd7-before-capacity",
            "CMD7 before the capacity is judged",
            "{ command::<T>(7, u32::from(rca) << 16, Response::R1, self.config, false)?; block_count(csd_raw)? }",
        )],
    ),
    driver(
        "fn identify(",
        "command::<T>(7, u32::from(rca) << 16, Response::R1, self.config, false)?;",
        &[
            wrong("cmd7-before-capacity", "", ""),
            wrong("cmd7-missing", "no CMD7", ""),
            wrong(
                "cmd7-argument",
                "CMD7 lacks the RCA",
                "command::<T>(7, 0, Response::R1, self.config, false)?;",
            ),
        ],
    ),
    driver(
        "fn identify(",
        "if high_capacity {\n                CardCapacity::SDHC\n            } else {\n                CardCapacity::SDSC\n            }",
        &[
            wrong("class-always-high", "every card counts as SDHC", "CardCapacity::SDHC"),
            wrong("class-always-standard", "every card counts as SDSC", "CardCapacity::SDSC"),
        ],
    ),
    driver(
        "fn identify(",
        "SDStatus::default()",
        &[wrong("new-status-not-zero", "a new record's status is not 0", "SDStatus::from([1; 16])")],
    ),
    driver(
        "fn set_width(",
        "self.pins[5].is_some()",
        &[wrong("width-from-card", "the card decides on four lines", "card.scr.bus_width_four()")],
    ),
    driver(
        "fn set_width(",
        "!card.scr.bus_width_one() || (wide && !card.scr.bus_width_four())",
        &[
            wrong("width-one-unchecked", "bit 48 is not looked at", "wide && !card.scr.bus_width_four()"),
            wrong("width-four-unchecked", "bit 50 is not looked at", "!card.scr.bus_width_one()"),
            wrong(
                "width-four-always",
                "bit 50 is asked for on one line too",
                "!card.scr.bus_width_one() || !card.scr.bus_width_four()",
            ),
        ],
    ),
    driver(
        "fn set_width(",
        "app_command::<T>(card.rca, self.config, false)?;\n        command::<T>(6, if wide { 2 } else { 0 }, Response::R1, self.config, false)?;",
        &[
            wrong(
                "acmd6-unannounced",
                "no CMD55 before ACMD6",
                "command::<T>(6, if wide { 2 } else { 0 }, Response::R1, self.config, false)?;",
            ),
            wrong(
                "acmd6-argument",
                "ACMD6 says 1 for four lines",
                "app_command::<T>(card.rca, self.config, false)?; command::<T>(6, if wide { 1 } else { 0 }, Response::R1, self.config, false)?;",
            ),
            wrong(
                "acmd6-only-wide",
                "no ACMD6 on one line",
                "if wide { app_command::<T>(card.rca, self.config, false)?; command::<T>(6, 2, Response::R1, self.config, false)?; }",
            ),
        ],
    ),
    driver(
        "fn set_clock(",
        "self.config.allow_clock_bypass",
        &[
            wrong("bypass-always", "bypass without leave", "true"),
            wrong("bypass-never", "no bypass in spite of leave", "false"),
        ],
    ),
    driver(
        "fn set_clock(",
        "configure_clock::<T>(clock, wide, false, self.config)?;",
        &[
            wrong(
                "set-clock-narrow",
                "the clock is set for one line",
                "configure_clock::<T>(clock, false, false, self.config)?;",
            ),
            wrong(
                "set-clock-open",
                "the clock is set open",
                "configure_clock::<T>(clock, wide, true, self.config)?;",
            ),
            wrong(
                "clock-noted-early",
                "the clock is noted before its idle wait",
                "self.clock = clock.frequency; configure_clock::<T>(clock, wide, false, self.config)?;",
            ),
            wrong(
                "gate-noted-early",
                "the gate is noted before its idle wait",
                "self.gated = true; configure_clock::<T>(clock, wide, false, self.config)?;",
            ),
        ],
    ),
    driver(
        "fn set_clock(",
        "self.clock = clock.frequency;",
        &[wrong("clock-not-noted", "the clock set is not noted", "")],
    ),
    driver(
        "fn set_clock(",
        "self.gated = true;",
        &[wrong("gate-not-set", "commands are never gated", "")],
    ),
];

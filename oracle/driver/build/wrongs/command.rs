//! A command, its gate, its answers, the application command and the ready
//! wait.

use super::{driver, wrong, Site};

pub const SITES: &[Site] = &[
    driver(
        "fn command<",
        "if gate {\n        set_clken::<T>(true);\n    }",
        &[
            wrong("gate-not-opened", "a gated command does not open the clock", ""),
            wrong("gate-for-all", "every command opens the clock", "set_clken::<T>(true);"),
        ],
    ),
    driver(
        "fn command<",
        "if gate {\n        set_clken::<T>(false);\n    }",
        &[
            wrong("gate-not-closed", "a gated command leaves the clock open", ""),
            wrong(
                "gate-open-on-refusal",
                "a refused gated command leaves the clock open",
                "if gate && result.is_ok() { set_clken::<T>(false); }",
            ),
        ],
    ),
    driver(
        "fn command<",
        "if gate { set_clken::<T>(false) }",
        &[
            wrong("ended-clock-left-open", "a script's end in a gated command leaves the clock open", ""),
            wrong(
                "ended-clock-closed-for-all",
                "a script's end closes the clock of every command",
                "set_clken::<T>(false)",
            ),
        ],
    ),
    driver(
        "fn command_inner<",
        "wait_idle::<T>(config.poll_limit, false)?;",
        &[wrong("command-without-idle-wait", "no idle wait before a command", "")],
    ),
    driver(
        "fn command_inner<",
        "T::REGS.icr().write_value(pac::sdio::regs::Icr(CMD_FLAGS));\n    T::REGS.arg().write_value(pac::sdio::regs::Arg(argument));",
        &[
            wrong(
                "command-order",
                "ARG before ICR",
                "T::REGS.arg().write_value(pac::sdio::regs::Arg(argument)); T::REGS.icr().write_value(pac::sdio::regs::Icr(CMD_FLAGS));",
            ),
            wrong(
                "command-flags",
                "a command clears 0x45 instead of 0xc5",
                "T::REGS.icr().write_value(pac::sdio::regs::Icr(0x45)); T::REGS.arg().write_value(pac::sdio::regs::Arg(argument));",
            ),
        ],
    ),
    driver(
        "fn command_inner<",
        "match response {\n            Response::None => 0,\n            Response::R2 => 3,\n            _ => 1,\n        }",
        &[
            wrong("wait-short-for-r2", "wait kind 1 for R2", "if response == Response::None { 0 } else { 1 }"),
            wrong("wait-for-none", "wait kind 1 without response", "if response == Response::R2 { 3 } else { 1 }"),
            wrong(
                "wait-long-for-r3",
                "wait kind 3 for R3",
                "match response { Response::None => 0, Response::R2 | Response::R3 => 3, _ => 1 }",
            ),
            wrong(
                "wait-two-for-r6",
                "wait kind 2 for R6",
                "match response { Response::None => 0, Response::R2 => 3, Response::R6 => 2, _ => 1 }",
            ),
        ],
    ),
    driver(
        "fn command_inner<",
        "register.set_cpsmen(true);",
        &[wrong("command-not-enabled", "CMD lacks its 1024", "")],
    ),
    driver(
        "fn command_inner<",
        "if response == Response::None { 0x80 } else { 0x41 }",
        &[
            wrong(
                "completion-of-none-any",
                "CMD0 ends by any completion bit",
                "if response == Response::None { 0xc1 } else { 0x41 }",
            ),
            wrong(
                "completion-without-crc",
                "a failed CRC does not end a command",
                "if response == Response::None { 0x80 } else { 0x40 }",
            ),
            wrong(
                "completion-by-sent",
                "0x80 ends a command with response",
                "if response == Response::None { 0x80 } else { 0xc1 }",
            ),
        ],
    ),
    driver(
        "fn command_inner<",
        "0..config.poll_limit",
        &[
            wrong(
                "command-limit-plus-one",
                "one poll too many for a command",
                "0..config.poll_limit.saturating_add(1)",
            ),
            wrong("command-limit-minus-one", "one poll too few for a command", "0..config.poll_limit - 1"),
        ],
    ),
    driver(
        "fn command_inner<",
        "T::REGS.sta().read().0",
        &[wrong("command-by-dcount", "a command polls DCOUNT", "T::REGS.dcount().read().0")],
    ),
    driver(
        "fn command_inner<",
        "status & 4 != 0",
        &[
            wrong("command-timeout-bit", "the data timeout bit ends a command", "status & 8 != 0"),
            wrong("command-timeout-ignored", "no timeout of a command", "false"),
            wrong(
                "command-timeout-late",
                "a completed command does not time out",
                "status & 4 != 0 && status & completion == 0",
            ),
        ],
    ),
    driver(
        "fn command_inner<",
        "return Err(Error::Timeout);",
        &[wrong(
            "command-timeout-as-spent",
            "a timeout gives 2",
            "return Err(Error::SoftwareTimeout);",
        )],
    ),
    driver(
        "fn command_inner<",
        "status & 1 != 0 && response != Response::R3",
        &[
            wrong("crc-of-r3", "R3 is refused for its CRC", "status & 1 != 0"),
            wrong(
                "crc-not-of-r2",
                "R2 is not refused for its CRC",
                "status & 1 != 0 && !matches!(response, Response::R2 | Response::R3)",
            ),
            wrong("crc-ignored", "a failed CRC is accepted", "false"),
            wrong(
                "crc-only-alone",
                "a failed CRC beside 0x40 is accepted",
                "status & 0x41 == 1 && response != Response::R3",
            ),
        ],
    ),
    driver(
        "fn command_inner<",
        "!matches!(response, Response::R2 | Response::R3) && T::REGS.respcmd().read().respcmd() != index",
        &[
            wrong(
                "echo-of-r2",
                "RESPCMD is read for R2",
                "response != Response::R3 && T::REGS.respcmd().read().respcmd() != index",
            ),
            wrong(
                "echo-of-r3",
                "RESPCMD is read for R3",
                "response != Response::R2 && T::REGS.respcmd().read().respcmd() != index",
            ),
            wrong("echo-not-read", "RESPCMD is never read", "false"),
            wrong(
                "echo-not-compared",
                "RESPCMD is read and not compared",
                "!matches!(response, Response::R2 | Response::R3) && { T::REGS.respcmd().read(); false }",
            ),
            wrong(
                "echo-by-first-word",
                "the first response word is read for RESPCMD",
                "!matches!(response, Response::R2 | Response::R3) && T::REGS.resp(0).read().0 & 0x3f != u32::from(index)",
            ),
            wrong(
                "echo-not-of-r7",
                "RESPCMD is not read for R7",
                "!matches!(response, Response::R2 | Response::R3 | Response::R7) && T::REGS.respcmd().read().respcmd() != index",
            ),
        ],
    ),
    driver(
        "fn command_inner<",
        "core::array::from_fn(|word| T::REGS.resp(word).read().0)",
        &[
            wrong(
                "words-backwards",
                "the response words are taken in the other order",
                "{ let mut words: [u32; 4] = core::array::from_fn(|word| T::REGS.resp(word).read().0); words.reverse(); words }",
            ),
            wrong(
                "words-from-the-last",
                "the response words are read from the last to the first",
                "core::array::from_fn(|word| T::REGS.resp(3 - word).read().0)",
            ),
            wrong(
                "words-first-again",
                "the first response word is read four times",
                "core::array::from_fn(|_| T::REGS.resp(0).read().0)",
            ),
            wrong(
                "words-one-for-short",
                "one word only of a short response is read",
                "if response == Response::R2 { core::array::from_fn(|word| T::REGS.resp(word).read().0) } else { [T::REGS.resp(0).read().0, 0, 0, 0] }",
            ),
        ],
    ),
    driver(
        "fn command_inner<",
        "if words[0] & R1_ERRORS != 0 {\n                return Err(Error::CardStatus(words[0]));\n            }\n            if words[0] & 0x0200_0000 != 0 {\n                return Err(Error::CardLocked);\n            }",
        &[
            wrong(
                "r1-locked-first",
                "a locked card is told before its errors",
                "if words[0] & 0x0200_0000 != 0 { return Err(Error::CardLocked); } if words[0] & R1_ERRORS != 0 { return Err(Error::CardStatus(words[0])); }",
            ),
            wrong(
                "r1-errors-with-lock",
                "a locked card counts as an error",
                "if words[0] & 0xffff_e008 != 0 { return Err(Error::CardStatus(words[0])); }",
            ),
            wrong(
                "r1-lock-ignored",
                "a locked card is accepted",
                "if words[0] & R1_ERRORS != 0 { return Err(Error::CardStatus(words[0])); }",
            ),
            wrong(
                "r1-errors-ignored",
                "errors of the card are accepted",
                "if words[0] & 0x0200_0000 != 0 { return Err(Error::CardLocked); }",
            ),
            wrong(
                "r1-errors-without-top",
                "bit 31 is no error",
                "if words[0] & 0x7dff_e008 != 0 { return Err(Error::CardStatus(words[0])); } if words[0] & 0x0200_0000 != 0 { return Err(Error::CardLocked); }",
            ),
            wrong(
                "r1-errors-without-low",
                "bit 3 is no error",
                "if words[0] & 0xfdff_e000 != 0 { return Err(Error::CardStatus(words[0])); } if words[0] & 0x0200_0000 != 0 { return Err(Error::CardLocked); }",
            ),
            wrong(
                "r1-errors-without-13",
                "bit 13 is no error",
                "if words[0] & 0xfdff_c008 != 0 { return Err(Error::CardStatus(words[0])); } if words[0] & 0x0200_0000 != 0 { return Err(Error::CardLocked); }",
            ),
            wrong(
                "r1-errors-with-state",
                "bit 12 is an error",
                "if words[0] & 0xfdff_f008 != 0 { return Err(Error::CardStatus(words[0])); } if words[0] & 0x0200_0000 != 0 { return Err(Error::CardLocked); }",
            ),
            wrong(
                "r1-carries-errors-only",
                "answer 10 carries the error bits alone",
                "if words[0] & R1_ERRORS != 0 { return Err(Error::CardStatus(words[0] & R1_ERRORS)); } if words[0] & 0x0200_0000 != 0 { return Err(Error::CardLocked); }",
            ),
        ],
    ),
    driver(
        "fn command_inner<",
        "response == Response::R6 && words[0] & 0xe000 != 0",
        &[
            wrong("r6-errors-short", "R6 bit 13 is no error", "response == Response::R6 && words[0] & 0xc000 != 0"),
            wrong("r6-errors-wide", "R6 bit 3 is an error", "response == Response::R6 && words[0] & 0xe008 != 0"),
            wrong("r6-errors-ignored", "errors of R6 are accepted", "false"),
            wrong("r6-as-r1", "R6 is judged like R1", "response == Response::R6 && words[0] & R1_ERRORS != 0"),
        ],
    ),
    driver(
        "fn command_inner<",
        "Err(Error::SoftwareTimeout)",
        &[wrong("command-spent-as-timeout", "a spent command gives 1", "Err(Error::Timeout)")],
    ),
    driver(
        "fn app_command<",
        "u32::from(rca) << 16",
        &[
            wrong("app-argument-low", "CMD55 has the RCA in its low half", "u32::from(rca)"),
            wrong("app-argument-zero", "CMD55 never has the RCA", "0"),
        ],
    ),
    driver(
        "fn app_command<",
        "response[0] & 0x20 == 0",
        &[
            wrong("app-bit-ignored", "an application command not taken is accepted", "false"),
            wrong("app-bit-other", "bit 4 says that it was taken", "response[0] & 0x10 == 0"),
        ],
    ),
    driver(
        "fn app_command<",
        "Error::UnsupportedCardType",
        &[wrong("app-not-taken-as-9", "an application command not taken gives 9", "Error::ResponseMismatch")],
    ),
    driver(
        "fn read_status<",
        "u32::from(rca) << 16",
        &[wrong("ready-argument-low", "CMD13 has the RCA in its low half", "u32::from(rca)")],
    ),
    driver(
        "fn ready(",
        "status.ready_for_data() && status.state() == sdio_host::CurrentState::Transfer",
        &[
            wrong("ready-without-bit", "bit 8 is not needed", "status.state() == sdio_host::CurrentState::Transfer"),
            wrong("ready-without-state", "state 4 is not needed", "status.ready_for_data()"),
            wrong(
                "ready-by-either",
                "bit 8 or state 4 is enough",
                "status.ready_for_data() || status.state() == sdio_host::CurrentState::Transfer",
            ),
        ],
    ),
    driver(
        "fn blocking_wait_ready<",
        "for _ in 0..config.card_ready_attempts {\n        if ready(read_status::<T>(rca, config, gate)?) {\n            return Ok(());\n        }\n        retry_delay::<T>();\n    }",
        &[
            wrong(
                "ready-attempts-plus-one",
                "one question too many in a ready wait",
                "for _ in 0..config.card_ready_attempts.saturating_add(1) { if ready(read_status::<T>(rca, config, gate)?) { return Ok(()); } retry_delay::<T>(); }",
            ),
            wrong(
                "ready-attempts-minus-one",
                "one question too few in a ready wait",
                "for _ in 0..config.card_ready_attempts - 1 { if ready(read_status::<T>(rca, config, gate)?) { return Ok(()); } retry_delay::<T>(); }",
            ),
            wrong(
                "ready-without-delay",
                "no delay in a ready wait",
                "for _ in 0..config.card_ready_attempts { if ready(read_status::<T>(rca, config, gate)?) { return Ok(()); } }",
            ),
            wrong(
                "ready-no-last-delay",
                "no delay after the last failure",
                "for turn in 0..config.card_ready_attempts { if ready(read_status::<T>(rca, config, gate)?) { return Ok(()); } if turn + 1 < config.card_ready_attempts { retry_delay::<T>(); } }",
            ),
            wrong(
                "ready-delay-first",
                "a delay before each question",
                "for _ in 0..config.card_ready_attempts { retry_delay::<T>(); if ready(read_status::<T>(rca, config, gate)?) { return Ok(()); } }",
            ),
        ],
    ),
    driver(
        "fn blocking_wait_ready<",
        "Err(Error::SoftwareTimeout)",
        &[wrong("ready-spent-as-timeout", "a spent ready wait gives 1", "Err(Error::Timeout)")],
    ),
];

//! The data phase.

use super::{driver, wrong, Site};

pub const SITES: &[Site] = &[
    driver(
        "fn start_data<",
        "wait_idle::<T>(config.poll_limit, true)?;\n    T::REGS.dctrl2().write_value(pac::sdio::regs::Dctrl2(0));\n    stop_data::<T>();",
        &[
            wrong(
                "data-idle-as-command",
                "a data phase waits like a command",
                "wait_idle::<T>(config.poll_limit, false)?; T::REGS.dctrl2().write_value(pac::sdio::regs::Dctrl2(0)); stop_data::<T>();",
            ),
            wrong(
                "data-without-idle-wait",
                "no idle wait before a data phase",
                "T::REGS.dctrl2().write_value(pac::sdio::regs::Dctrl2(0)); stop_data::<T>();",
            ),
            wrong(
                "data-without-dctrl2",
                "no DCTRL2 row before a data phase",
                "wait_idle::<T>(config.poll_limit, true)?; stop_data::<T>();",
            ),
            wrong(
                "data-without-first-stop",
                "no stop rows before a data phase",
                "wait_idle::<T>(config.poll_limit, true)?; T::REGS.dctrl2().write_value(pac::sdio::regs::Dctrl2(0));",
            ),
            wrong(
                "write-idle-as-command",
                "a write's data phase waits like a command",
                "wait_idle::<T>(config.poll_limit, read)?; T::REGS.dctrl2().write_value(pac::sdio::regs::Dctrl2(0)); stop_data::<T>();",
            ),
            wrong(
                "write-without-idle-wait",
                "no idle wait before a write's data phase",
                "if read { wait_idle::<T>(config.poll_limit, true)?; } T::REGS.dctrl2().write_value(pac::sdio::regs::Dctrl2(0)); stop_data::<T>();",
            ),
            wrong(
                "write-without-dctrl2",
                "no DCTRL2 row in a write",
                "wait_idle::<T>(config.poll_limit, true)?; if read { T::REGS.dctrl2().write_value(pac::sdio::regs::Dctrl2(0)); } stop_data::<T>();",
            ),
            wrong(
                "write-without-first-stop",
                "no stop rows before a write's data phase",
                "wait_idle::<T>(config.poll_limit, true)?; T::REGS.dctrl2().write_value(pac::sdio::regs::Dctrl2(0)); if read { stop_data::<T>(); }",
            ),
        ],
    ),
    driver(
        "fn start_data<",
        "T::REGS\n        .dtimer()\n        .write_value(pac::sdio::regs::Dtimer(config.data_transfer_timeout));\n    T::REGS.dlen().write_value(pac::sdio::regs::Dlen((length * 4) as u32));",
        &[
            wrong(
                "data-length-in-words",
                "DLEN counts words",
                "T::REGS.dtimer().write_value(pac::sdio::regs::Dtimer(config.data_transfer_timeout)); T::REGS.dlen().write_value(pac::sdio::regs::Dlen(length as u32));",
            ),
            wrong(
                "data-length-first",
                "DLEN before DTIMER",
                "T::REGS.dlen().write_value(pac::sdio::regs::Dlen((length * 4) as u32)); T::REGS.dtimer().write_value(pac::sdio::regs::Dtimer(config.data_transfer_timeout));",
            ),
            wrong(
                "data-timer-of-software",
                "DTIMER holds the software timeout",
                "T::REGS.dtimer().write_value(pac::sdio::regs::Dtimer(config.software_timeout_ms)); T::REGS.dlen().write_value(pac::sdio::regs::Dlen((length * 4) as u32));",
            ),
            wrong(
                "write-length-in-words",
                "DLEN of a write counts words",
                "T::REGS.dtimer().write_value(pac::sdio::regs::Dtimer(config.data_transfer_timeout)); T::REGS.dlen().write_value(pac::sdio::regs::Dlen((length * if read { 4 } else { 1 }) as u32));",
            ),
            wrong(
                "write-length-of-one-block",
                "DLEN of a write is always one block",
                "T::REGS.dtimer().write_value(pac::sdio::regs::Dtimer(config.data_transfer_timeout)); T::REGS.dlen().write_value(pac::sdio::regs::Dlen(if read { (length * 4) as u32 } else { 512 }));",
            ),
            wrong(
                "write-without-timer",
                "no DTIMER row in a write",
                "if read { T::REGS.dtimer().write_value(pac::sdio::regs::Dtimer(config.data_transfer_timeout)); } T::REGS.dlen().write_value(pac::sdio::regs::Dlen((length * 4) as u32));",
            ),
            wrong(
                "write-without-length",
                "no DLEN row in a write",
                "T::REGS.dtimer().write_value(pac::sdio::regs::Dtimer(config.data_transfer_timeout)); if read { T::REGS.dlen().write_value(pac::sdio::regs::Dlen((length * 4) as u32)); }",
            ),
        ],
    ),
    driver(
        "fn start_data<",
        "register.set_dblocksize(block_size);",
        &[
            wrong("block-size-fixed", "DCTRL always has blocks of 512", "register.set_dblocksize(9);"),
            wrong(
                "write-dctrl-block-size",
                "DCTRL of a write has blocks of 256",
                "register.set_dblocksize(if read { block_size } else { 8 });",
            ),
        ],
    ),
    driver(
        "fn start_data<",
        "register.set_dtdir(read);",
        &[
            wrong("data-direction", "DCTRL says writing", "register.set_dtdir(false);"),
            wrong("write-direction-on", "DCTRL of a write says reading", "register.set_dtdir(true);"),
        ],
    ),
    driver(
        "fn start_data<",
        "register.set_dmaen(true);",
        &[
            wrong("data-without-dma", "DCTRL has no DMA", ""),
            wrong("write-without-dma", "DCTRL of a write has no DMA", "register.set_dmaen(read);"),
        ],
    ),
    driver(
        "fn start_data<",
        "if read {\n        arm();\n    }",
        &[
            wrong("data-armed-late", "DCTRL after the command, as when writing", ""),
            wrong("write-armed-early", "DCTRL before the command, as when reading", "arm();"),
            wrong("write-armed-twice", "DCTRL before and after the command of a write", "arm();"),
        ],
    ),
    driver(
        "fn start_data<",
        "if !read {\n        arm();\n    }",
        &[
            wrong("data-armed-late", "", "arm();"),
            wrong("write-armed-early", "", ""),
            wrong("write-never-armed", "no DCTRL row of its own in a write", ""),
        ],
    ),
    driver(
        "fn start_data<",
        "set_clken::<T>(true);\n    command_inner::<T>(index, argument, Response::R1, config)?;",
        &[
            wrong(
                "data-clock-not-opened",
                "no CLKCR on before the data command",
                "command_inner::<T>(index, argument, Response::R1, config)?;",
            ),
            wrong(
                "data-clock-opened-late",
                "CLKCR on after the data command",
                "command_inner::<T>(index, argument, Response::R1, config)?; set_clken::<T>(true);",
            ),
            wrong(
                "data-command-gated",
                "the data command uses its own gate",
                "command::<T>(index, argument, Response::R1, config, true)?;",
            ),
            wrong(
                "write-clock-not-opened",
                "no CLKCR on before the command of a write",
                "if read { set_clken::<T>(true); } command_inner::<T>(index, argument, Response::R1, config)?;",
            ),
            wrong(
                "write-clock-opened-late",
                "CLKCR on after the command of a write",
                "if read { set_clken::<T>(true); } command_inner::<T>(index, argument, Response::R1, config)?; if !read { set_clken::<T>(true); }",
            ),
            wrong(
                "write-command-gated",
                "the command of a write uses its own gate",
                "if read { set_clken::<T>(true); } command::<T>(index, argument, Response::R1, config, !read)?;",
            ),
            wrong(
                "write-command-unjudged",
                "a write goes on where its command is refused",
                "set_clken::<T>(true); let sent = command_inner::<T>(index, argument, Response::R1, config); if read { sent?; }",
            ),
        ],
    ),
    driver(
        "fn data_complete<",
        "data_error(status)?;\n    #[cfg(dma_v4x7)]\n    if transfer.has_error() {\n        return Err(Error::Dma);\n    }\n    if transfer.is_running() {\n        return Ok(false);\n    }",
        &[
            wrong(
                "first-status-unjudged",
                "data errors of a poll's first status are accepted",
                "if transfer.has_error() { return Err(Error::Dma); } if transfer.is_running() { return Ok(false); }",
            ),
            wrong(
                "first-dma-error-ignored",
                "a DMA error in the first place is accepted",
                "data_error(status)?; transfer.has_error(); if transfer.is_running() { return Ok(false); }",
            ),
            wrong(
                "running-ignored",
                "a running DMA does not poll on",
                "data_error(status)?; if transfer.has_error() { return Err(Error::Dma); }",
            ),
            wrong(
                "running-before-error",
                "a running DMA hides its error",
                "data_error(status)?; let failed = transfer.has_error(); if transfer.is_running() { return Ok(false); } if failed { return Err(Error::Dma); }",
            ),
            wrong(
                "first-dma-taken-early",
                "the first DMA word is taken before its status is judged",
                "let failed = transfer.has_error(); data_error(status)?; if failed { return Err(Error::Dma); } if transfer.is_running() { return Ok(false); }",
            ),
            wrong(
                "second-status-not-read",
                "a poll has one status and one DMA word",
                "data_error(status)?; if transfer.has_error() { return Err(Error::Dma); } if transfer.is_running() || status & 0x100 == 0 || status & 0x3000 != 0 { return Ok(false); } if transfer.get_remaining_transfers() != 0 || T::REGS.dcount().read().0 != 0 { return Err(Error::IncompleteTransfer); } transfer.land(); return Ok(true);",
            ),
            wrong(
                "write-first-status-unjudged",
                "data errors of a poll's first status are accepted in a write",
                "if !transfer.sends() { data_error(status)?; } if transfer.has_error() { return Err(Error::Dma); } if transfer.is_running() { return Ok(false); }",
            ),
            wrong(
                "write-overrun-ignored",
                "no overrun in a write",
                "data_error(if transfer.sends() { status & !0x20 } else { status })?; if transfer.has_error() { return Err(Error::Dma); } if transfer.is_running() { return Ok(false); }",
            ),
            wrong(
                "write-start-bit-ignored",
                "no start bit error in a write",
                "data_error(if transfer.sends() { status & !0x200 } else { status })?; if transfer.has_error() { return Err(Error::Dma); } if transfer.is_running() { return Ok(false); }",
            ),
            wrong(
                "write-underrun-as-overrun",
                "an underrun of a write gives 5",
                "if transfer.sends() && status & 0x3a == 0x10 { return Err(Error::Overrun); } data_error(status)?; if transfer.has_error() { return Err(Error::Dma); } if transfer.is_running() { return Ok(false); }",
            ),
            wrong(
                "write-first-dma-error-ignored",
                "a DMA error in the first place is accepted in a write",
                "data_error(status)?; if transfer.has_error() && !transfer.sends() { return Err(Error::Dma); } if transfer.is_running() { return Ok(false); }",
            ),
            wrong(
                "write-running-ignored",
                "a running DMA does not poll on in a write",
                "data_error(status)?; if transfer.has_error() { return Err(Error::Dma); } if transfer.is_running() && !transfer.sends() { return Ok(false); }",
            ),
        ],
    ),
    driver(
        "fn data_complete<",
        "data_error(status)?;\n    #[cfg(dma_v4x7)]\n    if transfer.has_error() {\n        return Err(Error::Dma);\n    }\n    if status & 0x100 == 0 || status & 0x3000 != 0 {\n        return Ok(false);\n    }",
        &[
            wrong(
                "second-status-unjudged",
                "data errors of a poll's second status are accepted",
                "if transfer.has_error() { return Err(Error::Dma); } if status & 0x100 == 0 || status & 0x3000 != 0 { return Ok(false); }",
            ),
            wrong(
                "second-dma-error-ignored",
                "a DMA error in the second place is accepted",
                "data_error(status)?; transfer.has_error(); if status & 0x100 == 0 || status & 0x3000 != 0 { return Ok(false); }",
            ),
            wrong(
                "second-dma-not-taken",
                "the remaining count is that of the first DMA word",
                "data_error(status)?; if status & 0x100 == 0 || status & 0x3000 != 0 { return Ok(false); }",
            ),
            wrong(
                "second-dma-taken-early",
                "the second DMA word is taken before its status is judged",
                "let failed = transfer.has_error(); data_error(status)?; if failed { return Err(Error::Dma); } if status & 0x100 == 0 || status & 0x3000 != 0 { return Ok(false); }",
            ),
            wrong(
                "second-running-looked-at",
                "the running bit counts in the second place too",
                "data_error(status)?; if transfer.has_error() { return Err(Error::Dma); } if transfer.is_running() || status & 0x100 == 0 || status & 0x3000 != 0 { return Ok(false); }",
            ),
            wrong(
                "end-bit-ignored",
                "data ends without 0x100",
                "data_error(status)?; if transfer.has_error() { return Err(Error::Dma); } if status & 0x3000 != 0 { return Ok(false); }",
            ),
            wrong(
                "active-ignored",
                "data ends while 0x3000 is on",
                "data_error(status)?; if transfer.has_error() { return Err(Error::Dma); } if status & 0x100 == 0 { return Ok(false); }",
            ),
            wrong(
                "active-receive-only",
                "data ends while 0x1000 is on",
                "data_error(status)?; if transfer.has_error() { return Err(Error::Dma); } if status & 0x100 == 0 || status & 0x2000 != 0 { return Ok(false); }",
            ),
            wrong(
                "active-transmit-only",
                "data ends while 0x2000 is on",
                "data_error(status)?; if transfer.has_error() { return Err(Error::Dma); } if status & 0x100 == 0 || status & 0x1000 != 0 { return Ok(false); }",
            ),
            wrong(
                "end-before-dma-error",
                "a DMA error counts only once data has ended",
                "data_error(status)?; let failed = transfer.has_error(); if status & 0x100 == 0 || status & 0x3000 != 0 { return Ok(false); } if failed { return Err(Error::Dma); }",
            ),
            wrong(
                "write-overrun-ignored",
                "",
                "data_error(if transfer.sends() { status & !0x20 } else { status })?; if transfer.has_error() { return Err(Error::Dma); } if status & 0x100 == 0 || status & 0x3000 != 0 { return Ok(false); }",
            ),
            wrong(
                "write-start-bit-ignored",
                "",
                "data_error(if transfer.sends() { status & !0x200 } else { status })?; if transfer.has_error() { return Err(Error::Dma); } if status & 0x100 == 0 || status & 0x3000 != 0 { return Ok(false); }",
            ),
            wrong(
                "write-second-status-unjudged",
                "data errors of a poll's second status are accepted in a write",
                "if !transfer.sends() { data_error(status)?; } if transfer.has_error() { return Err(Error::Dma); } if status & 0x100 == 0 || status & 0x3000 != 0 { return Ok(false); }",
            ),
            wrong(
                "write-second-dma-error-ignored",
                "a DMA error in the second place is accepted in a write",
                "data_error(status)?; if transfer.has_error() && !transfer.sends() { return Err(Error::Dma); } if status & 0x100 == 0 || status & 0x3000 != 0 { return Ok(false); }",
            ),
            wrong(
                "write-end-bit-ignored",
                "a write's data ends without 0x100",
                "data_error(status)?; if transfer.has_error() { return Err(Error::Dma); } if status & 0x100 == 0 && !transfer.sends() || status & 0x3000 != 0 { return Ok(false); }",
            ),
            wrong(
                "write-active-ignored",
                "a write's data ends while 0x3000 is on",
                "data_error(status)?; if transfer.has_error() { return Err(Error::Dma); } if status & 0x100 == 0 || status & 0x3000 != 0 && !transfer.sends() { return Ok(false); }",
            ),
            wrong(
                "write-active-transmit-only",
                "a write's data ends while 0x2000 is on",
                "data_error(status)?; if transfer.has_error() { return Err(Error::Dma); } if status & 0x100 == 0 || status & if transfer.sends() { 0x1000 } else { 0x3000 } != 0 { return Ok(false); }",
            ),
        ],
    ),
    driver(
        "fn data_complete<",
        "transfer.get_remaining_transfers() != 0 || T::REGS.dcount().read().0 != 0",
        &[
            wrong("remaining-ignored", "remaining words are accepted", "T::REGS.dcount().read().0 != 0"),
            wrong("dcount-not-read", "DCOUNT is not read", "transfer.get_remaining_transfers() != 0"),
            wrong(
                "dcount-while-words-remain",
                "DCOUNT is read while words remain",
                "T::REGS.dcount().read().0 != 0 || transfer.get_remaining_transfers() != 0",
            ),
            wrong(
                "dcount-ignored",
                "DCOUNT is read and not looked at",
                "transfer.get_remaining_transfers() != 0 || { T::REGS.dcount().read(); false }",
            ),
            wrong(
                "dcount-by-status",
                "the status is read for DCOUNT",
                "transfer.get_remaining_transfers() != 0 || T::REGS.sta().read().0 != 0",
            ),
            wrong(
                "dcount-low-half",
                "only 16 bits of DCOUNT count",
                "transfer.get_remaining_transfers() != 0 || T::REGS.dcount().read().0 as u16 != 0",
            ),
            wrong(
                "write-remaining-ignored",
                "remaining words are accepted in a write",
                "transfer.get_remaining_transfers() != 0 && !transfer.sends() || T::REGS.dcount().read().0 != 0",
            ),
            wrong(
                "write-dcount-not-read",
                "DCOUNT is not read in a write",
                "transfer.get_remaining_transfers() != 0 || !transfer.sends() && T::REGS.dcount().read().0 != 0",
            ),
            wrong(
                "write-dcount-ignored",
                "DCOUNT is read and not looked at in a write",
                "transfer.get_remaining_transfers() != 0 || T::REGS.dcount().read().0 != 0 && !transfer.sends()",
            ),
        ],
    ),
    driver(
        "fn data_complete<",
        "return Err(Error::IncompleteTransfer);",
        &[wrong("incomplete-polls-on", "an incomplete transfer polls on", "return Ok(false);")],
    ),
    driver(
        "fn data_complete<",
        "transfer.land();",
        &[wrong("data-not-taken", "data words are left in the script", "")],
    ),
    driver(
        "fn blocking_data(",
        "*card = None;\n            reset_controller::<T>();",
        &[
            wrong(
                "data-keeps-record",
                "a data phase refused keeps the record",
                "reset_controller::<T>();",
            ),
            wrong("data-without-reset", "a data phase refused writes no reset rows", "*card = None;"),
            wrong(
                "ended-data-guard-passed",
                "a script's end passes the data phase's guard by",
                "if !crate::bench::ended() { *card = None; reset_controller::<T>(); }",
            ),
            wrong(
                "ended-data-keeps-record",
                "a script's end in a data phase keeps the record",
                "if !crate::bench::ended() { *card = None; } reset_controller::<T>();",
            ),
            wrong(
                "ended-data-without-reset",
                "a script's end in a data phase drops the record and writes no reset rows",
                "*card = None; if !crate::bench::ended() { reset_controller::<T>(); }",
            ),
            wrong(
                "ended-resets-once-inside",
                "a script's end in a data phase of initialisation writes the reset rows once",
                "if !crate::bench::ended() || card.is_some() { *card = None; reset_controller::<T>(); }",
            ),
            wrong(
                "write-refused-keeps-record",
                "a write refused in its data phase keeps the record, and so it does at a script's end",
                "if index != 24 && index != 25 { *card = None; } reset_controller::<T>();",
            ),
            wrong(
                "write-refused-without-reset",
                "a write refused in its data phase writes no reset rows",
                "*card = None; if index != 24 && index != 25 { reset_controller::<T>(); }",
            ),
            wrong(
                "ended-write-keeps-record",
                "a script's end in a write's data phase keeps the record",
                "if !crate::bench::ended() || index != 24 && index != 25 { *card = None; } reset_controller::<T>();",
            ),
            wrong(
                "ended-write-without-reset",
                "a script's end in a write's data phase writes no reset rows",
                "*card = None; if !crate::bench::ended() || index != 24 && index != 25 { reset_controller::<T>(); }",
            ),
            wrong(
                "write-many-refused-keeps-record",
                "a write of many blocks refused in its data phase keeps the record",
                "if index != 25 { *card = None; } reset_controller::<T>();",
            ),
        ],
    ),
    driver(
        "fn blocking_data(",
        "0..self.config.poll_limit",
        &[
            wrong(
                "data-limit-plus-one",
                "one poll too many in a data phase",
                "0..self.config.poll_limit.saturating_add(1)",
            ),
            wrong("data-limit-minus-one", "one poll too few in a data phase", "0..self.config.poll_limit - 1"),
            wrong(
                "write-limit-plus-one",
                "one poll too many in a write",
                "0..self.config.poll_limit.saturating_add(u32::from(index == 24 || index == 25))",
            ),
            wrong(
                "write-limit-minus-one",
                "one poll too few in a write",
                "0..self.config.poll_limit - u32::from(index == 24 || index == 25)",
            ),
        ],
    ),
    driver(
        "fn blocking_data(",
        "return Err(Error::SoftwareTimeout);",
        &[wrong("data-spent-as-timeout", "a spent data phase gives 1", "return Err(Error::Timeout);")],
    ),
    driver(
        "fn blocking_data(",
        "drop(transfer);\n        stop_data::<T>();",
        &[
            wrong("data-without-last-stop", "no stop rows after the data", "drop(transfer);"),
            wrong(
                "data-stop-after-gate",
                "the clock closes before the stop rows",
                "drop(transfer); if self.gated { set_clken::<T>(false); } stop_data::<T>();",
            ),
            wrong(
                "write-without-last-stop",
                "no stop rows after a write's data",
                "drop(transfer); if index != 24 && index != 25 { stop_data::<T>(); }",
            ),
            wrong(
                "write-cmd12-before-stop",
                "CMD12 after CMD25 comes before the stop rows",
                "drop(transfer); if index == 25 { command::<T>(12, 0, Response::R1, self.config, self.gated)?; } stop_data::<T>();",
            ),
        ],
    ),
    driver(
        "fn blocking_data(",
        "if self.gated {\n            set_clken::<T>(false);\n        }",
        &[
            wrong("data-clock-left-open", "the clock stays open after the data", ""),
            wrong(
                "data-clock-always-closed",
                "the clock closes after the data though not gated",
                "set_clken::<T>(false);",
            ),
            wrong("data-stop-after-gate", "", ""),
            wrong(
                "write-clock-left-open",
                "the clock stays open after a write's data",
                "if self.gated && index != 24 && index != 25 { set_clken::<T>(false); }",
            ),
            wrong(
                "write-cmd12-before-gate",
                "CMD12 after CMD25 comes before the clock closes",
                "if index == 25 { command::<T>(12, 0, Response::R1, self.config, self.gated)?; } if self.gated { set_clken::<T>(false); }",
            ),
        ],
    ),
    driver(
        "fn blocking_data(",
        "index == 18 || index == 25",
        &[
            wrong("cmd12-missing", "no CMD12 after CMD18", "index == 25"),
            wrong("cmd12-after-one", "CMD12 after CMD17 too", "index == 17 || index == 18 || index == 25"),
            wrong("write-cmd12-missing", "no CMD12 after CMD25", "index == 18"),
            wrong("write-cmd12-after-one", "CMD12 after CMD24 too", "index == 18 || index == 24 || index == 25"),
            wrong("write-cmd12-before-stop", "", "index == 18"),
            wrong("write-cmd12-before-gate", "", "index == 18"),
            wrong("write-cmd12-after-wait", "CMD12 after CMD25 comes behind the ready wait", "index == 18"),
        ],
    ),
    driver(
        "fn blocking_data(",
        "command::<T>(12, 0, Response::R1, self.config, self.gated)?;",
        &[
            wrong(
                "cmd12-ungated",
                "CMD12 does not open the clock",
                "command::<T>(12, 0, Response::R1, self.config, false)?;",
            ),
            wrong(
                "cmd12-unjudged",
                "a refused CMD12 is accepted",
                "let _ = command::<T>(12, 0, Response::R1, self.config, self.gated);",
            ),
            wrong(
                "write-cmd12-unjudged",
                "a refused CMD12 is accepted in a write",
                "let stopped = command::<T>(12, 0, Response::R1, self.config, self.gated); if index != 25 { stopped?; }",
            ),
            wrong(
                "write-cmd12-ungated",
                "CMD12 of a write does not open the clock",
                "command::<T>(12, 0, Response::R1, self.config, self.gated && index != 25)?;",
            ),
        ],
    ),
    driver(
        "fn blocking_data(",
        "if let Some(rca) = rca {\n            blocking_wait_ready::<T>(rca, self.config, self.gated)?;\n        }",
        &[
            wrong("closing-wait-missing", "no ready wait after the data", ""),
            wrong(
                "write-cmd12-after-wait",
                "",
                "if let Some(rca) = rca { blocking_wait_ready::<T>(rca, self.config, self.gated)?; } if index == 25 { command::<T>(12, 0, Response::R1, self.config, self.gated)?; }",
            ),
            wrong(
                "write-closing-wait-missing-after-many",
                "no ready wait after CMD25",
                "if let Some(rca) = rca.filter(|_| index != 25) { blocking_wait_ready::<T>(rca, self.config, self.gated)?; }",
            ),
            wrong(
                "write-closing-wait-keeps-record",
                "the ready wait after a write's data stands outside the guard",
                "if let Some(rca) = rca { if index == 24 || index == 25 { guard.defuse(); return blocking_wait_ready::<T>(rca, self.config, self.gated); } blocking_wait_ready::<T>(rca, self.config, self.gated)?; }",
            ),
            wrong(
                "closing-wait-ungated",
                "the ready wait after the data does not open the clock",
                "if let Some(rca) = rca { blocking_wait_ready::<T>(rca, self.config, false)?; }",
            ),
            wrong(
                "closing-wait-keeps-record",
                "the ready wait after the data stands outside the guard",
                "if let Some(rca) = rca { guard.defuse(); return blocking_wait_ready::<T>(rca, self.config, self.gated); }",
            ),
            wrong(
                "ended-closing-wait-passed",
                "a script's end in the ready wait after the data passes the guard by",
                "if let Some(rca) = rca { guard.defuse(); let waited = blocking_wait_ready::<T>(rca, self.config, self.gated); if waited.is_err() { self.card = None; reset_controller::<T>(); } return waited; }",
            ),
        ],
    ),
];

//! Reset and stop rows, the idle wait, the delays and CLKCR.

use super::{driver, wrong, Site};

pub const SITES: &[Site] = &[
    driver(
        "fn reset_controller<",
        "T::REGS.mask().write_value(pac::sdio::regs::Mask(0));\n    T::REGS.dctrl2().write_value(pac::sdio::regs::Dctrl2(0));",
        &[
            wrong(
                "reset-without-mask",
                "no MASK row in a reset",
                "T::REGS.dctrl2().write_value(pac::sdio::regs::Dctrl2(0));",
            ),
            wrong(
                "reset-order",
                "DCTRL2 before MASK in a reset",
                "T::REGS.dctrl2().write_value(pac::sdio::regs::Dctrl2(0)); T::REGS.mask().write_value(pac::sdio::regs::Mask(0));",
            ),
        ],
    ),
    driver(
        "fn reset_controller<",
        "T::REGS.power().write_value(pac::sdio::regs::Power(0));",
        &[wrong("reset-keeps-power", "no POWER row in a reset", "")],
    ),
    driver(
        "fn reset_controller<",
        "T::REGS.clkcr().write_value(pac::sdio::regs::Clkcr(0));",
        &[
            wrong("reset-keeps-clock", "no CLKCR row in a reset", ""),
            wrong("reset-gates-clock", "a reset closes the clock instead of writing 0", "set_clken::<T>(false);"),
        ],
    ),
    driver(
        "fn reset_controller<",
        "ALL_FLAGS",
        &[
            wrong("reset-flags-short", "a reset clears only the low flags", "0x7ff"),
            wrong("reset-flags-of-data", "a reset clears only the data flags", "DATA_FLAGS"),
        ],
    ),
    driver(
        "fn stop_data<",
        "T::REGS.mask().write_value(pac::sdio::regs::Mask(0));\n    T::REGS.dctrl().write_value(pac::sdio::regs::Dctrl(0));",
        &[
            wrong(
                "stop-without-mask",
                "no MASK row when data stops",
                "T::REGS.dctrl().write_value(pac::sdio::regs::Dctrl(0));",
            ),
            wrong(
                "stop-order",
                "DCTRL before MASK when data stops",
                "T::REGS.dctrl().write_value(pac::sdio::regs::Dctrl(0)); T::REGS.mask().write_value(pac::sdio::regs::Mask(0));",
            ),
        ],
    ),
    driver(
        "fn stop_data<",
        "DATA_FLAGS",
        &[wrong("stop-flags", "stopping data leaves flag 0x400", "DATA_INTERRUPTS")],
    ),
    driver(
        "fn wait_idle<",
        "0x3800",
        &[
            wrong("idle-data-as-command", "data and clock wait for 0x800 alone", "0x800"),
            wrong("idle-data-no-transmit", "data and clock do not wait for 0x1000", "0x2800"),
            wrong("idle-data-no-receive", "data and clock do not wait for 0x2000", "0x1800"),
            wrong("idle-data-no-command", "data and clock do not wait for 0x800", "0x3000"),
        ],
    ),
    driver(
        "fn wait_idle<",
        "0x800",
        &[wrong("idle-command-as-data", "a command waits for 0x3800", "0x3800")],
    ),
    driver(
        "fn wait_idle<",
        "0..limit",
        &[
            wrong("idle-limit-plus-one", "one poll too many in an idle wait", "0..limit.saturating_add(1)"),
            wrong("idle-limit-minus-one", "one poll too few in an idle wait", "0..limit - 1"),
        ],
    ),
    driver(
        "fn wait_idle<",
        "T::REGS.sta().read().0",
        &[wrong("idle-by-dcount", "an idle wait reads DCOUNT", "T::REGS.dcount().read().0")],
    ),
    driver(
        "fn wait_idle<",
        "Err(Error::SoftwareTimeout)",
        &[wrong("idle-spent-as-timeout", "a spent idle wait gives 1", "Err(Error::Timeout)")],
    ),
    driver(
        "fn clock_delay<",
        "u64::from(T::frequency().0).div_ceil(u64::from(clock.0)) * u64::from(cycles)",
        &[
            wrong(
                "clock-delay-rounds-down",
                "the clock delay is rounded down",
                "u64::from(T::frequency().0) / u64::from(clock.0) * u64::from(cycles)",
            ),
            wrong(
                "clock-delay-rounds-late",
                "the clock delay is rounded after the multiplication",
                "(u64::from(T::frequency().0) * u64::from(cycles)).div_ceil(u64::from(clock.0))",
            ),
        ],
    ),
    driver(
        "fn retry_delay<",
        "T::frequency().0.div_ceil(1_000)",
        &[
            wrong("retry-delay-rounds-down", "the retry delay is rounded down", "T::frequency().0 / 1_000"),
            wrong("retry-delay-short", "the retry delay is a tenth", "T::frequency().0.div_ceil(10_000)"),
        ],
    ),
    driver(
        "fn set_clken<",
        "T::REGS.clkcr().modify(|register| register.set_clken(on));",
        &[
            wrong(
                "clken-alone",
                "opening the clock forgets the rest of CLKCR",
                "T::REGS.clkcr().write(|register| register.set_clken(on));",
            ),
            wrong(
                "clken-only-on-change",
                "no CLKCR row when nothing changes",
                "if (crate::bench::last_written(2) & 256 != 0) != on { T::REGS.clkcr().modify(|register| register.set_clken(on)); }",
            ),
        ],
    ),
    driver(
        "fn configure_clock<",
        "wait_idle::<T>(config.poll_limit, true)?;",
        &[
            wrong("clock-without-idle-wait", "no idle wait before a clock change", ""),
            wrong(
                "clock-idle-as-command",
                "a clock change waits like a command",
                "wait_idle::<T>(config.poll_limit, false)?;",
            ),
        ],
    ),
    driver(
        "fn configure_clock<",
        "register.set_clkdiv(clock.divisor);",
        &[wrong(
            "clkcr-divisor",
            "CLKCR holds the divisor minus 1",
            "register.set_clkdiv(clock.divisor.wrapping_add(1));",
        )],
    ),
    driver(
        "fn configure_clock<",
        "register.set_bypass(clock.bypass);",
        &[wrong("clkcr-bypass-unset", "CLKCR never says bypass", "")],
    ),
    driver(
        "fn configure_clock<",
        "register.set_hwfc_en(clock.bypass);",
        &[
            wrong("flow-control-missing", "no flow control with bypass", ""),
            wrong("flow-control-always", "flow control without bypass", "register.set_hwfc_en(true);"),
        ],
    ),
    driver(
        "fn configure_clock<",
        "register.set_pwrsav(false);",
        &[wrong("power-save", "CLKCR asks for power saving", "register.set_pwrsav(true);")],
    ),
    driver(
        "fn configure_clock<",
        "if wide { 1 } else { 0 }",
        &[
            wrong("clkcr-eight-lines", "wide means eight lines", "if wide { 2 } else { 0 }"),
            wrong("clkcr-narrow", "CLKCR is never wide", "0"),
        ],
    ),
    driver(
        "fn configure_clock<",
        "register.set_clken(clken);",
        &[wrong("clkcr-opens-at-once", "a clock change opens the clock", "register.set_clken(true);")],
    ),
];

//! The edits that the driver's text needs on a desk computer, and nothing else.

pub struct Edit {
    pub reason: &'static str,
    /// Must stand in the text exactly once.
    pub find: &'static str,
    pub replace: &'static str,
}

/// Applied to the driver in this order. The types are taken unchanged.
pub const EDITS: [Edit; 4] = [
    Edit {
        reason: "the spin count of clock_delay becomes a row, the spins are left out",
        find: "    for _ in 0..iterations {\n        core::hint::spin_loop();\n    }\n",
        replace: "    crate::bench::delay(iterations);\n",
    },
    Edit {
        reason: "the spin count of retry_delay becomes a row, the spins are left out",
        find: "    for _ in 0..T::frequency().0.div_ceil(1_000) {\n        core::hint::spin_loop();\n    }\n",
        replace: "    crate::bench::delay(u64::from(T::frequency().0.div_ceil(1_000)));\n",
    },
    Edit {
        reason: "no DMA runs beside a desk computer's program: the data words are taken straight after the poll that completes",
        find: "        return Err(Error::IncompleteTransfer);\n    }\n    Ok(true)\n",
        replace: "        return Err(Error::IncompleteTransfer);\n    }\n    transfer.land();\n    Ok(true)\n",
    },
    Edit {
        reason: "a script's end unwinds, and this closing alone is no guard: the clock of a gated command closes while unwinding too",
        find: "    let result = command_inner::<T>(index, argument, response, config);\n",
        replace: "    let unwinds = OnDrop::new(|| if gate { set_clken::<T>(false) });\n    let result = command_inner::<T>(index, argument, response, config);\n    unwinds.defuse();\n",
    },
];

/// Added after the last line of the driver: a child module, which may see what
/// the driver keeps to itself (the gate, the record, the plain functions).
pub fn addition(inside: &str) -> String {
    format!("\n#[path = {inside:?}]\npub mod inside;\n")
}

//! Writes: what stands in their own function. What they share with reads is in `data`.

use super::{driver, wrong, Site};

pub const SITES: &[Site] = &[
    driver(
        "fn blocking_write_blocks(",
        "*self.card()?",
        &[wrong(
            "write-length-before-card",
            "a write of no blocks gives 19 without a card",
            "{ if blocks.is_empty() { return Err(Error::InvalidBufferLength); } *self.card()? }",
        )],
    ),
    driver(
        "fn blocking_write_blocks(",
        "block_address(&card, block_index, blocks.len())?",
        &[
            wrong(
                "write-end-before-length",
                "a write of no blocks past the card gives 20",
                "{ if u64::from(block_index) + blocks.len() as u64 > card.block_count { return Err(Error::AddressOutOfRange); } block_address(&card, block_index, blocks.len())? }",
            ),
            wrong(
                "write-of-no-blocks-accepted",
                "a write of no blocks is accepted",
                "{ if blocks.is_empty() { return Ok(()); } block_address(&card, block_index, blocks.len())? }",
            ),
            wrong(
                "write-end-unchecked",
                "a write past the card goes out",
                "{ let endless = Card { block_count: 1 << 40, ..card }; block_address(&endless, block_index, blocks.len())? }",
            ),
            wrong(
                "write-end-one-late",
                "a write may go one block past the card",
                "{ let larger = Card { block_count: card.block_count + 1, ..card }; block_address(&larger, block_index, blocks.len())? }",
            ),
            wrong(
                "write-last-block-refused",
                "a write may not reach the last block",
                "{ block_address(&card, block_index, blocks.len())?; block_address(&card, block_index, blocks.len() + 1)? }",
            ),
            wrong(
                "write-start-checked-alone",
                "of a write only the first block must lie on the card",
                "{ if blocks.is_empty() { return Err(Error::InvalidBufferLength); } block_address(&card, block_index, 1)? }",
            ),
            wrong(
                "write-address-in-bytes",
                "a write to a card of high capacity has an address in bytes",
                "{ let address = block_address(&card, block_index, blocks.len())?; if matches!(card.card_type, CardCapacity::SDHC) { address.wrapping_mul(512) } else { address } }",
            ),
            wrong(
                "write-address-in-blocks",
                "a write to a card of standard capacity has an address in blocks",
                "{ block_address(&card, block_index, blocks.len())?; block_index }",
            ),
            wrong(
                "write-waits-before-checks",
                "a write's ready wait comes before 19 and 20",
                "{ blocking_wait_ready::<T>(card.rca, self.config, self.gated)?; block_address(&card, block_index, blocks.len())? }",
            ),
        ],
    ),
    driver(
        "fn blocking_write_blocks(",
        "blocking_wait_ready::<T>(card.rca, self.config, self.gated)?;",
        &[
            wrong("write-waits-before-checks", "", ""),
            wrong("write-without-ready-wait", "no ready wait before a write", ""),
            wrong(
                "write-wait-ungated",
                "the ready wait before a write does not open the clock",
                "blocking_wait_ready::<T>(card.rca, self.config, false)?;",
            ),
            wrong(
                "write-wait-drops-record",
                "a write refused in its first ready wait drops the record",
                "if let Err(error) = blocking_wait_ready::<T>(card.rca, self.config, self.gated) { self.card = None; return Err(error); }",
            ),
            wrong(
                "write-wait-resets",
                "a write refused in its first ready wait writes reset rows",
                "if let Err(error) = blocking_wait_ready::<T>(card.rca, self.config, self.gated) { reset_controller::<T>(); return Err(error); }",
            ),
            wrong(
                "ended-write-wait-drops-record",
                "a script's end in a write's first ready wait drops the record",
                "let (config, gated, record) = (self.config, self.gated, &mut self.card); let drops = OnDrop::new(|| *record = None); let waited = blocking_wait_ready::<T>(card.rca, config, gated); drops.defuse(); waited?;",
            ),
            wrong(
                "ended-write-wait-resets",
                "a script's end in a write's first ready wait writes reset rows",
                "let resets = OnDrop::new(reset_controller::<T>); let waited = blocking_wait_ready::<T>(card.rca, self.config, self.gated); resets.defuse(); waited?;",
            ),
        ],
    ),
    driver(
        "fn blocking_write_blocks(",
        "if blocks.len() == 1 { 24 } else { 25 }",
        &[
            wrong("write-always-25", "one block is written with CMD25", "25"),
            wrong("write-always-24", "many blocks are written with CMD24", "24"),
            wrong(
                "write-commands-exchanged",
                "CMD25 for one block, CMD24 for many",
                "if blocks.len() == 1 { 25 } else { 24 }",
            ),
            wrong(
                "write-with-read-commands",
                "blocks are written with CMD17 and CMD18",
                "if blocks.len() == 1 { 17 } else { 18 }",
            ),
        ],
    ),
    driver(
        "fn blocking_write_blocks(",
        "core::slice::from_raw_parts(blocks.as_ptr().cast(), blocks.len() * 128)",
        &[
            wrong(
                "write-first-block-alone",
                "of many blocks the first is written, with CMD25",
                "core::slice::from_raw_parts(blocks.as_ptr().cast(), 128)",
            ),
            wrong(
                "write-quarter-of-the-data",
                "words are counted as bytes: a quarter is written",
                "core::slice::from_raw_parts(blocks.as_ptr().cast(), blocks.len() * 32)",
            ),
        ],
    ),
    driver(
        "fn blocking_write_blocks(",
        "self.blocking_data(Buffer::Write(words), index, address, 9, Some(card.rca))",
        &[
            wrong(
                "write-no-closing-wait",
                "no ready wait after a write",
                "self.blocking_data(Buffer::Write(words), index, address, 9, None)",
            ),
            wrong(
                "write-block-size",
                "a write has blocks of 256",
                "self.blocking_data(Buffer::Write(words), index, address, 8, Some(card.rca))",
            ),
            wrong(
                "write-drops-record",
                "an accepted write drops the record",
                "{ let done = self.blocking_data(Buffer::Write(words), index, address, 9, Some(card.rca)); self.card = None; done }",
            ),
            wrong(
                "write-keeps-record",
                "a write refused in its data phase puts the record back",
                "{ let done = self.blocking_data(Buffer::Write(words), index, address, 9, Some(card.rca)); self.card = Some(card); done }",
            ),
            wrong(
                "write-notes-status",
                "an accepted write changes the status in the record",
                "{ self.blocking_data(Buffer::Write(words), index, address, 9, Some(card.rca))?; self.card.as_mut().unwrap().status = sd_status(&[address; 16]); Ok(()) }",
            ),
            wrong(
                "write-shrinks-card",
                "an accepted write takes its blocks off the record's",
                "{ self.blocking_data(Buffer::Write(words), index, address, 9, Some(card.rca))?; self.card.as_mut().unwrap().block_count -= blocks.len() as u64; Ok(()) }",
            ),
            wrong(
                "write-twice",
                "the data phase of a write comes twice",
                "{ self.blocking_data(Buffer::Write(words), index, address, 9, Some(card.rca))?; self.blocking_data(Buffer::Write(words), index, address, 9, Some(card.rca)) }",
            ),
            wrong(
                "write-then-status",
                "an accepted write reads the SD status",
                "{ self.blocking_data(Buffer::Write(words), index, address, 9, Some(card.rca))?; self.blocking_read_sd_status().map(|_| ()) }",
            ),
        ],
    ),
];

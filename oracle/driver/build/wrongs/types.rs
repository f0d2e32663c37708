//! The plain functions of the types.

use super::{wrong, File, Site, Wrong};

const fn types(within: &'static str, find: &'static str, wrongs: &'static [Wrong]) -> Site {
    Site {
        file: File::Types,
        within,
        find,
        wrongs,
    }
}

pub const SITES: &[Site] = &[
    types(
        "fn clock_setting(",
        "source.0 == 0 || requested == 0 || requested > 80_000_000",
        &[
            wrong(
                "request-limit-exclusive",
                "80,000,000 Hz is refused",
                "source.0 == 0 || requested == 0 || requested >= 80_000_000",
            ),
            wrong(
                "request-limit-plus-one",
                "80,000,001 Hz is accepted",
                "source.0 == 0 || requested == 0 || requested > 80_000_001",
            ),
            wrong(
                "source-zero-accepted",
                "a source of 0 is accepted",
                "requested == 0 || requested > 80_000_000",
            ),
        ],
    ),
    types(
        "fn clock_setting(",
        "allow_bypass && source.0 <= requested",
        &[
            wrong(
                "bypass-strict",
                "no bypass at the source's own frequency",
                "allow_bypass && source.0 < requested",
            ),
            wrong(
                "bypass-unasked",
                "bypass whether allowed or not",
                "source.0 <= requested",
            ),
        ],
    ),
    types(
        "fn clock_setting(",
        "u64::from(source.0).div_ceil(u64::from(requested)).max(2)",
        &[
            wrong(
                "divisor-rounds-down",
                "the divisor is rounded down",
                "(u64::from(source.0) / u64::from(requested)).max(2)",
            ),
            wrong(
                "divisor-at-least-3",
                "no divisor of 2",
                "u64::from(source.0).div_ceil(u64::from(requested)).max(3)",
            ),
            wrong(
                "divisor-one-more",
                "a divisor that divides is passed over",
                "(u64::from(source.0) / u64::from(requested) + 1).max(2)",
            ),
        ],
    ),
    types(
        "fn clock_setting(",
        "divisor > 257",
        &[
            wrong("divisor-up-to-256", "a divisor of 257 is refused", "divisor > 256"),
            wrong("divisor-up-to-258", "a divisor of 258 is accepted", "divisor > 258"),
        ],
    ),
    types(
        "fn clock_setting(",
        "Hertz(source.0 / divisor as u32)",
        &[
            wrong(
                "frequency-is-request",
                "the frequency told is the one asked for",
                "Hertz(requested)",
            ),
            wrong(
                "frequency-rounds-up",
                "the frequency is rounded up",
                "Hertz(source.0.div_ceil(divisor as u32))",
            ),
        ],
    ),
    types(
        "fn data_error(",
        "status & 8 != 0",
        &[
            wrong(
                "data-timeout-bit",
                "the command timeout bit counts for data",
                "status & 4 != 0",
            ),
            wrong(
                "data-crc-first",
                "CRC before timeout",
                "status & 8 != 0 && status & 2 == 0",
            ),
        ],
    ),
    types(
        "fn data_error(",
        "status & 2 != 0",
        &[
            wrong("data-crc-bit", "the command CRC bit counts for data", "status & 1 != 0"),
            wrong(
                "data-overrun-first",
                "overrun before CRC",
                "status & 2 != 0 && status & 0x20 == 0",
            ),
        ],
    ),
    types(
        "fn data_error(",
        "status & 0x20 != 0",
        &[
            wrong(
                "overrun-as-underrun",
                "overrun and underrun exchanged",
                "status & 0x10 != 0",
            ),
            wrong(
                "data-underrun-first",
                "underrun before overrun",
                "status & 0x20 != 0 && status & 0x10 == 0",
            ),
        ],
    ),
    types(
        "fn data_error(",
        "status & 0x10 != 0",
        &[wrong("overrun-as-underrun", "", "status & 0x20 != 0")],
    ),
    types(
        "fn data_error(",
        "status & 0x200 != 0",
        &[wrong("start-bit-ignored", "a missing start bit is accepted", "false")],
    ),
    types(
        "fn block_count(",
        "(9..=11)",
        &[
            wrong("length-8-accepted", "block length 8 is accepted", "(8..=11)"),
            wrong("length-12-accepted", "block length 12 is accepted", "(9..=12)"),
            wrong("length-11-refused", "block length 11 is refused", "(9..=10)"),
        ],
    ),
    types(
        "fn block_count(",
        "((csd >> 62) & 0xfff) as u64 + 1",
        &[
            wrong(
                "size-without-one",
                "the standard size lacks its 1",
                "((csd >> 62) & 0xfff) as u64",
            ),
            wrong(
                "size-from-low-half",
                "the standard size is taken from the low half",
                "((csd as u64 >> 62) & 0xfff) + 1",
            ),
            wrong(
                "size-from-high-half",
                "the standard size is taken from the high half",
                "(((csd >> 64) as u64) & 0x3ff) * 4 + 1",
            ),
        ],
    ),
    types(
        "fn block_count(",
        "((csd >> 47) & 7) as u32 + 2",
        &[wrong(
            "multiplier-without-two",
            "the multiplier lacks its 2",
            "((csd >> 47) & 7) as u32",
        )],
    ),
    types(
        "fn block_count(",
        "size << (multiplier + block_length - 9)",
        &[wrong(
            "block-length-ignored",
            "every block has 512 bytes",
            "size << multiplier",
        )],
    ),
    types(
        "fn block_count(",
        "(((csd >> 48) & 0x3f_ffff) as u64 + 1) * 1024",
        &[
            wrong(
                "high-size-short",
                "the high size has 16 bits, from the low half",
                "(((csd >> 48) & 0xffff) as u64 + 1) * 1024",
            ),
            wrong(
                "high-size-without-one",
                "the high size lacks its 1",
                "(((csd >> 48) & 0x3f_ffff) as u64) * 1024",
            ),
            wrong(
                "high-size-unit",
                "the high size counts 256 KiB",
                "(((csd >> 48) & 0x3f_ffff) as u64 + 1) * 512",
            ),
            wrong(
                "high-size-in-32-bits",
                "the largest card has 0 blocks",
                "u64::from((((csd >> 48) & 0x3f_ffff) as u32 + 1).wrapping_mul(1024))",
            ),
        ],
    ),
    types(
        "fn transfer_rate(",
        "[0u32, 10, 12, 13, 15, 20, 25, 30, 35, 40, 45, 50, 55, 60, 70, 80]",
        &[wrong(
            "rate-table-of-mmc",
            "the rates of another standard",
            "[0u32, 10, 12, 13, 15, 20, 26, 30, 35, 40, 45, 52, 55, 60, 70, 80]",
        )],
    ),
    types(
        "fn transfer_rate(",
        "encoded & 0x80 != 0 || encoded & 7 > 3 || encoded & 0x78 == 0",
        &[
            wrong(
                "rate-reserved-accepted",
                "bit 7 of the rate is not looked at",
                "encoded & 7 > 3 || encoded & 0x78 == 0",
            ),
            wrong(
                "rate-zero-accepted",
                "a rate of 0 is accepted",
                "encoded & 0x80 != 0 || encoded & 7 > 3",
            ),
            wrong(
                "rate-unit-3-refused",
                "the largest unit is refused",
                "encoded & 0x80 != 0 || encoded & 7 > 2 || encoded & 0x78 == 0",
            ),
        ],
    ),
    types(
        "fn block_address(",
        "count == 0 || count > 511",
        &[
            wrong(
                "blocks-512-accepted",
                "512 blocks are accepted",
                "count == 0 || count > 512",
            ),
            wrong(
                "blocks-511-refused",
                "511 blocks are refused",
                "count == 0 || count > 510",
            ),
            wrong("blocks-none-accepted", "no blocks are accepted", "count > 511"),
            wrong(
                "range-before-length",
                "20 before 19",
                "u64::from(index) + count as u64 <= card.block_count && (count == 0 || count > 511)",
            ),
        ],
    ),
    types(
        "fn block_address(",
        "u64::from(index) + count as u64 > card.block_count",
        &[
            wrong(
                "range-one-too-far",
                "one block past the card is accepted",
                "u64::from(index) + count as u64 > card.block_count + 1",
            ),
            wrong(
                "range-one-short",
                "the last block is refused",
                "u64::from(index) + count as u64 >= card.block_count",
            ),
            wrong(
                "range-without-count",
                "only the first block is judged",
                "u64::from(index) >= card.block_count",
            ),
            wrong(
                "range-in-32-bits",
                "index plus count goes round",
                "u64::from(index.wrapping_add(count as u32)) > card.block_count",
            ),
        ],
    ),
    types(
        "fn block_address(",
        "index.checked_mul(512).ok_or(Error::AddressOutOfRange)",
        &[
            wrong(
                "address-standard-in-blocks",
                "an SDSC address counts blocks",
                "Ok(index)",
            ),
            wrong(
                "address-goes-round",
                "an SDSC address goes round",
                "Ok(index.wrapping_mul(512))",
            ),
        ],
    ),
    types(
        "fn response_value(",
        "(value << 32) | u128::from(word)",
        &[wrong(
            "long-answer-backwards",
            "the first word of CID and CSD is lowest",
            "(value >> 32) | (u128::from(word) << 96)",
        )],
    ),
    types(
        "fn status_bytes(",
        "words[index / 4].to_le_bytes()[index % 4]",
        &[wrong(
            "switch-bytes-turned",
            "switch status bytes are turned round",
            "words[index / 4].to_be_bytes()[index % 4]",
        )],
    ),
    types(
        "fn sd_status(",
        "u32::from_be(words[15 - index])",
        &[
            wrong(
                "status-words-in-order",
                "status words are not reversed",
                "u32::from_be(words[index])",
            ),
            wrong(
                "status-words-not-turned",
                "status bytes are not turned round",
                "words[15 - index]",
            ),
        ],
    ),
];

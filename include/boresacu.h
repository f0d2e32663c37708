/*
 * Boresacu: the plain numbers of an SD card host, for firmware in C or C++.
 *
 * Four functions: the clock divisor, a card's capacity, its transfer rate, and the address of a block. Link them from
 * libboundary.a (boundary/build makes it). They are total: every value of every argument gets an answer, nothing is
 * undefined, none of them keeps state, allocates, or calls back. For RISC-V (rv32imac) the archive has no instruction that
 * divides and needs no other library, so that a boot stage can link it.
 *
 * Each returns one 64-bit result:
 *
 *     bits 63 to 56   the number of the answer: 0 accepted, or why it was refused (enum boresacu_answer_number)
 *     bits 55 to 0    accepted: the value, described at each function; refused with BORESACU_UNSUPPORTED_CARD_TYPE: the
 *                     number of the field at fault (enum boresacu_field_number); 0 in every other refusal
 *
 *     uint64_t result = boresacu_transfer_rate(csd_byte);
 *     if (boresacu_answer(result) == BORESACU_ACCEPTED) {
 *         bits_per_second = (uint32_t)boresacu_value(result);
 *     } else {
 *         tell(boresacu_answer(result), boresacu_field(result));
 *     }
 *
 * The bodies behind these declarations are proved to do what is written here. The declarations themselves, and the
 * compiler that made the archive, are not covered by that proof.
 */
#ifndef BORESACU_H
#define BORESACU_H

#include <stdint.h>

#ifdef __cplusplus
extern "C" {
#endif

/*
 * The numbers of the answers that these four functions give. The last is none of theirs: a host answers it to a write where
 * the card is protected against writing (bits 13 and 12 of its CSD). It has a name here so that firmware can hand it on like
 * the others.
 */
enum boresacu_answer_number {
    BORESACU_ACCEPTED = 0,
    BORESACU_UNSUPPORTED_CARD_TYPE = 13,
    BORESACU_BAD_CLOCK = 17,
    BORESACU_INVALID_BUFFER_LENGTH = 19,
    BORESACU_ADDRESS_OUT_OF_RANGE = 20,
    BORESACU_WRITE_PROTECTED = 26
};

/*
 * What made a card unsupported, told with BORESACU_UNSUPPORTED_CARD_TYPE. The four functions give the first five. The last
 * three come up while a card is initialised or its status read; they have names here so that firmware can hand on all
 * eight alike.
 */
enum boresacu_field_number {
    BORESACU_FIELD_CSD_VERSION = 1,       /* CSD structure, bits 127:126 of the CSD */
    BORESACU_FIELD_BLOCK_LENGTH = 2,      /* READ_BL_LEN, bits 83:80 */
    BORESACU_FIELD_RATE_UNIT = 3,         /* TRAN_SPEED, its bits 2:0 */
    BORESACU_FIELD_RATE_VALUE = 4,        /* TRAN_SPEED, its bits 6:3 */
    BORESACU_FIELD_RATE_RESERVED_BIT = 5, /* TRAN_SPEED, its bit 7 */
    BORESACU_FIELD_CSD_AND_OCR = 6,       /* the two disagree about the card's capacity class */
    BORESACU_FIELD_VOLTAGE = 7,           /* card and host have no voltage in common */
    BORESACU_FIELD_APP_COMMAND = 8        /* the card did not take an application command */
};

/*
 * The clock setting that comes nearest to a requested frequency without passing it.
 *
 *     source         frequency of the host's clock source, in Hz
 *     requested      frequency wanted on the card's clock line, in Hz
 *     allow_bypass   0: always divide; anything else: hand the source through where it is at most the request
 *
 * Value: boresacu_clock_divisor_field, boresacu_clock_bypass and boresacu_clock_frequency take it apart. Divided, the
 * divisor is the least from 2 to 257 that brings the source down to the request or below; the register's field is the
 * divisor less 2, and the frequency is source / divisor, rounded down. Bypassed, the field is 0 and the frequency is
 * the source's.
 *
 * Refused: BORESACU_BAD_CLOCK for a source of 0, a request of 0 or over 80,000,000 Hz, or where a divisor over 257
 * would be needed.
 */
uint64_t boresacu_clock_setting(uint32_t source, uint32_t requested, uint32_t allow_bypass);

/*
 * A card's capacity, from its 128-bit CSD register.
 *
 *     csd_high   bits 127 to 64 (the first two response words, the first on top)
 *     csd_low    bits 63 to 0
 *
 * Value: the number of blocks of 512 bytes, 4 to 4,294,967,296. The last does not fit 32 bits.
 *
 * Refused: BORESACU_UNSUPPORTED_CARD_TYPE for a CSD structure (bits 127:126) other than 0 and 1, with
 * BORESACU_FIELD_CSD_VERSION; and with BORESACU_FIELD_BLOCK_LENGTH for a READ_BL_LEN (bits 83:80) other than 9, 10 and 11 in
 * structure 0, and other than 9 in structure 1.
 */
uint64_t boresacu_block_count(uint64_t csd_high, uint64_t csd_low);

/*
 * The transfer rate that a card names in TRAN_SPEED, bits 103:96 of its CSD.
 *
 *     encoded   the byte
 *
 * Value: bits a second, 100,000 to 800,000,000.
 *
 * Refused: BORESACU_UNSUPPORTED_CARD_TYPE, with the first of these that holds:
 *
 *     BORESACU_FIELD_RATE_RESERVED_BIT   bit 7 or any bit above it is set: so for every number over 127, and for one over
 *                                        255, which is no byte, too
 *     BORESACU_FIELD_RATE_UNIT           the unit (bits 2:0) is over 3
 *     BORESACU_FIELD_RATE_VALUE          the time value (bits 6:3) is 0
 */
uint64_t boresacu_transfer_rate(uint32_t encoded);

/*
 * The argument of the read command (CMD17 for one block, CMD18 for more) that reads blocks of 512 bytes.
 *
 *     high_capacity   0: SDSC, addressed by byte; anything else: SDHC or SDXC, addressed by block
 *     block_count     the card's capacity, as boresacu_block_count gives it
 *     index           the first block to read, from 0
 *     count           how many blocks to read, 1 to 511
 *
 * Value: the 32-bit argument: 512 * index for SDSC, the index for SDHC.
 *
 * Refused, judged in this order: BORESACU_INVALID_BUFFER_LENGTH for a count of 0 or over 511;
 * BORESACU_ADDRESS_OUT_OF_RANGE where index + count passes the end of the card, or an SDSC address does not fit 32 bits.
 */
uint64_t boresacu_block_address(uint32_t high_capacity, uint64_t block_count, uint32_t index, uint64_t count);

/* The number of a result's answer: one of enum boresacu_answer_number. */
static inline unsigned boresacu_answer(uint64_t result)
{
    return (unsigned)(result >> 56);
}

/* A result's value, 0 where it was refused: so that the number of a field is never taken for a count or a rate. */
static inline uint64_t boresacu_value(uint64_t result)
{
    return boresacu_answer(result) == BORESACU_ACCEPTED ? result : 0;
}

/* The field at fault where the answer is BORESACU_UNSUPPORTED_CARD_TYPE: one of enum boresacu_field_number; else 0. */
static inline unsigned boresacu_field(uint64_t result)
{
    uint64_t low = result & UINT64_C(0x00ffffffffffffff);
    return boresacu_answer(result) == BORESACU_UNSUPPORTED_CARD_TYPE ? (unsigned)low : 0;
}

/* Of boresacu_clock_setting: what to write to the register's 8-bit divisor field. */
static inline uint8_t boresacu_clock_divisor_field(uint64_t result)
{
    return (uint8_t)(result >> 32);
}

/* Of boresacu_clock_setting: 1 where the source is handed through undivided, else 0. */
static inline int boresacu_clock_bypass(uint64_t result)
{
    return (int)(result >> 40 & 1);
}

/* Of boresacu_clock_setting: the frequency that comes of it, in Hz. */
static inline uint32_t boresacu_clock_frequency(uint64_t result)
{
    return (uint32_t)result;
}

#ifdef __cplusplus
}
#endif

#endif

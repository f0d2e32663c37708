/*
 * Calls the four functions of libboundary.a and holds each result to what is due.
 *
 *     test [ROUNDS [SEED]]   boundaries, every rate byte, whole ranges by field, and ROUNDS random inputs a function
 *     test lines             reads calls with their results from standard input, one a line (see lines below)
 *
 * What is due is computed here a second time, from SD's bit positions and the order of the tests, and on purpose in
 * another way than the code does: registers are read bit by bit, rates from SD's table as it is printed, and the clock's
 * divisor and frequency are quotients, where the code has no division. The field of an answer 13 is looked up by all rules
 * that the input breaks, where the code stops at the first. And over whole ranges fields are counted: how often each is due
 * stands here as a number, which a wrong rule above would not come to.
 *
 * Exit status: 0 all agree; 1 a result differs, or some kind of answer was never met; 2 bad usage or a bad line.
 *
 * Only headers that a compiler brings along are included, and the C library's functions are declared here (C99, 7.1.4,
 * allows it): so the same file is also compiled for x86-64 where only another processor's C library is installed.
 */
#include <stddef.h>
#include <stdint.h>

#include "boresacu.h"

int printf(const char *format, ...);
int getchar(void);

__extension__ typedef unsigned __int128 u128;

/* ---- what is due ---- */

enum function { CLOCK, COUNT, RATE, ADDRESS, FUNCTIONS };

/*
 * The kinds of answer. The run fails if one of them was never due, since then it was never tested. At answer 13 there is a
 * kind for each set of rules that can be broken at once: only where two are broken does their order show.
 */
enum kind {
    CLOCK_DIVIDED, CLOCK_BYPASSED, CLOCK_NO_SOURCE, CLOCK_NO_REQUEST, CLOCK_REQUEST_OVER, CLOCK_DIVISOR_OVER,
    COUNT_VERSION_0, COUNT_VERSION_1, COUNT_0_LENGTH, COUNT_1_LENGTH_OF_0, COUNT_1_LENGTH,
    COUNT_OTHER_VERSION, COUNT_OTHER_VERSION_LENGTH,
    /* from RATE_GIVEN on: 1 more for the value, 2 for the unit, 4 for the reserved bit */
    RATE_GIVEN, RATE_VALUE, RATE_UNIT, RATE_UNIT_VALUE,
    RATE_BIT, RATE_BIT_VALUE, RATE_BIT_UNIT, RATE_BIT_UNIT_VALUE,
    RATE_OVER_255, RATE_OVER_255_BROKEN,
    ADDRESS_SDSC, ADDRESS_SDHC, ADDRESS_NO_BLOCK, ADDRESS_TOO_MANY, ADDRESS_PAST_END, ADDRESS_OVER_32_BITS,
    KINDS
};

/* The numbers of answers and fields are document 01's and 02's; check_names holds the header's names to them. */
static const struct {
    enum function function;
    unsigned answer;
    unsigned field;
    const char *name;
} kinds[KINDS] = {
    { CLOCK, 0, 0, "divided" },
    { CLOCK, 0, 0, "bypassed" },
    { CLOCK, 17, 0, "source 0" },
    { CLOCK, 17, 0, "request 0" },
    { CLOCK, 17, 0, "request over 80,000,000 Hz" },
    { CLOCK, 17, 0, "divisor over 257" },
    { COUNT, 0, 0, "CSD version 0" },
    { COUNT, 0, 0, "CSD version 1" },
    { COUNT, 13, 2, "CSD version 0, block length not 9 to 11" },
    { COUNT, 13, 2, "CSD version 1, block length 10 or 11" },
    { COUNT, 13, 2, "CSD version 1, block length not 9 to 11" },
    { COUNT, 13, 1, "CSD version 2 or 3, block length 9 to 11" },
    { COUNT, 13, 1, "CSD version 2 or 3, block length not 9 to 11" },
    { RATE, 0, 0, "given" },
    { RATE, 13, 4, "time value 0" },
    { RATE, 13, 3, "unit over 3" },
    { RATE, 13, 3, "unit over 3, time value 0" },
    { RATE, 13, 5, "bit 7 set" },
    { RATE, 13, 5, "bit 7 set, time value 0" },
    { RATE, 13, 5, "bit 7 set, unit over 3" },
    { RATE, 13, 5, "bit 7 set, unit over 3, time value 0" },
    { RATE, 13, 5, "number over 255, its low byte a rate" },
    { RATE, 13, 5, "number over 255, its low byte none" },
    { ADDRESS, 0, 0, "SDSC" },
    { ADDRESS, 0, 0, "SDHC" },
    { ADDRESS, 19, 0, "no block" },
    { ADDRESS, 19, 0, "over 511 blocks" },
    { ADDRESS, 20, 0, "past the end of the card" },
    { ADDRESS, 20, 0, "SDSC address over 32 bits" },
};

struct due {
    enum kind kind;
    uint64_t value;
};

static struct due accepted(enum kind kind, uint64_t value)
{
    struct due due = { kind, value };
    return due;
}

static struct due refused(enum kind kind)
{
    return accepted(kind, 0);
}

static struct due clock_due(uint32_t source, uint32_t requested, uint32_t allow_bypass)
{
    uint32_t divisor;
    if (source == 0) {
        return refused(CLOCK_NO_SOURCE);
    }
    if (requested == 0) {
        return refused(CLOCK_NO_REQUEST);
    }
    if (requested > 80000000) {
        return refused(CLOCK_REQUEST_OVER);
    }
    if (allow_bypass != 0 && source <= requested) {
        return accepted(CLOCK_BYPASSED, ((uint64_t)1 << 40) | source);
    }
    divisor = source / requested + (source % requested != 0 ? 1 : 0);
    if (divisor > 257) {
        return refused(CLOCK_DIVISOR_OVER);
    }
    if (divisor < 2) {
        divisor = 2;
    }
    return accepted(CLOCK_DIVIDED, (uint64_t)(divisor - 2) << 32 | source / divisor);
}

/* Bits top to bottom of a register, as SD numbers them. */
static uint64_t field(u128 reg, int top, int bottom)
{
    uint64_t n = 0;
    for (int bit = top; bit >= bottom; bit--) {
        n = 2 * n + ((reg >> bit & 1) != 0 ? 1 : 0);
    }
    return n;
}

static u128 csd_of(uint64_t high, uint64_t low)
{
    return (u128)high << 64 | low;
}

/* SD gives the capacity in bytes; a block here has 512 of them. */
static struct due count_due(uint64_t high, uint64_t low)
{
    u128 csd = csd_of(high, low);
    uint64_t version = field(csd, 127, 126);
    uint64_t read_bl_len = field(csd, 83, 80);
    int served = read_bl_len == 9 || read_bl_len == 10 || read_bl_len == 11;
    uint64_t bytes;
    if (version == 0) {
        if (!served) {
            return refused(COUNT_0_LENGTH);
        }
        bytes = field(csd, 73, 62) + 1;
        for (uint64_t i = 0; i < field(csd, 49, 47) + 2 + read_bl_len; i++) {
            bytes += bytes;
        }
        return accepted(COUNT_VERSION_0, bytes / 512);
    }
    if (version == 1) {
        if (read_bl_len != 9) {
            return refused(served ? COUNT_1_LENGTH_OF_0 : COUNT_1_LENGTH);
        }
        bytes = (field(csd, 69, 48) + 1) * 512 * 1024;
        return accepted(COUNT_VERSION_1, bytes / 512);
    }
    return refused(served ? COUNT_OTHER_VERSION : COUNT_OTHER_VERSION_LENGTH);
}

static struct due rate_due(uint32_t encoded)
{
    /* SD's time values as it prints them, from 1 up. */
    static const char values[] = "1.0 1.2 1.3 1.5 2.0 2.5 3.0 3.5 4.0 4.5 5.0 5.5 6.0 7.0 8.0";
    uint64_t unit = 100000;
    uint64_t time_value = field(encoded, 6, 3);
    const char *value;
    int broken = (time_value == 0 ? 1 : 0) + (field(encoded, 2, 2) == 1 ? 2 : 0) + (field(encoded, 7, 7) == 1 ? 4 : 0);
    if (encoded > 255) {
        return refused(broken == 0 ? RATE_OVER_255 : RATE_OVER_255_BROKEN);
    }
    if (broken != 0) {
        return refused((enum kind)(RATE_GIVEN + broken));
    }
    for (uint64_t i = 0; i < field(encoded, 2, 0); i++) {
        unit = unit * 10;
    }
    value = values + 4 * (time_value - 1);
    return accepted(RATE_GIVEN, unit * (uint64_t)(value[0] - '0') + unit * (uint64_t)(value[2] - '0') / 10);
}

static struct due address_due(uint32_t high_capacity, uint64_t block_count, uint32_t index, uint64_t count)
{
    u128 end = (u128)index + count;
    uint64_t address = index;
    if (count == 0) {
        return refused(ADDRESS_NO_BLOCK);
    }
    if (count >= 512) {
        return refused(ADDRESS_TOO_MANY);
    }
    if (end > block_count) {
        return refused(ADDRESS_PAST_END);
    }
    if (high_capacity != 0) {
        return accepted(ADDRESS_SDHC, address);
    }
    for (int i = 0; i < 9; i++) {
        address = address + address;
    }
    if (address > UINT32_MAX) {
        return refused(ADDRESS_OVER_32_BITS);
    }
    return accepted(ADDRESS_SDSC, address);
}

/* The answer's number on top; below it the value, or at 13 the field. */
static uint64_t packed(struct due due)
{
    return (uint64_t)kinds[due.kind].answer << 56 | (due.value + kinds[due.kind].field);
}

/* ---- comparing ---- */

static const char *const function_names[FUNCTIONS] = { "clock", "count", "rate", "address" };
static const int arguments[FUNCTIONS] = { 3, 2, 1, 4 };
/* Which arguments have 64 bits; the others have 32. */
static const int wide[FUNCTIONS][4] = { { 0, 0, 0, 0 }, { 1, 1, 0, 0 }, { 0, 0, 0, 0 }, { 0, 1, 0, 1 } };

struct call {
    enum function function;
    uint64_t argument[4];
};

#define LENGTH(list) (sizeof(list) / sizeof((list)[0]))

static uint64_t checked[FUNCTIONS];
static uint64_t met[KINDS];
static uint64_t mismatches;

static uint64_t made(const struct call *call)
{
    const uint64_t *a = call->argument;
    switch (call->function) {
    case CLOCK:
        return boresacu_clock_setting((uint32_t)a[0], (uint32_t)a[1], (uint32_t)a[2]);
    case COUNT:
        return boresacu_block_count(a[0], a[1]);
    case RATE:
        return boresacu_transfer_rate((uint32_t)a[0]);
    default:
        return boresacu_block_address((uint32_t)a[0], a[1], (uint32_t)a[2], a[3]);
    }
}

static struct due due_of(const struct call *call)
{
    const uint64_t *a = call->argument;
    switch (call->function) {
    case CLOCK:
        return clock_due((uint32_t)a[0], (uint32_t)a[1], (uint32_t)a[2]);
    case COUNT:
        return count_due(a[0], a[1]);
    case RATE:
        return rate_due((uint32_t)a[0]);
    default:
        return address_due((uint32_t)a[0], a[1], (uint32_t)a[2], a[3]);
    }
}

static void show_result(const char *which, uint64_t result)
{
    printf("    %s 0x%016llx: answer %u, field %u, value %llu\n", which, (unsigned long long)result,
           boresacu_answer(result), boresacu_field(result), (unsigned long long)boresacu_value(result));
}

/* Holds a result to what is due, and shows the first that differs. */
static void compare(const struct call *call, uint64_t due)
{
    uint64_t got = made(call);
    checked[call->function]++;
    if (got == due) {
        return;
    }
    mismatches++;
    if (mismatches > 1) {
        return;
    }
    printf("MISMATCH: %s", function_names[call->function]);
    for (int i = 0; i < arguments[call->function]; i++) {
        printf(" 0x%llx", (unsigned long long)call->argument[i]);
    }
    printf("\n");
    show_result("got", got);
    show_result("due", due);
}

/* Whether the header's helpers take a result apart into what is due. */
static int decodes(uint64_t result, struct due due)
{
    uint64_t clock = (uint64_t)boresacu_clock_bypass(result) << 40 | (uint64_t)boresacu_clock_divisor_field(result) << 32
        | boresacu_clock_frequency(result);
    return boresacu_answer(result) == kinds[due.kind].answer && boresacu_field(result) == kinds[due.kind].field
        && boresacu_value(result) == due.value && (kinds[due.kind].function != CLOCK || clock == due.value);
}

static void check(enum function function, uint64_t a, uint64_t b, uint64_t c, uint64_t d)
{
    struct call call = { function, { a, b, c, d } };
    struct due due = due_of(&call);
    uint64_t result = packed(due);
    met[due.kind]++;
    compare(&call, result);
    if (!decodes(result, due) && mismatches++ == 0) {
        printf("MISMATCH: the header's helpers\n");
        show_result("take apart", result);
    }
}

static const struct {
    unsigned name;
    unsigned number;
} names[] = {
    { BORESACU_ACCEPTED, 0 },
    { BORESACU_UNSUPPORTED_CARD_TYPE, 13 },
    { BORESACU_BAD_CLOCK, 17 },
    { BORESACU_INVALID_BUFFER_LENGTH, 19 },
    { BORESACU_ADDRESS_OUT_OF_RANGE, 20 },
    { BORESACU_WRITE_PROTECTED, 26 },
    { BORESACU_FIELD_CSD_VERSION, 1 },
    { BORESACU_FIELD_BLOCK_LENGTH, 2 },
    { BORESACU_FIELD_RATE_UNIT, 3 },
    { BORESACU_FIELD_RATE_VALUE, 4 },
    { BORESACU_FIELD_RATE_RESERVED_BIT, 5 },
    { BORESACU_FIELD_CSD_AND_OCR, 6 },
    { BORESACU_FIELD_VOLTAGE, 7 },
    { BORESACU_FIELD_APP_COMMAND, 8 },
};

/* The header's names are the documents' numbers. */
static void check_names(void)
{
    for (size_t i = 0; i < LENGTH(names); i++) {
        if (names[i].name != names[i].number && mismatches++ == 0) {
            printf("MISMATCH: the header has a name for %u that is %u\n", names[i].number, names[i].name);
        }
    }
}

/* ---- inputs ---- */

static uint64_t state;

static uint64_t random64(void)
{
    uint64_t z = (state += UINT64_C(0x9e3779b97f4a7c15));
    z = (z ^ z >> 30) * UINT64_C(0xbf58476d1ce4e5b9);
    z = (z ^ z >> 27) * UINT64_C(0x94d049bb133111eb);
    return z ^ z >> 31;
}

static uint64_t below(uint64_t n)
{
    return random64() % n;
}

/* A number of up to so many bits, small ones as likely as large ones. */
static uint64_t of_any_size(unsigned bits)
{
    uint64_t size = below(bits + 1);
    return size == 0 ? 0 : random64() >> (64 - size);
}

static const uint64_t frequencies[] = {
    0, 1, 2, 3, 256, 257, 258, 399999, 400000, 400001, 12500000, 24000000, 25000000, 25000001, 50000000, 50000001,
    16711934, 16711935, 16711936, /* 257 times the second is the largest source */
    72000000, 79999999, 80000000, 80000001, 102800000, 102800001, 144000000, 160000000, 2147483647, 2147483648,
    4294967294, 4294967295
};
static const uint64_t flags[] = { 0, 1, 2, 256, 65536, 2147483648, 4294967295 };
static const uint64_t block_counts[] = {
    0, 1, 2, 510, 511, 512, 1024, 8388607, 8388608, 8388609, 4294967295, 4294967296, 4294967297,
    UINT64_C(0x7fffffffffffffff), UINT64_C(0x8000000000000000), UINT64_C(0xfffffffffffffffe), UINT64_C(0xffffffffffffffff)
};
static const uint64_t indices[] = {
    0, 1, 510, 511, 512, 8388606, 8388607, 8388608, 2147483648, 4294966784, 4294967294, 4294967295
};
static const uint64_t counts[] = {
    0, 1, 2, 510, 511, 512, 513, 65536, 4294967295, 4294967296, 4294967297, UINT64_C(0x8000000000000001),
    UINT64_C(0xfffffffffffffe01), UINT64_C(0xffffffffffffffff)
};

/* A CSD with these fields, its other bits from the filling. */
static u128 csd_with(uint64_t version, uint64_t length, uint64_t size, uint64_t multiplier, u128 filling)
{
    static const int places[4][2] = { { 127, 126 }, { 83, 80 }, { 73, 62 }, { 49, 47 } };
    static const int places_1[4][2] = { { 127, 126 }, { 83, 80 }, { 69, 48 }, { 49, 47 } };
    const uint64_t values[4] = { version, length, size, multiplier };
    for (int i = 0; i < (version == 1 ? 3 : 4); i++) {
        const int *place = version == 1 ? places_1[i] : places[i];
        for (int bit = place[1]; bit <= place[0]; bit++) {
            u128 one = (u128)1 << bit;
            filling = (values[i] >> (bit - place[1]) & 1) != 0 ? filling | one : filling & ~one;
        }
    }
    return filling;
}

static void check_count(uint64_t version, uint64_t length, uint64_t size, uint64_t multiplier, u128 filling)
{
    u128 csd = csd_with(version, length, size, multiplier, filling);
    check(COUNT, (uint64_t)(csd >> 64), (uint64_t)csd, 0, 0);
}

static void check_clocks(void)
{
    for (size_t i = 0; i < LENGTH(frequencies); i++) {
        for (size_t j = 0; j < LENGTH(frequencies); j++) {
            for (size_t k = 0; k < LENGTH(flags); k++) {
                check(CLOCK, frequencies[i], frequencies[j], flags[k], 0);
            }
        }
    }
    /* Just below, at and just above every multiple that a divisor can serve, and three past the last. */
    for (uint64_t divisor = 1; divisor <= 260; divisor++) {
        for (int past = -1; past <= 1; past++) {
            check(CLOCK, (uint64_t)((int64_t)(divisor * 400000) + past), 400000, divisor % 2, 0);
        }
    }
}

static void check_counts(void)
{
    for (int fill = 0; fill < 2; fill++) {
        u128 filling = fill == 0 ? 0 : ~(u128)0;
        for (uint64_t version = 0; version < 4; version++) {
            for (uint64_t length = 0; length < 16; length++) {
                for (uint64_t multiplier = 0; multiplier < 8; multiplier++) {
                    check_count(version, length, 0, multiplier, filling);
                    check_count(version, length, 4095, multiplier, filling);
                    check_count(version, length, 0x3fffff, multiplier, filling);
                    for (int bit = 0; bit < 22; bit++) {
                        check_count(version, length, (uint64_t)1 << bit, multiplier, filling);
                    }
                }
            }
        }
    }
}

/* All 256 bytes, alone, below each bit that a byte has not, and below all of them. */
static void check_rates(void)
{
    for (uint64_t encoded = 0; encoded < 256; encoded++) {
        check(RATE, encoded, 0, 0, 0);
        for (int bit = 8; bit < 32; bit++) {
            check(RATE, encoded | (uint64_t)1 << bit, 0, 0, 0);
        }
        check(RATE, encoded | UINT64_C(0xffffff00), 0, 0, 0);
    }
}

static void check_addresses(void)
{
    for (size_t i = 0; i < LENGTH(block_counts); i++) {
        for (size_t j = 0; j < LENGTH(indices); j++) {
            for (size_t k = 0; k < LENGTH(counts); k++) {
                for (size_t l = 0; l < LENGTH(flags); l++) {
                    check(ADDRESS, flags[l], block_counts[i], indices[j], counts[k]);
                }
            }
        }
    }
}

/* ---- fields over whole ranges ---- */

/* 1 to 8, and 0 for an answer without a field. */
enum { FIELDS = 9 };

/* Checks an input, and counts the field that the archive tells of it. What is no field is not counted, and so is missed. */
static void tally(uint64_t *told, enum function function, uint64_t a, uint64_t b)
{
    struct call call = { function, { a, b, 0, 0 } };
    unsigned number = boresacu_field(made(&call));
    if (number < FIELDS) {
        told[number]++;
    }
    check(function, a, b, 0, 0);
}

/* Holds the inputs that each field was told of to the number of them that there are. */
static void check_tally(const char *range, const uint64_t *told, const uint64_t *due)
{
    printf("%s, by field, 0 (none) to 8:", range);
    for (int i = 0; i < FIELDS; i++) {
        printf(" %llu", (unsigned long long)told[i]);
    }
    printf("\n");
    for (int i = 0; i < FIELDS; i++) {
        if (told[i] != due[i] && mismatches++ == 0) {
            printf("MISMATCH: field %d is due %llu times\n", i, (unsigned long long)due[i]);
        }
    }
}

/*
 * Half of the 256 bytes have bit 7; of the others half have a unit over 3, 64; of the 64 left the value is 0 with each of
 * four units. Other numbers come out if the rules are in another order, or two fields exchanged.
 */
static void check_rate_fields(void)
{
    static const struct {
        const char *range;
        uint64_t first, last;
        uint64_t due[FIELDS];
    } ranges[] = {
        { "rates 0 to 255", 0, 255, { 60, 0, 0, 64, 4, 128, 0, 0, 0 } },
        { "rates 256 to 65,535", 256, 65535, { 0, 0, 0, 0, 0, 65280, 0, 0, 0 } },
        { "the last 65,536 rates", 0xffff0000, 0xffffffff, { 0, 0, 0, 0, 0, 65536, 0, 0, 0 } },
    };
    for (size_t i = 0; i < LENGTH(ranges); i++) {
        uint64_t told[FIELDS] = { 0 };
        for (uint64_t encoded = ranges[i].first; encoded <= ranges[i].last; encoded++) {
            tally(told, RATE, encoded, 0);
        }
        check_tally(ranges[i].range, told, ranges[i].due);
    }
}

/*
 * Of the 64 pairs of a CSD's structure and block length, 32 have structure 2 or 3, whatever the length; of the 16 with
 * structure 0 three lengths are served, of the 16 with structure 1 one is. Four times, since the other bits make no
 * difference.
 */
static void check_count_fields(void)
{
    static const uint64_t due[FIELDS] = { 4 * 4, 4 * 32, 4 * 28, 0, 0, 0, 0, 0, 0 };
    static const uint64_t fillings[4] = { 0, UINT64_C(0x5555555555555555), UINT64_C(0xaaaaaaaaaaaaaaaa), UINT64_MAX };
    uint64_t told[FIELDS] = { 0 };
    for (size_t i = 0; i < LENGTH(fillings); i++) {
        for (uint64_t version = 0; version < 4; version++) {
            for (uint64_t length = 0; length < 16; length++) {
                u128 csd = csd_with(version, length, fillings[i], fillings[i], csd_of(fillings[i], fillings[i]));
                tally(told, COUNT, (uint64_t)(csd >> 64), (uint64_t)csd);
            }
        }
    }
    check_tally("CSDs of each structure and block length", told, due);
}

/* ---- random inputs ---- */

static uint64_t random_flag(void)
{
    return below(2) == 0 ? 0 : flags[below(LENGTH(flags))];
}

static void check_random_clock(void)
{
    uint64_t requested = below(8) == 0 ? frequencies[below(LENGTH(frequencies))] : 1 + below(80000000);
    uint64_t source;
    switch (below(4)) {
    case 0: /* at a divisor's edge */
        requested = 1 + below(16700000);
        source = requested * (1 + below(259)) + below(3) - 1;
        break;
    case 1:
        source = frequencies[below(LENGTH(frequencies))];
        break;
    case 2:
        requested = of_any_size(32);
        source = of_any_size(32);
        break;
    default:
        source = random64();
    }
    check(CLOCK, source % UINT64_C(0x100000000), requested, random_flag(), 0);
}

static void check_random_count(void)
{
    u128 filling = csd_of(random64(), random64());
    uint64_t version = below(8) == 0 ? 2 + below(2) : below(2);
    uint64_t length = below(4) == 0 ? below(16) : 9 + below(3);
    check_count(version, length, random64(), random64(), filling);
}

static void check_random_rate(void)
{
    switch (below(4)) {
    case 0:
        check(RATE, random64() >> 32, 0, 0, 0);
        break;
    case 1:
        check(RATE, of_any_size(32), 0, 0, 0);
        break;
    default:
        check(RATE, below(256), 0, 0, 0);
    }
}

static void check_random_address(void)
{
    uint64_t index = below(2) == 0 ? below(8388608) : of_any_size(32);
    uint64_t count = below(8) == 0 ? of_any_size(64) : 1 + below(511);
    uint64_t blocks;
    switch (below(4)) {
    case 0: /* at the card's end */
        blocks = index + count + below(3) - 1;
        break;
    case 1:
        blocks = of_any_size(64);
        break;
    case 2:
        blocks = block_counts[below(LENGTH(block_counts))];
        break;
    default:
        blocks = index + below(1024);
    }
    check(ADDRESS, random_flag(), blocks, index, count);
}

/* ---- the two ways of running ---- */

static int verdict(void)
{
    if (mismatches > 0) {
        printf("FAILED: %llu results differ from what is due\n", (unsigned long long)mismatches);
        return 1;
    }
    return 0;
}

static void check_boundaries(void)
{
    check_names();
    check_clocks();
    check_counts();
    check_count_fields();
    check_rates();
    check_rate_fields();
    check_addresses();
}

/* Tells how often each kind of answer was due, and gives whether one never was. */
static int show_kinds(void)
{
    int never = 0;
    for (int i = 0; i < KINDS; i++) {
        if (i == 0 || kinds[i].function != kinds[i - 1].function) {
            printf("%s: %llu calls\n", function_names[kinds[i].function], (unsigned long long)checked[kinds[i].function]);
        }
        printf("%12llu  answer %2u", (unsigned long long)met[i], kinds[i].answer);
        if (kinds[i].field != 0) {
            printf(" field %u", kinds[i].field);
        }
        printf("  %s\n", kinds[i].name);
        if (met[i] == 0) {
            printf("FAILED: no input had this answer due\n");
            never = 1;
        }
    }
    return never;
}

static int run(uint64_t rounds, uint64_t seed)
{
    int never;
    printf("seed %llu, %llu random inputs a function\n", (unsigned long long)seed, (unsigned long long)rounds);
    state = seed;
    check_boundaries();
    for (uint64_t i = 0; i < rounds; i++) {
        check_random_clock();
        check_random_count();
        check_random_rate();
        check_random_address();
    }
    never = show_kinds();
    if (verdict() != 0 || never) {
        return 1;
    }
    printf("%llu calls agree, each of %d kinds of answer met\n",
           (unsigned long long)(checked[CLOCK] + checked[COUNT] + checked[RATE] + checked[ADDRESS]), KINDS);
    return 0;
}

enum { LINE = 200 };

/* Reads a line without its end. Gives its length, -1 after the last, -2 where it is too long. */
static int read_line(char *line)
{
    int length = 0;
    int c = getchar();
    if (c < 0) {
        return -1;
    }
    while (c >= 0 && c != '\n') {
        if (length == LINE - 1) {
            return -2;
        }
        line[length++] = (char)c;
        c = getchar();
    }
    line[length] = 0;
    return length;
}

/* Takes the next word off the text: its start, or NULL at the end. */
static const char *next_word(char **text)
{
    char *start = *text;
    char *end;
    while (*start == ' ' || *start == '\t' || *start == '\r') {
        start++;
    }
    if (*start == 0 || *start == '#') {
        return NULL;
    }
    for (end = start; *end != 0 && *end != ' ' && *end != '\t' && *end != '\r'; end++) {
    }
    *text = *end == 0 ? end : end + 1;
    *end = 0;
    return start;
}

/* Reads a number, decimal or 0x, of at most so many bits. */
static int read_number(const char *word, int bits, uint64_t *number)
{
    u128 n = 0;
    unsigned base = 10;
    if (word[0] == '0' && (word[1] == 'x' || word[1] == 'X')) {
        base = 16;
        word += 2;
    }
    if (*word == 0) {
        return 0;
    }
    for (; *word != 0; word++) {
        unsigned digit = *word >= '0' && *word <= '9' ? (unsigned)(*word - '0')
            : *word >= 'a' && *word <= 'f' ? (unsigned)(*word - 'a') + 10
            : *word >= 'A' && *word <= 'F' ? (unsigned)(*word - 'A') + 10 : 16;
        if (digit >= base) {
            return 0;
        }
        n = n * base + digit;
        if (n >> bits != 0) {
            return 0;
        }
    }
    *number = (uint64_t)n;
    return 1;
}

static int same_word(const char *a, const char *b)
{
    while (*a != 0 && *a == *b) {
        a++;
        b++;
    }
    return *a == *b;
}

/*
 * Each line is a call and the result that it must have, numbers decimal or 0x; '#' starts a comment:
 *     clock SOURCE REQUESTED BYPASS RESULT      count HIGH LOW RESULT
 *     rate BYTE RESULT                          address HC BLOCKS INDEX COUNT RESULT
 */
static int lines(void)
{
    char line[LINE];
    uint64_t all = 0;
    int length;
    for (unsigned long number = 1; (length = read_line(line)) != -1; number++) {
        char *text = line;
        struct call call = { FUNCTIONS, { 0, 0, 0, 0 } };
        uint64_t due = 0;
        uint64_t before;
        const char *word;
        if (length == -2) {
            printf("line %lu: longer than %d characters\n", number, LINE - 1);
            return 2;
        }
        word = next_word(&text);
        if (word == NULL) {
            continue;
        }
        for (int i = 0; i < FUNCTIONS; i++) {
            if (same_word(word, function_names[i])) {
                call.function = (enum function)i;
            }
        }
        if (call.function == FUNCTIONS) {
            printf("line %lu: %s is none of clock, count, rate, address\n", number, word);
            return 2;
        }
        for (int i = 0; i <= arguments[call.function]; i++) {
            int last = i == arguments[call.function];
            int bits = last || wide[call.function][i] ? 64 : 32;
            word = next_word(&text);
            if (word == NULL) {
                printf("line %lu: %s takes %d numbers and a result\n", number, function_names[call.function],
                       arguments[call.function]);
                return 2;
            }
            if (!read_number(word, bits, last ? &due : &call.argument[i])) {
                printf("line %lu: %s is no number of %d bits\n", number, word, bits);
                return 2;
            }
        }
        if ((word = next_word(&text)) != NULL) {
            printf("line %lu: %s follows the result\n", number, word);
            return 2;
        }
        before = mismatches;
        compare(&call, due);
        if (before == 0 && mismatches == 1) {
            printf("    at line %lu\n", number);
        }
        all++;
    }
    if (all == 0) {
        printf("no line to compare\n");
        return 2;
    }
    if (verdict() != 0) {
        return 1;
    }
    printf("%llu lines agree\n", (unsigned long long)all);
    return 0;
}

int main(int argc, char **argv)
{
    uint64_t rounds = 1000000;
    uint64_t seed = 1;
    if (argc == 2 && same_word(argv[1], "lines")) {
        return lines();
    }
    if (argc > 3 || (argc > 1 && !read_number(argv[1], 40, &rounds)) || (argc > 2 && !read_number(argv[2], 64, &seed))) {
        printf("usage: test [ROUNDS [SEED]]  or  test lines < FILE\n");
        return 2;
    }
    return run(rounds, seed);
}

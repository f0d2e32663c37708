/*
 * count < INPUTS > RESULTS: calls boresacu_clock_setting for boundary/count, which counts in the emulator's log what is
 * executed from the function's entry to the return to main. An input is three words (source, request, whether the source may
 * be handed through), a result eight bytes; the low byte comes first. Exit status 1: the last input is cut.
 */
#include <stdint.h>

#include "boresacu.h"

int putchar(int c);
int getchar(void);
void known(void);

/* 202 instructions: one, a hundred times two, and the return. A log that counts another number here counts wrong. */
__asm__(".globl known\n"
        "known:\n"
        "    li a0, 100\n"
        "1:  addi a0, a0, -1\n"
        "    bnez a0, 1b\n"
        "    ret\n");

int main(void)
{
    known();
    for (;;) {
        uint32_t words[3] = { 0, 0, 0 };
        uint64_t result;
        for (int i = 0; i < 12; i++) {
            int c = getchar();
            if (c < 0) {
                return i == 0 ? 0 : 1;
            }
            words[i / 4] = words[i / 4] >> 8 | (uint32_t)c << 24;
        }
        result = boresacu_clock_setting(words[0], words[1], words[2]);
        for (int i = 0; i < 8; i++) {
            putchar((int)(result >> 8 * i & 255));
        }
    }
}

/*
 * books < PILE: what the proved host prints of each book of a pile (before each its length, four bytes, the low one first),
 * behind a line 'book K'. Exit status 1: the pile is cut, or a book is longer than there is room for.
 *
 * A length is a number of 64 bits here too: the crate's module has one width for it, whatever it is compiled for.
 */
#include <stdint.h>

int printf(const char *format, ...);
int putchar(int c);
int getchar(void);
uint64_t boresacu_meter_book(const uint8_t *bytes, uint64_t length, uint8_t *out, uint64_t room);

/* A book has at most 16,384 bytes, and more are none, whatever they are; no book's lines have more than 4,096. */
enum { MOST = 1 << 16, ROOM = 4096 };
static uint8_t book[MOST], lines[ROOM];

int main(void)
{
    for (unsigned k = 1;; k++) {
        uint32_t length = 0;
        uint64_t printed;
        for (int i = 0; i < 4; i++) {
            int c = getchar();
            if (c < 0) {
                return i == 0 ? 0 : 1;
            }
            length |= (uint32_t)c << 8 * i;
        }
        if (length > MOST) {
            return 1;
        }
        for (uint32_t i = 0; i < length; i++) {
            int c = getchar();
            if (c < 0) {
                return 1;
            }
            book[i] = (uint8_t)c;
        }
        printf("book %u\n", k);
        printed = boresacu_meter_book(book, length, lines, ROOM);
        for (uint64_t i = 0; i < printed; i++) {
            putchar(lines[i]);
        }
    }
}

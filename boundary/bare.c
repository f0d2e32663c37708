/*
 * What a C program needs on an emulated RISC-V that has no C library here: a start, three calls of Linux, the functions that
 * boundary/test.c, books.c and count.c declare, and those that compilers call by themselves (copies, 64-bit division).
 *
 * Exit status 3, which none of those programs has of its own: reading or writing failed, or printf met what it does not know.
 */
#include <stdarg.h>
#include <stddef.h>
#include <stdint.h>

int main(int argc, char **argv);
int printf(const char *format, ...);
int putchar(int c);
int getchar(void);
uint64_t __udivdi3(uint64_t n, uint64_t d);
uint64_t __umoddi3(uint64_t n, uint64_t d);
void *memcpy(void *to, const void *from, size_t n);
void *memmove(void *to, const void *from, size_t n);
void *memset(void *to, int c, size_t n);
void begin(long *stack);

/* ---- Linux ---- */

enum { READ = 63, WRITE = 64, EXIT = 93 };

static long linux(long number, long a, long b, long c)
{
    register long a0 __asm__("a0") = a;
    register long a1 __asm__("a1") = b;
    register long a2 __asm__("a2") = c;
    register long a7 __asm__("a7") = number;
    __asm__ volatile("ecall" : "+r"(a0) : "r"(a1), "r"(a2), "r"(a7) : "memory");
    return a0;
}

__attribute__((noreturn)) static void leave(int status)
{
    for (;;) {
        linux(EXIT, status, 0, 0);
    }
}

static char out[4096];
static size_t filled;

static void flush(void)
{
    for (size_t done = 0; done < filled;) {
        long n = linux(WRITE, 1, (long)(out + done), (long)(filled - done));
        if (n <= 0) {
            leave(3);
        }
        done += (size_t)n;
    }
    filled = 0;
}

int putchar(int c)
{
    if (filled == sizeof out) {
        flush();
    }
    out[filled++] = (char)c;
    return (unsigned char)c;
}

int getchar(void)
{
    static unsigned char in[4096];
    static size_t held, at;
    if (at == held) {
        long n = linux(READ, 0, (long)in, sizeof in);
        if (n < 0) {
            leave(3);
        }
        held = (size_t)n;
        at = 0;
        if (n == 0) {
            return -1;
        }
    }
    return in[at++];
}

/* The stack begins with the number of words and, behind it, the words themselves. */
__attribute__((used, noreturn)) void begin(long *stack)
{
    int status = main((int)stack[0], (char **)(stack + 1));
    flush();
    leave(status);
}

__asm__(".globl _start\n"
        "_start:\n"
        ".option push\n"
        ".option norelax\n" /* the linker's shorter forms lean on gp, which is set here */
        "    la gp, __global_pointer$\n"
        ".option pop\n"
        "    mv a0, sp\n"
        "    andi sp, sp, -16\n"
        "    call begin\n");

/* ---- what compilers call ---- */

/* By shifting and subtracting, a bit at a time, so that nothing in it is divided: short, and slow. */
static uint64_t divide(uint64_t n, uint64_t d, uint64_t *rest)
{
    uint64_t q = 0, r = 0;
    for (int bit = 63; bit >= 0; bit--) {
        uint64_t carry = r >> 63;
        r = r << 1 | (n >> bit & 1);
        if (carry != 0 || r >= d) {
            r -= d;
            q |= (uint64_t)1 << bit;
        }
    }
    *rest = r;
    return q;
}

/* Weak: where a compiler's own library is linked in front (boundary/count), its routine is taken. */
__attribute__((weak)) uint64_t __udivdi3(uint64_t n, uint64_t d)
{
    uint64_t rest;
    return divide(n, d, &rest);
}

__attribute__((weak)) uint64_t __umoddi3(uint64_t n, uint64_t d)
{
    uint64_t rest;
    divide(n, d, &rest);
    return rest;
}

/* Compiled with -ffreestanding, so that a loop that copies is not made a call of the very function that it stands in. */
void *memcpy(void *to, const void *from, size_t n)
{
    for (size_t i = 0; i < n; i++) {
        ((char *)to)[i] = ((const char *)from)[i];
    }
    return to;
}

void *memmove(void *to, const void *from, size_t n)
{
    if ((uintptr_t)to <= (uintptr_t)from) {
        return memcpy(to, from, n);
    }
    while (n > 0) {
        n--;
        ((char *)to)[n] = ((const char *)from)[n];
    }
    return to;
}

void *memset(void *to, int c, size_t n)
{
    for (size_t i = 0; i < n; i++) {
        ((char *)to)[i] = (char)c;
    }
    return to;
}

/* ---- printf ---- */

/* So much of it as is used here: %s; %d, of no number below 0; %u and %x, also with l or ll; before these three a width. */
int printf(const char *format, ...)
{
    va_list list;
    va_start(list, format);
    for (; *format != 0; format++) {
        char text[24];
        int width = 0, longs = 0, digits = 0;
        uint64_t n, base;
        char filling;
        if (*format != '%') {
            putchar(*format);
            continue;
        }
        format++;
        filling = *format == '0' ? '0' : ' ';
        for (; *format >= '0' && *format <= '9'; format++) {
            width = 10 * width + *format - '0';
        }
        for (; *format == 'l'; format++) {
            longs++;
        }
        if (*format == 's' && width == 0 && longs == 0) {
            for (const char *s = va_arg(list, const char *); *s != 0; s++) {
                putchar(*s);
            }
            continue;
        }
        if (longs > 2 || (*format != 'u' && *format != 'x' && (*format != 'd' || longs != 0))) {
            leave(3);
        }
        n = longs == 2 ? va_arg(list, unsigned long long) : longs == 1 ? va_arg(list, unsigned long) : va_arg(list, unsigned);
        if (*format == 'd' && n > INT32_MAX) {
            leave(3);
        }
        base = *format == 'x' ? 16 : 10;
        do {
            text[digits++] = "0123456789abcdef"[n % base];
            n /= base;
        } while (n != 0);
        for (int i = digits; i < width; i++) {
            putchar(filling);
        }
        while (digits > 0) {
            putchar(text[--digits]);
        }
    }
    va_end(list);
    return 0;
}

/* A C program's first instruction, its calls of Linux, and the few functions that tests/c/calls.c takes of a library: so it runs with none, on every machine that
 * an archive of tools/archive --target is for. Beside the archive's own memcpy this one has to stand in peace. */
#include "stdio.h"
#include "string.h"

#include <stdarg.h>
#include <stdint.h>

int main(void);

/* Linux starts a program with the stack pointer at a multiple of 16. */
#if defined(__x86_64__)
__asm__(".text\n.globl _start\n_start: call begin\n");
enum { WRITE = 1, EXIT = 60 };
#elif defined(__riscv)
__asm__(".text\n.globl _start\n_start:\n.option push\n.option norelax\nla gp, __global_pointer$\n.option pop\ncall begin\n");
enum { WRITE = 64, EXIT = 93 };
#else
__asm__(".text\n.globl _start\n_start: bl begin\n");
enum { WRITE = 64, EXIT = 93 };
#endif

static long linux_call(long number, long one, long two, long three)
{
#if defined(__x86_64__)
    long result;
    __asm__ volatile("syscall" : "=a"(result) : "a"(number), "D"(one), "S"(two), "d"(three) : "rcx", "r11", "memory");
    return result;
#elif defined(__aarch64__)
    register long x8 __asm__("x8") = number, x0 __asm__("x0") = one, x1 __asm__("x1") = two, x2 __asm__("x2") = three;
    __asm__ volatile("svc 0" : "+r"(x0) : "r"(x8), "r"(x1), "r"(x2) : "memory");
    return x0;
#else
    register long a7 __asm__("a7") = number, a0 __asm__("a0") = one, a1 __asm__("a1") = two, a2 __asm__("a2") = three;
#if defined(__riscv)
    __asm__ volatile("ecall" : "+r"(a0) : "r"(a7), "r"(a1), "r"(a2) : "memory");
#else
    __asm__ volatile("syscall 0" : "+r"(a0) : "r"(a7), "r"(a1), "r"(a2)
                     : "memory", "$t0", "$t1", "$t2", "$t3", "$t4", "$t5", "$t6", "$t7", "$t8");
#endif
    return a0;
#endif
}

__attribute__((noreturn, used)) void begin(void)
{
    const int status = main();
    for (;;) {
        linux_call(EXIT, status, 0, 0);
    }
}

static void put(const char *text, size_t length)
{
    while (length > 0) {
        const long written = linux_call(WRITE, 1, (long)(uintptr_t)text, (long)length);
        if (written <= 0) {
            return;
        }
        text += written;
        length -= (size_t)written;
    }
}

static void put_number(int number)
{
    char digits[12];
    size_t at = sizeof digits;
    unsigned left = number < 0 ? 0u - (unsigned)number : (unsigned)number;
    do {
        digits[--at] = (char)('0' + left % 10);
        left /= 10;
    } while (left > 0);
    if (number < 0) {
        digits[--at] = '-';
    }
    put(digits + at, sizeof digits - at);
}

int printf(const char *format, ...)
{
    va_list words;
    va_start(words, format);
    for (; *format; format++) {
        if (*format != '%') {
            put(format, 1);
        } else if (*++format == 's') {
            const char *text = va_arg(words, const char *);
            size_t length = 0;
            while (text[length]) {
                length++;
            }
            put(text, length);
        } else if (*format == 'd') {
            put_number(va_arg(words, int));
        } else {
            break;
        }
    }
    va_end(words);
    return 0;
}

void *memmove(void *to, const void *from, size_t count)
{
    unsigned char *target = to;
    const unsigned char *source = from;
    if ((uintptr_t)target < (uintptr_t)source) {
        for (size_t at = 0; at < count; at++) {
            target[at] = source[at];
        }
    } else {
        while (count-- > 0) {
            target[count] = source[count];
        }
    }
    return to;
}

void *memcpy(void *to, const void *from, size_t count) { return memmove(to, from, count); }

void *memset(void *to, int byte, size_t count)
{
    unsigned char *target = to;
    while (count-- > 0) {
        target[count] = (unsigned char)byte;
    }
    return to;
}

int memcmp(const void *one, const void *other, size_t count)
{
    const unsigned char *a = one, *b = other;
    for (size_t at = 0; at < count; at++) {
        if (a[at] != b[at]) {
            return a[at] - b[at];
        }
    }
    return 0;
}

int strcmp(const char *one, const char *other)
{
    while (*one && *one == *other) {
        one++;
        other++;
    }
    return (unsigned char)*one - (unsigned char)*other;
}

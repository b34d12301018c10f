/* Linux on aarch64, by system calls alone. */
#include "program.h"

static long call(long number, long a, long b, long c)
{
    register long x8 __asm__("x8") = number, x0 __asm__("x0") = a, x1 __asm__("x1") = b, x2 __asm__("x2") = c;
    __asm__ volatile("svc 0" : "+r"(x0) : "r"(x8), "r"(x1), "r"(x2) : "memory");
    return x0;
}

void put_text(const char *text, size_t length)
{
    call(64, 1, (long)text, (long)length);
}

_Noreturn void leave(int status)
{
    for (;;)
        call(93, status, 0, 0);
}

__asm__(".globl _start\n_start:\n mov x29, #0\n bl run\n");

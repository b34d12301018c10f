/* Linux on x86-64, by system calls alone. */
#include "program.h"

static long call(long number, long a, long b, long c)
{
    long result;
    __asm__ volatile("syscall" : "=a"(result) : "a"(number), "D"(a), "S"(b), "d"(c) : "rcx", "r11", "memory");
    return result;
}

void put_text(const char *text, size_t length)
{
    call(1, 1, (long)text, (long)length);
}

_Noreturn void leave(int status)
{
    for (;;)
        call(60, status, 0, 0);
}

__asm__(".globl _start\n_start:\n xor %ebp,%ebp\n and $-16,%rsp\n call run\n");

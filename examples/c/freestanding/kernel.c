/* A bare machine: the serial line, and the exit device of the emulator. */
#include "program.h"

#include <stdint.h>

static void out8(uint16_t port, uint8_t byte)
{
    __asm__ volatile("outb %0, %1" : : "a"(byte), "Nd"(port));
}

static uint8_t in8(uint16_t port)
{
    uint8_t byte;
    __asm__ volatile("inb %1, %0" : "=a"(byte) : "Nd"(port));
    return byte;
}

void put_text(const char *text, size_t length)
{
    for (size_t i = 0; i < length; i++) {
        while ((in8(0x3FD) & 0x20) == 0)
            ;
        out8(0x3F8, (uint8_t)text[i]);
    }
}

_Noreturn void leave(int status)
{
    out8(0xF4, (uint8_t)status);
    for (;;)
        __asm__ volatile("cli; hlt");
}

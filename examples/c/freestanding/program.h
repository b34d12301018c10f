/* What the program wants of what it runs on. */
#ifndef PROGRAM_H
#define PROGRAM_H

#include <stddef.h>

void put_text(const char *text, size_t length);
_Noreturn void leave(int status);

/* The program. */
void run(void);

#endif

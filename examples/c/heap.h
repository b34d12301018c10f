/* A heap over one block of memory of the program's own: it defines the three functions that the library takes memory by. It
 * has no lock: where several threads open, split or close, put one round them. Requests take no memory. */
#ifndef HEAP_H
#define HEAP_H

#include <stddef.h>

/* Before any other call: the block that memory is taken from. */
void heap_begin(void *block, size_t size);

/* How many bytes are taken, with the headers that the heap puts before them. */
size_t heap_used(void);

#endif

/* The three functions that the library takes memory by, over those of the C library. */
#include "yeqorwas.h"

#include <stdlib.h>

/* What a call that fails points to: never null. */
static unsigned char nothing;

static struct yeq_memory of(void *at)
{
    struct yeq_memory memory = { at != NULL, at != NULL ? at : &nothing };
    return memory;
}

struct yeq_memory rattle_alloc(size_t size, size_t align)
{
    return of(malloc(size != 0 ? size : align));
}

struct yeq_memory rattle_realloc(void *at, size_t kept, size_t size, size_t align)
{
    (void)kept;
    return of(realloc(at, size != 0 ? size : align));
}

void rattle_dealloc(void *at)
{
    free(at);
}

/* First fit: blocks of multiples of 16 bytes behind a header of 16, joined with those behind them when one is looked for. */
#include "heap.h"

#include "yeqorwas.h"

/* The archive wants it too. Where there is no C library there may be no string.h. */
void *memcpy(void *restrict to, const void *restrict from, size_t count);

struct block {
    size_t size; /* of what lies behind this header */
    size_t is_used;
};

static unsigned char *begin, *end;

/* What a call that fails points to: never null. */
static unsigned char nothing;

static struct block *behind(struct block *block)
{
    return (struct block *)((unsigned char *)(block + 1) + block->size);
}

static int is_inside(const struct block *block)
{
    return (const unsigned char *)block < end;
}

void heap_begin(void *block, size_t size)
{
    begin = (unsigned char *)(((uintptr_t)block + 15) & ~(uintptr_t)15);
    end = (unsigned char *)(((uintptr_t)block + size) & ~(uintptr_t)15);
    struct block *first = (struct block *)begin;
    first->size = (size_t)(end - begin) - sizeof *first;
    first->is_used = 0;
}

size_t heap_used(void)
{
    size_t used = 0;
    for (struct block *block = (struct block *)begin; is_inside(block); block = behind(block))
        used += block->is_used ? sizeof *block + block->size : 0;
    return used;
}

/* Makes a free block and the free ones right behind it one. */
static void join(struct block *block)
{
    while (is_inside(behind(block)) && !behind(block)->is_used)
        block->size += sizeof *block + behind(block)->size;
}

/* Takes so many bytes of a free block, and leaves the rest as a block of its own. */
static void *take_of(struct block *block, size_t size)
{
    if (block->size >= size + sizeof *block + 16) {
        struct block *rest = (struct block *)((unsigned char *)(block + 1) + size);
        rest->size = block->size - size - sizeof *block;
        rest->is_used = 0;
        block->size = size;
    }
    block->is_used = 1;
    return block + 1;
}

static struct yeq_memory take(size_t size)
{
    struct yeq_memory none = { 0, &nothing };
    if (size > (size_t)(end - begin))
        return none;
    size = size == 0 ? 16 : (size + 15) & ~(size_t)15;
    for (struct block *block = (struct block *)begin; is_inside(block); block = behind(block)) {
        if (block->is_used)
            continue;
        join(block);
        if (block->size >= size) {
            struct yeq_memory taken = { 1, take_of(block, size) };
            return taken;
        }
    }
    return none;
}

struct yeq_memory rattle_alloc(size_t size, size_t align)
{
    (void)align; /* it divides 16 */
    return take(size);
}

struct yeq_memory rattle_realloc(void *at, size_t kept, size_t size, size_t align)
{
    (void)align;
    struct block *block = (struct block *)at - 1;
    if (block->size >= size) {
        struct yeq_memory same = { 1, at };
        return same;
    }
    struct yeq_memory moved = take(size);
    if (moved.done) {
        memcpy(moved.at, at, kept);
        block->is_used = 0;
    }
    return moved;
}

void rattle_dealloc(void *at)
{
    ((struct block *)at - 1)->is_used = 0;
}

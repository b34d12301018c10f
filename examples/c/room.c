/* How much of a block of memory the handles take, over the heap of heap.c.
 *
 * usage: room BLOCK.. */
#include "heap.h"
#include "tables.h"

#include <stdio.h>
#include <stdlib.h>

enum { MEMORY = 256 << 20 };

static size_t before;

/* What was taken since the last call. */
static void tell(const char *what, int32_t status)
{
    if (status != YEQ_DONE) {
        printf("%s: %s\n", what, yeq_status_name(status));
        exit(1);
    }
    long taken = (long)heap_used() - (long)before;
    printf("%s: %ld\n", what, taken);
    before = heap_used();
}

int main(int argc, char **argv)
{
    struct yeq_machine machine = YEQ_HANDLE;
    struct yeq_seat small = YEQ_HANDLE, large = YEQ_HANDLE, other = YEQ_HANDLE;
    struct yeq_endless endless = YEQ_HANDLE, further = YEQ_HANDLE;
    struct yeq_cppc cppc = YEQ_HANDLE;
    void *memory = malloc(MEMORY);
    if (argc < 2 || memory == NULL) {
        fputs("usage: room BLOCK..\n", stderr);
        return 2;
    }
    heap_begin(memory, MEMORY);
    load_tables(&machine, argc - 1, argv + 1);
    tell("a machine with its blocks and its plan", YEQ_DONE);
    tell("a shared coordinator without entries", yeq_seat_open(&small, &machine, 0));
    tell("a shared coordinator of 65,536 entries", yeq_seat_open(&large, &machine, 65536));
    tell("a further seat", yeq_seat_split(&large, &other, 1));
    tell("a shared coordinator without end", yeq_endless_open(&endless, &machine));
    tell("a further seat of it", yeq_endless_split(&endless, &further, 1));
    tell("a coordinator by _CPC", yeq_cppc_open(&cppc, &machine));
    tell("what the start of one caller's coordinator adds", yeq_machine_start(&machine));
    yeq_seat_close(&small);
    yeq_seat_close(&other);
    yeq_seat_close(&large);
    yeq_endless_close(&further);
    yeq_endless_close(&endless);
    yeq_cppc_close(&cppc);
    yeq_machine_close(&machine);
    if (heap_used() != 0) {
        printf("left behind: %zu\n", heap_used());
        return 1;
    }
    free(memory);
    return 0;
}

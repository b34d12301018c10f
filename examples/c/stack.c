/* How much stack the calls take: they are made on a thread whose stack is painted before. Reading files isn't counted.
 *
 * usage: stack BLOCK.. */
#include "yeqorwas.h"

#include <pthread.h>
#include <stdio.h>
#include <stdlib.h>
#include <string.h>

enum { STACK = 1 << 20, MOST_BYTES = 4194304, PAINT = 0xA5 };

static uint8_t bytes[MOST_BYTES];
static size_t length;
static unsigned char *stack;
static int32_t ended;

static void *nothing(void *given)
{
    return given;
}

static void *use(void *given)
{
    struct yeq_machine machine = YEQ_HANDLE;
    struct yeq_seat first = YEQ_HANDLE, second = YEQ_HANDLE;
    struct yeq_endless third = YEQ_HANDLE, fourth = YEQ_HANDLE;
    struct yeq_cppc cppc = YEQ_HANDLE;
    struct yeq_request idle = { YEQ_REQUEST_IDLE, 0, { 1 }, YEQ_ANY_LATENCY };
    struct yeq_request perf = { YEQ_REQUEST_PERF, 0, { 1 }, 0 };
    struct yeq_cppc_request desired = { YEQ_CPPC_DESIRED, 0, 1 };
    struct yeq_cppc_reply performance;
    struct yeq_fault fault;
    struct yeq_reply reply;
    static struct yeq_op ops[256];
    uint32_t count = 0;
    uint8_t path[64];
    int32_t calls[] = {
        yeq_machine_open(&machine),
        yeq_machine_add_block(&machine, bytes, length, &fault),
        yeq_machine_plan(&machine, &fault, path, sizeof path),
        yeq_seat_open(&first, &machine, 16),
        yeq_seat_split(&first, &second, 1),
        yeq_seat_ask(&second, &idle, &reply),
        yeq_seat_ask(&second, &perf, &reply),
        yeq_seat_join(&first, &second),
        yeq_seat_seal(&first),
        yeq_seat_close(&first),
        yeq_endless_open(&third, &machine),
        yeq_endless_split(&third, &fourth, 1),
        yeq_endless_begin(&fourth, &idle, &reply),
        yeq_endless_ops(&fourth, ops, 256, &count),
        yeq_endless_finish(&fourth, count),
        yeq_endless_join(&third, &fourth),
        yeq_endless_close(&third),
        yeq_cppc_open(&cppc, &machine),
        yeq_cppc_ask(&cppc, &desired, &performance),
        yeq_cppc_close(&cppc),
        yeq_machine_start(&machine),
        yeq_machine_ask(&machine, &idle, &reply),
        yeq_machine_ask(&machine, &perf, &reply),
        yeq_machine_close(&machine),
    };
    for (size_t i = 0; i < sizeof calls / sizeof calls[0]; i++)
        if (calls[i] != YEQ_DONE)
            ended = calls[i];
    return given;
}

/* How much of the stack is no longer painted behind a thread that runs this. */
static size_t taken(void *(*run)(void *))
{
    pthread_attr_t attributes;
    pthread_t thread;
    size_t left = 0;
    memset(stack, PAINT, STACK);
    if (pthread_attr_init(&attributes) != 0 || pthread_attr_setstack(&attributes, stack, STACK) != 0
        || pthread_create(&thread, &attributes, run, NULL) != 0 || pthread_join(thread, NULL) != 0) {
        fputs("stack: no thread\n", stderr);
        exit(1);
    }
    pthread_attr_destroy(&attributes);
    while (left < STACK && stack[left] == PAINT)
        left++;
    return STACK - left;
}

int main(int argc, char **argv)
{
    if (argc < 2 || posix_memalign((void **)&stack, 4096, STACK) != 0) {
        fputs("usage: stack BLOCK..\n", stderr);
        return 2;
    }
    size_t most = 0;
    for (int i = 1; i < argc; i++) {
        FILE *file = fopen(argv[i], "rb");
        if (file == NULL) {
            perror(argv[i]);
            return 3;
        }
        length = fread(bytes, 1, sizeof bytes, file);
        fclose(file);
        size_t whole = taken(use), bare = taken(nothing);
        most = whole > bare + most ? whole - bare : most;
    }
    if (ended != YEQ_DONE) {
        printf("stack: %s\n", yeq_status_name(ended));
        return 1;
    }
    printf("stack, in bytes: %zu\n", most);
    free(stack);
    return 0;
}

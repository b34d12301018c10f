/* What a request costs through the library, in nanoseconds by the clock.
 *
 * usage: bench BLOCK.. */
#include "tables.h"

#include <stdio.h>
#include <stdlib.h>
#include <time.h>

enum { ROUNDS = 2000000, SEATS = 30, SEAT_ROUNDS = 30000, MOST_OPS = 1024 };

static double now(void)
{
    struct timespec time;
    clock_gettime(CLOCK_MONOTONIC, &time);
    return (double)time.tv_sec * 1e9 + (double)time.tv_nsec;
}

static void must(int32_t status)
{
    if (status != YEQ_DONE) {
        fprintf(stderr, "bench: %s\n", yeq_status_name(status));
        exit(1);
    }
}

/* The time of a request there and back, of one processor after the other, with or without its list. */
static double measure(struct yeq_machine *machine, uint32_t cpus, struct yeq_request there, struct yeq_request back, bool lists)
{
    static struct yeq_op ops[MOST_OPS];
    struct yeq_reply reply;
    uint32_t count;
    double begun = now();
    for (uint32_t i = 0; i < ROUNDS; i++) {
        there.cpu = back.cpu = i % cpus;
        must(yeq_machine_ask(machine, &there, &reply));
        if (lists)
            must(yeq_machine_ops(machine, ops, MOST_OPS, &count));
        must(yeq_machine_ask(machine, &back, &reply));
        if (lists)
            must(yeq_machine_ops(machine, ops, MOST_OPS, &count));
    }
    return (now() - begun) / (2.0 * ROUNDS);
}

/* The same by a seat of a shared coordinator with a journal, which is opened anew before it is full. */
static double measure_seat(struct yeq_machine *machine, uint32_t cpus, struct yeq_request there, struct yeq_request back)
{
    static struct yeq_op ops[MOST_OPS];
    struct yeq_reply reply;
    uint64_t number;
    uint32_t count;
    double taken = 0;
    for (uint32_t run = 0; run < SEATS; run++) {
        struct yeq_seat seat = YEQ_HANDLE;
        must(yeq_seat_open(&seat, machine, 2 * SEAT_ROUNDS));
        double begun = now();
        for (uint32_t i = 0; i < SEAT_ROUNDS; i++) {
            there.cpu = back.cpu = i % cpus;
            must(yeq_seat_ask(&seat, &there, &reply));
            must(yeq_seat_ops(&seat, ops, MOST_OPS, &count, &number));
            must(yeq_seat_ask(&seat, &back, &reply));
            must(yeq_seat_ops(&seat, ops, MOST_OPS, &count, &number));
        }
        taken += now() - begun;
        yeq_seat_close(&seat);
    }
    return taken / (2.0 * SEATS * SEAT_ROUNDS);
}

static void step(struct yeq_endless *seat, const struct yeq_request *request)
{
    static struct yeq_op ops[MOST_OPS];
    struct yeq_reply reply;
    uint32_t count;
    must(yeq_endless_begin(seat, request, &reply));
    must(yeq_endless_ops(seat, ops, MOST_OPS, &count));
    must(yeq_endless_finish(seat, count));
}

/* The same in two steps by a seat of one without end. */
static double measure_steps(struct yeq_machine *machine, uint32_t cpus, struct yeq_request there, struct yeq_request back)
{
    struct yeq_endless seat = YEQ_HANDLE;
    must(yeq_endless_open(&seat, machine));
    double begun = now();
    for (uint32_t i = 0; i < ROUNDS; i++) {
        there.cpu = back.cpu = i % cpus;
        step(&seat, &there);
        step(&seat, &back);
    }
    double taken = now() - begun;
    yeq_endless_close(&seat);
    return taken / (2.0 * ROUNDS);
}

int main(int argc, char **argv)
{
    struct yeq_machine machine = YEQ_HANDLE;
    struct yeq_counts counts;
    if (argc < 2) {
        fputs("usage: bench BLOCK..\n", stderr);
        return 2;
    }
    double begun = now();
    load_tables(&machine, argc - 1, argv + 1);
    printf("blocks and plan, in microseconds: %.0f\n", (now() - begun) / 1e3);
    must(yeq_machine_counts(&machine, &counts));
    struct yeq_request wake = { YEQ_REQUEST_WAKE, 0, { 0 }, 0 };
    struct yeq_request idle = { YEQ_REQUEST_IDLE, 0, { 1 }, YEQ_ANY_LATENCY };
    struct yeq_request slow = { YEQ_REQUEST_PERF, 0, { 1 }, 0 };
    struct yeq_request fast = { YEQ_REQUEST_PERF, 0, { 0 }, 0 };
    printf("idle and wake by a seat, with the lists: %.1f ns\n", measure_seat(&machine, counts.cpus, idle, wake));
    printf("idle and wake in two steps, with the lists: %.1f ns\n", measure_steps(&machine, counts.cpus, idle, wake));
    must(yeq_machine_start(&machine));
    printf("wake: %.1f ns\n", measure(&machine, counts.cpus, wake, wake, false));
    printf("idle and wake: %.1f ns, with the lists %.1f\n", measure(&machine, counts.cpus, idle, wake, false),
           measure(&machine, counts.cpus, idle, wake, true));
    printf("perf 1 and 0: %.1f ns, with the lists %.1f\n", measure(&machine, counts.cpus, slow, fast, false),
           measure(&machine, counts.cpus, slow, fast, true));
    yeq_machine_close(&machine);
    return 0;
}

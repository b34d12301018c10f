/* Four threads make requests of one coordinator, each by a seat of its own and without a lock. Then one caller makes the same
 * requests in the order of the numbers that the seats told: each reply and each list of operations has to be the same, and
 * the history that the coordinator leaves has to have these entries.
 *
 * usage: threads BLOCK.. */
#include "tables.h"

#include <pthread.h>
#include <sched.h>
#include <stdio.h>
#include <stdlib.h>
#include <string.h>

enum { THREADS = 4, REQUESTS = 15000, ALL = THREADS * REQUESTS, MOST_OPS = 1024 };

/* A request that was made, with its reply and its operations' sum. */
struct made {
    struct yeq_request request;
    struct yeq_reply reply;
    uint32_t seat;
    uint32_t ops;
    uint64_t sum;
};

struct caller {
    struct yeq_seat seat;
    uint32_t cpus, number, busy;
    int32_t status;
};

static struct caller callers[THREADS];
/* By their numbers in the history. No two threads are told one number, so each writes places of its own. */
static struct made history[ALL + 1];

static uint32_t draw(uint32_t *random)
{
    *random = *random * 1664525u + 1013904223u;
    return *random >> 8;
}

/* A sum over a list that tells lists apart which differ in a field or in their order. */
static uint64_t sum_of(const struct yeq_op *ops, uint32_t count)
{
    uint64_t sum = count;
    for (uint32_t i = 0; i < count; i++) {
        uint64_t fields[] = { ops[i].address, ops[i].value, ops[i].kind, ops[i].cpu, ops[i].space,
                              ops[i].width, ops[i].offset, ops[i].access, ops[i].length };
        for (size_t k = 0; k < sizeof fields / sizeof fields[0]; k++)
            sum = (sum ^ fields[k]) * 1099511628211u;
        for (size_t k = 0; k < sizeof ops[i].states; k++)
            sum = (sum ^ ops[i].states[k]) * 1099511628211u;
    }
    return sum;
}

static struct yeq_request any_request(uint32_t *random, uint32_t cpus)
{
    struct yeq_request request;
    request.kind = YEQ_REQUEST_IDLE + draw(random) % 6;
    request.cpu = draw(random) % cpus;
    request.state = request.kind == YEQ_REQUEST_WAKE ? 0 : draw(random) % 4;
    request.tolerance = YEQ_ANY_LATENCY;
    if (request.kind == YEQ_REQUEST_IDLE) {
        request.state++;
        if (draw(random) % 3 == 0)
            request.tolerance = 300;
    }
    return request;
}

static int32_t one_request(struct caller *caller, const struct yeq_request *request)
{
    struct yeq_op ops[MOST_OPS];
    struct yeq_reply reply;
    uint32_t count;
    uint64_t number;
    int32_t status;
    while ((status = yeq_seat_ask(&caller->seat, request, &reply)) == YEQ_BUSY) {
        caller->busy++;
        sched_yield();
    }
    if (status == YEQ_DONE)
        status = yeq_seat_ops(&caller->seat, ops, MOST_OPS, &count, &number);
    if (status != YEQ_DONE)
        return status;
    if (number == 0 || number > ALL || history[number].request.kind != 0)
        return YEQ_RANGE;
    struct made made = { *request, reply, caller->number, count, sum_of(ops, count) };
    history[number] = made;
    return YEQ_DONE;
}

static void *call(void *given)
{
    struct caller *caller = given;
    uint32_t random = caller->number * 2654435761u + 1;
    for (uint32_t i = 0; i < REQUESTS && caller->status == YEQ_DONE; i++) {
        struct yeq_request request = any_request(&random, caller->cpus);
        caller->status = one_request(caller, &request);
    }
    return NULL;
}

static void want(int holds, const char *what, unsigned number)
{
    if (!holds) {
        fprintf(stderr, "threads: %s %u\n", what, number);
        exit(1);
    }
}

static int same_request(const struct yeq_request *a, const struct yeq_request *b)
{
    return a->kind == b->kind && a->cpu == b->cpu && a->state == b->state
           && (a->kind != YEQ_REQUEST_IDLE || a->tolerance == b->tolerance);
}

static int same_reply(const struct yeq_reply *a, const struct yeq_reply *b)
{
    return a->kind == b->kind && a->index == b->index && a->why == b->why && a->length == b->length
           && memcmp(a->states, b->states, sizeof a->states) == 0;
}

/* Makes the requests of the history again, one after the other. */
static void make_again(struct yeq_machine *machine, struct yeq_seat *sealed)
{
    static struct yeq_op ops[MOST_OPS];
    want(yeq_machine_start(machine) == YEQ_DONE, "start", 0);
    for (unsigned i = 1; i <= ALL; i++) {
        const struct made *made = &history[i];
        struct yeq_entry entry;
        struct yeq_reply reply;
        uint32_t count;
        want(made->request.kind != 0, "no seat was told the number", i);
        want(yeq_seat_entry(sealed, i - 1, &entry) == YEQ_DONE, "entry", i);
        want(same_request(&entry.request, &made->request) && entry.fault == 0, "another request is entry", i);
        want(yeq_machine_ask(machine, &made->request, &reply) == YEQ_DONE, "request", i);
        want(same_reply(&reply, &made->reply), "another reply to request", i);
        want(yeq_machine_ops(machine, ops, MOST_OPS, &count) == YEQ_DONE, "operations of request", i);
        want(count == made->ops && sum_of(ops, count) == made->sum, "other operations of request", i);
    }
}

int main(int argc, char **argv)
{
    struct yeq_machine machine = YEQ_HANDLE;
    struct yeq_counts counts;
    pthread_t threads[THREADS];
    uint32_t busy = 0, entries;
    if (argc < 2) {
        fputs("usage: threads BLOCK..\n", stderr);
        return 2;
    }
    load_tables(&machine, argc - 1, argv + 1);
    want(yeq_machine_counts(&machine, &counts) == YEQ_DONE, "counts", 0);
    want(yeq_seat_open(&callers[0].seat, &machine, ALL) == YEQ_DONE, "open", 0);
    for (uint32_t i = 0; i < THREADS; i++) {
        callers[i].cpus = counts.cpus;
        callers[i].number = i;
        want(i == 0 || yeq_seat_split(&callers[0].seat, &callers[i].seat, 1) == YEQ_DONE, "split", i);
    }
    for (unsigned i = 0; i < THREADS; i++)
        want(pthread_create(&threads[i], NULL, call, &callers[i]) == 0, "thread", i);
    for (unsigned i = 0; i < THREADS; i++) {
        pthread_join(threads[i], NULL);
        want(callers[i].status == YEQ_DONE, yeq_status_name(callers[i].status), i);
        busy += callers[i].busy;
    }
    for (unsigned i = 1; i < THREADS; i++)
        want(yeq_seat_join(&callers[0].seat, &callers[i].seat) == YEQ_DONE, "join", i);
    want(yeq_seat_seal(&callers[0].seat) == YEQ_DONE, "seal", 0);
    want(yeq_seat_entries(&callers[0].seat, &entries) == YEQ_DONE && entries == ALL, "entries", entries);
    make_again(&machine, &callers[0].seat);
    printf("%u requests of %d threads: each reply and list is that of its place; %s\n", entries, THREADS,
           busy != 0 ? "threads met" : "no thread met another");
    yeq_seat_close(&callers[0].seat);
    yeq_machine_close(&machine);
    return 0;
}

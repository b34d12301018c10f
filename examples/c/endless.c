/* Four threads make requests in two steps of one coordinator without end, each by a seat of its own and without a lock.
 * Between the steps a thread alone has a request begun: there it makes the same request of a coordinator of one caller, which
 * the four share, and each reply and each list of operations has to be the same. No request may take memory: the program
 * counts the calls for it.
 *
 * usage: endless REQUESTS BLOCK.. */
#include "tables.h"

#include <pthread.h>
#include <sched.h>
#include <stdatomic.h>
#include <stdio.h>
#include <stdlib.h>
#include <string.h>

enum { THREADS = 4, MOST_OPS = 1024 };

struct caller {
    struct yeq_endless seat;
    uint32_t cpus, number, requests, busy;
    const char *wrong;
};

static struct caller callers[THREADS];
/* The coordinator of one caller, for the thread that has a request begun. */
static struct yeq_machine again = YEQ_HANDLE;

static atomic_ulong calls;
static unsigned char nothing;

static struct yeq_memory of(void *at)
{
    struct yeq_memory memory = { at != NULL, at != NULL ? at : &nothing };
    calls++;
    return memory;
}

struct yeq_memory rattle_alloc(size_t size, size_t align)
{
    return of(malloc(size != 0 ? size : align));
}

struct yeq_memory rattle_realloc(void *at, size_t kept, size_t size, size_t align)
{
    (void)kept;
    return of(realloc(at, size != 0 ? size : align));
}

void rattle_dealloc(void *at)
{
    free(at);
}

static uint32_t draw(uint32_t *random)
{
    *random = *random * 1664525u + 1013904223u;
    return *random >> 8;
}

static struct yeq_request any_request(uint32_t *random, uint32_t cpus)
{
    struct yeq_request request;
    request.kind = YEQ_REQUEST_IDLE + draw(random) % 6;
    request.cpu = draw(random) % cpus;
    request.state = request.kind == YEQ_REQUEST_WAKE ? 0 : draw(random) % 4;
    request.tolerance = YEQ_ANY_LATENCY;
    if (request.kind == YEQ_REQUEST_IDLE) {
        request.state++;
        if (draw(random) % 3 == 0)
            request.tolerance = 300;
    }
    return request;
}

static int same_reply(const struct yeq_reply *a, const struct yeq_reply *b)
{
    return a->kind == b->kind && a->index == b->index && a->why == b->why && a->length == b->length
           && memcmp(a->states, b->states, sizeof a->states) == 0;
}

static int same_op(const struct yeq_op *a, const struct yeq_op *b)
{
    return a->address == b->address && a->value == b->value && a->kind == b->kind && a->cpu == b->cpu && a->space == b->space
           && a->width == b->width && a->offset == b->offset && a->access == b->access && a->length == b->length
           && memcmp(a->states, b->states, sizeof a->states) == 0;
}

/* Whether a seat and the coordinator of one caller list the same operations, and how many. */
static const char *same_lists(struct yeq_endless *seat, uint32_t *count)
{
    struct yeq_op ops[MOST_OPS], others[MOST_OPS];
    uint32_t more;
    if (yeq_endless_ops(seat, ops, MOST_OPS, count) != YEQ_DONE || yeq_machine_ops(&again, others, MOST_OPS, &more) != YEQ_DONE)
        return "operations";
    if (*count != more)
        return "another number of operations";
    for (uint32_t i = 0; i < more; i++)
        if (!same_op(&ops[i], &others[i]))
            return "another operation";
    return NULL;
}

/* What the thread that has begun a request does in place of operating registers. */
static const char *make_again(struct yeq_endless *seat, const struct yeq_request *request, const struct yeq_reply *reply,
                              uint32_t *count)
{
    struct yeq_reply other;
    if (yeq_machine_ask(&again, request, &other) != YEQ_DONE)
        return "the same request of one caller";
    if (!same_reply(reply, &other))
        return "another reply";
    return same_lists(seat, count);
}

static const char *one_request(struct caller *caller, const struct yeq_request *request)
{
    struct yeq_reply reply;
    uint32_t count = 0;
    int32_t status;
    while ((status = yeq_endless_begin(&caller->seat, request, &reply)) == YEQ_BUSY) {
        caller->busy++;
        sched_yield();
    }
    if (status != YEQ_DONE)
        return yeq_status_name(status);
    const char *wrong = make_again(&caller->seat, request, &reply, &count);
    if (yeq_endless_finish(&caller->seat, count) != YEQ_DONE && wrong == NULL)
        wrong = "finish";
    return wrong;
}

static void *call(void *given)
{
    struct caller *caller = given;
    uint32_t random = caller->number * 2654435761u + 1;
    for (uint32_t i = 0; i < caller->requests && caller->wrong == NULL; i++) {
        struct yeq_request request = any_request(&random, caller->cpus);
        caller->wrong = one_request(caller, &request);
    }
    return NULL;
}

static void want(int holds, const char *what, unsigned number)
{
    if (!holds) {
        fprintf(stderr, "endless: %s %u\n", what, number);
        exit(1);
    }
}

/* The seats of the four threads, and the coordinator of one caller, with the same operations at the start. */
static void open_all(uint32_t requests)
{
    struct yeq_counts counts;
    uint32_t count;
    want(yeq_machine_counts(&again, &counts) == YEQ_DONE, "counts", 0);
    want(yeq_endless_open(&callers[0].seat, &again) == YEQ_DONE, "open", 0);
    want(yeq_machine_start(&again) == YEQ_DONE, "start", 0);
    want(same_lists(&callers[0].seat, &count) == NULL, "the operations at the start", count);
    for (uint32_t i = 0; i < THREADS; i++) {
        callers[i].cpus = counts.cpus;
        callers[i].number = i;
        callers[i].requests = requests / THREADS;
        want(i == 0 || yeq_endless_split(&callers[0].seat, &callers[i].seat, 1) == YEQ_DONE, "split", i);
    }
}

int main(int argc, char **argv)
{
    struct yeq_seat_facts facts;
    pthread_t threads[THREADS];
    uint32_t busy = 0;
    unsigned long requests = argc < 3 ? 0 : strtoul(argv[1], NULL, 10);
    if (requests == 0 || requests > UINT32_MAX) {
        fputs("usage: endless REQUESTS BLOCK..\n", stderr);
        return 2;
    }
    load_tables(&again, argc - 2, argv + 2);
    open_all((uint32_t)requests);
    unsigned long before = calls;
    for (unsigned i = 0; i < THREADS; i++)
        want(pthread_create(&threads[i], NULL, call, &callers[i]) == 0, "thread", i);
    for (unsigned i = 0; i < THREADS; i++) {
        pthread_join(threads[i], NULL);
        want(callers[i].wrong == NULL, callers[i].wrong, i);
        busy += callers[i].busy;
    }
    want(calls == before, "calls for memory, besides", (unsigned)before);
    for (unsigned i = 1; i < THREADS; i++)
        want(yeq_endless_join(&callers[0].seat, &callers[i].seat) == YEQ_DONE, "join", i);
    want(yeq_endless_tell(&callers[0].seat, &facts) == YEQ_DONE && facts.parts == 65536, "parts", facts.parts);
    printf("%llu requests of %d threads in two steps, and no memory taken: each reply and list is that of its place; %s\n",
           (unsigned long long)facts.seen, THREADS, busy != 0 ? "threads met" : "no thread met another");
    want(yeq_endless_close(&callers[0].seat) == YEQ_DONE, "close", 0);
    want(yeq_machine_close(&again) == YEQ_DONE, "close", 1);
    return 0;
}

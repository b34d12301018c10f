/* Wrong calls, and each allocation failing in turn: each ends with a status, changes nothing, and loses nothing. It has the
 * three functions that take memory itself, to count and to fail.
 *
 * usage: misuse BLOCK, a block whose processor 0 has an idle state that operates a register, and whose opening has two operations at
 * least */
#include "tables.h"

#include <stdio.h>
#include <stdlib.h>
#include <string.h>

enum { MOST_BYTES = 4194304 };

static unsigned char nothing;
static unsigned long calls, fails;
static long held;

/* The call that failed was to make a block smaller: the block stays as it was, and no call tells of it. */
static int spared;

struct yeq_memory rattle_alloc(size_t size, size_t align)
{
    void *at = ++calls == fails ? NULL : malloc(size != 0 ? size : align);
    held += at != NULL;
    struct yeq_memory memory = { at != NULL, at != NULL ? at : &nothing };
    return memory;
}

struct yeq_memory rattle_realloc(void *at, size_t kept, size_t size, size_t align)
{
    void *moved = ++calls == fails ? NULL : realloc(at, size != 0 ? size : align);
    spared = spared || (calls == fails && size <= kept);
    struct yeq_memory memory = { moved != NULL, moved != NULL ? moved : &nothing };
    return memory;
}

void rattle_dealloc(void *at)
{
    free(at);
    held--;
}

static uint8_t bytes[MOST_BYTES];
static size_t length;
static int wrong, tried;

static void want(const char *what, int32_t found, int32_t wanted)
{
    tried++;
    if (found != wanted) {
        printf("%s: %d (%s), not %d\n", what, (int)found, yeq_status_name(found), (int)wanted);
        wrong = 1;
    }
}

static const struct yeq_request idle = { YEQ_REQUEST_IDLE, 0, { 1 }, YEQ_ANY_LATENCY };

/* A machine with its plan. */
static int32_t plan(struct yeq_machine *machine)
{
    struct yeq_fault fault;
    uint8_t path[64];
    int32_t status = yeq_machine_open(machine);
    if (status == YEQ_DONE)
        status = yeq_machine_add_block(machine, bytes, length, &fault);
    if (status == YEQ_DONE)
        status = yeq_machine_plan(machine, &fault, path, sizeof path);
    return status;
}

static void misuse_machines(void)
{
    struct yeq_machine m = YEQ_HANDLE;
    struct yeq_fault fault;
    struct yeq_counts counts;
    struct yeq_reply reply;
    struct yeq_cpu cpu;
    struct yeq_op op;
    struct yeq_request request = idle;
    uint8_t path[64];
    uint32_t count = 77;
    size_t size;
    want("close of a closed machine", yeq_machine_close(&m), YEQ_CLOSED);
    want("block for a closed machine", yeq_machine_add_block(&m, bytes, length, &fault), YEQ_CLOSED);
    want("plan of a closed machine", yeq_machine_plan(&m, &fault, path, sizeof path), YEQ_CLOSED);
    want("request of a closed machine", yeq_machine_ask(&m, &request, &reply), YEQ_CLOSED);
    want("open", yeq_machine_open(&m), YEQ_DONE);
    want("open twice", yeq_machine_open(&m), YEQ_OPEN);
    want("request before a plan", yeq_machine_ask(&m, &request, &reply), YEQ_KIND);
    want("counts before a plan", yeq_machine_counts(&m, &counts), YEQ_KIND);
    want("start before a plan", yeq_machine_start(&m), YEQ_KIND);
    want("no bytes", yeq_machine_add_block(&m, bytes, 0, &fault), YEQ_BLOCK);
    want("no bytes: why", (int32_t)fault.why, YEQ_HEADER_SHORT);
    want("a cut block", yeq_machine_add_block(&m, bytes, length - 1, &fault), YEQ_BLOCK);
    want("a cut block: why", (int32_t)fault.why, YEQ_HEADER_LENGTH);
    want("block", yeq_machine_add_block(&m, bytes, length, &fault), YEQ_DONE);
    want("the same block", yeq_machine_add_block(&m, bytes, length, &fault), YEQ_DONE);
    want("two objects of one path", yeq_machine_plan(&m, &fault, path, sizeof path), YEQ_TWICE);
    want("counts after that", yeq_machine_counts(&m, &counts), YEQ_KIND);
    want("close", yeq_machine_close(&m), YEQ_DONE);
    want("close twice", yeq_machine_close(&m), YEQ_CLOSED);
    want("plan", plan(&m), YEQ_DONE);
    want("plan twice", yeq_machine_plan(&m, &fault, path, sizeof path), YEQ_KIND);
    want("block behind the plan", yeq_machine_add_block(&m, bytes, length, &fault), YEQ_KIND);
    want("counts", yeq_machine_counts(&m, &counts), YEQ_DONE);
    want("no such processor", yeq_machine_cpu(&m, counts.cpus, &cpu, path, sizeof path, &size), YEQ_RANGE);
    want("no room for a path", yeq_machine_cpu(&m, 0, &cpu, path, 3, &size), YEQ_ROOM);
    want("room that is enough", yeq_machine_cpu(&m, 0, &cpu, path, size, &size), YEQ_DONE);
    want("operations before the start", yeq_machine_ops(&m, &op, 1, &count), YEQ_KIND);
    want("start", yeq_machine_start(&m), YEQ_DONE);
    want("start twice", yeq_machine_start(&m), YEQ_KIND);
    op.cpu = 4711;
    want("no room for operations", yeq_machine_ops(&m, &op, 1, &count), YEQ_ROOM);
    want("no room for operations: none is written", (int32_t)op.cpu, 4711);
    reply.kind = 4711;
    request.cpu = counts.cpus;
    want("request of no processor", yeq_machine_ask(&m, &request, &reply), YEQ_RANGE);
    request = idle;
    request.kind = YEQ_REQUEST_THROTTLE_LIMIT + 1;
    want("no such kind of request", yeq_machine_ask(&m, &request, &reply), YEQ_RANGE);
    request.kind = 0;
    want("no kind of request", yeq_machine_ask(&m, &request, &reply), YEQ_RANGE);
    want("no reply is written", (int32_t)reply.kind, 4711);
    want("close what is started", yeq_machine_close(&m), YEQ_DONE);
}

static void misuse_seats(void)
{
    struct yeq_machine m = YEQ_HANDLE;
    struct yeq_seat seat = YEQ_HANDLE, other = YEQ_HANDLE;
    struct yeq_seat_facts facts;
    struct yeq_entry entry;
    struct yeq_reply reply;
    struct yeq_request request = idle;
    uint32_t count;
    want("request of no seat", yeq_seat_ask(&seat, &request, &reply), YEQ_CLOSED);
    want("join of no seats", yeq_seat_join(&seat, &other), YEQ_CLOSED);
    want("seal of no seat", yeq_seat_seal(&seat), YEQ_CLOSED);
    want("seat of a closed machine", yeq_seat_open(&seat, &m, 1), YEQ_CLOSED);
    want("open", yeq_machine_open(&m), YEQ_DONE);
    want("seat of a machine without a plan", yeq_seat_open(&seat, &m, 1), YEQ_KIND);
    yeq_machine_close(&m);
    want("plan", plan(&m), YEQ_DONE);
    want("too many entries", yeq_seat_open(&seat, &m, 65537), YEQ_RANGE);
    want("seat", yeq_seat_open(&seat, &m, 1), YEQ_DONE);
    want("seat in an open handle", yeq_seat_open(&seat, &m, 1), YEQ_OPEN);
    want("the machine has its plan", yeq_machine_start(&m), YEQ_DONE);
    want("seat of a started machine", yeq_seat_open(&other, &m, 1), YEQ_KIND);
    want("no parts", yeq_seat_split(&seat, &other, 0), YEQ_RANGE);
    want("all parts", yeq_seat_split(&seat, &other, 65536), YEQ_RANGE);
    want("entry before the end", yeq_seat_entry(&seat, 0, &entry), YEQ_KIND);
    want("entries before the end", yeq_seat_entries(&seat, &count), YEQ_KIND);
    want("split", yeq_seat_split(&seat, &other, 1), YEQ_DONE);
    want("split into an open handle", yeq_seat_split(&seat, &other, 1), YEQ_OPEN);
    want("what a seat knows", yeq_seat_tell(&seat, &facts), YEQ_DONE);
    want("what a seat knows: its parts", (int32_t)facts.parts, 65535);
    request.cpu = 256;
    want("request of no processor", yeq_seat_ask(&other, &request, &reply), YEQ_RANGE);
    request = idle;
    want("request", yeq_seat_ask(&other, &request, &reply), YEQ_DONE);
    reply.kind = 4711;
    want("request of a full history", yeq_seat_ask(&seat, &request, &reply), YEQ_FULL);
    want("no reply is written", (int32_t)reply.kind, 4711);
    want("seal with a seat out", yeq_seat_seal(&seat), YEQ_SEATS);
    want("join", yeq_seat_join(&seat, &other), YEQ_DONE);
    want("close of what was joined", yeq_seat_close(&other), YEQ_CLOSED);
    want("seal", yeq_seat_seal(&seat), YEQ_DONE);
    want("request after the end", yeq_seat_ask(&seat, &request, &reply), YEQ_KIND);
    want("split after the end", yeq_seat_split(&seat, &other, 1), YEQ_KIND);
    want("entries", yeq_seat_entries(&seat, &count), YEQ_DONE);
    want("entries: one", (int32_t)count, 1);
    want("entry", yeq_seat_entry(&seat, 0, &entry), YEQ_DONE);
    want("no such entry", yeq_seat_entry(&seat, 1, &entry), YEQ_RANGE);
    want("close", yeq_seat_close(&seat), YEQ_DONE);
    yeq_machine_close(&m);
}

static void misuse_endless(void)
{
    struct yeq_machine m = YEQ_HANDLE;
    struct yeq_endless seat = YEQ_HANDLE, other = YEQ_HANDLE, third = YEQ_HANDLE;
    struct yeq_seat_facts facts;
    struct yeq_reply reply;
    struct yeq_request request = idle;
    struct yeq_op ops[256];
    uint32_t count;
    want("request of no seat", yeq_endless_begin(&seat, &request, &reply), YEQ_CLOSED);
    want("end of a request of no seat", yeq_endless_finish(&seat, 0), YEQ_CLOSED);
    want("join of no seats", yeq_endless_join(&seat, &other), YEQ_CLOSED);
    want("seat of a closed machine", yeq_endless_open(&seat, &m), YEQ_CLOSED);
    want("open", yeq_machine_open(&m), YEQ_DONE);
    want("seat of a machine without a plan", yeq_endless_open(&seat, &m), YEQ_KIND);
    yeq_machine_close(&m);
    want("plan", plan(&m), YEQ_DONE);
    want("seat", yeq_endless_open(&seat, &m), YEQ_DONE);
    want("seat in an open handle", yeq_endless_open(&seat, &m), YEQ_OPEN);
    want("no room for operations", yeq_endless_ops(&seat, ops, 1, &count), YEQ_ROOM);
    want("no parts", yeq_endless_split(&seat, &other, 0), YEQ_RANGE);
    want("all parts", yeq_endless_split(&seat, &other, 65536), YEQ_RANGE);
    want("split", yeq_endless_split(&seat, &other, 1), YEQ_DONE);
    want("split into an open handle", yeq_endless_split(&seat, &other, 1), YEQ_OPEN);
    want("operations at the start, of another seat", yeq_endless_ops(&other, ops, 0, &count), YEQ_DONE);
    want("end of no request", yeq_endless_finish(&seat, 0), YEQ_NOT_BEGUN);
    request.cpu = 256;
    want("request of no processor", yeq_endless_begin(&seat, &request, &reply), YEQ_RANGE);
    request = idle;
    want("request", yeq_endless_begin(&seat, &request, &reply), YEQ_DONE);
    reply.kind = 4711;
    want("request of who has begun one", yeq_endless_begin(&seat, &request, &reply), YEQ_BEGUN);
    want("request while another has begun", yeq_endless_begin(&other, &request, &reply), YEQ_BUSY);
    want("no reply is written", (int32_t)reply.kind, 4711);
    want("split of who has begun", yeq_endless_split(&seat, &third, 1), YEQ_BEGUN);
    want("join of who has begun", yeq_endless_join(&seat, &other), YEQ_BEGUN);
    want("join into another", yeq_endless_join(&other, &seat), YEQ_BEGUN);
    want("what it knows", yeq_endless_tell(&seat, &facts), YEQ_BEGUN);
    want("close of who has begun", yeq_endless_close(&seat), YEQ_BEGUN);
    want("operations", yeq_endless_ops(&seat, ops, 256, &count), YEQ_DONE);
    want("more operations than there are", yeq_endless_finish(&seat, count + 1), YEQ_RANGE);
    want("all of them", yeq_endless_finish(&seat, count), YEQ_DONE);
    want("end of what has ended", yeq_endless_finish(&seat, count), YEQ_NOT_BEGUN);
    want("no operations", yeq_endless_ops(&seat, ops, 0, &count), YEQ_DONE);
    want("what it knows", yeq_endless_tell(&seat, &facts), YEQ_DONE);
    want("what it knows: its entry", (int32_t)facts.seen, 1);
    request.kind = YEQ_REQUEST_WAKE;
    request.state = 0;
    want("wake", yeq_endless_begin(&seat, &request, &reply), YEQ_DONE);
    want("wake: its operations", yeq_endless_ops(&seat, ops, 256, &count), YEQ_DONE);
    want("wake: its end", yeq_endless_finish(&seat, count), YEQ_DONE);
    request = idle;
    want("a request whose register fails", yeq_endless_begin(&other, &request, &reply), YEQ_DONE);
    want("none of its operations", yeq_endless_finish(&other, 0), YEQ_DONE);
    want("request behind a fault", yeq_endless_begin(&seat, &request, &reply), YEQ_STOPPED);
    want("what it knows", yeq_endless_tell(&seat, &facts), YEQ_DONE);
    want("what it knows: all entries", (int32_t)facts.seen, 3);
    want("join", yeq_endless_join(&seat, &other), YEQ_DONE);
    want("close of what was joined", yeq_endless_close(&other), YEQ_CLOSED);
    want("close", yeq_endless_close(&seat), YEQ_DONE);
    yeq_machine_close(&m);
}

static void misuse_cppc(void)
{
    struct yeq_machine m = YEQ_HANDLE;
    struct yeq_cppc cppc = YEQ_HANDLE;
    struct yeq_cppc_request request = { YEQ_CPPC_DESIRED, 256, 1 };
    struct yeq_cppc_reply reply;
    struct yeq_op op;
    uint32_t count;
    want("request of a closed handle", yeq_cppc_ask(&cppc, &request, &reply), YEQ_CLOSED);
    want("operations of a closed handle", yeq_cppc_ops(&cppc, &op, 1, &count), YEQ_CLOSED);
    want("handle of a closed machine", yeq_cppc_open(&cppc, &m), YEQ_CLOSED);
    want("plan", plan(&m), YEQ_DONE);
    want("open", yeq_cppc_open(&cppc, &m), YEQ_DONE);
    want("open twice", yeq_cppc_open(&cppc, &m), YEQ_OPEN);
    want("request of no processor", yeq_cppc_ask(&cppc, &request, &reply), YEQ_RANGE);
    request.cpu = 0;
    request.kind = 0;
    want("no kind of request", yeq_cppc_ask(&cppc, &request, &reply), YEQ_RANGE);
    request.kind = YEQ_CPPC_DESIRED;
    want("request", yeq_cppc_ask(&cppc, &request, &reply), YEQ_DONE);
    want("close", yeq_cppc_close(&cppc), YEQ_DONE);
    want("close twice", yeq_cppc_close(&cppc), YEQ_CLOSED);
    yeq_machine_close(&m);
}

/* One whole use of the library. Where a call lacks memory, the same call is made again with memory at hand and must be done:
 * so what it needs was not lost. Counts how many calls lacked memory. */
#define ONCE(call)                                                                                                     \
    do {                                                                                                               \
        int32_t once = (call);                                                                                         \
        lacked += once == YEQ_NO_MEMORY;                                                                               \
        want(#call, once == YEQ_NO_MEMORY ? (call) : once, YEQ_DONE);                                                  \
    } while (0)

static int use(void)
{
    struct yeq_machine m = YEQ_HANDLE;
    struct yeq_seat first = YEQ_HANDLE, second = YEQ_HANDLE;
    struct yeq_endless third = YEQ_HANDLE, fourth = YEQ_HANDLE;
    struct yeq_cppc cppc = YEQ_HANDLE;
    struct yeq_fault fault;
    struct yeq_reply reply;
    struct yeq_op ops[256];
    uint8_t path[64];
    uint32_t count;
    int lacked = 0;
    ONCE(yeq_machine_open(&m));
    ONCE(yeq_machine_add_block(&m, bytes, length, &fault));
    ONCE(yeq_machine_plan(&m, &fault, path, sizeof path));
    ONCE(yeq_seat_open(&first, &m, 100));
    ONCE(yeq_seat_split(&first, &second, 1000));
    ONCE(yeq_seat_ask(&second, &idle, &reply));
    ONCE(yeq_seat_join(&first, &second));
    ONCE(yeq_seat_seal(&first));
    ONCE(yeq_endless_open(&third, &m));
    ONCE(yeq_endless_split(&third, &fourth, 1000));
    ONCE(yeq_endless_begin(&fourth, &idle, &reply));
    ONCE(yeq_endless_ops(&fourth, ops, 256, &count));
    ONCE(yeq_endless_finish(&fourth, count));
    ONCE(yeq_endless_join(&third, &fourth));
    ONCE(yeq_cppc_open(&cppc, &m));
    ONCE(yeq_machine_start(&m));
    ONCE(yeq_machine_ops(&m, ops, 256, &count));
    ONCE(yeq_machine_ask(&m, &idle, &reply));
    yeq_machine_close(&m);
    yeq_seat_close(&first);
    yeq_endless_close(&third);
    yeq_cppc_close(&cppc);
    return lacked;
}

int main(int argc, char **argv)
{
    FILE *file = argc == 2 ? fopen(argv[1], "rb") : NULL;
    if (file == NULL) {
        fputs("usage: misuse BLOCK\n", stderr);
        return 2;
    }
    length = fread(bytes, 1, sizeof bytes, file);
    fclose(file);
    misuse_machines();
    misuse_seats();
    misuse_endless();
    misuse_cppc();
    int calls_tried = tried;
    unsigned long failed = 0;
    do {
        calls = 0;
        spared = 0;
        fails = ++failed;
        int lacked = use();
        if (held != 0) {
            printf("failure %lu: %ld blocks held\n", failed, held);
            return 1;
        }
        if (lacked == 0 && !spared && calls >= fails) {
            printf("failure %lu: no call told of it\n", failed);
            return 1;
        }
    } while (calls >= fails && !wrong);
    printf("%d calls as they must be; each of %lu allocations failed in turn, nothing lost\n", calls_tried, failed - 1);
    return wrong;
}

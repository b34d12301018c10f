/* A program with no C library: it reads a table that is linked in, makes requests, and prints the operations of each. Its heap
 * is one block of its own. */
#include "program.h"

#include "../heap.h"
#include "yeqorwas.h"

extern const uint8_t table_begin[], table_end[];

static unsigned char memory[1 << 20];

/* The three functions of the C library that the archive wants. A compiler may call them too. */
void *memmove(void *to, const void *from, size_t count)
{
    unsigned char *t = to;
    const unsigned char *f = from;
    if (t < f)
        for (size_t i = 0; i < count; i++)
            t[i] = f[i];
    else
        while (count-- > 0)
            t[count] = f[count];
    return to;
}

void *memcpy(void *restrict to, const void *restrict from, size_t count)
{
    return memmove(to, from, count);
}

void *memset(void *to, int byte, size_t count)
{
    unsigned char *t = to;
    for (size_t i = 0; i < count; i++)
        t[i] = (unsigned char)byte;
    return to;
}

static void put(const char *text)
{
    size_t length = 0;
    while (text[length] != 0)
        length++;
    put_text(text, length);
}

static void put_number(const char *before, uint64_t number, unsigned base)
{
    char digits[20];
    size_t at = sizeof digits;
    do
        digits[--at] = "0123456789ABCDEF"[number % base];
    while ((number /= base) != 0);
    put(before);
    put_text(digits + at, sizeof digits - at);
}

static void must(int32_t status, int ends)
{
    if (status == YEQ_DONE)
        return;
    put(yeq_status_name(status));
    put("\n");
    leave(ends);
}

static void put_ops(struct yeq_machine *machine)
{
    struct yeq_op ops[16];
    uint32_t count = 0;
    must(yeq_machine_ops(machine, ops, 16, &count), 2);
    for (uint32_t i = 0; i < count; i++) {
        put(ops[i].kind == YEQ_OP_SET ? "  set" : "  enter");
        put_number(" cpu ", ops[i].cpu, 10);
        put_number(" register 0x", ops[i].address, 16);
        if (ops[i].kind == YEQ_OP_SET)
            put_number(" value 0x", ops[i].value, 16);
        put("\n");
    }
}

static void ask(struct yeq_machine *machine, const struct yeq_request *request)
{
    struct yeq_reply reply;
    must(yeq_machine_ask(machine, request, &reply), 3);
    put_number("request ", request->kind, 10);
    put_number(" of cpu ", request->cpu, 10);
    put_number(": reply ", reply.kind, 10);
    put_number(" ", reply.length != 0 ? reply.states[0] : reply.index, 10);
    put("\n");
    put_ops(machine);
}

void run(void)
{
    static const struct yeq_request requests[] = {
        { YEQ_REQUEST_IDLE, 0, { 3 }, YEQ_ANY_LATENCY },
        { YEQ_REQUEST_IDLE, 1, { 3 }, 1000 },
        { YEQ_REQUEST_PERF, 0, { 2 }, 0 },
        { YEQ_REQUEST_PERF, 1, { 3 }, 0 },
    };
    struct yeq_machine machine = YEQ_HANDLE;
    struct yeq_fault fault = { 0, 0, 0, 0, 0, 0 };
    struct yeq_counts counts;
    uint8_t path[64];
    heap_begin(memory, sizeof memory);
    must(yeq_machine_open(&machine), 1);
    must(yeq_machine_add_block(&machine, table_begin, (size_t)(table_end - table_begin), &fault), 1);
    must(yeq_machine_plan(&machine, &fault, path, sizeof path), 1);
    must(yeq_machine_counts(&machine, &counts), 1);
    put_number("processors ", counts.cpus, 10);
    put_number(" domains ", counts.domains, 10);
    put("\n");
    must(yeq_machine_start(&machine), 1);
    put("open\n");
    put_ops(&machine);
    for (size_t i = 0; i < sizeof requests / sizeof requests[0]; i++)
        ask(&machine, &requests[i]);
    must(yeq_machine_close(&machine), 1);
    put_number("heap ", heap_used(), 10);
    put("\n");
    leave(0);
}

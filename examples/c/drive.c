/* Prints the history of a script on the machine of some tables, as `pw drive --serial SCRIPT BLOCK..` does.
 *
 * usage: drive SCRIPT BLOCK..
 * A line of the script is a processor's path and `idle N`, `idle N TOLERANCE`, `wake`, `perf N`, `throttle N`, `plimit N`
 * or `tlimit N`; one that is empty or begins with # asks nothing. `within` and `notify` are decided by a governor and a
 * handler, which are the caller's own. */
#include "tables.h"

#include <inttypes.h>
#include <stdio.h>
#include <stdlib.h>
#include <string.h>

enum { MOST_CPUS = 256, MOST_PATH = 1280, MOST_OPS = 1024, MOST_LINE = 2048 };

static char paths[MOST_CPUS][MOST_PATH + 1];
static uint32_t cpus;

static _Noreturn void stop(const char *what, int32_t status, int ends)
{
    fprintf(stderr, "%s: %s\n", what, yeq_status_name(status));
    exit(ends);
}

static void print_ops(struct yeq_machine *machine)
{
    static struct yeq_op ops[MOST_OPS];
    uint32_t count;
    int32_t status = yeq_machine_ops(machine, ops, MOST_OPS, &count);
    if (status != YEQ_DONE)
        stop("operations", status, 7);
    for (uint32_t i = 0; i < count; i++) {
        const struct yeq_op *op = &ops[i];
        printf("  %s %s [%u,%u,%u,%u,0x%" PRIX64 "]", op->kind == YEQ_OP_SET ? "set" : "enter", paths[op->cpu],
               op->space, op->width, op->offset, op->access, op->address);
        if (op->kind == YEQ_OP_SET)
            printf(" 0x%" PRIX64, op->value);
        putchar('\n');
    }
}

static void print_reply(const struct yeq_reply *reply)
{
    fputs(reply->kind >= YEQ_REPLY_NO_STATE ? " -> refused " : " -> ", stdout);
    switch (reply->kind) {
    case YEQ_REPLY_ENTERED:
        fputs("entered", stdout);
        for (unsigned i = 0; i < reply->length; i++)
            printf(" %u", reply->states[i]);
        break;
    case YEQ_REPLY_RUNNING: fputs("running", stdout); break;
    case YEQ_REPLY_STANDS: printf("stands %" PRIu32, reply->index); break;
    case YEQ_REPLY_NO_STATE: printf("no state, count %" PRIu32, reply->count); break;
    case YEQ_REPLY_DISABLED: fputs("disabled", stdout); break;
    case YEQ_REPLY_ABOVE_LIMIT: printf("above limit %" PRIu32, reply->limit); break;
    case YEQ_REPLY_NO_TABLE: fputs("no table", stdout); break;
    case YEQ_REPLY_UNFIT: printf("unfit domain %" PRIu32 " why %u", reply->domain, reply->why); break;
    case YEQ_REPLY_TOO_SLOW: printf("latency %" PRIu32, reply->latency); break;
    }
    putchar('\n');
}

/* The number of the processor with this path, whose segments may lack the filling `_`; or how many there are. */
static uint32_t find(const char *path)
{
    char whole[MOST_PATH + 1] = "\\";
    size_t at = 1, in_segment = 0;
    for (const char *p = path + 1; at < MOST_PATH - 4; p++) {
        if (*p != '.' && *p != 0) {
            whole[at++] = *p;
            in_segment++;
            continue;
        }
        for (; in_segment < 4; in_segment++)
            whole[at++] = '_';
        if (*p == 0)
            break;
        whole[at++] = '.';
        in_segment = 0;
    }
    whole[at] = 0;
    uint32_t cpu = 0;
    while (cpu < cpus && strcmp(paths[cpu], whole) != 0)
        cpu++;
    return cpu;
}

static const char *const words[] = { "", "idle", "wake", "perf", "throttle", "plimit", "tlimit" };

/* What a line asks for; false where it has no such form. */
static bool read_request(const char *line, struct yeq_request *request)
{
    char path[MOST_LINE], word[16];
    uint32_t number = 0, tolerance = YEQ_ANY_LATENCY;
    int fields = sscanf(line, "%2047s %15s %" SCNu32 " %" SCNu32, path, word, &number, &tolerance);
    if (fields < 2 || path[0] != '\\')
        return false;
    request->kind = 0;
    for (uint32_t kind = YEQ_REQUEST_IDLE; kind <= YEQ_REQUEST_THROTTLE_LIMIT; kind++)
        if (strcmp(words[kind], word) == 0)
            request->kind = kind;
    request->cpu = find(path);
    request->state = number;
    request->tolerance = tolerance;
    return request->kind != 0 && request->cpu < cpus;
}

static void print_request(unsigned number, const struct yeq_request *request)
{
    printf("%u %s %s", number, paths[request->cpu], words[request->kind]);
    if (request->kind != YEQ_REQUEST_WAKE)
        printf(" %" PRIu32, request->state);
    if (request->kind == YEQ_REQUEST_IDLE && request->tolerance != YEQ_ANY_LATENCY)
        printf(" %" PRIu32, request->tolerance);
}

static void drive(struct yeq_machine *machine, FILE *script)
{
    char line[MOST_LINE];
    unsigned number = 0;
    for (unsigned at = 1; fgets(line, sizeof line, script) != NULL; at++) {
        struct yeq_request request;
        struct yeq_reply reply;
        size_t spaces = strspn(line, " \r\n");
        if (line[spaces] == 0 || line[spaces] == '#')
            continue;
        if (!read_request(line, &request)) {
            fprintf(stderr, "script: line %u\n", at);
            exit(7);
        }
        int32_t status = yeq_machine_ask(machine, &request, &reply);
        if (status != YEQ_DONE)
            stop("request", status, 7);
        print_request(++number, &request);
        print_reply(&reply);
        print_ops(machine);
    }
}

static void learn_paths(struct yeq_machine *machine)
{
    struct yeq_counts counts;
    int32_t status = yeq_machine_counts(machine, &counts);
    cpus = status == YEQ_DONE ? counts.cpus : 0;
    for (uint32_t cpu = 0; cpu < cpus && status == YEQ_DONE; cpu++) {
        struct yeq_cpu told;
        size_t length;
        status = yeq_machine_cpu(machine, cpu, &told, (uint8_t *)paths[cpu], MOST_PATH, &length);
        paths[cpu][status == YEQ_DONE ? length : 0] = 0;
    }
    if (status != YEQ_DONE)
        stop("plan", status, 7);
}

int main(int argc, char **argv)
{
    struct yeq_machine machine = YEQ_HANDLE;
    if (argc < 3) {
        fputs("usage: drive SCRIPT BLOCK..\n", stderr);
        return 2;
    }
    load_tables(&machine, argc - 2, argv + 2);
    learn_paths(&machine);
    FILE *script = fopen(argv[1], "r");
    if (script == NULL) {
        perror(argv[1]);
        return 3;
    }
    int32_t status = yeq_machine_start(&machine);
    if (status != YEQ_DONE)
        stop("start", status, 6);
    puts("open");
    print_ops(&machine);
    drive(&machine, script);
    fclose(script);
    yeq_machine_close(&machine);
    return 0;
}

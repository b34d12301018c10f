/* The first answer: a processor goes idle, and these registers are to be operated.
 *
 * usage: first BLOCK.. */
#include "tables.h"

#include <inttypes.h>
#include <stdio.h>

int main(int argc, char **argv)
{
    struct yeq_machine machine = YEQ_HANDLE;
    struct yeq_request idle = { YEQ_REQUEST_IDLE, 0, { 2 }, YEQ_ANY_LATENCY };
    struct yeq_reply reply;
    struct yeq_op ops[256];
    uint32_t count;
    load_tables(&machine, argc - 1, argv + 1);
    if (yeq_machine_start(&machine) != YEQ_DONE || yeq_machine_ask(&machine, &idle, &reply) != YEQ_DONE)
        return 1;
    if (yeq_machine_ops(&machine, ops, 256, &count) != YEQ_DONE)
        return 1;
    if (reply.kind == YEQ_REPLY_ENTERED)
        printf("processor 0 goes to its idle state %u\n", reply.states[0]);
    for (uint32_t i = 0; i < count; i++)
        printf("%s the register at 0x%" PRIX64 " of processor %" PRIu32 "\n", ops[i].kind == YEQ_OP_SET ? "write" : "enter by",
               ops[i].address, ops[i].cpu);
    yeq_machine_close(&machine);
    return 0;
}

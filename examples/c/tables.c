#include "tables.h"

#include <stdio.h>
#include <stdlib.h>

enum { MOST_BYTES = 4194304, MOST_PATH = 1280 };

static uint8_t bytes[MOST_BYTES + 1];

static size_t read_file(const char *name)
{
    FILE *file = fopen(name, "rb");
    if (file == NULL) {
        perror(name);
        exit(3);
    }
    size_t length = fread(bytes, 1, sizeof bytes, file);
    if (ferror(file)) {
        perror(name);
        exit(3);
    }
    fclose(file);
    return length;
}

void load_tables(struct yeq_machine *machine, int count, char *const names[])
{
    uint8_t path[MOST_PATH];
    struct yeq_fault fault = { 0, 0, 0, 0, 0, 0 };
    int32_t status = yeq_machine_open(machine);
    for (int i = 0; i < count && status == YEQ_DONE; i++)
        status = yeq_machine_add_block(machine, bytes, read_file(names[i]), &fault);
    if (status == YEQ_DONE)
        status = yeq_machine_plan(machine, &fault, path, sizeof path);
    if (status == YEQ_DONE)
        return;
    int length = fault.path_length <= sizeof path ? (int)fault.path_length : 0;
    fprintf(stderr, "%s: why %u, at byte %llu or element %u.%u %.*s\n", yeq_status_name(status), (unsigned)fault.why,
            (unsigned long long)fault.at, (unsigned)fault.outer, (unsigned)fault.inner, length, (char *)path);
    exit(status == YEQ_NO_MEMORY ? 6 : 1);
}

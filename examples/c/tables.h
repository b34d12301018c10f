/* What the programs of this folder share: files as bytes, and a machine with the plan of the blocks in them. */
#ifndef TABLES_H
#define TABLES_H

#include "yeqorwas.h"

/* Opens a machine, adds the blocks in these files and makes the plan. Ends the program where that can't be, with a line
 * on the error output. */
void load_tables(struct yeq_machine *machine, int count, char *const names[]);

#endif

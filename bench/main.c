/*
 * bench agreement CALLS SEED     the sides agree on so many random calls
 * bench count                    the calls of each row, for callgrind
 * bench table ROUNDS [COUNTS]    times, and the instructions in that file
 * bench stack
 */
#include "parts.h"

#include <stdio.h>
#include <stdlib.h>
#include <string.h>

int main(int argc, char **argv)
{
    const char *part = argc > 1 ? argv[1] : "";

    if (strcmp(part, "agreement") == 0 && argc == 4)
        agreement_part(strtoul(argv[2], NULL, 10), strtoull(argv[3], NULL, 10));
    else if (strcmp(part, "count") == 0 && argc == 2)
        count_part();
    else if (strcmp(part, "table") == 0 && (argc == 3 || argc == 4))
        table_part(atoi(argv[2]), argc == 4 ? argv[3] : NULL);
    else if (strcmp(part, "stack") == 0 && argc == 2)
        stack_part();
    else {
        fprintf(stderr, "see main.c for the arguments\n");
        return 2;
    }
    return 0;
}

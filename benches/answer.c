/* The shortest host from a table to its answer, for ./bench: reads the width and the table from standard input and the
 * input words from the command line, checks and compiles the table, evaluates it, and prints the cycles and the words.
 * Exits with 1 where a call is refused. */
#include "rumiotka.h"
#include <inttypes.h>
#include <stdio.h>
#include <stdlib.h>

/* Reads a decimal number from standard input; gives 0 where there is none. */
static int next(uint32_t *number)
{
    int byte = getchar_unlocked();
    while (byte == ' ' || byte == '\n')
        byte = getchar_unlocked();
    if (byte < '0' || byte > '9')
        return 0;
    for (*number = 0; byte >= '0' && byte <= '9'; byte = getchar_unlocked())
        *number = *number * 10 + (uint32_t)(byte - '0');
    return 1;
}

/* Takes the table to its answer. */
int main(int argc, char **argv)
{
    static uint32_t table[1024], netlist[16384], width, words[16];
    uint32_t compiled[22], evaluated[21];
    size_t count = 0, given = 0;
    if (!next(&width))
        return 1;
    while (count < 1024 && next(&table[count]))
        count++;
    while (given < 16 && given + 1 < (size_t)argc) {
        words[given] = (uint32_t)strtoul(argv[given + 1], NULL, 10);
        given++;
    }
    rumiotka_compile(width, table, count, netlist, 16384, compiled);
    rumiotka_evaluate(width, table, count, words, given, UINT32_MAX, evaluated);
    printf("%" PRIu32, evaluated[3]);
    for (uint32_t j = 0; j < evaluated[4]; j++)
        printf(" %" PRIu32, evaluated[5 + j]);
    printf("\n");
    return compiled[0] != 0 || evaluated[0] != 0 || evaluated[2] == 0;
}

/* Spells the names of C++ of a file, one a line, as people write them, by libiberty: names FILE */
#include <stdio.h>
#include <stdlib.h>
#include <string.h>
#include "demangle.h"

int main(int n, char **words)
{
    static char line[1 << 16];
    FILE *file = n == 2 ? fopen(words[1], "r") : NULL;
    size_t letters = 0;
    if (!file)
        return 2;
    while (fgets(line, sizeof line, file)) {
        line[strcspn(line, "\n")] = 0;
        char *told = cplus_demangle(line, DMGL_PARAMS | DMGL_ANSI);
        letters += told ? strlen(told) : 0;
        free(told);
    }
    printf("%zu letters\n", letters);
    return 0;
}

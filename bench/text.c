/* Makes a branch text, always the same for the same words: text BYTES KINDS
 * Each line is a sample of 32 branches as `perf script -F ip,brstack` prints them. Of the branches every second one is
 * one of 1,024 hot ones and every other one of KINDS, which lie 16 bytes apart. */
#include <inttypes.h>
#include <stdint.h>
#include <stdio.h>
#include <stdlib.h>

static uint64_t state = 0x2545f4914f6cdd1du;

static uint64_t next(uint64_t below)
{
    state ^= state << 13;
    state ^= state >> 7;
    state ^= state << 17;
    return state % below;
}

static uint64_t source(uint64_t kind)
{
    return 0x40001000u + kind * 16;
}

static uint64_t target(uint64_t kind)
{
    return 0x40001000u + (kind * 0x9e3779b1u & 0x3fffff) * 16;
}

int main(int argc, char **argv)
{
    uint64_t bytes = argc == 3 ? strtoull(argv[1], NULL, 10) : 0;
    uint64_t kinds = argc == 3 ? strtoull(argv[2], NULL, 10) : 0;
    uint64_t made = 0;
    if (!bytes || !kinds)
        return 2;
    while (made < bytes) {
        int n = printf("%16" PRIx64 " ", source(next(kinds)));
        for (int i = 0; i < 32; i++) {
            uint64_t kind = next(i % 2 && kinds > 1024 ? 1024 : kinds);
            n += printf("0x%" PRIx64 "/0x%" PRIx64 "/P/-/-/%d//-  ", source(kind), target(kind), (int)next(30));
        }
        n += printf("\n");
        made += (uint64_t)n;
    }
    return fclose(stdout) != 0;
}

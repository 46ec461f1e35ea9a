/* alike names|keyed|keys COUNT: prints a profile text of COUNT functions, or of one function with COUNT lines, whose hashes agree in the
 * low bits by which a table of so many finds them, by the fixed seed of the kit's hasher: names byte by byte, or as a whole behind a
 * key of 0. They are found by trying. */
#include <inttypes.h>
#include <stdio.h>
#include <stdlib.h>
#include <string.h>

static const uint64_t multiplier = 0x9E3779B97F4A7C15, seed = 0x243F6A8885A308D3;

static uint64_t folded(uint64_t a, uint64_t b) {
    unsigned __int128 product = (unsigned __int128)a * b;
    return (uint64_t)product ^ (uint64_t)(product >> 64);
}

/* The state behind a write of so many bytes, of which that number is made. */
static uint64_t written(uint64_t state, uint64_t number, uint64_t bytes) {
    return folded(state ^ number, multiplier ^ 2 * bytes);
}

static uint64_t one_byte(uint64_t state, uint64_t n) {
    return written(state, n | n << 8 | n << 16, 1);
}

static uint64_t two_bytes(uint64_t state, uint64_t n) {
    return written(state, n | n >> 8 << 16, 2);
}

static uint64_t four_bytes(uint64_t state, uint64_t n) {
    return written(state, n | n << 32, 4);
}

static uint32_t in_table(uint64_t hash) {
    return (uint32_t)(hash ^ hash >> 32);
}

/* A name of twelve bytes but for its last one: the state of the hasher behind it, and how the last one ends it. */
struct begun {
    uint64_t state, last_eight;
};

/* Written byte by byte behind its length. */
static struct begun by_bytes(const char *name) {
    uint64_t state = written(seed, 12, 8);
    for (int i = 0; i < 11; i++)
        state = one_byte(state, (unsigned char)name[i]);
    return (struct begun){state, 0};
}

static uint64_t ended_by_a_byte(struct begun name, uint64_t last) {
    return one_byte(name.state, last);
}

/* Written at once behind a key of 0. */
static struct begun at_once(const char *name) {
    uint64_t first, last;
    memcpy(&first, name, 8);
    memcpy(&last, name + 4, 8);
    return (struct begun){first ^ (written(seed, 0, 8) + 12), last};
}

static uint64_t ended_at_once(struct begun name, uint64_t last) {
    return folded(name.state, (name.last_eight | last << 56) ^ multiplier);
}

/* The names `n`, ten hexadecimal digits and a letter. */
static void names(long count, uint32_t mask, struct begun (*begin)(const char *), uint64_t (*end)(struct begun, uint64_t)) {
    for (uint64_t k = 0; count > 0; k++) {
        char name[16];
        snprintf(name, sizeof name, "n%010" PRIx64, k);
        struct begun begun = begin(name);
        for (int last = 'A'; last <= 'Z' && count > 0; last++)
            if (!(in_table(end(begun, (uint64_t)last)) & mask))
                count--, printf("%s%c:0:1\n", name, last);
    }
}

/* The lines of the function with the number 0, by offset and discriminator. */
static void keys(long count, uint32_t mask) {
    uint64_t function = written(four_bytes(seed, 0), 0, 8);
    puts("f:0:0");
    for (uint64_t disc = 1; count > 0; disc++)
        for (uint64_t offset = 0; offset < 1024 && count > 0; offset++)
            if (!(in_table(four_bytes(two_bytes(function, offset), disc)) & mask))
                count--, printf(" %" PRIu64 ".%" PRIu64 ": 1\n", offset, disc);
}

int main(int argc, char **argv) {
    if (argc != 3)
        return 2;
    long count = atol(argv[2]);
    uint32_t groups = 1;
    while (9 * (long)groups < count)
        groups *= 2;
    if (!strcmp(argv[1], "keys"))
        keys(count, groups - 1);
    else if (!strcmp(argv[1], "keyed"))
        names(count, groups - 1, at_once, ended_at_once);
    else
        names(count, groups - 1, by_bytes, ended_by_a_byte);
    return 0;
}

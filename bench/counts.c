/* A straight C program beside `pgo counts`: it judges the same text, counts branches in a hash table, sorts and prints.
 * It is what the ratios of docs/FIGURES.md are taken against, and no part of pgo. Use: counts TEXT; cc -O2 -o counts counts.c */
#define _GNU_SOURCE
#include <inttypes.h>
#include <stdint.h>
#include <stdio.h>
#include <stdlib.h>
#include <string.h>

enum { MAX_LINE = 65536, MAX_ENTRIES = 1024, PIECE = 1 << 16 };

struct row {
    uint64_t from, to, times;
};

/* Open addressing; times 0 is an empty place, and at most three places of four are taken. */
static struct row *rows;
static size_t places = 1024, taken;
static uint64_t total;

static void refuse(uint64_t line, const char *kind)
{
    fprintf(stderr, "refused: file 1 at %" PRIu64 ": %s\n", line, kind);
    exit(4);
}

static void *room(size_t count, size_t size)
{
    void *p = calloc(count, size);
    if (!p)
        exit(7);
    return p;
}

static struct row *place_of(struct row *table, size_t size, uint64_t from, uint64_t to)
{
    uint64_t h = (from ^ to * 0x9e3779b97f4a7c15u) * 0xff51afd7ed558ccdu;
    size_t i = (h ^ h >> 32) & (size - 1);
    while (table[i].times && (table[i].from != from || table[i].to != to))
        i = (i + 1) & (size - 1);
    return &table[i];
}

static void grow(void)
{
    struct row *larger = room(places * 2, sizeof *larger);
    for (size_t i = 0; i < places; i++)
        if (rows[i].times)
            *place_of(larger, places * 2, rows[i].from, rows[i].to) = rows[i];
    free(rows);
    rows = larger;
    places *= 2;
}

static void count(uint64_t from, uint64_t to)
{
    struct row *row = place_of(rows, places, from, to);
    if (row->times++)
        return;
    row->from = from;
    row->to = to;
    if (++taken * 4 > places * 3)
        grow();
}

static int digit(unsigned char c)
{
    if (c >= '0' && c <= '9')
        return c - '0';
    if (c >= 'a' && c <= 'f')
        return c - 'a' + 10;
    return c >= 'A' && c <= 'F' ? c - 'A' + 10 : -1;
}

/* The number of the digits at p, and where they end; NULL where there is none, or it does not fit. */
static const char *hex(const char *p, const char *end, uint64_t *value)
{
    const char *first = p;
    uint64_t v = 0;
    for (int d; p < end && (d = digit((unsigned char)*p)) >= 0; p++) {
        if (v >> 60)
            return NULL;
        v = v << 4 | (uint64_t)d;
    }
    *value = v;
    return p == first ? NULL : p;
}

static const char *prefixed(const char *p, const char *end, uint64_t *value)
{
    return end - p > 2 && p[0] == '0' && p[1] == 'x' ? hex(p + 2, end, value) : NULL;
}

static int is_blank(char c)
{
    return c == ' ' || c == '\t';
}

static int is_ip(const char *p, const char *end)
{
    uint64_t v;
    return prefixed(p, end, &v) == end || hex(p, end, &v) == end;
}

static int entry(const char *p, const char *end, uint64_t *pair)
{
    p = prefixed(p, end, &pair[0]);
    if (!p || p == end || *p != '/')
        return 0;
    p = prefixed(p + 1, end, &pair[1]);
    return p && (p == end || *p == '/');
}

static void judge(const char *p, const char *end, uint64_t number)
{
    static uint64_t pairs[MAX_LINE][2];
    size_t n = 0;
    if (end - p > MAX_LINE)
        refuse(number, "LineTooLong");
    if (p < end && (*p == '#' || memmem(p, (size_t)(end - p), "PERF_RECORD_", 12)))
        return;
    for (int first = 1;; first = 0) {
        while (p < end && is_blank(*p))
            p++;
        if (p == end)
            break;
        const char *field = p;
        while (p < end && !is_blank(*p))
            p++;
        if (first && is_ip(field, p))
            continue;
        if (!entry(field, p, pairs[n++]))
            refuse(number, "BadLine");
    }
    if (n > MAX_ENTRIES)
        refuse(number, "TooManyEntries");
    if (total + n > UINT32_MAX)
        refuse(number, "TooManyBranches");
    total += n;
    for (size_t i = 0; i < n; i++)
        count(pairs[i][0], pairs[i][1]);
}

static int by_pair(const void *a, const void *b)
{
    const struct row *x = a, *y = b;
    if (x->from != y->from)
        return x->from < y->from ? -1 : 1;
    return x->to < y->to ? -1 : x->to > y->to;
}

int main(int argc, char **argv)
{
    static char text[PIECE + MAX_LINE + 1];
    size_t held = 0, got;
    uint64_t number = 1;
    FILE *in = argc == 2 ? fopen(argv[1], "rb") : NULL;
    if (!in)
        return 3;
    setvbuf(in, NULL, _IONBF, 0);
    rows = room(places, sizeof *rows);
    while ((got = fread(text + held, 1, PIECE, in)) > 0) {
        char *p = text, *end = text + held + got, *feed;
        for (; (feed = memchr(p, '\n', (size_t)(end - p))); p = feed + 1)
            judge(p, feed, number++);
        held = (size_t)(end - p);
        if (held > MAX_LINE)
            refuse(number, "LineTooLong");
        memmove(text, p, held);
    }
    if (ferror(in))
        return 5;
    if (held)
        judge(text, text + held, number);
    size_t n = 0;
    for (size_t i = 0; i < places; i++)
        if (rows[i].times)
            rows[n++] = rows[i];
    qsort(rows, n, sizeof *rows, by_pair);
    for (size_t i = 0; i < n; i++)
        printf("0x%" PRIx64 " 0x%" PRIx64 " %" PRIu64 "\n", rows[i].from, rows[i].to, rows[i].times);
    printf("# branches %" PRIu64 "\n", total);
    return fclose(stdout) != 0 ? 6 : 0;
}

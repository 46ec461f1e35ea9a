/* fuzz PROGRAM SEED RUNS FINDS FILE WORDS..: runs PROGRAM with WORDS many times, each time on FILE with some bytes
 * changed; the word @ stands for its name. The same seed makes the same files.
 *
 * A run passes where it ends by itself within a second of the processor, with status 0, an output that ends in a line
 * feed and no word on the error output, or with status 4, no output and the one line "refused: file K at A: KIND", or
 * with status 1, no output and the one line "check failed at line N". Any other run is a find: its file is kept as
 * FINDS-SEED-RUN, and a line says what happened. The last line counts the runs, by the second and by their statuses.
 * Ends with 1 where there was a find.
 *
 * Of an ELF file the bytes of headers and of debugging information are changed, of any other file all. */
#define _GNU_SOURCE
#include <ctype.h>
#include <elf.h>
#include <fcntl.h>
#include <signal.h>
#include <stdint.h>
#include <stdio.h>
#include <stdlib.h>
#include <string.h>
#include <sys/resource.h>
#include <sys/stat.h>
#include <sys/wait.h>
#include <time.h>
#include <unistd.h>

enum { MAX_REGIONS = 256, MAX_GROWTH = 4096 };

struct region {
    size_t at, len;
};

static uint64_t state;

/* xorshift64*, by Vigna. */
static uint64_t next(void) {
    state ^= state >> 12;
    state ^= state << 25;
    state ^= state >> 27;
    return state * 2685821657736338717ULL;
}

static size_t below(size_t n) {
    return n ? (size_t)((next() >> 16) % n) : 0;
}

static void die(const char *what) {
    perror(what);
    exit(2);
}

static unsigned char *load(const char *name, size_t *len) {
    int fd = open(name, O_RDONLY);
    struct stat is;
    if (fd < 0 || fstat(fd, &is))
        die(name);
    unsigned char *bytes = malloc((size_t)is.st_size + MAX_GROWTH);
    *len = (size_t)is.st_size;
    if (!bytes || read(fd, bytes, *len) != (ssize_t)*len)
        die(name);
    close(fd);
    return bytes;
}

static Elf64_Shdr section_at(const unsigned char *file, const Elf64_Ehdr *head, int i) {
    Elf64_Shdr section;
    memcpy(&section, file + head->e_shoff + (size_t)i * sizeof section, sizeof section);
    return section;
}

/* The parts of an ELF file that are worth a change: all headers, the names of sections, and what debugging information
 * there is. */
static int regions_of(const unsigned char *file, size_t len, struct region *regions) {
    Elf64_Ehdr head;
    int n = 0;
    if (len < sizeof head || memcmp(file, ELFMAG, SELFMAG)) {
        regions[0] = (struct region){0, len};
        return 1;
    }
    memcpy(&head, file, sizeof head);
    const char *names = (const char *)file + section_at(file, &head, head.e_shstrndx).sh_offset;
    regions[n++] = (struct region){0, sizeof head};
    regions[n++] = (struct region){head.e_phoff, (size_t)head.e_phnum * sizeof(Elf64_Phdr)};
    regions[n++] = (struct region){head.e_shoff, (size_t)head.e_shnum * sizeof(Elf64_Shdr)};
    for (int i = 0; i < head.e_shnum && n < MAX_REGIONS; i++) {
        Elf64_Shdr section = section_at(file, &head, i);
        int is_read = i == head.e_shstrndx || !strncmp(names + section.sh_name, ".debug", 6);
        if (is_read && section.sh_size && section.sh_type != SHT_NOBITS)
            regions[n++] = (struct region){section.sh_offset, section.sh_size};
    }
    return n;
}

static const uint64_t edges[] = {0, 1, 2, 3, 4, 5, 8, 0x0f, 0x10, 0x11, 0x1f, 0x21, 0x7f, 0x80, 0xff, 0x100, 0xffff,
    0x10000, 0x7fffffff, 0x80000000, 0xfffffff0, 0xffffffff, 0x7fffffffffffffff, 0x8000000000000000,
    0xffffffffffffffff};

static const char *const words[] = {"0x", "/", " ", "\n", "\t", "#", "PERF_RECORD_", "0x1/0x2", "0x10000000000000000",
    "0xffffffffffffffff/0x0", "401000 ", "\r\n", "-", "0x1/", "/0x1", "0x0000000000000000000001/0x2/P/-/-/0//-"};

static void write_number(unsigned char *at, uint64_t n, size_t size) {
    for (size_t i = 0; i < size; i++)
        at[i] = (unsigned char)(n >> (8 * i));
}

/* Changes one thing at a place, and gives the new length. */
static size_t change(unsigned char *file, size_t len, size_t at, int is_text) {
    size_t left = len - at;
    switch (below(is_text ? 9 : 8)) {
    case 0:
        file[at] = (unsigned char)next();
        break;
    case 1:
        file[at] ^= (unsigned char)(1 << below(8));
        break;
    case 2:
        file[at] = (unsigned char)(file[at] + (below(2) ? 1 : -1));
        break;
    case 3: {
        size_t size = (size_t)1 << below(4);
        if (size <= left)
            write_number(file + at, edges[below(sizeof edges / sizeof *edges)], size);
        break;
    }
    case 4: {
        size_t size = 1 + below(16), from = below(len);
        if (size <= left && size <= len - from)
            memmove(file + at, file + from, size);
        break;
    }
    case 5:
        memset(file + at, below(2) ? 0xff : 0x80, left < 10 ? left : 1 + below(10));
        break;
    case 6: {
        size_t size = 1 + below(is_text ? 40 : 4);
        if (size < left) {
            memmove(file + at, file + at + size, left - size);
            len -= size;
        }
        break;
    }
    case 7: {
        size_t size = 1 + below(4), from = below(len);
        if (is_text)
            size = 1 + below(200);
        if (size > len - from)
            size = len - from;
        if (len + size > 0 && size <= 256) {
            unsigned char copy[256];
            memcpy(copy, file + from, size);
            memmove(file + at + size, file + at, left);
            memcpy(file + at, copy, size);
            len += size;
        }
        break;
    }
    default: {
        const char *word = words[below(sizeof words / sizeof *words)];
        size_t size = strlen(word);
        memmove(file + at + size, file + at, left);
        memcpy(file + at, word, size);
        len += size;
    }
    }
    return len;
}

static size_t mutate(unsigned char *file, size_t len, const struct region *regions, int n, int is_text) {
    size_t most = len + MAX_GROWTH - 512;
    for (size_t i = 0, count = 1 + below(is_text ? 6 : 4); i < count && len > 0 && len < most; i++) {
        struct region r = regions[below((size_t)n)];
        size_t at = is_text ? below(len) : r.at + below(r.len);
        if (at < len)
            len = change(file, len, at, is_text);
    }
    if (below(64) == 0)
        len = below(len + 1);
    return len;
}

/* What stands behind these words in a line, or nothing. */
static const char *behind(const char *line, const char *words) {
    size_t len = strlen(words);
    return line && !strncmp(line, words, len) ? line + len : NULL;
}

static const char *behind_number(const char *line) {
    if (!line || !isdigit((unsigned char)*line))
        return NULL;
    while (isdigit((unsigned char)*line))
        line++;
    return line;
}

static int is_refusal(const char *line) {
    line = behind(line, "refused: file ");
    if (!line || *line < '1' || *line > '3')
        return 0;
    line = behind(behind_number(behind(line + 1, " at ")), ": ");
    if (!line || !isupper((unsigned char)*line))
        return 0;
    while (isalnum((unsigned char)*line))
        line++;
    return !strcmp(line, "\n");
}

static int is_failed_check(const char *line) {
    line = behind_number(behind(line, "check failed at line "));
    return line && !strcmp(line, "\n");
}

/* What is wrong with a run, or nothing. */
static const char *judge(int status, double seconds, int out, int err) {
    static char line[512];
    struct stat out_is, err_is;
    ssize_t n = pread(err, line, sizeof line - 1, 0);
    line[n < 0 ? 0 : n] = 0;
    if (fstat(out, &out_is) || fstat(err, &err_is))
        die("fstat");
    if (!WIFEXITED(status))
        return "ended by a signal";
    if (seconds > 1)
        return "took more than a second";
    if (WEXITSTATUS(status) == 4)
        return out_is.st_size ? "refused with an output" : is_refusal(line) ? NULL : "refused without its line";
    if (WEXITSTATUS(status) == 1)
        return out_is.st_size ? "failed with an output" : is_failed_check(line) ? NULL : "failed without its line";
    if (WEXITSTATUS(status) != 0)
        return "ended with another status";
    char last = 0;
    if (err_is.st_size || !out_is.st_size || pread(out, &last, 1, out_is.st_size - 1) != 1 || last != '\n')
        return "done without a whole output";
    return NULL;
}

/* Runs the program and gives its wait status and its seconds of the processor. */
static int run(char **argv, int out, int err, double *seconds) {
    struct rusage used;
    int status;
    pid_t pid = vfork();
    if (pid < 0)
        die("vfork");
    if (pid == 0) {
        /* Ends one that does not end by itself. */
        struct rlimit few = {10, 10};
        setrlimit(RLIMIT_CPU, &few);
        dup2(out, 1);
        dup2(err, 2);
        execv(argv[0], argv);
        _exit(127);
    }
    if (wait4(pid, &status, 0, &used) != pid)
        die("wait4");
    *seconds = (double)(used.ru_utime.tv_sec + used.ru_stime.tv_sec) +
        1e-6 * (double)(used.ru_utime.tv_usec + used.ru_stime.tv_usec);
    return status;
}

static int scratch(const char *name) {
    int fd = open(name, O_RDWR | O_CREAT | O_TRUNC | O_CLOEXEC, 0600);
    if (fd < 0)
        die(name);
    return fd;
}

static void put(int fd, const unsigned char *bytes, size_t len) {
    if (ftruncate(fd, 0) || pwrite(fd, bytes, len, 0) != (ssize_t)len)
        die("write");
}

/* Seconds by the clock. */
static double clock_now(void) {
    struct timespec t;
    clock_gettime(CLOCK_MONOTONIC, &t);
    return (double)t.tv_sec + 1e-9 * (double)t.tv_nsec;
}

/* Each run's file depends on the seed and its number alone. */
static void begin(unsigned long long seed, size_t run) {
    state = seed * 1000003 + run + 1;
    state *= 0x9e3779b97f4a7c15ULL;
    for (int warm = 0; warm < 4; warm++)
        next();
}

int main(int argc, char **argv) {
    if (argc < 7) {
        fputs("usage: fuzz PROGRAM SEED RUNS FINDS FILE WORDS..\n", stderr);
        return 2;
    }
    size_t len, runs = strtoull(argv[3], NULL, 10), finds = 0, statuses[256] = {0};
    uint64_t seed = strtoull(argv[2], NULL, 10);
    unsigned char *original = load(argv[5], &len), *file = malloc(len + MAX_GROWTH);
    struct region regions[MAX_REGIONS];
    int n = regions_of(original, len, regions);
    int is_text = n == 1;
    char name[64];
    snprintf(name, sizeof name, "fuzz-%d.in", (int)getpid());
    int in = scratch(name), out = scratch("fuzz.out"), err = scratch("fuzz.err");
    argv[5] = argv[1];
    for (int i = 6; i < argc; i++)
        if (!strcmp(argv[i], "@"))
            argv[i] = name;
    unlink("fuzz.out");
    unlink("fuzz.err");
    double longest = 0, start = clock_now();
    for (size_t i = 0; i < runs; i++) {
        begin(seed, i);
        memcpy(file, original, len);
        size_t now = mutate(file, len, regions, n, is_text);
        double seconds;
        put(in, file, now);
        if (ftruncate(out, 0) || ftruncate(err, 0) || lseek(out, 0, SEEK_SET) || lseek(err, 0, SEEK_SET))
            die("ftruncate");
        int status = run(argv + 5, out, err, &seconds);
        const char *wrong = judge(status, seconds, out, err);
        longest = seconds > longest ? seconds : longest;
        statuses[WIFEXITED(status) ? WEXITSTATUS(status) : 128 + WTERMSIG(status)]++;
        if (wrong) {
            char kept[4096];
            snprintf(kept, sizeof kept, "%s-%llu-%zu", argv[4], (unsigned long long)seed, i);
            int fd = scratch(kept);
            put(fd, file, now);
            close(fd);
            printf("%s: %s (wait status %d, %.2f s)\n", kept, wrong, status, seconds);
            fflush(stdout);
            finds++;
        }
    }
    unlink(name);
    printf("%zu runs, %.0f a second, %zu finds, longest %.3f s:", runs, (double)runs / (clock_now() - start), finds, longest);
    for (int i = 0; i < 256; i++)
        if (statuses[i])
            printf(" status %d %zu times", i, statuses[i]);
    putchar('\n');
    return finds > 0;
}

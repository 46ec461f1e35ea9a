/* step FILE PROGRAM WORDS..: runs the program step by step, and writes how often each two instructions ran one behind the
 * other, from the program's entry on: a line `entry 0xADDRESS`, then lines `0xFIRST 0xSECOND COUNT`. */
#define _GNU_SOURCE
#include <fcntl.h>
#include <stdint.h>
#include <stdio.h>
#include <stdlib.h>
#include <sys/auxv.h>
#include <sys/personality.h>
#include <sys/ptrace.h>
#include <sys/user.h>
#include <sys/wait.h>
#include <unistd.h>

enum { SLOTS = 1 << 20 };

static struct pair {
    uint64_t first, second, times;
} pairs[SLOTS];

static void count(uint64_t first, uint64_t second)
{
    uint64_t k = (first * 31 + second) * 0x9e3779b97f4a7c15 >> 44;
    while (pairs[k].times && (pairs[k].first != first || pairs[k].second != second))
        k = (k + 1) % SLOTS;
    pairs[k] = (struct pair){first, second, pairs[k].times + 1};
}

static uint64_t entry_of(pid_t child)
{
    char name[64];
    uint64_t row[2] = {0};
    snprintf(name, sizeof name, "/proc/%d/auxv", (int)child);
    int file = open(name, O_RDONLY);
    while (file >= 0 && read(file, row, sizeof row) == sizeof row && row[0] && row[0] != AT_ENTRY)
        ;
    close(file);
    return row[0] == AT_ENTRY ? row[1] : 0;
}

static uint64_t place_of(pid_t child)
{
    struct user_regs_struct registers;
    return ptrace(PTRACE_GETREGS, child, 0, &registers) ? 0 : registers.rip;
}

/* Runs the loader at full speed: a breakpoint stands at the entry. */
static void run_to(pid_t child, uint64_t entry)
{
    int status;
    long word = ptrace(PTRACE_PEEKTEXT, child, entry, 0);
    struct user_regs_struct registers;
    ptrace(PTRACE_POKETEXT, child, entry, (word & ~255L) | 0xcc);
    ptrace(PTRACE_CONT, child, 0, 0);
    waitpid(child, &status, 0);
    ptrace(PTRACE_POKETEXT, child, entry, word);
    ptrace(PTRACE_GETREGS, child, 0, &registers);
    registers.rip = entry;
    ptrace(PTRACE_SETREGS, child, 0, &registers);
}

int main(int words, char **word)
{
    FILE *out = words > 2 ? fopen(word[1], "w") : NULL;
    if (!out)
        return 2;
    pid_t child = fork();
    if (child == 0) {
        personality(ADDR_NO_RANDOMIZE);
        ptrace(PTRACE_TRACEME, 0, 0, 0);
        execv(word[2], word + 2);
        _exit(127);
    }
    int status;
    waitpid(child, &status, 0);
    uint64_t entry = WIFSTOPPED(status) ? entry_of(child) : 0;
    if (!entry)
        return 3;
    run_to(child, entry);
    uint64_t before = place_of(child);
    fprintf(out, "entry %#lx\n", entry);
    while (ptrace(PTRACE_SINGLESTEP, child, 0, 0) == 0 && waitpid(child, &status, 0) == child && WIFSTOPPED(status)) {
        if (WSTOPSIG(status) != 5)
            return 4;
        uint64_t now = place_of(child);
        count(before, now);
        before = now;
    }
    for (int k = 0; k < SLOTS; k++)
        if (pairs[k].times)
            fprintf(out, "%#lx %#lx %lu\n", pairs[k].first, pairs[k].second, pairs[k].times);
    return fclose(out) || !WIFEXITED(status) || WEXITSTATUS(status);
}

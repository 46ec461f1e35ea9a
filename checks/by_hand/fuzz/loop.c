/* Preloaded into a program (LD_PRELOAD), runs its main many times in one process: some 30
 * microseconds a run, where a process of its own takes a millisecond. The variable LOOP says how:
 *   fuzz SEED RUNS FINDS FILE   FILE with bytes changed as by fuzz.c, under the name that stands as
 * @ in the words refuse KIND MOST            the N-th call of a kind (memory, read, write) fails,
 * for N from 1 until none does; with memory- that one and all behind it */
#define main fuzz_main
#include "fuzz.c"
#undef main
#include <dlfcn.h>
#include <errno.h>
#include <setjmp.h>
#include <stdarg.h>
#include <sys/mman.h>
#include <sys/time.h>
#include <time.h>

typedef int (*main_fn)(int, char **, char **);
static main_fn program_main;
static sigjmp_buf back;
static volatile int inside;
static int exit_code, said = 1;
static const char *kind = "";
static long fail_at, calls;

static int fails(const char *what) {
    if (!inside || strncmp(kind, what, strlen(what)))
        return 0;
    calls++;
    return fail_at && (kind[strlen(what)] == '-' ? calls >= fail_at : calls == fail_at);
}

#define REAL(name)                                                                                 \
    static __typeof__(name) *real;                                                                 \
    if (!real)                                                                                     \
    real = (__typeof__(name) *)dlsym(RTLD_NEXT, #name)

void *malloc(size_t size) {
    REAL(malloc);
    return fails("memory") ? NULL : real(size);
}

void *realloc(void *old, size_t size) {
    REAL(realloc);
    return fails("memory") ? NULL : real(old, size);
}

ssize_t read(int fd, void *bytes, size_t size) {
    REAL(read);
    if (fails("read")) {
        errno = 5;
        return -1;
    }
    return real(fd, bytes, size);
}

ssize_t write(int fd, const void *bytes, size_t size) {
    REAL(write);
    if (fd == 1 && fails("write")) {
        errno = 28;
        return -1;
    }
    return real(fd, bytes, size);
}

void exit(int code) {
    if (inside) {
        exit_code = code;
        siglongjmp(back, 1000);
    }
    REAL(exit);
    real(code);
    __builtin_unreachable();
}

static void on_signal(int number) {
    if (!inside) {
        signal(number, SIG_DFL);
        raise(number);
        return;
    }
    siglongjmp(back, number);
}

static double now_used(void) {
    struct timespec t;
    clock_gettime(CLOCK_PROCESS_CPUTIME_ID, &t);
    return (double)t.tv_sec + 1e-9 * (double)t.tv_nsec;
}

static int out_fd, err_fd;

/* Runs the program's main, and gives a wait status. */
static int run_inside(int argc, char **argv, char **envp, double *seconds) {
    struct itimerval most = {{0, 0}, {10, 0}}, none = {{0, 0}, {0, 0}};
    if (ftruncate(out_fd, 0) || ftruncate(err_fd, 0) || lseek(out_fd, 0, SEEK_SET) ||
        lseek(err_fd, 0, SEEK_SET))
        die("ftruncate");
    int status;
    double before = now_used();
    setitimer(ITIMER_PROF, &most, NULL);
    int jumped = sigsetjmp(back, 1);
    if (jumped == 0) {
        inside = 1;
        status = (program_main(argc, argv, envp) & 255) << 8;
        inside = 0;
    } else {
        inside = 0;
        status = jumped == 1000 ? (exit_code & 255) << 8 : jumped;
    }
    setitimer(ITIMER_PROF, &none, NULL);
    *seconds = now_used() - before;
    return status;
}

static void handle_signals(void) {
    stack_t other = {
        .ss_sp = mmap(NULL, 1 << 16, PROT_READ | PROT_WRITE, MAP_PRIVATE | MAP_ANONYMOUS, -1, 0),
        .ss_size = 1 << 16};
    sigaltstack(&other, NULL);
    struct sigaction act = {.sa_handler = on_signal, .sa_flags = SA_ONSTACK | SA_NODEFER};
    int numbers[] = {SIGSEGV, SIGBUS, SIGILL, SIGFPE, SIGABRT, SIGPROF, SIGTRAP};
    for (size_t i = 0; i < sizeof numbers / sizeof *numbers; i++)
        sigaction(numbers[i], &act, NULL);
}

static int fuzz_all(char *how, int argc, char **argv, char **envp) {
    unsigned long long seed;
    size_t len, runs, finds = 0, statuses[256] = {0};
    char kept_as[1024], from[1024], name[64];
    if (sscanf(how, "fuzz %llu %zu %1023s %1023s", &seed, &runs, kept_as, from) != 4)
        die("LOOP");
    unsigned char *original = load(from, &len), *file = malloc(len + MAX_GROWTH);
    struct region regions[MAX_REGIONS];
    int n = regions_of(original, len, regions), is_text = n == 1;
    snprintf(name, sizeof name, "loop-%d.in", (int)getpid());
    int in = scratch(name);
    for (int i = 1; i < argc; i++)
        if (!strcmp(argv[i], "@"))
            argv[i] = name;
    double longest = 0, start = clock_now();
    for (size_t i = 0; i < runs; i++) {
        begin(seed, i);
        memcpy(file, original, len);
        size_t now = mutate(file, len, regions, n, is_text);
        double seconds;
        put(in, file, now);
        int status = run_inside(argc, argv, envp, &seconds);
        const char *wrong = judge(status, seconds, out_fd, err_fd);
        longest = seconds > longest ? seconds : longest;
        statuses[WIFEXITED(status) ? WEXITSTATUS(status) : 128 + WTERMSIG(status)]++;
        if (wrong) {
            char kept[4096];
            snprintf(kept, sizeof kept, "%s-%llu-%zu", kept_as, seed, i);
            int fd = scratch(kept);
            put(fd, file, now);
            close(fd);
            dprintf(said, "%s: %s (wait status %d, %.2f s)\n", kept, wrong, status, seconds);
            finds++;
        }
    }
    unlink(name);
    struct rusage used;
    getrusage(RUSAGE_SELF, &used);
    dprintf(said, "%zu runs, %.0f a second, %zu finds, longest %.3f s, %ld MB:", runs,
            (double)runs / (clock_now() - start), finds, longest, used.ru_maxrss / 1000);
    for (int i = 0; i < 256; i++)
        if (statuses[i])
            dprintf(said, " status %d %zu times", i, statuses[i]);
    dprintf(said, "\n");
    return finds > 0;
}

static char *content(int fd, size_t *len) {
    struct stat is;
    fstat(fd, &is);
    *len = (size_t)is.st_size;
    char *bytes = malloc(*len + 1);
    if (pread(fd, bytes, *len, 0) != (ssize_t)*len)
        die("pread");
    bytes[*len] = 0;
    return bytes;
}

static int refuse_all(char *how, int argc, char **argv, char **envp) {
    static char what[32];
    long most = 0, files = 0;
    size_t len, finds = 0;
    double seconds;
    sscanf(how, "refuse %31s %ld", what, &most);
    int status = run_inside(argc, argv, envp, &seconds);
    size_t whole_len;
    char *whole = content(out_fd, &whole_len);
    if (status)
        dprintf(said, "without a refusal: wait status %d\n", status);
    long last = 1, survived = 0;
    for (long n = 1;; n++) {
        kind = what;
        fail_at = n;
        calls = 0;
        status = run_inside(argc, argv, envp, &seconds);
        kind = "";
        fail_at = 0;
        size_t err_len;
        char *out = content(out_fd, &len), *err = content(err_fd, &err_len);
        int code = WIFEXITED(status) ? WEXITSTATUS(status) : -1, good;
        if (code == 0) {
            good = len == whole_len && !memcmp(out, whole, len) && !err_len &&
                   (calls < n || !strncmp(what, "memory", 6));
            survived += calls >= n;
        } else if (!strncmp(what, "memory", 6)) {
            good = code == 7 && !len && !strcmp(err, "no memory\n");
        } else if (!strcmp(what, "read")) {
            long file = 0;
            char behind = 0;
            good = code == 5 && !len &&
                   sscanf(err, "read fault: file %ld%c", &file, &behind) == 2 && behind == '\n' &&
                   (file == last || file == last + 1);
            last = file;
            files = file;
        } else {
            good = code == 6 && len < whole_len && !memcmp(out, whole, len) &&
                   !strcmp(err, "write fault\n");
        }
        free(out);
        free(err);
        if (!good) {
            finds++;
            dprintf(said, "FIND: %s %ld: wait status %d, %zu bytes of %zu\n", what, n, status, len,
                    whole_len);
        }
        if (code == 0 && calls < n || finds > 5 || (most && n >= most)) {
            dprintf(said,
                    "%s: %ld calls failed in turn (%ld done all the same), %zu finds, last file "
                    "%ld, then status %d\n",
                    what, n - 1, survived, finds, files, code);
            return finds > 0;
        }
    }
}

static int looped(int argc, char **argv, char **envp) {
    char *how = getenv("LOOP");
    if (!how)
        return program_main(argc, argv, envp);
    said = fcntl(1, F_DUPFD_CLOEXEC, 50);
    out_fd = memfd_create("out", 0);
    err_fd = memfd_create("err", 0);
    int fd1 = dup2(out_fd, 1), fd2 = dup2(err_fd, 2);
    (void)fd1;
    (void)fd2;
    handle_signals();
    if (!strncmp(how, "fuzz", 4))
        return fuzz_all(how, argc, argv, envp);
    return refuse_all(how, argc, argv, envp);
}

int __libc_start_main(main_fn main, int argc, char **argv, void (*init)(void), void (*fini)(void),
                      void (*ld)(void), void *end) {
    typedef int (*start_fn)(main_fn, int, char **, void (*)(void), void (*)(void), void (*)(void),
                            void *);
    start_fn real = (start_fn)dlsym(RTLD_NEXT, "__libc_start_main");
    program_main = main;
    return real(looped, argc, argv, init, fini, ld, end);
}

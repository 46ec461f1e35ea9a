/* A recorder of taken branches that needs no processor that records them: a plugin for the emulator qemu-x86_64.
 *
 * The command pgo-record builds and uses it. By hand:
 *
 *   cc -O2 -shared -fPIC -o recorder.so recorder.c
 *   qemu-x86_64 -plugin ./recorder.so,out=TEXT,branches=499,exact=COUNTS PROGRAM WORDS..
 *
 * out=FILE takes the samples as perf script -F ip,brstack --show-mmap-events prints them: the last DEPTH taken branches
 * (depth=, 32), every N of them (branches=N, as processors sample by events) or every N instructions (instructions=N).
 * N varies by up to an eighth each way, by a fixed sequence. exact=FILE takes how often each instruction of the program
 * ran, as lines of an address of its file and a count. Sums go to the error output as a process ends by itself, but with
 * quiet=on.
 *
 * A load line shows where code of a file was loaded, with the build ID of the file: of the program and its dynamic
 * loader as they start, then of each mapping that the program may execute. Processes that fork share the text, as with
 * perf. If two of them load different files at one address after the fork, their samples cannot be kept apart.
 *
 * Each thread has a ring of branches and a period of its own. A process that forks writes to the same files, each process
 * its own sums and counts; where an address then has several lines in exact=FILE, their counts add up.
 *
 * A line of out=FILE is written as a comment, whose first byte is written over once the line is there as a whole. So a
 * signal that ends the process, SIGKILL too, leaves each finished line, and of unfinished ones blank lines and comments.
 *
 * A translated block that begins elsewhere than behind the one before it was reached by a taken branch, unless it begins
 * at the last instruction of that one: a repeated string instruction goes on, or the emulator took back an instruction
 * that passes the end of a page. That instruction has then run once, and not twice.
 *
 * Debian has no header of the plugins' interface (QEMU, "QEMU TCG Plugins", versions 1 and 2), so what is used is
 * declared here.
 */
#define _GNU_SOURCE
#include <elf.h>
#include <errno.h>
#include <fcntl.h>
#include <inttypes.h>
#include <limits.h>
#include <pthread.h>
#include <stdbool.h>
#include <stdio.h>
#include <stdlib.h>
#include <string.h>
#include <sys/mman.h>
#include <sys/stat.h>
#include <sys/syscall.h>
#include <sys/sysmacros.h>
#include <unistd.h>

typedef uint64_t qemu_plugin_id_t;
struct qemu_plugin_tb;
struct qemu_plugin_insn;
enum { CB_NO_REGS };
void qemu_plugin_register_vcpu_tb_trans_cb(qemu_plugin_id_t, void (*)(qemu_plugin_id_t, struct qemu_plugin_tb *));
void qemu_plugin_register_vcpu_tb_exec_cb(struct qemu_plugin_tb *, void (*)(unsigned, void *), int, void *);
void qemu_plugin_register_vcpu_syscall_cb(qemu_plugin_id_t, void (*)(qemu_plugin_id_t, unsigned, int64_t, uint64_t,
    uint64_t, uint64_t, uint64_t, uint64_t, uint64_t, uint64_t, uint64_t));
void qemu_plugin_register_vcpu_syscall_ret_cb(qemu_plugin_id_t, void (*)(qemu_plugin_id_t, unsigned, int64_t, int64_t));
void qemu_plugin_register_atexit_cb(qemu_plugin_id_t, void (*)(qemu_plugin_id_t, void *), void *);
size_t qemu_plugin_tb_n_insns(const struct qemu_plugin_tb *);
struct qemu_plugin_insn *qemu_plugin_tb_get_insn(const struct qemu_plugin_tb *, size_t);
size_t qemu_plugin_insn_size(const struct qemu_plugin_insn *);
uint64_t qemu_plugin_insn_vaddr(const struct qemu_plugin_insn *);
const char *qemu_plugin_path_to_binary(void);
uint64_t qemu_plugin_start_code(void);

__attribute__((visibility("default"))) int qemu_plugin_version = 1;

/* From QEMU 9 on the emulator takes no plugin of version 1. The calls above are the same in version 2, which added
   this one. */
int qemu_plugin_num_vcpus(void) __attribute__((weak));

__attribute__((constructor)) static void choose_version(void)
{
    if (qemu_plugin_num_vcpus)
        qemu_plugin_version = 2;
}

/* A translated block: `again` of its `runs` began inside of an instruction that had been counted. */
struct block {
    struct block *next;
    uint64_t last, end, runs, again;
    size_t n;
    uint64_t at[];
};

/* The longest entry of a sample, and a line's room for the other fields. */
enum { RING = 1024, ENTRY = 56, ROOM = 64 };

enum { PAGE = 4096, BUILD = 64, PARTS = 64, NOTES = 4096 };

/* A file for load lines: its name, its build ID in hexadecimal digits or else its device and number, and its segments. */
struct object {
    char name[PATH_MAX], build[2 * BUILD + 1];
    struct stat is;
    unsigned n;
    Elf64_Phdr parts[PARTS];
};

/* A call that maps code, while it runs. */
struct call {
    bool maps, file;
    uint64_t at, length, offset;
    struct object object;
};

/* Addresses that have a load line. */
struct range {
    struct range *next;
    uint64_t from, to;
};

/* What is known of one thread. One that ended leaves it, with its sums and the rest of its period, to one that begins. */
struct thread {
    struct thread *next;
    bool busy;
    const struct block *before;
    uint64_t state, left, held, instructions, branches, inside, samples;
    struct { uint64_t from, to; } ring[RING];
    struct call call;
    char line[];
};

/* A file that each process and thread appends to. `at` appends, and `over` writes over what is there. Each process opens
   `at` for itself, so its position is the end of what this process appended last. */
struct file {
    char *path;
    int at, over;
    bool regular, failed;
    dev_t device;
    ino_t number;
};

static struct block *blocks;
static struct thread *threads;
static __thread struct thread *mine;
static pthread_mutex_t lock = PTHREAD_MUTEX_INITIALIZER, writing = PTHREAD_MUTEX_INITIALIZER;
static pthread_key_t ending;
static struct file text, exact;
static struct range *shown;
static uint64_t depth = 32, by_branches, by_instructions, beside, forks, low, high, bias, guest_base;
static bool placed, several, quiet;

static uint64_t drawn(struct thread *me)
{
    me->state ^= me->state << 13;
    me->state ^= me->state >> 7;
    me->state ^= me->state << 17;
    return me->state;
}

static uint64_t next_period(struct thread *me)
{
    uint64_t period = by_branches ? by_branches : by_instructions, quarter = period / 4, some = drawn(me);
    return period - quarter / 2 + (quarter ? some % quarter : 0);
}

/* The rest of a period at a point that is drawn, with a sequence of its own for each number: else threads or processes that
   end before a period does would give no sample. */
static void somewhere(struct thread *me, uint64_t number)
{
    uint64_t period = by_branches ? by_branches : by_instructions;
    me->state ^= (number + 1) * 0x9e3779b97f4a7c15ull;
    me->state += !me->state;
    for (int k = 0; k < 8; k++)
        drawn(me);
    me->left = 1 + (period ? drawn(me) % period : 0);
}

static struct thread *new_thread(void)
{
    struct thread *me = calloc(1, sizeof *me + ROOM + depth * ENTRY);
    if (!me)
        abort();
    me->state = 88172645463325252ull;
    if (threads)
        somewhere(me, ++beside);
    else
        me->left = next_period(me);
    several = threads;
    me->next = threads;
    threads = me;
    return me;
}

/* A number of the emulator's for a processor is used again, and a thread of the program is one of the emulator: so what a
   thread has hangs on that one. */
static struct thread *begin(void)
{
    struct thread *me;
    pthread_mutex_lock(&lock);
    for (me = threads; me && me->busy; me = me->next)
        ;
    if (!me)
        me = new_thread();
    me->busy = true;
    me->before = NULL;
    me->held = 0;
    pthread_mutex_unlock(&lock);
    pthread_setspecific(ending, me);
    return mine = me;
}

static void end(void *data)
{
    struct thread *me = data;
    pthread_mutex_lock(&lock);
    me->busy = false;
    pthread_mutex_unlock(&lock);
    mine = NULL;
}

/* Opens a file out of the way of the program's own files, whose numbers are the emulator's. */
static int open_away(const char *path, int how)
{
    int at = open(path, O_WRONLY | O_CLOEXEC | how, 0666), away;
    if (at < 0)
        return at;
    away = fcntl(at, F_DUPFD_CLOEXEC, 900);
    if (away < 0)
        return at;
    close(at);
    return away;
}

static bool open_file(struct file *it, int how)
{
    struct stat found;
    it->at = open_away(it->path, O_APPEND | how);
    it->over = open_away(it->path, 0);
    if (it->at < 0 || it->over < 0 || fstat(it->at, &found))
        return false;
    it->regular = S_ISREG(found.st_mode);
    it->device = found.st_dev;
    it->number = found.st_ino;
    return true;
}

static bool is_of(const struct file *it, int at)
{
    struct stat found;
    return !fstat(at, &found) && found.st_dev == it->device && found.st_ino == it->number;
}

/* Programs that go to the background close all files, these too, or use their numbers again. */
static bool is_open(struct file *it)
{
    return (is_of(it, it->at) && is_of(it, it->over)) || open_file(it, 0);
}

static void open_again(struct file *it)
{
    if (is_of(it, it->at))
        close(it->at);
    if (is_of(it, it->over))
        close(it->over);
    open_file(it, 0);
}

/* Writes all bytes, appending them (`to` < 0) or over what is there. Where the disk is full, say so once. */
static bool put(struct file *it, const char *bytes, size_t n, off_t to)
{
    for (size_t done = 0; done < n;) {
        ssize_t some = to < 0 ? write(it->at, bytes + done, n - done)
                              : pwrite(it->over, bytes + done, n - done, to + (off_t)done);
        if (some <= 0 && (some == 0 || errno != EINTR)) {
            if (!it->failed)
                fprintf(stderr, "recorder: %s: %s; lines are missing\n", it->path, strerror(errno));
            it->failed = true;
            return false;
        }
        done += some > 0 ? (size_t)some : 0;
    }
    return true;
}

/* Appends a line to a branch text: room for it as blank lines, then the line as a comment, and last its first byte.
   Wherever a signal ends the process, the rest of the line is blank or a comment, and ends with a line feed. */
static void put_line(struct file *it, char *line, size_t n)
{
    static char blank[ROOM + (RING + 1) * ENTRY];
    char first = line[0];
    pthread_mutex_lock(&writing);
    if (is_open(it)) {
        memset(blank, '\n', n);
        if (!it->regular) {
            put(it, line, n, -1);
        } else if (put(it, blank, n, -1)) {
            off_t to = lseek(it->at, 0, SEEK_CUR) - (off_t)n;
            line[0] = '#';
            if (put(it, line, n, to))
                put(it, &first, 1, to);
        }
    }
    pthread_mutex_unlock(&writing);
}

/* The build ID among the notes of a file, as digits. */
static void find_build(struct object *it, const unsigned char *notes, size_t n, size_t align)
{
    Elf64_Nhdr note;
    for (size_t at = 0; n - at >= sizeof note; ) {
        memcpy(&note, notes + at, sizeof note);
        size_t name = at + sizeof note, bytes = name + ((note.n_namesz + align - 1) & ~(align - 1));
        if (note.n_namesz > n || note.n_descsz > n || bytes + note.n_descsz > n)
            return;
        if (note.n_type == NT_GNU_BUILD_ID && note.n_namesz == 4 && !memcmp(notes + name, "GNU", 4)
            && note.n_descsz <= BUILD) {
            for (size_t k = 0; k < note.n_descsz; k++)
                sprintf(it->build + 2 * k, "%02x", notes[bytes + k]);
            return;
        }
        at = bytes + ((note.n_descsz + align - 1) & ~(align - 1));
        if (at > n)
            return;
    }
}

/* Segments and build ID of an open file; none of either if it is no ELF file. */
static void look_into(struct object *it, int at)
{
    Elf64_Ehdr header;
    unsigned char notes[NOTES];
    it->n = 0;
    it->build[0] = 0;
    memset(&it->is, 0, sizeof it->is);
    fstat(at, &it->is);
    if (pread(at, &header, sizeof header, 0) != sizeof header || memcmp(header.e_ident, ELFMAG, SELFMAG)
        || header.e_ident[EI_CLASS] != ELFCLASS64 || header.e_phentsize != sizeof it->parts[0])
        return;
    size_t size = (header.e_phnum < PARTS ? header.e_phnum : PARTS) * sizeof it->parts[0];
    if (pread(at, it->parts, size, (off_t)header.e_phoff) != (ssize_t)size)
        return;
    it->n = (unsigned)(size / sizeof it->parts[0]);
    for (unsigned k = 0; k < it->n && !it->build[0]; k++) {
        const Elf64_Phdr *part = &it->parts[k];
        ssize_t n = part->p_type != PT_NOTE ? 0
            : pread(at, notes, part->p_filesz < NOTES ? part->p_filesz : NOTES, (off_t)part->p_offset);
        if (n > 0)
            find_build(it, notes, (size_t)n, part->p_align == 8 ? 8 : 4);
    }
}

static bool open_object(struct object *it, const char *path)
{
    int at = open(path, O_RDONLY | O_CLOEXEC);
    if (at < 0)
        return false;
    snprintf(it->name, sizeof it->name, "%s", path);
    look_into(it, at);
    close(at);
    return it->n;
}

static uint64_t page_of(uint64_t at) { return at & ~(uint64_t)(PAGE - 1); }
static uint64_t page_end(uint64_t at) { return page_of(at + PAGE - 1); }

/* Forgets the load lines of addresses that are mapped anew. */
static void hide(uint64_t from, uint64_t to)
{
    for (struct range **at = &shown, *it; (it = *at); ) {
        if (it->to <= from || it->from >= to) {
            at = &it->next;
        } else if (it->from < from && it->to > to) {
            struct range *rest = malloc(sizeof *rest);
            if (rest) {
                *rest = (struct range){it->next, to, it->to};
                it->next = rest;
            }
            it->to = from;
        } else if (it->from < from) {
            it->to = from;
        } else if (it->to > to) {
            it->from = to;
        } else {
            *at = it->next;
            free(it);
        }
    }
}

static bool is_shown(uint64_t from, uint64_t to)
{
    for (const struct range *it = shown; it; it = it->next)
        if (it->from <= from && to <= it->to)
            return true;
    return false;
}

/* Writes a load line, as perf prints it; `lock` is held. A line feed in a name would end the line. */
static void load_line(const struct object *it, uint64_t from, uint64_t length, uint64_t offset)
{
    char what[2 * BUILD + 64], *line;
    struct range *now = malloc(sizeof *now);
    if (it->build[0])
        sprintf(what, "<%s>", it->build);
    else
        sprintf(what, "%02x:%02x %" PRIu64 " 0", major(it->is.st_dev), minor(it->is.st_dev), (uint64_t)it->is.st_ino);
    hide(from, from + length);
    if (now) {
        *now = (struct range){shown, from, from + length};
        shown = now;
    }
    int n = asprintf(&line, "PERF_RECORD_MMAP2 1/1: [%#" PRIx64 "(%#" PRIx64 ") @ %#" PRIx64 " %s]: r-xp %s\n",
                     from, length, offset, what, it->name);
    if (n < 0)
        return;
    for (int k = 0; k < n - 1; k++)
        if (line[k] == '\n')
            line[k] = '?';
    put_line(&text, line, (size_t)n);
    free(line);
}

/* A line of the emulator's own maps. Code of the program is there, too, and only readable: the emulator translates it. */
struct map {
    uint64_t from, to, offset;
    bool runs;
    char name[PATH_MAX];
};

static bool next_map(FILE *maps, struct map *it)
{
    char line[PATH_MAX + 128], rights[8];
    while (fgets(line, sizeof line, maps)) {
        int name = 0;
        if (sscanf(line, "%" SCNx64 "-%" SCNx64 " %7s %" SCNx64 " %*s %*s %n", &it->from, &it->to, rights, &it->offset,
                   &name) < 4)
            continue;
        line[strcspn(line, "\n")] = 0;
        it->runs = rights[2] == 'x';
        snprintf(it->name, sizeof it->name, "%s", name ? line + name : "");
        return true;
    }
    return false;
}

/* Whether the emulator has this page of the file at this address of its own, as code of the program. */
static bool is_mapped(const char *name, uint64_t at, uint64_t offset)
{
    struct map it;
    bool found = false;
    FILE *maps = fopen("/proc/self/maps", "re");
    while (maps && !found && next_map(maps, &it))
        found = !it.runs && it.from <= at && at < it.to && it.offset + (at - it.from) == offset
            && !strcmp(it.name, name);
    if (maps)
        fclose(maps);
    return found;
}

/* Load lines of the code of a file whose first page the emulator has at `at`: of the dynamic loader. The emulator's own
   libraries are not lines of the program: their code runs. */
static void place_other(struct object *it, uint64_t at)
{
    uint64_t first = UINT64_MAX;
    for (unsigned k = 0; k < it->n; k++) {
        const Elf64_Phdr *part = &it->parts[k];
        if (part->p_type == PT_LOAD && page_of(part->p_offset) == 0 && page_of(part->p_vaddr) < first)
            first = page_of(part->p_vaddr);
    }
    for (unsigned k = 0; k < it->n && first != UINT64_MAX; k++) {
        const Elf64_Phdr *part = &it->parts[k];
        uint64_t from = at - first + page_of(part->p_vaddr);
        if (part->p_type == PT_LOAD && part->p_flags & PF_X && is_mapped(it->name, from, page_of(part->p_offset)))
            load_line(it, from - guest_base, page_end(part->p_vaddr + part->p_memsz) - page_of(part->p_vaddr),
                      page_of(part->p_offset));
    }
}

/* How far from the program's addresses the emulator's own are, by a page of the program's code. */
static void find_base(const struct object *program, uint64_t from, uint64_t offset)
{
    struct map it;
    FILE *maps = fopen("/proc/self/maps", "re");
    while (maps && next_map(maps, &it))
        if (!it.runs && !strcmp(it.name, program->name) && it.offset <= offset
            && offset - it.offset < it.to - it.from) {
            guest_base = it.from + (offset - it.offset) - from;
            break;
        }
    if (maps)
        fclose(maps);
}

static void place_others(const struct object *program)
{
    struct map it;
    struct object *other = malloc(sizeof *other);
    FILE *maps = fopen("/proc/self/maps", "re");
    while (maps && other && next_map(maps, &it))
        if (it.offset == 0 && !it.runs && it.name[0] == '/' && strcmp(it.name, program->name))
            if (open_object(other, it.name))
                place_other(other, it.from);
    if (maps)
        fclose(maps);
    free(other);
}

/* Where the program's code is, and how far from where its file says; and load lines for all code that is loaded. */
static void place(void)
{
    char *path = realpath(qemu_plugin_path_to_binary(), NULL);
    struct object *program = malloc(sizeof *program);
    placed = true;
    if (path && program && open_object(program, path)) {
        for (unsigned k = 0; k < program->n; k++) {
            const Elf64_Phdr *part = &program->parts[k];
            if (part->p_type != PT_LOAD || !(part->p_flags & PF_X))
                continue;
            if (!high) {
                bias = qemu_plugin_start_code() - part->p_vaddr;
                low = part->p_vaddr + bias;
                find_base(program, page_of(low), page_of(part->p_offset));
            }
            high = part->p_vaddr + part->p_memsz + bias;
            uint64_t from = page_of(part->p_vaddr) + bias;
            if (text.path)
                load_line(program, from, page_end(high) - from, page_of(part->p_offset));
        }
        if (text.path)
            place_others(program);
    }
    free(program);
    free(path);
}

/* Load lines of code that was mapped as data, and now may run. */
static void show_range(struct object *it, uint64_t from, uint64_t to)
{
    struct map map;
    FILE *maps = fopen("/proc/self/maps", "re");
    while (maps && next_map(maps, &map)) {
        uint64_t first = map.from - guest_base, last = map.to - guest_base;
        if (map.runs || last <= from || first >= to)
            continue;
        uint64_t begin = first < from ? from : first, end = last > to ? to : last;
        if (map.name[0] != '/' || !open_object(it, map.name)) {
            memset(it, 0, sizeof *it);
            snprintf(it->name, sizeof it->name, "%s", map.name[0] == '/' ? map.name : "//anon");
        }
        load_line(it, begin, end - begin, map.name[0] == '/' ? map.offset + (begin - first) : 0);
    }
    if (maps)
        fclose(maps);
}

static void on_call(qemu_plugin_id_t id, unsigned cpu, int64_t number, uint64_t at, uint64_t length, uint64_t rights,
                    uint64_t how, uint64_t file, uint64_t offset, uint64_t seventh, uint64_t eighth)
{
    struct call *it = mine ? &mine->call : NULL;
    (void)id, (void)cpu, (void)seventh, (void)eighth;
    if (!it)
        return;
    it->maps = false;
    it->at = at;
    it->length = page_end(length);
    it->offset = offset;
    it->file = !(how & MAP_ANONYMOUS);
    if (number == SYS_munmap) {
        pthread_mutex_lock(&lock);
        hide(at, at + it->length);
        pthread_mutex_unlock(&lock);
    } else if (number == SYS_mprotect || number == SYS_pkey_mprotect) {
        it->maps = rights & PROT_EXEC;
    } else if (number == SYS_mmap && rights & PROT_EXEC) {
        char link[32];
        memset(&it->object, 0, sizeof it->object);
        strcpy(it->object.name, "//anon");
        it->maps = true;
        if (!it->file)
            return;
        snprintf(link, sizeof link, "/proc/self/fd/%d", (int)file);
        ssize_t n = readlink(link, it->object.name, sizeof it->object.name - 1);
        it->object.name[n < 0 ? 0 : n] = 0;
        it->maps = n > 0;
        look_into(&it->object, (int)file);
    }
}

static void on_return(qemu_plugin_id_t id, unsigned cpu, int64_t number, int64_t answer)
{
    struct call *it = mine ? &mine->call : NULL;
    (void)id, (void)cpu;
    if (!it || (answer < 0 && answer > -4096))
        return;
    pthread_mutex_lock(&lock);
    if (number == SYS_mmap && it->maps)
        load_line(&it->object, (uint64_t)answer, it->length, it->file ? it->offset : 0);
    else if (number == SYS_mmap)
        hide((uint64_t)answer, (uint64_t)answer + it->length);
    else if (it->maps && !is_shown(it->at, it->at + it->length))
        show_range(&it->object, it->at, it->at + it->length);
    it->maps = false;
    pthread_mutex_unlock(&lock);
}

static void sample(struct thread *me, uint64_t at)
{
    int n = sprintf(me->line, "%17" PRIx64, at);
    for (uint64_t k = 1; k <= depth && k <= me->held; k++)
        n += sprintf(me->line + n, " 0x%" PRIx64 "/0x%" PRIx64 "/P/-/-/0//- ", me->ring[(me->held - k) % RING].from,
                     me->ring[(me->held - k) % RING].to);
    me->line[n++] = '\n';
    put_line(&text, me->line, (size_t)n);
    me->samples++;
}

static void took(struct thread *me, uint64_t from, uint64_t to)
{
    me->ring[me->held % RING].from = from;
    me->ring[me->held % RING].to = to;
    me->held++;
    me->branches++;
    me->inside += from >= low && from < high;
    if (text.path && by_branches && --me->left == 0) {
        sample(me, to);
        me->left = next_period(me);
    }
}

static void count(uint64_t *runs)
{
    if (several)
        __atomic_fetch_add(runs, 1, __ATOMIC_RELAXED);
    else
        ++*runs;
}

static void on_run(unsigned cpu, void *data)
{
    struct thread *me = mine ? mine : begin();
    struct block *it = data;
    const struct block *before = me->before;
    uint64_t new = it->n;
    (void)cpu;
    if (!placed) {
        pthread_mutex_lock(&lock);
        if (!placed)
            place();
        pthread_mutex_unlock(&lock);
    }
    if (exact.path)
        count(&it->runs);
    if (before && it->at[0] == before->last) {
        if (exact.path)
            count(&it->again);
        new--;
    } else if (before && it->at[0] != before->end) {
        took(me, before->last, it->at[0]);
    }
    me->before = it;
    me->instructions += new;
    if (!text.path || !by_instructions)
        return;
    while (me->left <= new) {
        if (me->held)
            sample(me, it->at[it->n - new + me->left - (me->left == new)]);
        new -= me->left;
        me->left = next_period(me);
    }
    me->left -= new;
}

static void on_translate(qemu_plugin_id_t id, struct qemu_plugin_tb *part)
{
    size_t n = qemu_plugin_tb_n_insns(part);
    struct block *it = calloc(1, sizeof *it + n * sizeof it->at[0]);
    (void)id;
    for (size_t k = 0; k < n; k++)
        it->at[k] = qemu_plugin_insn_vaddr(qemu_plugin_tb_get_insn(part, k));
    it->n = n;
    it->last = it->at[n - 1];
    it->end = it->last + qemu_plugin_insn_size(qemu_plugin_tb_get_insn(part, n - 1));
    pthread_mutex_lock(&lock);
    it->next = blocks;
    blocks = it;
    pthread_mutex_unlock(&lock);
    qemu_plugin_register_vcpu_tb_exec_cb(part, on_run, CB_NO_REGS, it);
}

struct ran { uint64_t at, times; };

static int by_address(const void *a, const void *b)
{
    uint64_t left_at = ((const struct ran *)a)->at, right_at = ((const struct ran *)b)->at;
    return (left_at > right_at) - (left_at < right_at);
}

static void tell_counts(void)
{
    size_t n = 0, k = 0, size;
    char *lines = NULL;
    FILE *out = open_memstream(&lines, &size);
    for (struct block *it = blocks; it; it = it->next)
        n += it->n;
    struct ran *all = calloc(n + 1, sizeof *all);
    for (struct block *it = blocks; it; it = it->next)
        for (size_t i = 0; i < it->n; i++)
            all[k++] = (struct ran){it->at[i], it->runs - (i == 0 ? it->again : 0)};
    qsort(all, n, sizeof *all, by_address);
    for (k = 0; k < n; k++) {
        if (all[k].at == all[k + 1].at && k + 1 < n)
            all[k + 1].times += all[k].times;
        else if (all[k].at >= low && all[k].at < high)
            fprintf(out, "0x%" PRIx64 " %" PRIu64 "\n", all[k].at - bias, all[k].times);
    }
    fclose(out);
    if (is_open(&exact))
        put(&exact, lines, size, -1);
    free(lines);
    free(all);
}

static void before_fork(void)
{
    pthread_mutex_lock(&lock);
    pthread_mutex_lock(&writing);
    forks++;
}

static void in_parent(void)
{
    pthread_mutex_unlock(&writing);
    pthread_mutex_unlock(&lock);
}

/* The new process has one thread, counts from 0, and opens its files for itself. */
static void in_child(void)
{
    for (struct thread *it = threads; it; it = it->next) {
        it->busy = it == mine;
        it->instructions = it->branches = it->inside = it->samples = 0;
        somewhere(it, forks);
    }
    for (struct block *it = blocks; it; it = it->next)
        it->runs = it->again = 0;
    if (text.path)
        open_again(&text);
    pthread_mutex_unlock(&writing);
    pthread_mutex_unlock(&lock);
}

static void on_exit_of(qemu_plugin_id_t id, void *data)
{
    uint64_t instructions = 0, branches = 0, inside = 0, samples = 0;
    (void)id, (void)data;
    pthread_mutex_lock(&lock);
    for (const struct thread *it = threads; it; it = it->next) {
        instructions += it->instructions;
        branches += it->branches;
        inside += it->inside;
        samples += it->samples;
    }
    if (exact.path)
        tell_counts();
    pthread_mutex_unlock(&lock);
    if (quiet)
        return;
    fprintf(stderr, "recorder: instructions %" PRIu64 " branches %" PRIu64 " inside %" PRIu64 " samples %" PRIu64 "\n",
            instructions, branches, inside, samples);
}

/* Makes the file, and keeps its whole name, since the program may go to another folder. */
static bool make_file(struct file *it, const char *name)
{
    it->path = strdup(name);
    if (!open_file(it, O_CREAT | O_TRUNC)) {
        fprintf(stderr, "recorder: cannot write %s\n", name);
        return false;
    }
    /* A pipe as /dev/stdout has no whole name. */
    char *whole = realpath(name, NULL);
    if (whole) {
        free(it->path);
        it->path = whole;
    }
    return it->path;
}

static bool take_word(const char *name, const char *value)
{
    if (!strcmp(name, "out"))
        return make_file(&text, value);
    if (!strcmp(name, "exact"))
        return make_file(&exact, value);
    if (!strcmp(name, "depth"))
        depth = strtoull(value, NULL, 10);
    else if (!strcmp(name, "branches"))
        by_branches = strtoull(value, NULL, 10);
    else if (!strcmp(name, "instructions"))
        by_instructions = strtoull(value, NULL, 10);
    else if (!strcmp(name, "quiet"))
        quiet = !strcmp(value, "on");
    else
        return false;
    return true;
}

__attribute__((visibility("default"))) int qemu_plugin_install(qemu_plugin_id_t id, const void *info, int n, char **words)
{
    (void)info;
    for (int k = 0; k < n; k++) {
        char *value = strchr(words[k], '=');
        if (!value)
            return -1;
        *value++ = 0;
        if (!take_word(words[k], value))
            return -1;
    }
    if (!depth || depth >= RING || (text.path && !by_branches == !by_instructions))
        return -1;
    if (pthread_key_create(&ending, end) || pthread_atfork(before_fork, in_parent, in_child))
        return -1;
    qemu_plugin_register_vcpu_tb_trans_cb(id, on_translate);
    if (text.path) {
        qemu_plugin_register_vcpu_syscall_cb(id, on_call);
        qemu_plugin_register_vcpu_syscall_ret_cb(id, on_return);
    }
    qemu_plugin_register_atexit_cb(id, on_exit_of, NULL);
    return 0;
}

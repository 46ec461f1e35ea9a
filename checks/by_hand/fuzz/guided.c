/* What libFuzzer calls: the program's main on the words of the variable WORDS, in which @ is the input. The program's arguments and
 * files are those of this file, so that a run makes no call of the system. What has to hold of a run is said in fuzz.c. */
#include <stdint.h>
#include <stdio.h>
#include <stdlib.h>
#include <string.h>

enum { MOST = 16, ROOM = 1 << 22, ABSENT = -1, TOO_LONG = -2, NO_SUCH_FILE = 2 };

struct file {
    const char *name;
    const uint8_t *bytes;
    size_t size;
};

struct reader {
    const struct file *file;
    size_t at;
};

struct text {
    char bytes[ROOM + 1];
    size_t size;
};

static char *words[MOST];
static int word_count = 1, file_count = 1;
/* The input is the first. */
static struct file files[MOST];
static struct reader readers[MOST];
static struct text out, err;

int program_main(int, char **, char **);
void rattle_set_errno(int);

static void load(const char *name) {
    FILE *from = fopen(name, "rb");
    if (!from)
        return;
    uint8_t *bytes = malloc(ROOM);
    files[file_count++] = (struct file){name, bytes, fread(bytes, 1, ROOM, from)};
    fclose(from);
}

int LLVMFuzzerInitialize(int *argc, char ***argv) {
    (void)argc, (void)argv;
    words[0] = "pgo";
    for (char *word = strtok(strdup(getenv("WORDS")), " "); word && word_count < MOST; word = strtok(NULL, " ")) {
        words[word_count++] = word;
        if (strcmp(word, "@"))
            load(word);
    }
    return 0;
}

/* In place of the kit's. */
long rattle_arg(uint64_t i, char *to, uint64_t room) {
    if (i >= (uint64_t)word_count)
        return ABSENT;
    size_t size = strlen(words[i]);
    if (size > room)
        return TOO_LONG;
    memcpy(to, words[i], size);
    return (long)size;
}

int fuzz_open(const char *name, int flags, ...) {
    (void)flags;
    for (int i = 0; i < file_count; i++)
        for (int fd = 3; !strcmp(files[i].name, name) && fd < MOST; fd++)
            if (!readers[fd].file) {
                readers[fd] = (struct reader){&files[i], 0};
                return fd;
            }
    rattle_set_errno(NO_SUCH_FILE);
    return -1;
}

int fuzz_close(int fd) {
    readers[fd].file = NULL;
    return 0;
}

long fuzz_read(int fd, void *to, size_t size) {
    struct reader *it = &readers[fd];
    size_t left = it->file->size - it->at;
    size = size < left ? size : left;
    memcpy(to, it->file->bytes + it->at, size);
    it->at += size;
    return (long)size;
}

/* What passes the room is counted, and not kept. */
long fuzz_write(int fd, const void *from, size_t size) {
    struct text *to = fd == 1 ? &out : &err;
    size_t left = to->size < ROOM ? ROOM - to->size : 0;
    if (left)
        memcpy(to->bytes + to->size, from, size < left ? size : left);
    to->size += size;
    return (long)size;
}

static int is_line(const char *pattern, int parts) {
    int file;
    long at;
    char kind[64], end = 0;
    int found = parts == 4 ? sscanf(err.bytes, pattern, &file, &at, kind, &end) : sscanf(err.bytes, pattern, &at, &end);
    return found == parts && end == '\n' && strchr(err.bytes, '\n') == err.bytes + err.size - 1;
}

static int is_good(int status) {
    switch (status) {
    case 0: return !err.size && (!out.size || out.size > ROOM || out.bytes[out.size - 1] == '\n');
    case 1: return !out.size && is_line("check failed at line %ld%c", 2);
    case 4: return !out.size && is_line("refused: file %d at %ld: %63[A-Za-z0-9]%c", 4);
    case 7: return !out.size && !strcmp(err.bytes, "no memory\n");
    default: return 0;
    }
}

int LLVMFuzzerTestOneInput(const uint8_t *bytes, size_t size) {
    files[0] = (struct file){"@", bytes, size};
    memset(readers, 0, sizeof readers);
    out.size = err.size = 0;
    int status = program_main(word_count, words, NULL);
    err.bytes[err.size < ROOM ? err.size : ROOM] = 0;
    if (!is_good(status)) {
        fprintf(stderr, "FIND: status %d, %zu bytes of output, %.200s\n", status, out.size, err.bytes);
        abort();
    }
    return 0;
}

// Notes what a program does to files. Loaded before it (LD_PRELOAD), this appends an event to the file that TRACE names for each
// call that opens, writes, cuts, syncs, renames or removes a file, once it has succeeded, and for each write to standard output.
// An event is a line `@EVENT@ KIND DESCRIPTOR OFFSET SIZE` and so many bytes: what was written, or names with a zero byte between them. It
// is appended as a whole: several processes may have one file, and the descriptor is noted with the process id above its 32 bits.
// What olr_keep finds in a file that it opens to write to is an event, too: one that was killed may not have noted its last write.
// With the variable TRACES, a folder, each process of olr_keep has a file of its own there, which begins with its process id.
// A sync that is noted isn't made, which would take most of the time: the tests lose what isn't synced by these notes. With the
// variable DROP_SYNCS it isn't noted either, and answers that it was made: to show that a test finds it. With SLOW_SYNCS one of
// olr_keep takes so many milliseconds more, up to 999, before it is noted. With SHORT no bytes of a file are noted.
typedef unsigned long size_t;
typedef long ssize_t;
typedef long off_t;
extern char *program_invocation_short_name;
extern char *getenv(const char *name);
extern int atoi(const char *text);
extern long syscall(long number, ...);
extern int snprintf(char *to, size_t size, const char *format, ...);

enum {
    WRITE = 1, OPEN = 2, CLOSE = 3, SEEK = 8, MAP = 9, UNMAP = 11, PWRITE = 18, WRITEV = 20, SLEEP = 35, GETPID = 39, CONTROL = 72, FSYNC = 74, FDATASYNC = 75, TRUNCATE = 77,
    RENAME = 82, UNLINK = 87, OPENAT = 257, RENAMEAT = 264, UNLINKAT = 263, CREATE = 0100, NEW = 0200, APPEND = 02000, HERE = -100,
    DUPLICATE = 1030, NONE = -2
};

static int trace = -1;

// Whether this is a process of the program, which is olr_keep, or olr_keep-NUMBER where it was unpacked.
static int is_program(void) {
    const char *name = program_invocation_short_name, *wanted = "olr_keep";
    while (*wanted && *name == *wanted) name++, wanted++;
    return !*wanted && (!*name || *name == '-');
}

static int open_trace(void) {
    char name[4096];
    const char *one = getenv("TRACE"), *folder = getenv("TRACES");
    int file = -1;
    if (one) file = (int)syscall(OPEN, one, 01 | CREATE | APPEND, 0600);
    if (!one && folder && is_program())
        for (int k = 0; file < 0 && k < 100; k++) {
            snprintf(name, sizeof name, "%s/%ld.%d", folder, syscall(GETPID), k);
            file = (int)syscall(OPEN, name, 01 | CREATE | NEW | APPEND, 0600);
        }
    if (file < 0) return NONE;
    // Not among the standard streams, of which some may be closed.
    int high = (int)syscall(CONTROL, file, DUPLICATE, 500);
    syscall(CLOSE, file);
    return high < 0 ? NONE : high;
}

static void note(const char *kind, int file, long at, const void *bytes, size_t size) {
    char head[80];
    if (trace == -1) trace = open_trace();
    if (trace < 0) return;
    if ((*kind == 'w' || *kind == 'f') && getenv("SHORT")) size = 0;
    long number = (syscall(GETPID) << 32) + file;
    size_t n = snprintf(head, sizeof head, "@EVENT@ %s %ld %ld %lu\n", kind, number, at, size);
    struct { const void *from; size_t size; } parts[] = {{head, n}, {bytes, size}};
    syscall(WRITEV, trace, parts, 2L);
}

static void note_names(const char *kind, int file, long more, const char *first, const char *second) {
    char names[8192];
    int n = snprintf(names, sizeof names, "%s%c%s", first, 0, second);
    note(kind, file, more, names, n);
}

ssize_t write(int file, const void *from, size_t size) {
    ssize_t n = syscall(WRITE, file, from, size);
    if (n > 0 && file == 1) note("answer", file, 0, from, n);
    if (n > 0 && file > 2) note("write", file, syscall(SEEK, file, 0L, 1) - n, from, n);
    return n;
}
ssize_t __write(int file, const void *from, size_t size) { return write(file, from, size); }

ssize_t pwrite(int file, const void *from, size_t size, off_t at) {
    ssize_t n = syscall(PWRITE, file, from, size, at);
    if (n > 0) note("write", file, at, from, n);
    return n;
}
ssize_t pwrite64(int file, const void *from, size_t size, off_t at) { return pwrite(file, from, size, at); }

static int synced(long number, int file) {
    const char *slow = getenv("SLOW_SYNCS");
    if (getenv("DROP_SYNCS")) return 0;
    if (slow && is_program()) {
        long wait[] = {0, atoi(slow) * 1000000L};
        syscall(SLEEP, wait, 0L);
    }
    note("sync", file, 0, "", 0);
    return trace < 0 ? (int)syscall(number, file) : 0;
}
int fsync(int file) { return synced(FSYNC, file); }
int fdatasync(int file) { return synced(FDATASYNC, file); }

int close(int file) {
    int status = (int)syscall(CLOSE, file);
    if (!status && file > 2) note("close", file, 0, "", 0);
    return status;
}

int ftruncate(int file, off_t size) {
    int status = (int)syscall(TRUNCATE, file, size);
    if (!status) note("cut", file, size, "", 0);
    return status;
}
int ftruncate64(int file, off_t size) { return ftruncate(file, size); }

int renameat(int a, const char *from, int b, const char *to) {
    int status = (int)syscall(RENAMEAT, a, from, b, to);
    if (!status) note_names("rename", a, b, from, to);
    return status;
}
int rename(const char *from, const char *to) { return renameat(HERE, from, HERE, to); }

int unlinkat(int folder, const char *name, int flags) {
    int status = (int)syscall(UNLINKAT, folder, name, flags);
    if (!status) note_names("remove", folder, 0, name, "");
    return status;
}
int unlink(const char *name) { return unlinkat(HERE, name, 0); }

static void note_found(int file) {
    long size = syscall(SEEK, file, 0L, 2);
    syscall(SEEK, file, 0L, 0);
    void *bytes = size > 0 ? (void *)syscall(MAP, 0L, size, 1L, 2L, file, 0L) : 0;
    if ((long)bytes <= 0) return;
    note("found", file, 0, bytes, size);
    syscall(UNMAP, bytes, size);
}

static int opened(int folder, const char *name, int flags, unsigned mode) {
    int file = (int)syscall(OPENAT, folder, name, flags, mode);
    if (file >= 0) note_names("open", file, flags, name, "");
    if (file >= 0 && flags & 02 && is_program()) note_found(file);
    return file;
}

#define OPENS(function)                                                            \
    int function(const char *name, int flags, ...) {                               \
        __builtin_va_list more;                                                    \
        __builtin_va_start(more, flags);                                           \
        unsigned mode = flags & CREATE ? __builtin_va_arg(more, unsigned) : 0;     \
        __builtin_va_end(more);                                                    \
        return opened(HERE, name, flags, mode);                                    \
    }
#define OPENS_AT(function)                                                         \
    int function(int folder, const char *name, int flags, ...) {                   \
        __builtin_va_list more;                                                    \
        __builtin_va_start(more, flags);                                           \
        unsigned mode = flags & CREATE ? __builtin_va_arg(more, unsigned) : 0;     \
        __builtin_va_end(more);                                                    \
        return opened(folder, name, flags, mode);                                  \
    }
OPENS(open)
OPENS(open64)
OPENS_AT(openat)
OPENS_AT(openat64)

// Stops a program at a call of the file system. Loaded before it (LD_PRELOAD), this counts the calls that read or change a file
// other than the standard streams, and what is written to standard output, and kills the process at the Nth, where the variable
// STOP is N: before the call, or, if it is a write, after half of its bytes. With the variable FAIL `N` the Nth call fails
// instead (EIO), and all later ones succeed. The number of calls is written to the file that CALLS names. The calls that succeeded
// are noted as `trace.c` does.
#define write traced_write
#define __write traced_write_too
#define pwrite traced_pwrite
#define pwrite64 traced_pwrite64
#define fsync traced_fsync
#define fdatasync traced_fdatasync
#define ftruncate traced_ftruncate
#define ftruncate64 traced_ftruncate64
#define rename traced_rename
#define renameat traced_renameat
#define unlink traced_unlink
#define unlinkat traced_unlinkat
#define open traced_open
#define open64 traced_open64
#define openat traced_openat
#define openat64 traced_openat64
#define opened traced_opened
#include "trace.c"
#undef write
#undef __write
#undef pwrite
#undef pwrite64
#undef fsync
#undef fdatasync
#undef ftruncate
#undef ftruncate64
#undef rename
#undef renameat
#undef unlink
#undef unlinkat
#undef open
#undef open64
#undef openat
#undef openat64
#undef opened
extern int *__errno_location(void);
extern long strtol(const char *text, char **end, int base);
extern int dprintf(int file, const char *format, ...);

enum { READ = 0, PREAD = 17, KILL = 62, FLOCK = 73, FCHMOD = 91, FCHOWN = 93, IO_FAULT = 5, SIGKILL = 9 };

static long calls;

static long wanted(const char *name) {
    const char *text = getenv(name);
    return text ? strtol(text, 0, 10) : -1;
}

static void stop(void) { syscall(KILL, syscall(GETPID), SIGKILL); }

// Counts a call. Returns whether it has to fail.
static int counted(void) {
    calls++;
    if (calls == wanted("STOP")) stop();
    if (calls != wanted("FAIL")) return 0;
    *__errno_location() = IO_FAULT;
    return 1;
}

// The same for a write, of which half is carried out before the process is killed.
static int counted_write(int file, const void *from, size_t size, off_t at) {
    calls++;
    if (calls == wanted("STOP")) {
        if (size > 1 && at < 0) traced_write(file, from, size / 2);
        if (size > 1 && at >= 0) traced_pwrite(file, from, size / 2, at);
        stop();
    }
    if (calls != wanted("FAIL")) return 0;
    *__errno_location() = IO_FAULT;
    return 1;
}


ssize_t read(int file, void *into, size_t size) {
    if (file > 2 && counted()) return -1;
    return syscall(READ, file, into, size);
}

ssize_t pread(int file, void *into, size_t size, off_t at) {
    if (counted()) return -1;
    return syscall(PREAD, file, into, size, at);
}
ssize_t pread64(int file, void *into, size_t size, off_t at) { return pread(file, into, size, at); }

ssize_t write(int file, const void *from, size_t size) {
    if (file != 2 && counted_write(file, from, size, -1)) return -1;
    return traced_write(file, from, size);
}
ssize_t __write(int file, const void *from, size_t size) { return write(file, from, size); }

ssize_t pwrite(int file, const void *from, size_t size, off_t at) {
    if (counted_write(file, from, size, at)) return -1;
    return traced_pwrite(file, from, size, at);
}
ssize_t pwrite64(int file, const void *from, size_t size, off_t at) { return pwrite(file, from, size, at); }

int fsync(int file) { return counted() ? -1 : traced_fsync(file); }
int fdatasync(int file) { return counted() ? -1 : traced_fdatasync(file); }
int ftruncate(int file, off_t size) { return counted() ? -1 : traced_ftruncate(file, size); }
int ftruncate64(int file, off_t size) { return ftruncate(file, size); }
int rename(const char *from, const char *to) { return counted() ? -1 : traced_rename(from, to); }
int renameat(int a, const char *from, int b, const char *to) { return counted() ? -1 : traced_renameat(a, from, b, to); }
int unlink(const char *name) { return counted() ? -1 : traced_unlink(name); }
int unlinkat(int folder, const char *name, int flags) { return counted() ? -1 : traced_unlinkat(folder, name, flags); }
int fchmod(int file, unsigned mode) { return counted() ? -1 : (int)syscall(FCHMOD, file, mode); }
int fchown(int file, unsigned user, unsigned group) { return counted() ? -1 : (int)syscall(FCHOWN, file, user, group); }
int flock(int file, int how) { return counted() ? -1 : (int)syscall(FLOCK, file, how); }

static int opened(int folder, const char *name, int flags, unsigned mode) {
    return counted() ? -1 : traced_opened(folder, name, flags, mode);
}

int openat(int folder, const char *name, int flags, ...) {
    __builtin_va_list more;
    __builtin_va_start(more, flags);
    unsigned mode = flags & CREATE ? __builtin_va_arg(more, unsigned) : 0;
    __builtin_va_end(more);
    return opened(folder, name, flags, mode);
}
int openat64(int folder, const char *name, int flags, ...) {
    __builtin_va_list more;
    __builtin_va_start(more, flags);
    unsigned mode = flags & CREATE ? __builtin_va_arg(more, unsigned) : 0;
    __builtin_va_end(more);
    return opened(folder, name, flags, mode);
}
int open(const char *name, int flags, ...) {
    __builtin_va_list more;
    __builtin_va_start(more, flags);
    unsigned mode = flags & CREATE ? __builtin_va_arg(more, unsigned) : 0;
    __builtin_va_end(more);
    return opened(-100, name, flags, mode);
}
int open64(const char *name, int flags, ...) {
    __builtin_va_list more;
    __builtin_va_start(more, flags);
    unsigned mode = flags & CREATE ? __builtin_va_arg(more, unsigned) : 0;
    __builtin_va_end(more);
    return opened(-100, name, flags, mode);
}

__attribute__((destructor)) static void write_calls(void) {
    const char *name = getenv("CALLS");
    long file = name ? syscall(OPEN, name, 01 | 0100 | 01000, 0600) : -1;
    if (file >= 0) dprintf((int)file, "%ld\n", calls);
}

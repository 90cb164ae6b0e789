// Fault injection. Loaded before a program (LD_PRELOAD), it fails the call that the variable REFUSE names, `KIND N`, and counts
// all such calls:
//   allocation N  the Nth allocation           allocations N  the Nth allocation and all later ones
//   read N        the Nth read                 write N        the Nth write
//   none N        the Nth write returns 0
// With SLOW set, each read and write transfers one byte. When the program ends, its counts of allocations, reads, writes and
// refused calls are written to the file that COUNTS names. With LIVE set, the file that it names has, from each read on, the
// number of bytes that are allocated then, and the number of reads.
typedef unsigned long size_t;
typedef long ssize_t;
extern void *__libc_malloc(size_t size);
extern void *__libc_realloc(void *old, size_t size);
extern void __libc_free(void *old);
extern size_t malloc_usable_size(void *block);
extern int *__errno_location(void);
extern char *getenv(const char *name);
extern int strncmp(const char *one, const char *other, size_t size);
extern long strtol(const char *text, char **end, int base);
extern long syscall(long number, ...);
extern int dprintf(int file, const char *format, ...);

enum { READ = 0, WRITE = 1, OPEN = 2, CLOSE = 3, SEEK = 8, NO_MEMORY = 12, IO_FAULT = 5 };

static long allocations, reads, writes, refused, live;

// The N that REFUSE has for this kind, or 0.
static long wanted(const char *kind, size_t size) {
    const char *text = getenv("REFUSE");
    return text && !strncmp(text, kind, size) ? strtol(text + size, 0, 10) : 0;
}

static int refuses_allocation(void) {
    long one = wanted("allocation ", 11), all = wanted("allocations ", 12);
    allocations++;
    if (allocations != one && (!all || allocations < all)) return 0;
    refused++;
    *__errno_location() = NO_MEMORY;
    return 1;
}

void *malloc(size_t size) {
    void *block = refuses_allocation() ? 0 : __libc_malloc(size);
    live += malloc_usable_size(block);
    return block;
}

void *realloc(void *old, size_t size) {
    if (refuses_allocation()) return 0;
    size_t before = malloc_usable_size(old);
    void *block = __libc_realloc(old, size);
    if (block) live += malloc_usable_size(block) - before;
    return block;
}

void free(void *old) {
    live -= malloc_usable_size(old);
    __libc_free(old);
}

// Writes the number of allocated bytes, if it is asked for.
static void write_live(void) {
    static long file = -2;
    if (file == -2) {
        const char *name = getenv("LIVE");
        file = name ? syscall(OPEN, name, 01 | 0100 | 01000, 0600) : -1;
    }
    if (file < 0) return;
    syscall(SEEK, file, 0, 0);
    dprintf(file, "%20ld %20ld\n", live, reads);
}

static ssize_t fault(void) {
    refused++;
    *__errno_location() = IO_FAULT;
    return -1;
}

ssize_t read(int file, void *into, size_t size) {
    if (++reads == wanted("read ", 5)) return fault();
    write_live();
    return syscall(READ, file, into, size > 1 && getenv("SLOW") ? 1 : size);
}

ssize_t write(int file, const void *from, size_t size) {
    // Standard error is not counted.
    if (file != 2 && ++writes == wanted("write ", 6)) return fault();
    if (file != 2 && writes == wanted("none ", 5)) return refused++, 0;
    return syscall(WRITE, file, from, size > 1 && getenv("SLOW") ? 1 : size);
}

ssize_t __write(int file, const void *from, size_t size) { return write(file, from, size); }

__attribute__((destructor)) static void write_counts(void) {
    const char *name = getenv("COUNTS");
    long counts[4] = {allocations, reads, writes, refused};
    long file = name ? syscall(OPEN, name, 01 | 0100 | 01000, 0600) : -1;
    if (file >= 0) dprintf(file, "%ld %ld %ld %ld\n", counts[0], counts[1], counts[2], counts[3]);
}

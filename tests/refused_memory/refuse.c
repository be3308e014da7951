// Refuses memory to the program that loads this by LD_PRELOAD: the request of the number REFUSE_AT, counted from 1 over all threads and all the
// functions below, and with REFUSE_REST every later one too. When it refuses that request it writes the function's name to the file REFUSE_NOTE.
// These are all the functions of libc from which a program gets memory. `mvn` calls malloc and realloc, and libc calls calloc for a new thread. None
// of them calls mmap where another function could stand in its place: libc takes its blocks and the stacks of threads from the system itself.
#include <errno.h>
#include <fcntl.h>
#include <stdatomic.h>
#include <stdlib.h>
#include <string.h>
#include <unistd.h>

void *__libc_malloc(size_t);
void *__libc_calloc(size_t, size_t);
void *__libc_realloc(void *, size_t);
void *__libc_memalign(size_t, size_t);

static unsigned long first;
static int rest;
static const char *note;
static atomic_ulong asked;

// What ld.so asks for before this isn't counted, since the program hasn't begun then.
__attribute__((constructor)) static void begin(void) {
    const char *at = getenv("REFUSE_AT");
    note = getenv("REFUSE_NOTE");
    rest = getenv("REFUSE_REST") != NULL;
    first = at && note ? strtoul(at, NULL, 10) : 0;
}

static void write_note(const char *function) {
    int file = open(note, O_WRONLY | O_CREAT | O_TRUNC | O_CLOEXEC, 0600);
    if (file < 0 || write(file, function, strlen(function)) < 0 || close(file) < 0)
        abort();
}

static int is_refused(const char *function) {
    if (first == 0)
        return 0;
    unsigned long number = atomic_fetch_add(&asked, 1) + 1;
    if (number < first || (number > first && !rest))
        return 0;
    if (number == first)
        write_note(function);
    errno = ENOMEM;
    return 1;
}

void *malloc(size_t size) { return is_refused("malloc") ? NULL : __libc_malloc(size); }

void *calloc(size_t count, size_t size) { return is_refused("calloc") ? NULL : __libc_calloc(count, size); }

void *realloc(void *old, size_t size) { return is_refused("realloc") ? NULL : __libc_realloc(old, size); }

void *memalign(size_t by, size_t size) { return is_refused("memalign") ? NULL : __libc_memalign(by, size); }

void *aligned_alloc(size_t by, size_t size) { return is_refused("aligned_alloc") ? NULL : __libc_memalign(by, size); }

int posix_memalign(void **made, size_t by, size_t size) {
    void *block = is_refused("posix_memalign") ? NULL : __libc_memalign(by, size);
    if (!block)
        return ENOMEM;
    *made = block;
    return 0;
}

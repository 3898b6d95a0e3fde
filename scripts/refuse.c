/* Refuses allocations of the program that it is preloaded into, and interrupts its reads.
 *
 * REFUSE=N refuses the Nth allocation alone, REFUSE=N.. that one and all behind it. COUNT=FD writes
 * how many were asked for to that descriptor at the program's end. INTERRUPT=FD ends each read once
 * as a signal would before any byte is read, and writes how many there were to that descriptor. */
#include <errno.h>
#include <stdatomic.h>
#include <stdio.h>
#include <stdlib.h>
#include <string.h>
#include <sys/syscall.h>
#include <unistd.h>

extern void *__libc_malloc(size_t);
extern void *__libc_calloc(size_t, size_t);
extern void *__libc_realloc(void *, size_t);
extern void *__libc_memalign(size_t, size_t);

static atomic_ulong asked;
static atomic_ulong reads;
static int interrupts;
static unsigned long first;
static int and_all;
static int begun;

__attribute__((constructor)) static void begin(void) {
    const char *word = getenv("REFUSE");
    if (word != NULL) {
        char *end;
        first = strtoul(word, &end, 10);
        and_all = strcmp(end, "..") == 0;
    }
    interrupts = getenv("INTERRUPT") != NULL;
    begun = 1;
}

static void tell(const char *name, unsigned long count) {
    const char *word = getenv(name);
    if (word != NULL) {
        begun = 0;
        dprintf(atoi(word), "%lu", count);
    }
}

__attribute__((destructor)) static void finish(void) {
    tell("COUNT", asked);
    tell("INTERRUPT", reads / 2);
}

ssize_t read(int file, void *to, size_t size) {
    if (interrupts && reads++ % 2 == 0) {
        errno = EINTR;
        return -1;
    }
    return syscall(SYS_read, file, to, size);
}

static int is_refused(void) {
    if (!begun) {
        return 0;
    }
    unsigned long now = ++asked;
    if (first == 0 || now < first || (now > first && !and_all)) {
        return 0;
    }
    errno = ENOMEM;
    return 1;
}

void *malloc(size_t size) { return is_refused() ? NULL : __libc_malloc(size); }

void *calloc(size_t count, size_t size) { return is_refused() ? NULL : __libc_calloc(count, size); }

void *realloc(void *old, size_t size) { return is_refused() ? NULL : __libc_realloc(old, size); }

void *aligned_alloc(size_t align, size_t size) {
    return is_refused() ? NULL : __libc_memalign(align, size);
}

void *memalign(size_t align, size_t size) {
    return is_refused() ? NULL : __libc_memalign(align, size);
}

int posix_memalign(void **to, size_t align, size_t size) {
    void *room = is_refused() ? NULL : __libc_memalign(align, size);
    if (room == NULL) {
        return ENOMEM;
    }
    *to = room;
    return 0;
}

/* Refuses what a program asks of the machine, at a place. tools/torture builds it, and loads it before the program.

   REFUSE is KIND FIRST LAST HOW PIECE. Of the requests of that kind (memory, read, write or thread) those from the FIRST
   to the LAST, counted from 1, are refused: HOW is fail, or interrupt (a read or write that is to be tried again), or
   none (a write that moves no byte). Where PIECE isn't 0, each other read or write moves so many bytes at most. Reads
   are those of standard input, writes those of standard output. COUNTS names a file that gets how often each kind was
   asked, as four 64-bit numbers. */
#define _GNU_SOURCE
#include <dlfcn.h>
#include <errno.h>
#include <fcntl.h>
#include <pthread.h>
#include <stdatomic.h>
#include <stdio.h>
#include <stdlib.h>
#include <string.h>
#include <sys/mman.h>
#include <sys/syscall.h>
#include <unistd.h>

enum { MEMORY, READ, WRITE, THREAD, KINDS };

static const char *const names[KINDS] = {"memory", "read", "write", "thread"};
static atomic_long own[KINDS], *asked = own;
static int chosen = KINDS;
static long first, last, piece;
static char how[16];
static int (*create)(pthread_t *, const pthread_attr_t *, void *(*)(void *), void *);

void *__libc_malloc(size_t);
void *__libc_calloc(size_t, size_t);
void *__libc_realloc(void *, size_t);
void *__libc_memalign(size_t, size_t);

__attribute__((constructor)) static void begin(void) {
    const char *words = getenv("REFUSE"), *counts = getenv("COUNTS");
    char kind[16];
    *(void **)&create = dlsym(RTLD_NEXT, "pthread_create");
    int file = counts ? open(counts, O_RDWR) : -1;
    if (file >= 0) {
        void *shared = mmap(0, sizeof own, PROT_READ | PROT_WRITE, MAP_SHARED, file, 0);
        asked = shared == MAP_FAILED ? own : shared;
        close(file);
    }
    if (words && sscanf(words, "%15s %ld %ld %15s %ld", kind, &first, &last, how, &piece) == 5)
        for (int it = 0; it < KINDS; it++)
            if (!strcmp(kind, names[it]))
                chosen = it;
}

/* Counts a request, and tells whether it is one to refuse. */
static int refused(int kind) {
    long place = atomic_fetch_add(&asked[kind], 1) + 1;
    return kind == chosen && first <= place && place <= last;
}

static void *no_memory(void) {
    errno = ENOMEM;
    return 0;
}

void *malloc(size_t size) { return refused(MEMORY) ? no_memory() : __libc_malloc(size); }

void *calloc(size_t count, size_t size) { return refused(MEMORY) ? no_memory() : __libc_calloc(count, size); }

void *realloc(void *block, size_t size) { return refused(MEMORY) ? no_memory() : __libc_realloc(block, size); }

void *memalign(size_t align, size_t size) { return refused(MEMORY) ? no_memory() : __libc_memalign(align, size); }

void *aligned_alloc(size_t align, size_t size) { return memalign(align, size); }

int posix_memalign(void **block, size_t align, size_t size) {
    void *made = memalign(align, size);
    if (!made)
        return ENOMEM;
    *block = made;
    return 0;
}

/* Moves bytes, or refuses to, as HOW and PIECE say. */
static ssize_t move(int kind, long call, int file, void *bytes, size_t size) {
    if (!refused(kind))
        return syscall(call, file, bytes, kind == chosen && piece && size > (size_t)piece ? (size_t)piece : size);
    if (!strcmp(how, "none"))
        return 0;
    errno = strcmp(how, "interrupt") ? EIO : EINTR;
    return -1;
}

ssize_t read(int file, void *bytes, size_t size) {
    return file == 0 ? move(READ, SYS_read, file, bytes, size) : syscall(SYS_read, file, bytes, size);
}

ssize_t write(int file, const void *bytes, size_t size) {
    return file == 1 ? move(WRITE, SYS_write, file, (void *)bytes, size) : syscall(SYS_write, file, bytes, size);
}

ssize_t __write(int file, const void *bytes, size_t size) { return write(file, bytes, size); }

int pthread_create(pthread_t *thread, const pthread_attr_t *how_made, void *(*work)(void *), void *given) {
    return refused(THREAD) ? EAGAIN : create(thread, how_made, work, given);
}

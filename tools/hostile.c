/* Loaded before a program by LD_PRELOAD: refuses or shortens calls of the C library, as the variable HOSTILE says, and counts them.

   HOSTILE is a list of words with commas between them, K counted from 1:
     alloc=K  alloc=K+    the K-th request for memory is refused; from the K-th on, all are
     thread=K thread=K+   the same for starting a thread
     read=K:E write=K:E   the K-th read of standard input, or write to standard output, fails with error number E
     read-most=N write-most=N    none of them moves more than N bytes
   HOSTILE_COUNTS names a file of four 64-bit numbers, where the calls so far stand: requests for memory, threads, reads, writes. */
#define _GNU_SOURCE
#include <dlfcn.h>
#include <errno.h>
#include <fcntl.h>
#include <pthread.h>
#include <stdatomic.h>
#include <stdlib.h>
#include <string.h>
#include <sys/mman.h>
#include <sys/syscall.h>
#include <unistd.h>

extern void *__libc_malloc(size_t);
extern void *__libc_calloc(size_t, size_t);
extern void *__libc_realloc(void *, size_t);
extern void *__libc_memalign(size_t, size_t);

enum { ALLOC, THREAD, READ, WRITE, KINDS };

static struct { unsigned long at; int onward; int error; size_t most; } rules[KINDS];
static atomic_ulong own[KINDS];
static atomic_ulong *counts = own;

static void rule(int kind, const char *name)
{
    const char *all = getenv("HOSTILE");
    size_t length = strlen(name);
    for (const char *word = all; word; word = strchr(word, ',') ? strchr(word, ',') + 1 : NULL) {
        char *end;
        if (strncmp(word, name, length) != 0 || word[length] != '=')
            continue;
        rules[kind].at = strtoul(word + length + 1, &end, 10);
        rules[kind].onward = *end == '+';
        rules[kind].error = *end == ':' ? atoi(end + 1) : 0;
    }
}

static void most(int kind, const char *name)
{
    const char *all = getenv("HOSTILE");
    const char *found = all ? strstr(all, name) : NULL;
    rules[kind].most = found ? strtoul(found + strlen(name), NULL, 10) : 0;
}

__attribute__((constructor)) static void begin(void)
{
    const char *path = getenv("HOSTILE_COUNTS");
    rule(ALLOC, "alloc");
    rule(THREAD, "thread");
    rule(READ, "read");
    rule(WRITE, "write");
    most(READ, "read-most=");
    most(WRITE, "write-most=");
    if (path) {
        int file = open(path, O_RDWR);
        void *shared = file < 0 ? MAP_FAILED : mmap(NULL, sizeof own, PROT_READ | PROT_WRITE, MAP_SHARED, file, 0);
        if (shared != MAP_FAILED)
            counts = shared;
        close(file);
    }
}

static int refused(int kind)
{
    unsigned long number = atomic_fetch_add(&counts[kind], 1) + 1;
    return rules[kind].at && (rules[kind].onward ? number >= rules[kind].at : number == rules[kind].at);
}

static void *no_memory(void)
{
    errno = ENOMEM;
    return NULL;
}

void *malloc(size_t size) { return refused(ALLOC) ? no_memory() : __libc_malloc(size); }
void *calloc(size_t count, size_t size) { return refused(ALLOC) ? no_memory() : __libc_calloc(count, size); }
void *realloc(void *old, size_t size) { return refused(ALLOC) ? no_memory() : __libc_realloc(old, size); }
void *memalign(size_t align, size_t size) { return refused(ALLOC) ? no_memory() : __libc_memalign(align, size); }
void *aligned_alloc(size_t align, size_t size) { return memalign(align, size); }

int posix_memalign(void **out, size_t align, size_t size)
{
    void *found = memalign(align, size);
    if (!found)
        return ENOMEM;
    *out = found;
    return 0;
}

int pthread_create(pthread_t *thread, const pthread_attr_t *attributes, void *(*body)(void *), void *argument)
{
    int (*real)(pthread_t *, const pthread_attr_t *, void *(*)(void *), void *) = dlsym(RTLD_NEXT, "pthread_create");
    return refused(THREAD) ? EAGAIN : real(thread, attributes, body, argument);
}

ssize_t read(int file, void *bytes, size_t size)
{
    if (file == 0 && refused(READ)) {
        errno = rules[READ].error;
        return -1;
    }
    if (file == 0 && rules[READ].most && size > rules[READ].most)
        size = rules[READ].most;
    return syscall(SYS_read, file, bytes, size);
}

ssize_t write(int file, const void *bytes, size_t size)
{
    if (file == 1 && refused(WRITE)) {
        errno = rules[WRITE].error;
        return -1;
    }
    if (file == 1 && rules[WRITE].most && size > rules[WRITE].most)
        size = rules[WRITE].most;
    return syscall(SYS_write, file, bytes, size);
}

ssize_t __write(int file, const void *bytes, size_t size) { return write(file, bytes, size); }

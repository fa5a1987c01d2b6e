// Loaded before a program (LD_PRELOAD), refuses one of its allocations, or one of its starts of a thread:
//   REFUSE=n         the nth allocation, from 1; REFUSE=n+ that and all behind it
//   REFUSE_THREAD=n  the nth start of a thread
//   REFUSED=file     is made when something is refused
//   REFUSE_BEHIND=line, REFUSE_UNTIL=line
//                    each allocation between the one line of standard output and the other; at the end standard error tells how many
//                    stretches there were, and how many allocations they asked for
#define _GNU_SOURCE
#include <dlfcn.h>
#include <errno.h>
#include <fcntl.h>
#include <pthread.h>
#include <stdatomic.h>
#include <stddef.h>
#include <stdio.h>
#include <stdlib.h>
#include <string.h>
#include <sys/syscall.h>
#include <unistd.h>

extern void *__libc_malloc(size_t size);
extern void *__libc_calloc(size_t count, size_t size);
extern void *__libc_realloc(void *old, size_t size);
extern void *__libc_memalign(size_t align, size_t size);

static atomic_long allocations, threads, stretches, asked;
static atomic_int is_closed;
static long refuse, refuse_thread;
static int all_behind;
static const char *refused, *behind_line, *until_line;
static int (*start)(pthread_t *, const pthread_attr_t *, void *(*)(void *), void *);

__attribute__((constructor)) static void begin(void) {
    start = (int (*)(pthread_t *, const pthread_attr_t *, void *(*)(void *), void *))dlsym(RTLD_NEXT, "pthread_create");
    const char *nth = getenv("REFUSE"), *thread = getenv("REFUSE_THREAD");
    refused = getenv("REFUSED");
    refuse_thread = thread ? atol(thread) : 0;
    behind_line = getenv("REFUSE_BEHIND");
    until_line = getenv("REFUSE_UNTIL");
    all_behind = nth && strchr(nth, '+');
    atomic_store(&allocations, 0);
    refuse = nth ? atol(nth) : 0;
}

__attribute__((destructor)) static void end(void) {
    char line[100];
    if (behind_line) {
        int count = snprintf(line, sizeof line, "%ld stretches, %ld allocations\n", atomic_load(&stretches), atomic_load(&asked));
        syscall(SYS_write, STDERR_FILENO, line, (size_t)count);
    }
}

// A program with threads ends so, without its destructors.
void _exit(int status) {
    end();
    syscall(SYS_exit_group, status);
    __builtin_unreachable();
}

// Whether it is this line.
static int is_line(const char *bytes, size_t count, const char *line) {
    return line && count == strlen(line) + 1 && bytes[count - 1] == '\n' && memcmp(bytes, line, count - 1) == 0;
}

ssize_t write(int fd, const void *bytes, size_t count) {
    ssize_t written = syscall(SYS_write, fd, bytes, count);
    if (fd != STDOUT_FILENO || written != (ssize_t)count)
        return written;
    if (is_line(bytes, count, behind_line)) {
        atomic_store(&is_closed, 1);
        atomic_fetch_add(&stretches, 1);
    } else if (is_line(bytes, count, until_line)) {
        atomic_store(&is_closed, 0);
    }
    return written;
}

// Whether this is one to be refused.
static int is_refused(atomic_long *count, long nth, int behind) {
    if (nth == 0)
        return 0;
    long now = atomic_fetch_add(count, 1) + 1;
    if (now != nth && !(behind && now > nth))
        return 0;
    int kept = errno;
    int file = refused ? open(refused, O_CREAT | O_WRONLY | O_CLOEXEC, 0600) : -1;
    if (file >= 0)
        close(file);
    errno = kept;
    return 1;
}

static int is_refused_here(void) {
    int closed = atomic_load(&is_closed);
    if (closed)
        atomic_fetch_add(&asked, 1);
    if (!closed && !is_refused(&allocations, refuse, all_behind))
        return 0;
    errno = ENOMEM;
    return 1;
}

void *malloc(size_t size) { return is_refused_here() ? NULL : __libc_malloc(size); }

void *calloc(size_t count, size_t size) { return is_refused_here() ? NULL : __libc_calloc(count, size); }

void *realloc(void *old, size_t size) { return is_refused_here() ? NULL : __libc_realloc(old, size); }

void *memalign(size_t align, size_t size) { return is_refused_here() ? NULL : __libc_memalign(align, size); }

void *aligned_alloc(size_t align, size_t size) { return memalign(align, size); }

int posix_memalign(void **out, size_t align, size_t size) {
    void *got = memalign(align, size);
    if (!got)
        return ENOMEM;
    *out = got;
    return 0;
}

int pthread_create(pthread_t *thread, const pthread_attr_t *with, void *(*run)(void *), void *arg) {
    return is_refused(&threads, refuse_thread, 0) ? EAGAIN : start(thread, with, run, arg);
}

/* Stands between a program and its C library (LD_PRELOAD), and refuses one call of a kind, or all from one on.

   REFUSE_MEMORY=N     the Nth allocation or growth answers no memory
   REFUSE_THREAD=N     the Nth thread is not started
   REFUSE_READ=N       the Nth read of standard input fails
   REFUSE_WRITE=N      the Nth write to standard output fails, or answers 0 where REFUSE_WITH=0
   REFUSE_FOR_GOOD=1   and so is each later call of that kind
   MOST_READ=N, MOST_WRITTEN=N     so many bytes a call at most
   REFUSE_COUNTS=FILE  how many calls of each kind there were, in this order, at the end; and how many threads were
                       started and not yet waited for, at most */
#define _GNU_SOURCE
#include <dlfcn.h>
#include <errno.h>
#include <pthread.h>
#include <stdatomic.h>
#include <stdio.h>
#include <stdlib.h>
#include <sys/syscall.h>
#include <unistd.h>

enum { MEMORY, THREADS, READS, WRITES, KINDS };

static atomic_long counts[KINDS], going, most_going;
static long refused[KINDS], for_good, most_read, most_written, answer_zero;

static long number(const char *name)
{
    const char *text = getenv(name);
    return text ? atol(text) : 0;
}

static void *real(const char *name)
{
    return dlsym(RTLD_NEXT, name);
}

__attribute__((constructor)) static void begin(void)
{
    refused[MEMORY] = number("REFUSE_MEMORY");
    refused[THREADS] = number("REFUSE_THREAD");
    refused[READS] = number("REFUSE_READ");
    refused[WRITES] = number("REFUSE_WRITE");
    for_good = number("REFUSE_FOR_GOOD");
    most_read = number("MOST_READ");
    most_written = number("MOST_WRITTEN");
    answer_zero = getenv("REFUSE_WITH") != NULL;
    for (int kind = 0; kind < KINDS; kind++)
        counts[kind] = 0;
}

__attribute__((destructor)) static void end(void)
{
    long seen[KINDS];
    for (int kind = 0; kind < KINDS; kind++) {
        seen[kind] = counts[kind];
        refused[kind] = 0; /* the file below needs memory */
    }
    const char *name = getenv("REFUSE_COUNTS");
    FILE *file = name ? fopen(name, "w") : NULL;
    if (!file)
        return;
    fprintf(file, "%ld %ld %ld %ld %ld\n", seen[MEMORY], seen[THREADS], seen[READS], seen[WRITES], (long)most_going);
    fclose(file);
}

/* A program with threads leaves this way, past its destructors. */
void _exit(int status)
{
    end();
    syscall(SYS_exit_group, status);
    __builtin_unreachable();
}

/* Is this a call that is refused? */
static int is_refused(int kind)
{
    long place = ++counts[kind];

    return place == refused[kind] || (for_good && refused[kind] && place > refused[kind]);
}

void *malloc(size_t size)
{
    static void *(*next)(size_t);
    if (!next)
        next = real("malloc");
    if (is_refused(MEMORY)) {
        errno = ENOMEM;
        return NULL;
    }
    return next(size);
}

void *realloc(void *old, size_t size)
{
    static void *(*next)(void *, size_t);
    if (!next)
        next = real("realloc");
    if (is_refused(MEMORY)) {
        errno = ENOMEM;
        return NULL;
    }
    return next(old, size);
}

int pthread_create(pthread_t *thread, const pthread_attr_t *attributes, void *(*run)(void *), void *with)
{
    static int (*next)(pthread_t *, const pthread_attr_t *, void *(*)(void *), void *);
    if (!next)
        next = real("pthread_create");
    if (is_refused(THREADS))
        return EAGAIN;
    long now = ++going;
    long most = most_going;
    while (now > most && !atomic_compare_exchange_weak(&most_going, &most, now))
        ;
    return next(thread, attributes, run, with);
}

int pthread_join(pthread_t thread, void **result)
{
    static int (*next)(pthread_t, void **);
    if (!next)
        next = real("pthread_join");
    going--;
    return next(thread, result);
}

ssize_t read(int file, void *bytes, size_t size)
{
    static ssize_t (*next)(int, void *, size_t);
    if (!next)
        next = real("read");
    if (file != STDIN_FILENO)
        return next(file, bytes, size);
    if (is_refused(READS)) {
        errno = EIO;
        return -1;
    }
    return next(file, bytes, most_read && (size_t)most_read < size ? (size_t)most_read : size);
}

ssize_t write(int file, const void *bytes, size_t size)
{
    static ssize_t (*next)(int, const void *, size_t);
    if (!next)
        next = real("write");
    if (file != STDOUT_FILENO)
        return next(file, bytes, size);
    if (is_refused(WRITES)) {
        errno = EIO;
        return answer_zero ? 0 : -1;
    }
    return next(file, bytes, most_written && (size_t)most_written < size ? (size_t)most_written : size);
}

ssize_t __write(int file, const void *bytes, size_t size)
{
    return write(file, bytes, size);
}

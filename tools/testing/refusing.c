/* Refuses allocations or threads to a program under test. This is a shared library with malloc and similar functions
 * and pthread_create, which LD_PRELOAD loads before the C library. The program's C library is glibc.
 *
 * The program itself chooses the allocation that is refused, by an allocation of SIGNAL + number bytes, which succeeds.
 * Of the later allocations, the one with that number, from 1, is refused, and no other one. Number 0 cancels a refusal
 * that has not happened yet. With an allocation of QUESTION bytes, the program asks whether it has happened: if so,
 * that allocation is refused too, without being counted. If the environment has REFUSED_REQUEST, the program does not
 * choose: the allocation with that number, from the start of the program, is refused, and with REFUSED_AFTER all later
 * ones too. REFUSED_THREAD does the same for threads that are started.
 * When the program ends, a line on standard error says how many allocations and threads were refused, so that a test
 * knows whether there were any, and whether the program has reported each.
 */

#define _GNU_SOURCE
#include <dlfcn.h>
#include <errno.h>
#include <pthread.h>
#include <stddef.h>
#include <stdio.h>
#include <stdlib.h>
#include <sys/syscall.h>
#include <unistd.h>

/* The values in crates/refused_calls/src/refusals.rt. Numbers are at most 10,000. */
enum { SIGNAL = 1000003, MOST = 10000, QUESTION = 2000003 };

void *__libc_malloc(size_t size);
void *__libc_calloc(size_t count, size_t size);
void *__libc_realloc(void *block, size_t size);
void *__libc_memalign(size_t alignment, size_t size);

typedef int start_thread(pthread_t *, const pthread_attr_t *, void *(*)(void *), void *);

/* Which request is refused: how many requests are left up to it, which continues below 0, and whether all later ones
 * are refused too. */
struct choice {
    long left;
    int are_all_after;
};

static struct choice allocations, threads;

/* How many were refused, in all and since the program made its choice. */
static size_t refused;
static size_t refused_since;

/* Whether the environment chooses the allocation. */
static int is_chosen;

/* The C library's own function. */
static start_thread *start;

/* Reads a choice from the environment. Returns whether there is one. */
static int choose_by(const char *name, struct choice *choice)
{
    const char *number = getenv(name);

    if (number == NULL)
        return 0;
    choice->left = atol(number);
    choice->are_all_after = getenv("REFUSED_AFTER") != NULL;
    return 1;
}

__attribute__((constructor)) static void choose(void)
{
    start = (start_thread *)dlsym(RTLD_NEXT, "pthread_create");
    choose_by("REFUSED_THREAD", &threads);
    is_chosen = choose_by("REFUSED_REQUEST", &allocations);
}

/* Returns whether the next request is refused. */
static int is_next_refused(struct choice *choice)
{
    long number = __atomic_fetch_sub(&choice->left, 1, __ATOMIC_RELAXED);

    if (number > 1 || (number < 1 && !choice->are_all_after))
        return 0;
    __atomic_add_fetch(&refused, 1, __ATOMIC_RELAXED);
    return 1;
}

static int is_refused(size_t size)
{
    if (!is_chosen && SIGNAL <= size && size <= SIGNAL + MOST) {
        allocations.left = size - SIGNAL;
        refused_since = 0;
        return 0;
    }
    if (!is_chosen && size == QUESTION)
        return __atomic_load_n(&refused_since, __ATOMIC_RELAXED) > 0;
    if (!is_next_refused(&allocations))
        return 0;
    __atomic_add_fetch(&refused_since, 1, __ATOMIC_RELAXED);
    errno = ENOMEM;
    return 1;
}

int pthread_create(pthread_t *thread, const pthread_attr_t *attributes, void *(*run)(void *), void *given)
{
    return is_next_refused(&threads) ? EAGAIN : start(thread, attributes, run, given);
}

void *malloc(size_t size)
{
    return is_refused(size) ? NULL : __libc_malloc(size);
}

void *calloc(size_t count, size_t size)
{
    return is_refused(size) ? NULL : __libc_calloc(count, size);
}

void *realloc(void *block, size_t size)
{
    return is_refused(size) ? NULL : __libc_realloc(block, size);
}

void *aligned_alloc(size_t alignment, size_t size)
{
    return is_refused(size) ? NULL : __libc_memalign(alignment, size);
}

int posix_memalign(void **block, size_t alignment, size_t size)
{
    void *given = aligned_alloc(alignment, size);

    if (given == NULL)
        return ENOMEM;
    *block = given;
    return 0;
}

__attribute__((destructor)) static void tell(void)
{
    dprintf(STDERR_FILENO, "%zu refused\n", refused);
}

/* Ends the program without the usual cleanup. pgshard ends with this call. */
void _exit(int status)
{
    tell();
    for (;;)
        syscall(SYS_exit_group, status);
}

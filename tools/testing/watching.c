/* Counts what a program was refused: allocations, and reads and writes that failed. This is a shared library, which
 * LD_PRELOAD loads before the C library. The program's C library is glibc.
 *
 * When the program ends, both numbers are printed in a line on standard error. From these, a test knows whether an
 * answer that memory ran out, or that the input or the output failed, has a cause.
 */

#include <errno.h>
#include <stddef.h>
#include <stdio.h>
#include <sys/syscall.h>
#include <sys/uio.h>
#include <unistd.h>

void *__libc_malloc(size_t size);
void *__libc_calloc(size_t count, size_t size);
void *__libc_realloc(void *block, size_t size);
void *__libc_memalign(size_t alignment, size_t size);
ssize_t __read(int file, void *bytes, size_t count);
ssize_t __write(int file, const void *bytes, size_t count);

static size_t refused;
static size_t failed;

static void *granted(void *block, size_t size)
{
    if (block == NULL && size > 0)
        __atomic_add_fetch(&refused, 1, __ATOMIC_RELAXED);
    return block;
}

static ssize_t moved(ssize_t count)
{
    if (count < 0 && errno != EINTR)
        __atomic_add_fetch(&failed, 1, __ATOMIC_RELAXED);
    return count;
}

void *malloc(size_t size)
{
    return granted(__libc_malloc(size), size);
}

void *calloc(size_t count, size_t size)
{
    return granted(__libc_calloc(count, size), count && size);
}

void *realloc(void *block, size_t size)
{
    return granted(__libc_realloc(block, size), size);
}

void *aligned_alloc(size_t alignment, size_t size)
{
    return granted(__libc_memalign(alignment, size), size);
}

int posix_memalign(void **block, size_t alignment, size_t size)
{
    *block = granted(__libc_memalign(alignment, size), size);
    return *block == NULL && size > 0 ? ENOMEM : 0;
}

ssize_t read(int file, void *bytes, size_t count)
{
    return moved(__read(file, bytes, count));
}

ssize_t write(int file, const void *bytes, size_t count)
{
    return moved(__write(file, bytes, count));
}

__attribute__((destructor)) static void tell(void)
{
    dprintf(STDERR_FILENO, "%zu refused, %zu failed\n", refused, failed);
}

/* Ends the program without the usual cleanup. pgshard ends with this call. */
void _exit(int status)
{
    tell();
    for (;;)
        syscall(SYS_exit_group, status);
}

/* Counts the memory that a program uses: the blocks that it has allocated and not freed, and their bytes. This is a
 * shared library, which LD_PRELOAD loads before the C library. The program's C library is glibc.
 *
 * At each write to standard output, both numbers are printed in a line on standard error.
 */

#include <errno.h>
#include <malloc.h>
#include <stddef.h>
#include <stdio.h>
#include <unistd.h>

void *__libc_malloc(size_t size);
void *__libc_calloc(size_t count, size_t size);
void *__libc_realloc(void *block, size_t size);
void *__libc_memalign(size_t alignment, size_t size);
void __libc_free(void *block);
ssize_t __write(int file, const void *bytes, size_t count);

static size_t blocks;
static size_t bytes;

static void *given(void *block)
{
    if (block != NULL) {
        __atomic_add_fetch(&blocks, 1, __ATOMIC_RELAXED);
        __atomic_add_fetch(&bytes, malloc_usable_size(block), __ATOMIC_RELAXED);
    }
    return block;
}

static void freed(size_t size)
{
    __atomic_sub_fetch(&blocks, 1, __ATOMIC_RELAXED);
    __atomic_sub_fetch(&bytes, size, __ATOMIC_RELAXED);
}

void *malloc(size_t size)
{
    return given(__libc_malloc(size));
}

void *calloc(size_t count, size_t size)
{
    return given(__libc_calloc(count, size));
}

void *realloc(void *block, size_t size)
{
    size_t had = malloc_usable_size(block);
    void *moved = __libc_realloc(block, size);

    if (block != NULL && (moved != NULL || size == 0))
        freed(had);
    return given(moved);
}

void *aligned_alloc(size_t alignment, size_t size)
{
    return given(__libc_memalign(alignment, size));
}

int posix_memalign(void **block, size_t alignment, size_t size)
{
    void *made = aligned_alloc(alignment, size);

    if (made == NULL)
        return ENOMEM;
    *block = made;
    return 0;
}

void free(void *block)
{
    if (block != NULL)
        freed(malloc_usable_size(block));
    __libc_free(block);
}

ssize_t write(int file, const void *text, size_t count)
{
    if (file == STDOUT_FILENO)
        dprintf(STDERR_FILENO, "%zu blocks, %zu bytes\n", blocks, bytes);
    return __write(file, text, count);
}

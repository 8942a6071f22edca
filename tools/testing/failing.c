/* Makes a read of standard input, or a write to standard output, fail. This is a shared library, which LD_PRELOAD loads
 * before the C library. The program's C library is glibc.
 *
 * The call is chosen by environment variables: FAILED_FILE is 0 for reads and 1 for writes, FAILED_CALL is the number
 * of the call, from 1, and FAILED_ERROR is the value of errno, or 0 for a call that moves no bytes. No other call
 * fails, unless FAILED_AFTER is set: then all later ones fail too. A call on that file moves at most MOST_BYTES bytes.
 * When the program ends, a line on standard error says whether the call was made.
 */

#include <errno.h>
#include <stddef.h>
#include <stdio.h>
#include <stdlib.h>
#include <sys/syscall.h>
#include <unistd.h>

ssize_t __read(int file, void *bytes, size_t count);
ssize_t __write(int file, const void *bytes, size_t count);

static int chosen_file = -1;
static long chosen_call;
static int are_all_after;
static int error;
static size_t most_bytes;
static long calls;

static long number_of(const char *name)
{
    const char *number = getenv(name);

    return number == NULL ? 0 : atol(number);
}

__attribute__((constructor)) static void choose(void)
{
    chosen_file = number_of("FAILED_FILE");
    chosen_call = number_of("FAILED_CALL");
    are_all_after = getenv("FAILED_AFTER") != NULL;
    error = number_of("FAILED_ERROR");
    most_bytes = number_of("MOST_BYTES");
}

static int fails(int file)
{
    long number;

    if (file != chosen_file)
        return 0;
    number = __atomic_add_fetch(&calls, 1, __ATOMIC_RELAXED);
    if (number < chosen_call || (number > chosen_call && !are_all_after))
        return 0;
    errno = error;
    return 1;
}

static size_t at_most(int file, size_t count)
{
    return file == chosen_file && count > most_bytes ? most_bytes : count;
}

ssize_t read(int file, void *bytes, size_t count)
{
    if (fails(file))
        return error == 0 ? 0 : -1;
    return __read(file, bytes, at_most(file, count));
}

ssize_t write(int file, const void *bytes, size_t count)
{
    if (fails(file))
        return error == 0 ? 0 : -1;
    return __write(file, bytes, at_most(file, count));
}

__attribute__((destructor)) static void tell(void)
{
    dprintf(STDERR_FILENO, calls >= chosen_call ? "failed\n" : "not failed\n");
}

/* Ends the program without the usual cleanup. pgshard ends with this call. */
void _exit(int status)
{
    tell();
    for (;;)
        syscall(SYS_exit_group, status);
}

/* Runs the program that REAL names, and answers wrongly in the way that WRONG says. It is linked statically, so that
   only the real program loads the libraries of LD_PRELOAD. */

#include <stdio.h>
#include <stdlib.h>
#include <string.h>
#include <sys/wait.h>
#include <unistd.h>

static int is_wrong(const char *how)
{
    const char *wrong = getenv("WRONG");
    return wrong != NULL && strcmp(wrong, how) == 0;
}

/* Ends like a program that was refused memory, although the library would have counted no refusal. */
static int give_up(void)
{
    fputs("out of memory\n", stdout);
    fputs("0 refused\n", stderr);
    return 5;
}

int main(int count, char **words)
{
    const char *real = getenv("REAL");
    int status;
    pid_t child;

    (void) count;
    if (is_wrong("gives up"))
        return give_up();
    child = fork();
    if (child == 0) {
        execv(real, words);
        _exit(127);
    }
    if (child < 0 || waitpid(child, &status, 0) != child || !WIFEXITED(status))
        return 126;
    /* The status is 4 if a write failed, and 3 if a read failed. */
    if (is_wrong("swallows a write fault") && WEXITSTATUS(status) == 4)
        return 0;
    if (is_wrong("swallows a refusal") && WEXITSTATUS(status) == 5)
        return 0;
    return WEXITSTATUS(status);
}

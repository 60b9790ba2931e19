/* Loaded before a program (LD_PRELOAD), starts it once for each request, in a copy of the process that has loaded it.

   The process waits before the program begins. It takes requests from the descriptor 3: the number of bytes that follow, in four bytes,
   and the words of the call, each with a byte 0 at its end. A copy of the process then runs the program with these words, and the process
   writes the status of the copy to the descriptor 4, in four bytes. The copy has neither of the two descriptors, and it ends when the
   process does. The process ends when there are no more requests. */
#define _GNU_SOURCE
#include <dlfcn.h>
#include <signal.h>
#include <stdint.h>
#include <stdlib.h>
#include <sys/prctl.h>
#include <sys/wait.h>
#include <unistd.h>

enum { REQUESTS = 3, STATUSES = 4, MOST_BYTES = 1 << 16, MOST_WORDS = 1 << 12 };

typedef int main_of(int, char **, char **);
typedef int start_of(main_of *, int, char **, void (*)(void), void (*)(void), void (*)(void), void *);

extern char **environ;
static char bytes[MOST_BYTES];
/* the words of a call and then the environment, as a new process has them */
static char *words[MOST_WORDS];

static int has_read(void *to, size_t count)
{
    for (char *at = to; count > 0;) {
        ssize_t got = read(REQUESTS, at, count);
        if (got <= 0)
            return 0;
        at += got;
        count -= got;
    }
    return 1;
}

/* Reads a request. Returns the number of its words, or 0 if there is none. */
static int read_words(void)
{
    uint32_t length;
    int count = 0, many = 0;
    if (!has_read(&length, sizeof length) || length > MOST_BYTES || !has_read(bytes, length))
        return 0;
    while (environ[many])
        ++many;
    for (uint32_t at = 0; at < length; ++at)
        if (at == 0 || bytes[at - 1] == 0) {
            if (count + many + 2 >= MOST_WORDS)
                return 0;
            words[count++] = bytes + at;
        }
    words[count] = NULL;
    for (int at = 0; at <= many; ++at)
        words[count + 1 + at] = environ[at];
    return count;
}

int __libc_start_main(main_of *main, int count, char **given, void (*init)(void), void (*fini)(void), void (*end)(void), void *stack)
{
    start_of *start = (start_of *)dlsym(RTLD_NEXT, "__libc_start_main");
    (void)given;
    unsetenv("LD_PRELOAD");
    while ((count = read_words()) > 0) {
        int status;
        pid_t copy = fork();
        if (copy == 0) {
            prctl(PR_SET_PDEATHSIG, SIGKILL);
            close(REQUESTS);
            close(STATUSES);
            return start(main, count, words, init, fini, end, stack);
        }
        if (copy < 0 || waitpid(copy, &status, 0) < 0 || write(STATUSES, &status, sizeof status) != sizeof status)
            _exit(1);
    }
    _exit(0);
}

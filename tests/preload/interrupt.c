/* Loaded before a program (LD_PRELOAD), spoils its reads and writes, and sets its clock.

   Of so many reads and writes in a row as TRIES says all but the last end with EINTR. A read or write takes at most as many
   bytes as MOST says. And the call of the number CALL, counted from 1, of the stream STREAM (0: the reads, 1: the writes to
   standard output, 2: those to standard error) does what HOW says: `fail`, with EIO; take `none`; or take `one` byte. A read
   that takes none is the end of the file: those after it take none too. The clock goes on by TICK milliseconds each time that it
   is asked. Without these variables no call is spoiled, and the clock is the system's.

   At the end of the program it writes into the file that MET names how many reads and writes it met, how many of the writes were
   to standard error, and how many bytes the reads took. */
#define _GNU_SOURCE
#include <errno.h>
#include <fcntl.h>
#include <stdio.h>
#include <stdlib.h>
#include <string.h>
#include <sys/syscall.h>
#include <time.h>
#include <unistd.h>

enum { READS, OUTPUT, ERRORS, STREAMS };

static unsigned long tries, tick, asked, most, stream, call, calls[STREAMS], taken;
static const char *how;
static int has_ended;

static unsigned long number_of(const char *name)
{
    const char *number = getenv(name);
    return number ? strtoul(number, NULL, 10) : 0;
}

__attribute__((constructor)) static void begin(void)
{
    tries = number_of("TRIES");
    tick = number_of("TICK");
    most = number_of("MOST");
    stream = number_of("STREAM");
    call = number_of("CALL");
    how = getenv("HOW");
}

static int is_interrupted(void)
{
    return tries != 0 && (calls[READS] + calls[OUTPUT] + calls[ERRORS]) % tries != 0;
}

/* How many bytes of so many a call of a stream may take; -1 where it fails. */
static ssize_t allowed(unsigned long of, size_t count)
{
    unsigned long number = ++calls[of];
    if (is_interrupted()) {
        errno = EINTR;
        return -1;
    }
    if (most != 0 && count > most)
        count = most;
    if (has_ended && of == READS)
        return 0;
    if (!how || of != stream || number != call)
        return count;
    if (!strcmp(how, "fail")) {
        errno = EIO;
        return -1;
    }
    if (!strcmp(how, "one"))
        return count != 0;
    has_ended = of == READS;
    return 0;
}

ssize_t read(int file, void *bytes, size_t count)
{
    ssize_t most_of = allowed(READS, count);
    ssize_t got = most_of > 0 ? syscall(SYS_read, file, bytes, most_of) : most_of;
    taken += got > 0 ? got : 0;
    return got;
}

ssize_t write(int file, const void *bytes, size_t count)
{
    ssize_t most_of = allowed(file == 2 ? ERRORS : OUTPUT, count);
    return most_of > 0 ? syscall(SYS_write, file, bytes, most_of) : most_of;
}

int clock_gettime(clockid_t clock, struct timespec *time)
{
    if (tick == 0)
        return syscall(SYS_clock_gettime, clock, time);
    ++asked;
    time->tv_sec = asked * tick / 1000;
    time->tv_nsec = asked * tick % 1000 * 1000000;
    return 0;
}

static void tell(void)
{
    const char *path = getenv("MET");
    int file = path ? open(path, O_WRONLY | O_CREAT | O_TRUNC, 0600) : -1;
    char text[128];
    if (file < 0)
        return;
    unsigned long writes = calls[OUTPUT] + calls[ERRORS];
    int length = snprintf(text, sizeof text, "%lu %lu %lu %lu\n", calls[READS], writes, calls[ERRORS], taken);
    syscall(SYS_write, file, text, length);
    close(file);
}

__attribute__((destructor)) static void end(void)
{
    tell();
}

/* A program that starts threads ends by this call, and runs no destructor. */
void _exit(int status)
{
    tell();
    syscall(SYS_exit_group, status);
    __builtin_unreachable();
}

/* Loaded before a program (LD_PRELOAD), refuses growths, or the start of a thread. REFUSED_GROWTH or REFUSED_THREAD says which
   one, counted from 1.

   EACH_GROWTH names a file: then at each growth the process is copied, and the copy is refused it, while the process goes on
   with it. Standard output and standard error of a copy are of its own, and how it ended and what it wrote is added to the
   file as a `Told`, behind which its bytes stand. SHARE and SHARES say which of the growths are copied: those whose number
   gives SHARE modulo SHARES. With REPEATS a growth is copied only if fewer than so many like it were: of the same size, from
   the same depth of the stack, and behind seven that were alike. A process that has started a thread is not copied.

   At the end of the program, also where SIGABRT ends it, it writes into the file that MET names how many growths it met, how
   many of them were copied, how many threads were asked for, how many were started, and how much memory was resident at most,
   in KiB. */
#define _GNU_SOURCE
#include <dlfcn.h>
#include <errno.h>
#include <fcntl.h>
#include <pthread.h>
#include <signal.h>
#include <stddef.h>
#include <stdint.h>
#include <stdio.h>
#include <stdlib.h>
#include <string.h>
#include <sys/mman.h>
#include <sys/syscall.h>
#include <sys/wait.h>
#include <unistd.h>

#define SECONDS 120
#define ALIKE 8
#define KINDS (1 << 20)
#define FILES 16

typedef int start_of_thread(pthread_t *, const pthread_attr_t *, void *(*)(void *), void *);

struct told {
    uint64_t growth, written_before;
    uint32_t status, output, errors;
} __attribute__((packed));

void *__libc_malloc(size_t size);
void *__libc_realloc(void *block, size_t size);

static _Atomic unsigned long growths, asked, started;
static unsigned long refused_growth, refused_thread, copied, share, shares, repeats;
static start_of_thread *start_thread;
static const char *met_path;
static int each = -1, outputs[2];
static char *base;
static uint64_t last[ALIKE];
static uint16_t *seen;

static unsigned long number_of(const char *name)
{
    const char *number = getenv(name);
    return number ? strtoul(number, NULL, 10) : 0;
}

/* The same file by a number above those that the program has. */
static int out_of_the_way(int file)
{
    int other = fcntl(file, F_DUPFD_CLOEXEC, 100);
    close(file);
    return other;
}

__attribute__((constructor)) static void begin(void)
{
    const char *path = getenv("EACH_GROWTH");
    start_thread = (start_of_thread *)dlsym(RTLD_NEXT, "pthread_create");
    refused_growth = number_of("REFUSED_GROWTH");
    refused_thread = number_of("REFUSED_THREAD");
    share = number_of("SHARE");
    shares = number_of("SHARES");
    repeats = number_of("REPEATS");
    met_path = getenv("MET");
    base = __builtin_frame_address(0);
    if (path) {
        each = out_of_the_way(open(path, O_WRONLY | O_CREAT | O_TRUNC, 0600));
        outputs[0] = out_of_the_way(memfd_create("output", 0));
        outputs[1] = out_of_the_way(memfd_create("errors", 0));
        seen = mmap(NULL, KINDS * sizeof *seen, PROT_READ | PROT_WRITE, MAP_PRIVATE | MAP_ANONYMOUS, -1, 0);
    }
    growths = 0;
}

/* Adds what a copy wrote into a file to that of `EACH_GROWTH`, and empties it. */
static void hand_on(int from, uint32_t length)
{
    char bytes[4096];
    for (off_t at = 0; at < length;) {
        ssize_t got = pread(from, bytes, sizeof bytes, at);
        if (got <= 0 || syscall(SYS_write, each, bytes, got) != got)
            abort();
        at += got;
    }
    if (ftruncate(from, 0) < 0)
        abort();
}

/* Copies the process; true in the copy. The process waits for its copy, and then has its files where they were. */
static int copy(unsigned long growth)
{
    off_t at[FILES];
    struct told told = {growth, lseek(1, 0, SEEK_CUR), 0, 0, 0};
    for (int file = 0; file < FILES; ++file)
        at[file] = lseek(file, 0, SEEK_CUR);
    pid_t child = fork();
    if (child < 0)
        abort();
    if (child == 0) {
        each = -1;
        met_path = NULL;
        alarm(SECONDS);
        dup2(outputs[0], 1);
        dup2(outputs[1], 2);
        return 1;
    }
    int status;
    while (waitpid(child, &status, 0) < 0)
        ;
    for (int file = 0; file < FILES; ++file)
        if (at[file] >= 0)
            lseek(file, at[file], SEEK_SET);
    told.status = status;
    told.output = lseek(outputs[0], 0, SEEK_CUR);
    told.errors = lseek(outputs[1], 0, SEEK_CUR);
    if (syscall(SYS_write, each, &told, sizeof told) != sizeof told)
        abort();
    hand_on(outputs[0], told.output);
    hand_on(outputs[1], told.errors);
    lseek(outputs[0], 0, SEEK_SET);
    lseek(outputs[1], 0, SEEK_SET);
    ++copied;
    return 0;
}

/* Whether a growth of this size was met as often as it is to be tried, by what it is alike in. */
static int is_repeated(size_t size)
{
    uint64_t kind = 0;
    memmove(last + 1, last, sizeof last - sizeof *last);
    last[0] = (uint64_t)(base - (char *)__builtin_frame_address(0)) << 32 ^ size;
    for (int at = 0; at < ALIKE; ++at)
        kind = (kind ^ last[at]) * 0x9E3779B97F4A7C15u, kind ^= kind >> 29;
    uint16_t *count = &seen[kind % KINDS];
    return *count == repeats || (++*count, 0);
}

/* Whether this growth is refused. */
static int is_refused(size_t size)
{
    unsigned long growth = ++growths;
    if (growth == refused_growth) {
        errno = ENOMEM;
        return 1;
    }
    if (each < 0 || started != 0 || (repeats && is_repeated(size)) || (shares && growth % shares != share) || !copy(growth))
        return 0;
    errno = ENOMEM;
    return 1;
}

void *malloc(size_t size)
{
    return is_refused(size) ? NULL : __libc_malloc(size);
}

void *realloc(void *block, size_t size)
{
    return is_refused(size) ? NULL : __libc_realloc(block, size);
}

int pthread_create(pthread_t *thread, const pthread_attr_t *attributes, void *(*body)(void *), void *argument)
{
    int fault = ++asked == refused_thread ? EAGAIN : start_thread(thread, attributes, body, argument);
    started += fault == 0;
    return fault;
}

/* The memory that was resident at most, in KiB. */
static unsigned long peak(void)
{
    char text[4096];
    int file = open("/proc/self/status", O_RDONLY);
    ssize_t length = file < 0 ? -1 : syscall(SYS_read, file, text, sizeof text - 1);
    close(file);
    text[length < 0 ? 0 : length] = 0;
    const char *line = strstr(text, "VmHWM:");
    return line ? strtoul(line + 6, NULL, 10) : 0;
}

__attribute__((destructor)) static void tell(void)
{
    int file = met_path ? open(met_path, O_WRONLY | O_CREAT | O_TRUNC, 0600) : -1;
    char text[128];
    if (file < 0)
        return;
    int length = snprintf(text, sizeof text, "%lu %lu %lu %lu %lu\n", growths, copied, asked, started, peak());
    syscall(SYS_write, file, text, length);
    close(file);
}

/* A test whose assertion fails ends by this signal, and runs no destructor. */
static void stop(int signal_number)
{
    tell();
    signal(signal_number, SIG_DFL);
    raise(signal_number);
}

__attribute__((constructor)) static void tell_when_stopped(void)
{
    signal(SIGABRT, stop);
}

/* A program that starts threads ends by this call, and runs no destructor. */
void _exit(int status)
{
    tell();
    syscall(SYS_exit_group, status);
    __builtin_unreachable();
}

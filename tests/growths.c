/* A shim for the C library's malloc and realloc that refuses growths of memory.
 *
 * REFUSED   the number, from 1, of the first refused growth; by default no growth is refused
 * RUN       the number of consecutive refused growths, by default 1
 * THREADS   `first` or `others`: counts only the growths of the first thread, or of all others
 * COUNTED   an output file for the number of counted growths, as eight bytes
 * EACH      an output file for three such numbers. At each growth a child process is forked in which it is refused. The
 *           numbers count the growths, the children that ended with status 0, and those that reported out of memory. The
 *           output of any other child goes to standard error. EACH is for programs of one thread */
#define _GNU_SOURCE
#include <dlfcn.h>
#include <fcntl.h>
#include <signal.h>
#include <stdio.h>
#include <stdlib.h>
#include <string.h>
#include <sys/mman.h>
#include <sys/syscall.h>
#include <sys/wait.h>
#include <unistd.h>

/* The time limit of a child in seconds, and the number of its output bytes that are examined. */
enum { SECONDS = 60, TEXT = 4096 };

struct counts {
    long growths, passed, wanting;
};

static struct counts here, *counts = &here;
static long first, behind;
static int skips_first, skips_others, refuses_each, told = -1;
static void *(*real_malloc)(size_t);
static void *(*real_realloc)(void *, size_t);

static long number_in(const char *name, long without)
{
    const char *text = getenv(name);
    return text ? atol(text) : without;
}

/* Keeps the counts in a mapped file, since a program may end by _exit. */
static void keep_in(const char *path, size_t bytes)
{
    int file = open(path, O_RDWR | O_CREAT | O_TRUNC | O_CLOEXEC, 0600);
    if (file < 0 || ftruncate(file, (off_t)bytes))
        return;
    void *kept = mmap(0, bytes, PROT_READ | PROT_WRITE, MAP_SHARED, file, 0);
    if (kept != MAP_FAILED)
        counts = kept;
}

static void start(void)
{
    const char *each = getenv("EACH"), *counted = getenv("COUNTED"), *threads = getenv("THREADS");
    if (each)
        keep_in(each, sizeof *counts);
    else if (counted)
        keep_in(counted, sizeof counts->growths);
    if (each)
        told = memfd_create("told", MFD_CLOEXEC);
    refuses_each = told >= 0;
    first = number_in("REFUSED", 0);
    behind = first ? first + number_in("RUN", 1) : 0;
    skips_first = threads && !strcmp(threads, "others");
    skips_others = threads && !strcmp(threads, "first");
    *(void **)&real_realloc = dlsym(RTLD_NEXT, "realloc");
    *(void **)&real_malloc = dlsym(RTLD_NEXT, "malloc");
}

/* Returns whether a line of the text begins with `error: ` and reports out of memory. */
static int is_out_of_memory(const char *text)
{
    static const char *const names[] = {"AllocError", "AllocFailed", "NoMemory"};
    const char *line = strncmp(text, "error: ", 7) ? strstr(text, "\nerror: ") : text;
    for (size_t n = 0; line && n < sizeof names / sizeof *names; n++)
        if (strstr(line, names[n]))
            return 1;
    return 0;
}

/* Counts how a child ended. Prints the output of a child that ended neither with success nor with out of memory, which a test
 * reports by its status or as it aborts. */
static void count_ended(long number, int status)
{
    char text[TEXT + 1];
    ssize_t length = pread(told, text, TEXT, 0);
    text[length > 0 ? length : 0] = 0;
    if (WIFEXITED(status) && WEXITSTATUS(status) == 0)
        counts->passed++;
    else if ((WIFEXITED(status) || WTERMSIG(status) == SIGABRT) && is_out_of_memory(text))
        counts->wanting++;
    else
        dprintf(2, "growth %ld, %s %d: %s\n", number, WIFSIGNALED(status) ? "signal" : "status",
                WIFSIGNALED(status) ? WTERMSIG(status) : WEXITSTATUS(status), text);
}

/* Forks a child in which this growth is refused, and waits for its end. Returns whether this process is the child. */
static int is_child(long number)
{
    int status = -1;
    if (ftruncate(told, 0) || lseek(told, 0, SEEK_SET))
        _exit(2);
    pid_t child = fork();
    if (child < 0)
        _exit(2);
    if (!child) {
        refuses_each = 0;
        alarm(SECONDS);
        dup2(told, 1);
        dup2(told, 2);
        return 1;
    }
    if (waitpid(child, &status, 0) == child)
        count_ended(number, status);
    return 0;
}

static int is_refused(void)
{
    if (!real_malloc)
        start();
    if (syscall(SYS_gettid) == getpid() ? skips_first : skips_others)
        return 0;
    if (told >= 0)
        return refuses_each && is_child(++counts->growths);
    long number = __atomic_add_fetch(&counts->growths, 1, __ATOMIC_SEQ_CST);
    return number >= first && number < behind;
}

void *malloc(size_t size) { return is_refused() ? 0 : real_malloc(size); }
void *realloc(void *at, size_t size) { return is_refused() ? 0 : real_realloc(at, size); }

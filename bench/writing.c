/* Loaded ahead of the C library (LD_PRELOAD): how long a program took to write its standard output.
 *
 * In the end it writes two numbers into the file WRITING: the nanoseconds from the program's first write there to its last, of the processor and by the clock.
 * What comes before, such as opening a file, is not in them.
 */
#define _GNU_SOURCE
#include <fcntl.h>
#include <stdio.h>
#include <stdlib.h>
#include <sys/syscall.h>
#include <time.h>
#include <unistd.h>

static const clockid_t clocks[] = {CLOCK_PROCESS_CPUTIME_ID, CLOCK_MONOTONIC};
static long long first[2], last[2];

static void look(long long *at) {
    for (int which = 0; which < 2; which++) {
        struct timespec now;
        clock_gettime(clocks[which], &now);
        at[which] = now.tv_sec * 1000000000LL + now.tv_nsec;
    }
}

ssize_t write(int to, const void *text, size_t size) {
    if (to == 1 && first[1] == 0) look(first);
    ssize_t written = syscall(SYS_write, to, text, size);
    if (to == 1) look(last);
    return written;
}

__attribute__((destructor)) static void tells(void) {
    char line[80];
    const char *path = getenv("WRITING");
    int file = path ? open(path, O_WRONLY | O_CREAT | O_TRUNC, 0600) : -1;
    int length = snprintf(line, sizeof line, "%lld %lld\n", last[0] - first[0], last[1] - first[1]);
    if (file >= 0) (void)!syscall(SYS_write, file, line, (size_t)length);
}

/* Loaded ahead of the C library (LD_PRELOAD): how much memory was live while standard output was written.
 *
 * In the end it writes three numbers into the file LIVE: how often the program wrote there, and the least and the most bytes that were live from its
 * first write to its last. What is freed behind the last one is the program's end.
 */
#define _GNU_SOURCE
#include <fcntl.h>
#include <malloc.h>
#include <stdio.h>
#include <stdlib.h>
#include <sys/syscall.h>
#include <unistd.h>

extern void *__libc_malloc(size_t);
extern void *__libc_calloc(size_t, size_t);
extern void *__libc_realloc(void *, size_t);
extern void __libc_free(void *);

static long live, least, most, writes, told_least, told_most;

static void *taken(void *room) {
    if (room) live += malloc_usable_size(room);
    if (live > most) most = live;
    return room;
}

static void given_back(void *room) {
    if (room) live -= malloc_usable_size(room);
    if (live < least) least = live;
}

void *malloc(size_t size) { return taken(__libc_malloc(size)); }

void *calloc(size_t count, size_t size) { return taken(__libc_calloc(count, size)); }

void free(void *room) {
    given_back(room);
    __libc_free(room);
}

void *realloc(void *old, size_t size) {
    long before = old ? malloc_usable_size(old) : 0;
    void *room = __libc_realloc(old, size);
    if (room) {
        live -= before;
        taken(room);
    }
    return room;
}

ssize_t write(int to, const void *text, size_t size) {
    if (to == 1) {
        if (writes++ == 0) least = most = live;
        told_least = least;
        told_most = most;
    }
    return syscall(SYS_write, to, text, size);
}

__attribute__((destructor)) static void tells(void) {
    char line[80];
    const char *path = getenv("LIVE");
    int file = path ? open(path, O_WRONLY | O_CREAT | O_TRUNC, 0600) : -1;
    int length = snprintf(line, sizeof line, "%ld %ld %ld\n", writes, told_least, told_most);
    if (file >= 0) (void)!syscall(SYS_write, file, line, (size_t)length);
}

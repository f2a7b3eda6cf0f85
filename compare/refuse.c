/*
 * Stands before the C library where a program is run with LD_PRELOAD, and lets it go short of what it asks for:
 *
 *   REFUSE=N   the request for memory of that number is refused, counted from 1
 *   FROM=N     that one and all after it are refused
 *   AT_MOST=N  a read or a write takes at most so many bytes
 *   FIRST=N    the first read takes at most so many bytes
 *   CUTS=N     each read takes at most 1 to 64 bytes, by random numbers that begin with N
 *   ASKED=FILE the number of requests for memory that were made is written to this file when the program ends
 */
#include <errno.h>
#include <fcntl.h>
#include <stdio.h>
#include <stdlib.h>
#include <string.h>
#include <sys/syscall.h>
#include <unistd.h>

extern void *__libc_malloc(size_t size);
extern void *__libc_realloc(void *old, size_t size);

static long refused = -1, from = -1, at_most = -1, first = -1, asked = 0;
static unsigned long cuts = 0;
static int is_read = 0;

static long number(const char *name) {
    const char *text = getenv(name);
    return text ? atol(text) : 0;
}

static void read_settings(void) {
    if (!is_read) {
        is_read = 1;
        refused = number("REFUSE");
        from = number("FROM");
        at_most = number("AT_MOST");
        first = number("FIRST");
        cuts = (unsigned long)number("CUTS");
    }
}

static int is_refused(void) {
    read_settings();
    asked += 1;
    return asked == refused || (from > 0 && asked >= from);
}

void *malloc(size_t size) {
    if (is_refused()) {
        errno = ENOMEM;
        return NULL;
    }
    return __libc_malloc(size);
}

void *realloc(void *old, size_t size) {
    if (is_refused()) {
        errno = ENOMEM;
        return NULL;
    }
    return __libc_realloc(old, size);
}

static size_t least(size_t count, long most) {
    return most > 0 && count > (size_t)most ? (size_t)most : count;
}

static size_t cut(size_t count) {
    read_settings();
    return least(count, at_most);
}

/* How many bytes the next read takes. */
static size_t next_read(size_t count) {
    count = least(cut(count), first);
    first = -1;
    if (cuts > 0) {
        cuts = cuts * 6364136223846793005UL + 1442695040888963407UL;
        count = least(count, 1 + (long)(cuts >> 33) % 64);
    }
    return count;
}

ssize_t read(int file, void *bytes, size_t count) {
    return syscall(SYS_read, file, bytes, next_read(count));
}

ssize_t write(int file, const void *bytes, size_t count) {
    return syscall(SYS_write, file, bytes, cut(count));
}

ssize_t __write(int file, const void *bytes, size_t count) {
    return write(file, bytes, count);
}

__attribute__((destructor)) static void tell(void) {
    const char *name = getenv("ASKED");
    char text[32];
    int file;
    if (name && (file = open(name, O_WRONLY | O_CREAT | O_TRUNC, 0666)) >= 0) {
        int length = snprintf(text, sizeof text, "%ld\n", asked);
        if (syscall(SYS_write, file, text, (size_t)length) < 0) {
            _exit(99);
        }
    }
}

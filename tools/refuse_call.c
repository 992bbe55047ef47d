/* Refuses one call of a program that it is preloaded into: the allocation, the read or the write
   with the number that REFUSE_ALLOCATION, REFUSE_READ or REFUSE_WRITE gives, counted from 1 and
   from the start of main. After the refusal it appends the line "refused" to the file REFUSE_LOG.
   refused_calls.py builds and preloads it. */

#define _GNU_SOURCE
#include <errno.h>
#include <fcntl.h>
#include <stdlib.h>
#include <sys/syscall.h>
#include <unistd.h>

extern void *__libc_malloc(size_t size);
extern void *__libc_realloc(void *block, size_t size);
extern void *__libc_calloc(size_t count, size_t size);
extern void *__libc_memalign(size_t align, size_t size);

enum { ALLOCATION, READ, WRITE, KINDS };

static const char *const NAMES[KINDS] = {"REFUSE_ALLOCATION", "REFUSE_READ", "REFUSE_WRITE"};

/* How many calls of a kind are left until the one that is refused; 0 where none is. */
static long left[KINDS];

__attribute__((constructor)) static void read_numbers(void) {
    for (int kind = 0; kind < KINDS; kind++) {
        const char *number = getenv(NAMES[kind]);
        left[kind] = number ? atol(number) : 0;
    }
}

static void tell(void) {
    const char *path = getenv("REFUSE_LOG");
    int log = path ? syscall(SYS_open, path, O_WRONLY | O_CREAT | O_APPEND, 0644) : -1;
    if (log >= 0) {
        syscall(SYS_write, log, "refused\n", 8);
        syscall(SYS_close, log);
    }
}

static int is_refused(int kind) {
    if (left[kind] == 0 || --left[kind] != 0)
        return 0;
    tell();
    return 1;
}

static void *none(void) {
    errno = ENOMEM;
    return NULL;
}

void *malloc(size_t size) { return is_refused(ALLOCATION) ? none() : __libc_malloc(size); }

void *realloc(void *block, size_t size) {
    return is_refused(ALLOCATION) ? none() : __libc_realloc(block, size);
}

void *calloc(size_t count, size_t size) {
    return is_refused(ALLOCATION) ? none() : __libc_calloc(count, size);
}

void *aligned_alloc(size_t align, size_t size) {
    return is_refused(ALLOCATION) ? none() : __libc_memalign(align, size);
}

static ssize_t failed(void) {
    errno = EIO;
    return -1;
}

ssize_t read(int file, void *into, size_t most) {
    return is_refused(READ) ? failed() : syscall(SYS_read, file, into, most);
}

ssize_t write(int file, const void *from, size_t most) {
    return is_refused(WRITE) ? failed() : syscall(SYS_write, file, from, most);
}

ssize_t __write(int file, const void *from, size_t most) { return write(file, from, most); }

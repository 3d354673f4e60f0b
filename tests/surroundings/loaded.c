/* Stands before the C library, from the moment when all is loaded: it refuses allocations, limits memory, makes reads and
   writes fail, and makes them short. What it does is said in the environment, and what it did on the file HOSTILE_MARK. */

#define _GNU_SOURCE
#include <errno.h>
#include <fcntl.h>
#include <stddef.h>
#include <stdlib.h>
#include <sys/resource.h>
#include <sys/syscall.h>
#include <unistd.h>

extern void *__libc_malloc(size_t), *__libc_calloc(size_t, size_t), *__libc_realloc(void *, size_t), *__libc_memalign(size_t, size_t);

static long refused, all_after, allocations, piece, failing_read, failing_write, reads, writes;
static int is_loaded;
static const char *mark;

static long number(const char *name) {
    const char *text = getenv(name);
    return text ? atol(text) : 0;
}

/* Adds a line to the file HOSTILE_MARK. */
static void say(const char *what, long count) {
    char text[64], reversed[24];
    int size = 0, digits = 0, file;
    if (!mark) return;
    while (*what) text[size++] = *what++;
    do {
        reversed[digits++] = '0' + count % 10;
        count /= 10;
    } while (count);
    while (digits) text[size++] = reversed[--digits];
    text[size++] = '\n';
    file = syscall(SYS_openat, AT_FDCWD, mark, O_WRONLY | O_CREAT | O_APPEND, 0600);
    if (file < 0) return;
    syscall(SYS_write, file, text, size);
    syscall(SYS_close, file);
}

/* The size of the process in pages. */
static long size_now(void) {
    char text[64] = {0};
    int file = syscall(SYS_openat, AT_FDCWD, "/proc/self/statm", O_RDONLY, 0);
    syscall(SYS_read, file, text, sizeof text - 1);
    syscall(SYS_close, file);
    return atol(text);
}

__attribute__((constructor)) static void loaded(void) {
    mark = getenv("HOSTILE_MARK");
    refused = number("HOSTILE_REFUSED");
    all_after = number("HOSTILE_ALL_AFTER");
    piece = number("HOSTILE_PIECE");
    failing_read = number("HOSTILE_READ");
    failing_write = number("HOSTILE_WRITE");
    if (getenv("HOSTILE_ROOM")) {
        struct rlimit limit;
        limit.rlim_cur = limit.rlim_max = (size_now() + number("HOSTILE_ROOM")) * 4096;
        setrlimit(RLIMIT_AS, &limit);
        say("room ", number("HOSTILE_ROOM"));
    }
    say("loaded ", 0);
    is_loaded = 1;
}

__attribute__((destructor)) static void ends(void) {
    is_loaded = 0;
    say("allocations ", allocations);
}

static int is_refused(void) {
    if (!is_loaded) return 0;
    allocations++;
    if (!refused || allocations < refused || (allocations > refused && !all_after)) return 0;
    if (allocations == refused) say("refused ", refused);
    errno = ENOMEM;
    return 1;
}

void *malloc(size_t size) { return is_refused() ? NULL : __libc_malloc(size); }
void *calloc(size_t count, size_t size) { return is_refused() ? NULL : __libc_calloc(count, size); }
void *realloc(void *old, size_t size) { return is_refused() ? NULL : __libc_realloc(old, size); }
void *memalign(size_t to, size_t size) { return is_refused() ? NULL : __libc_memalign(to, size); }
void *aligned_alloc(size_t to, size_t size) { return is_refused() ? NULL : __libc_memalign(to, size); }

int posix_memalign(void **got, size_t to, size_t size) {
    if (is_refused()) return ENOMEM;
    *got = __libc_memalign(to, size);
    return *got ? 0 : ENOMEM;
}

static size_t shortened(size_t size) { return is_loaded && piece && size > (size_t)piece ? (size_t)piece : size; }

ssize_t read(int file, void *to, size_t size) {
    if (is_loaded && ++reads == failing_read) {
        say("failed ", reads);
        errno = EIO;
        return -1;
    }
    return syscall(SYS_read, file, to, shortened(size));
}

ssize_t write(int file, const void *from, size_t size) {
    if (is_loaded && ++writes == failing_write) {
        say("failed ", writes);
        errno = EIO;
        return -1;
    }
    return syscall(SYS_write, file, from, shortened(size));
}

// What the program of the page has in place of an operating system: words, two texts to read, and two channels to write.
//
// Whatever is opened first is the specification, and what is opened then is the trace; the standard input is the one of them that has no name. Nothing
// else can be opened, and nothing can be made. What is written is put at the front of the page's rooms as far as it fits, and counted.
#include "heap.c"

typedef long long i64;

typedef struct {
    u8 *at;
    u64 size;
} Room;

enum { SPEC, TRACE, TEXTS };
enum { NOT_FOUND = 2, BAD_FILE = 9, NO_SEEK = 29, READ_ONLY = 30, FIRST = 3 };
// The flag of an opening that makes the file.
enum { CREATES = 0100 };

static Room words;
static Room texts[TEXTS], rooms[2];
static u64 places[TEXTS], written[2];
static int opened, error;
// The text that the standard input is, or none yet.
static int input = TEXTS;

// ---- Words: each stands up to a zero byte. The first that is asked for is the name of the program.

static u64 end_of(u64 at) {
    while (at < words.size && words.at[at]) at++;
    return at;
}

u64 rattle_arg_count(void) {
    u64 count = 1;
    for (u64 at = end_of(0); at < words.size; at = end_of(at + 1)) count++;
    return count;
}

i64 rattle_arg(u64 number, u8 *buf, u64 size) {
    u64 at = 0;
    if (!number) return 0;
    while (--number && at < words.size) at = end_of(at) + 1;
    u64 end = end_of(at);
    if (end >= words.size) return -1;
    if (end - at > size) return -2;
    for (u64 k = at; k < end; k++) buf[k - at] = words.at[k];
    return end - at;
}

i64 rattle_env(u8 *name, u8 *buf, u64 size) {
    return -1;
}

i64 rattle_env_at(u64 number, u8 *buf, u64 size) {
    return -1;
}

// ---- Files

int rattle_errno(void) {
    return error;
}

void rattle_set_errno(int number) {
    error = number;
}

static i64 fails(int number) {
    error = number;
    return -1;
}

int open(const char *name, int flags, ...) {
    if (flags & CREATES) return fails(READ_ONLY);
    if (opened == TEXTS) return fails(NOT_FOUND);
    return FIRST + opened++;
}

i64 read(int file, u8 *buf, u64 size) {
    int text = file - FIRST;
    if (file == 0) {
        if (input == TEXTS) input = opened < TEXTS ? opened++ : TRACE;
        text = input;
    }
    if (text < 0 || text >= TEXTS) return fails(BAD_FILE);
    u64 left = texts[text].size - places[text], count = left < size ? left : size;
    __builtin_memcpy(buf, texts[text].at + places[text], count);
    places[text] += count;
    return count;
}

i64 write(int file, const u8 *bytes, u64 size) {
    int to = file - 1;
    if (to != 0 && to != 1) return fails(BAD_FILE);
    if (written[to] + size <= rooms[to].size) __builtin_memcpy(rooms[to].at + written[to], bytes, size);
    written[to] += size;
    return size;
}

i64 lseek(int file, i64 offset, int whence) {
    return fails(NO_SEEK);
}

int close(int file) {
    return 0;
}

i64 __sysv_signal(int number, i64 handler) {
    return 0;
}

// Before its `main` the program asks whether the processor has what it was compiled for, and would say so where it has not. That was another
// one: here it is told that all is there.
const u8 *__x86_get_cpuid_feature_leaf(unsigned leaf) {
    static const unsigned all[8] = {~0U, ~0U, ~0U, ~0U, ~0U, ~0U, ~0U, ~0U};
    return (const u8 *)all;
}

i64 __write(int file, const u8 *bytes, u64 size) {
    return write(file, bytes, size);
}

// ---- The call for the page

typedef struct {
    u64 out, err;
} Lengths;

// The program's `main`.
int page_main(void);

u8 tessla_page(u8 *asked, u64 asked_size, u8 *spec, u64 spec_size, u8 *trace, u64 trace_size, u8 *out, u64 out_size, u8 *err, u64 err_size, Lengths *lengths) {
    words = (Room){asked, asked_size};
    texts[SPEC] = (Room){spec, spec_size};
    texts[TRACE] = (Room){trace, trace_size};
    rooms[0] = (Room){out, out_size};
    rooms[1] = (Room){err, err_size};
    u8 status = page_main();
    *lengths = (Lengths){written[0], written[1]};
    return status;
}

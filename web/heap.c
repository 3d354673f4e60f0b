// What the program of the page gets its memory from: free lists of blocks by powers of two, over the memory behind __heap_base.
//
// Each block has 16 bytes in front, with its power, so that whatever is in it begins at a multiple of 16, as no type of the program needs more.
// A block is never cut or joined. No more bytes are taken than the page allows: then an allocation fails, as the program expects of any.
typedef unsigned long long u64;
typedef unsigned char u8;

extern u8 __heap_base;

#define HEAD 16
#define LEAST 5
#define MOST 40
#define AHEAD 16

static u64 top, allowed = ~0ULL;
static void *lists[MOST + 1];

// What the program is answered: whether there is room, and where.
typedef struct {
    u8 is_there;
    void *at;
} Found;

static u8 nowhere;

static int power_of(u64 size) {
    int power = LEAST;
    while (power <= MOST && ((u64)1 << power) < size + HEAD) power++;
    return power;
}

// Whether the memory reaches to this end. It grows by pages of 65,536 bytes, and by some more at once where that is allowed.
static int reaches(u64 end) {
    u64 have = __builtin_wasm_memory_size(0), need = (end + 65535) >> 16, most = allowed >> 16;
    if (need <= have) return 1;
    if (need > most) return 0;
    u64 ahead = most < have + AHEAD ? most : have + AHEAD;
    if (ahead > need && __builtin_wasm_memory_grow(0, ahead - have) != (u64)-1) return 1;
    return __builtin_wasm_memory_grow(0, need - have) != (u64)-1;
}

static void *get(u64 size) {
    int power = power_of(size);
    if (power > MOST) return 0;
    void **free = lists[power];
    if (free) {
        lists[power] = *free;
        return free;
    }
    if (!top) top = ((u64)&__heap_base + 15) & ~15ULL;
    u64 end = top + ((u64)1 << power);
    if (!reaches(end)) return 0;
    u8 *block = (u8 *)top;
    top = end;
    *(u64 *)block = power;
    return block + HEAD;
}

static void put(void *at) {
    int power = *(u64 *)((u8 *)at - HEAD);
    *(void **)at = lists[power];
    lists[power] = at;
}

static Found found_at(void *at) {
    Found found = {at != 0, at ? at : &nowhere};
    return found;
}

Found rattle_alloc(u64 size, u64 align) {
    return found_at(get(size ? size : align));
}

Found rattle_realloc(void *at, u64 kept, u64 size, u64 align) {
    u64 want = size ? size : align;
    if (power_of(want) == (int)*(u64 *)((u8 *)at - HEAD)) return found_at(at);
    void *to = get(want);
    if (to) {
        __builtin_memcpy(to, at, kept < want ? kept : want);
        put(at);
    }
    return found_at(to);
}

void rattle_dealloc(void *at) {
    put(at);
}

// For the page: room for what it hands over, 0 where there is none, and the most memory that may be used.
u64 page_room(u64 size) {
    return (u64)get(size);
}

void page_allow(u64 bytes) {
    allowed = bytes;
}

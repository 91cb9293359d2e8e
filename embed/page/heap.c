/* malloc, realloc and free of the page's module (tools/page), by the names that the toolchain calls: blocks by powers of two, each size with a list of its
   free blocks. A block has 16 bytes before it, with the exponent of its size. Addresses have 64 bits here, and 32 once the module is lowered. */
typedef __UINT64_TYPE__ uint64_t;

struct tried {
    uint64_t ok, at;
};

#define PAGE 65536ull

extern unsigned char __heap_base;
static uint64_t end, lists[64];
static char none[16] __attribute__((aligned(16)));

/* 0: memory ran out */
static uint64_t take(uint64_t size) {
    if (size > (1ull << 31))
        return 0;
    unsigned exponent = 4;
    while ((1ull << exponent) < size)
        exponent++;
    uint64_t at = lists[exponent];
    if (at) {
        lists[exponent] = *(uint64_t *)at;
        return at;
    }
    if (!end)
        end = ((uint64_t)&__heap_base + 15) & ~15ull;
    uint64_t next = end + 16 + (1ull << exponent), has = __builtin_wasm_memory_size(0) * PAGE;
    /* -1 of 64 bits, or of 32 */
    if (next > has && (__builtin_wasm_memory_grow(0, (next - has + PAGE - 1) / PAGE) & 0xffffffff) == 0xffffffff)
        return 0;
    *(uint64_t *)end = exponent;
    at = end + 16;
    end = next;
    return at;
}

static void give_back(uint64_t at) {
    uint64_t exponent = *(uint64_t *)(at - 16);
    *(uint64_t *)at = lists[exponent];
    lists[exponent] = at;
}

static struct tried told(uint64_t at) {
    struct tried it = {at != 0, at ? at : (uint64_t)none};
    return it;
}

struct tried rattle_alloc(uint64_t size, uint64_t alignment) {
    return told(take(size ? size : alignment));
}

struct tried rattle_realloc(uint64_t at, uint64_t kept, uint64_t size, uint64_t alignment) {
    uint64_t wanted = size ? size : alignment;
    if (wanted <= 1ull << *(uint64_t *)(at - 16))
        return told(at);
    uint64_t other = take(wanted);
    if (other) {
        __builtin_memcpy((void *)other, (void *)at, kept);
        give_back(at);
    }
    return told(other);
}

void rattle_dealloc(uint64_t at) {
    give_back(at);
}

/* For what the page passes: 0 if memory ran out. */
__attribute__((export_name("page_take"))) uint64_t page_take(uint64_t size) {
    return take(size ? size : 1);
}

__attribute__((export_name("page_give_back"))) void page_give_back(uint64_t at) {
    give_back(at);
}

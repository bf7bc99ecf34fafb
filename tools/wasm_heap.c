// The memory of the program where it is WebAssembly, and the calls that a page makes.
//
// A block has its size before it, which is rounded up so that only its first three bits may be set. Blocks that were given back
// stand in a list for each such size, and the next block of the size is taken from there. All else is taken from the end, which
// grows. A page begins anew before each request.

typedef unsigned long number;

typedef struct {
    number is_given, at;
} Given;

typedef struct Block {
    number size;
    struct Block *next;
} Block;

enum { PAGE = 65536, HEAD = 16, LEAST = 16, LISTS = 256 };

// More than this is never given, so that no sum of sizes is too long for an address of 32 bits.
static const number MOST = 0xf0000000;

extern unsigned char __heap_base;

static number end;
static Block *free_blocks[LISTS];

// How many bits a size has, without the first.
static number bits_of(number size) { return 63 - __builtin_clzl(size); }

static number rounded(number size) {
    number step = size < LEAST ? LEAST : 1ul << (bits_of(size) - 2);
    return size < LEAST ? LEAST : (size + step - 1) & ~(step - 1);
}

static Block **list_of(number size) { return &free_blocks[bits_of(size) * 4 + (size >> (bits_of(size) - 2) & 3)]; }

static Block *block_at(void *bytes) { return (Block *)((unsigned char *)bytes - HEAD); }

// Whether memory reaches up to an address, once it has grown.
static int reaches(number to) {
    number have = __builtin_wasm_memory_size(0) * PAGE;
    if (to > MOST) return 0;
    return to <= have || __builtin_wasm_memory_grow(0, (to - have + PAGE - 1) / PAGE) != (number)-1;
}

static void *taken(number size) {
    if (size > MOST) return 0;
    size = (rounded(size) + LEAST - 1) & ~(number)(LEAST - 1);
    Block **list = list_of(size), *block = *list;
    if (block) {
        *list = block->next;
    } else {
        if (!end) end = ((number)&__heap_base + LEAST - 1) & ~(number)(LEAST - 1);
        if (!reaches(end + HEAD + size)) return 0;
        block = (Block *)end;
        block->size = size;
        end += HEAD + size;
    }
    return (unsigned char *)block + HEAD;
}

Given rattle_alloc(number size, number alignment) {
    void *bytes = taken(size);
    return (Given){bytes != 0, (number)bytes};
}

void rattle_dealloc(void *bytes) {
    Block *block = block_at(bytes), **list = list_of(block->size);
    block->next = *list;
    *list = block;
}

Given rattle_realloc(void *bytes, number kept, number size, number alignment) {
    Block *block = block_at(bytes);
    if (size <= block->size) return (Given){1, (number)bytes};
    void *other = taken(size);
    if (!other) return (Given){0, 0};
    __builtin_memcpy(other, bytes, kept < size ? kept : size);
    rattle_dealloc(bytes);
    return (Given){1, (number)other};
}

// The proved call: the length of the reply to a request, whose bytes stand in the room where they fit.
extern number paw_page(const unsigned char *request, number length, unsigned char *room, number size);

// The page's own calls take and give numbers of 32 bits, since those are plain numbers in JavaScript.

static unsigned answer_length;

void page_clear(void) {
    end = 0;
    __builtin_memset(free_blocks, 0, sizeof free_blocks);
}

unsigned page_room(unsigned size) { return (number)taken(size); }

unsigned page_answer_length(void) { return answer_length; }

// The reply to a request. Where it doesn't fit the first room, the request is answered again with room for it.
unsigned page_answer(unsigned request, unsigned length) {
    number size = length * 32ul + 16 * PAGE;
    for (;;) {
        unsigned char *room = taken(size);
        answer_length = room ? paw_page((const unsigned char *)(number)request, length, room, size) : 0;
        if (answer_length <= size) return (number)room;
        rattle_dealloc(room);
        size = answer_length;
    }
}

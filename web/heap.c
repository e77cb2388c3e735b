/* The allocator of the module of WebAssembly: all that the library calls and WebAssembly lacks. Nothing of it is proved, as nothing of a C library is;
 * web/tests tries it.
 *
 * A block has a power of two of bytes, 16 at least, behind a head of 16 that keeps the exponent. Blocks given back are kept by their exponents, each
 * telling the next one, and used again; the memory itself only grows, to 1 GiB at most. */
typedef unsigned long word; /* 64 bits, also where addresses are lowered to 32 */

enum { HEAD = 16, PAGE = 65536, LEAST = 4, MOST = 30 };
#define PAGES_AT_MOST 16384ul

extern unsigned char __heap_base;
static word top, *given_back[MOST + 1];

/* The least exponent of a block of this size. */
static word exponent(word size) { return size <= 1ul << LEAST ? LEAST : 64 - __builtin_clzl(size - 1); }

/* Whether the memory reaches to this end, or could be made to. */
static int has_room(word end) {
    word pages = (end + PAGE - 1) / PAGE, there = __builtin_wasm_memory_size(0);
    return pages <= there || (pages <= PAGES_AT_MOST && __builtin_wasm_memory_grow(0, pages - there) != ~0ul);
}

/* A block of this size, or 0 where there is none. */
void *malloc(word size) {
    word kind = exponent(size), *block;
    if (kind > MOST) return 0;
    if ((block = given_back[kind])) {
        given_back[kind] = (word *)block[0];
        return block;
    }
    word at = (top ? top : ((word)&__heap_base + 15) & ~15ul) + HEAD;
    if (!has_room(at + (1ul << kind))) return 0;
    block = (word *)at;
    block[-2] = kind;
    top = at + (1ul << kind);
    return block;
}

/* Takes a block back; nothing where it is 0. */
void free(void *block) {
    if (!block) return;
    word *it = block, kind = it[-2];
    it[0] = (word)given_back[kind];
    given_back[kind] = it;
}

/* A block of this size with what the given one held; where there is none, 0, and the given one stays. */
void *realloc(void *block, word size) {
    if (!block) return malloc(size);
    word room = 1ul << ((word *)block)[-2];
    if (size <= room) return block;
    void *other = malloc(size);
    if (!other) return 0;
    __builtin_memcpy(other, block, room);
    free(block);
    return other;
}

/* What Rattle's libraries call, as the kit's own allocator defines it over these: whether there was memory, and where; a size of 0 takes what the
 * alignment says. Each block is aligned to 16. */
typedef struct { word ok, p; } Tried;
static unsigned char nothing;

static Tried tried(void *p) { return p ? (Tried){1, (word)p} : (Tried){0, (word)&nothing}; }
Tried rattle_alloc(word size, word align) { return tried(malloc(size ? size : align)); }
Tried rattle_realloc(void *p, word kept, word size, word align) { return tried(realloc(p, size ? size : align)); }
void rattle_dealloc(void *p) { free(p); }

/* What web.py runs with 64-bit addresses and with 32-bit ones: each kind of load and store, copied and filled memory, addresses in constants, and memory that grows. */
typedef unsigned long word;
typedef unsigned char byte;

extern byte __heap_base;
static const char *const names[] = {"one", "two", "three"};
static byte room[4096];
static double doubles[16];
static float floats[16];
static short shorts[16];
static int ints[16];
static signed char bytes[16];
static word calls, at_last[9];

/* A number that hangs on all that is stored and loaded again. */
word mix(word seed) {
    word sum = seed + ++calls + at_last[7];
    at_last[7] = seed;
    for (int at = 0; at < 16; at++) {
        doubles[at] = (double)(seed + at) / 3;
        floats[at] = (float)(seed * at);
        shorts[at] = (short)(seed * at * 77);
        ints[at] = (int)(seed * at * 7777);
        bytes[at] = (signed char)(seed * at);
    }
    for (int at = 0; at < 16; at++) {
        sum = sum * 31 + (word)(long)doubles[at] + (word)(long)floats[at] + (word)(long)shorts[at] + (unsigned short)shorts[at];
        sum = sum * 31 + (word)(long)ints[at] + (unsigned)ints[at] + (word)(long)bytes[at] + (byte)bytes[at];
    }
    for (int which = 0; which < 3; which++)
        for (const char *at = names[which]; *at; at++) sum = sum * 131 + (byte)*at;
    __builtin_memset(room, (int)seed, 1000);
    for (word at = 0; at < 100; at++) room[at] = (byte)(at * seed);
    __builtin_memmove(room + 10, room + 3, seed % 900 + 50);
    __builtin_memcpy(room + 2000, room, 1500);
    for (word at = 0; at < 4096; at++) sum = sum * 31 + room[at];
    return sum;
}

/* How many pages there are behind so many more; all bits where there is no room for them, as for 4 GiB. */
word grow(word pages) {
    word before = __builtin_wasm_memory_size(0), got = __builtin_wasm_memory_grow(0, pages);
    return got == before ? __builtin_wasm_memory_size(0) : got;
}

/* Puts a number so far behind the module's own, and answers the one that was there. */
word put(word at, word what) {
    word *it = (word *)(((word)&__heap_base + 7 & ~7ul) + at), was = *it;
    *it = what;
    return was;
}

/* Makes the system calls on files that its words tell, in their order, and nothing else but hashes, where these are asked for:
 *
 *     open FD r|w PATH    opens a file for reading, or for reading and writing, which has to get this number
 *     copy NEW FD         gives an open file another number, which has to be this new one
 *     seek FD PLACE       read FD BYTES           write FD BYTES
 *                         get FD BYTES PLACE      put FD BYTES PLACE      the same at a place
 *     lock FD s|x         stat FD                 sync FD                 close FD
 *     look 0 PATH         asks what the file of a path is, a symbolic link too
 *     keep 0              what is got from now on is kept, one behind the other, and written from there
 *     hash BLOCKS         takes so many blocks of 64 bytes through the compression function of SHA-256, which is no call
 *
 * Each word is one call, such as "get 6 4096 8192". What is written are zeros. It ends with status 1 at the first call that fails, or
 * that moves another number of bytes. */
#include <fcntl.h>
#include <stdint.h>
#include <stdio.h>
#include <stdlib.h>
#include <string.h>
#include <sys/file.h>
#include <sys/stat.h>
#include <unistd.h>

static char bytes[80 << 20];

/* Where the next bytes that are got are put: at the front, or, where they are kept, behind those before. */
static long place_kept;
static int is_keeping;

static const uint32_t constants[64] = {
    0x428a2f98, 0x71374491, 0xb5c0fbcf, 0xe9b5dba5, 0x3956c25b, 0x59f111f1, 0x923f82a4, 0xab1c5ed5, 0xd807aa98, 0x12835b01, 0x243185be, 0x550c7dc3, 0x72be5d74, 0x80deb1fe, 0x9bdc06a7, 0xc19bf174,
    0xe49b69c1, 0xefbe4786, 0x0fc19dc6, 0x240ca1cc, 0x2de92c6f, 0x4a7484aa, 0x5cb0a9dc, 0x76f988da, 0x983e5152, 0xa831c66d, 0xb00327c8, 0xbf597fc7, 0xc6e00bf3, 0xd5a79147, 0x06ca6351, 0x14292967,
    0x27b70a85, 0x2e1b2138, 0x4d2c6dfc, 0x53380d13, 0x650a7354, 0x766a0abb, 0x81c2c92e, 0x92722c85, 0xa2bfe8a1, 0xa81a664b, 0xc24b8b70, 0xc76c51a3, 0xd192e819, 0xd6990624, 0xf40e3585, 0x106aa070,
    0x19a4c116, 0x1e376c08, 0x2748774c, 0x34b0bcb5, 0x391c0cb3, 0x4ed8aa4a, 0x5b9cca4f, 0x682e6ff3, 0x748f82ee, 0x78a5636f, 0x84c87814, 0x8cc70208, 0x90befffa, 0xa4506ceb, 0xbef9a3f7, 0xc67178f2,
};

static uint32_t turned(uint32_t word, int count)
{
    return word >> count | word << (32 - count);
}

/* A round, which leaves its new first word in h, and its new fifth in d. */
#define ROUND(a, b, c, d, e, f, g, h, i) \
    h += (turned(e, 6) ^ turned(e, 11) ^ turned(e, 25)) + (g ^ (e & (f ^ g))) + constants[i] + w[i], d += h, \
    h += (turned(a, 2) ^ turned(a, 13) ^ turned(a, 22)) + (b ^ ((a ^ b) & (b ^ c)))

/* The compression function of SHA-256 (FIPS 180-4, 6.2.2). */
static void compress(uint32_t state[8], const unsigned char *block)
{
    uint32_t w[64], a = state[0], b = state[1], c = state[2], d = state[3], e = state[4], f = state[5], g = state[6], h = state[7];

    for (int i = 0; i < 16; i++) {
        memcpy(&w[i], block + 4 * i, 4);
        w[i] = __builtin_bswap32(w[i]);
    }
    for (int i = 16; i < 64; i++)
        w[i] = w[i - 16] + w[i - 7] + (turned(w[i - 15], 7) ^ turned(w[i - 15], 18) ^ w[i - 15] >> 3) + (turned(w[i - 2], 17) ^ turned(w[i - 2], 19) ^ w[i - 2] >> 10);
    for (int i = 0; i < 64; i += 8) {
        ROUND(a, b, c, d, e, f, g, h, i);
        ROUND(h, a, b, c, d, e, f, g, i + 1);
        ROUND(g, h, a, b, c, d, e, f, i + 2);
        ROUND(f, g, h, a, b, c, d, e, i + 3);
        ROUND(e, f, g, h, a, b, c, d, i + 4);
        ROUND(d, e, f, g, h, a, b, c, i + 5);
        ROUND(c, d, e, f, g, h, a, b, i + 6);
        ROUND(b, c, d, e, f, g, h, a, i + 7);
    }
    state[0] += a, state[1] += b, state[2] += c, state[3] += d, state[4] += e, state[5] += f, state[6] += g, state[7] += h;
}

/* So many blocks, each of what the last one came to, so that none can be left out. */
static int hash(long blocks)
{
    uint32_t state[8] = {0x6a09e667, 0xbb67ae85, 0x3c6ef372, 0xa54ff53a, 0x510e527f, 0x9b05688c, 0x1f83d9ab, 0x5be0cd19};

    for (long i = 0; i < blocks; i++) {
        memcpy(bytes, state, sizeof state);
        compress(state, (unsigned char *)bytes);
    }
    memcpy(bytes, state, sizeof state);
    return 1;
}

static int call(const char *word)
{
    char name[8], way = 0;
    int file, path = 0;
    long number = 0, place = 0;
    struct stat status;

    if (sscanf(word, "%7s %d", name, &file) != 2)
        return 0;
    if (strcmp(name, "open") == 0) {
        sscanf(word, "%*s %*d %c %n", &way, &path);
        return path && open(word + path, (way == 'w' ? O_RDWR | O_CREAT : O_RDONLY) | O_CLOEXEC, 0666) == file;
    }
    if (strcmp(name, "keep") == 0)
        return is_keeping = 1;
    if (strcmp(name, "hash") == 0)
        return hash(file);
    if (strcmp(name, "look") == 0) {
        sscanf(word, "%*s %*d %n", &path);
        return path && lstat(word + path, &status) == 0;
    }
    if (strcmp(name, "lock") == 0)
        return sscanf(word, "%*s %*d %c", &way) == 1 && flock(file, way == 'x' ? LOCK_EX : LOCK_SH) == 0;
    if (strcmp(name, "stat") == 0)
        return fstat(file, &status) == 0;
    if (strcmp(name, "sync") == 0)
        return fsync(file) == 0;
    if (strcmp(name, "close") == 0)
        return close(file) == 0;
    if (sscanf(word, "%*s %*d %ld %ld", &number, &place) < 1 || number < 0)
        return 0;
    if (strcmp(name, "copy") == 0)
        return fcntl(number, F_DUPFD_CLOEXEC, 3) == file;
    if (strcmp(name, "seek") == 0)
        return lseek(file, number, SEEK_SET) == number;
    if (number > (long)sizeof bytes)
        return 0;
    if (strcmp(name, "read") == 0)
        return read(file, bytes, number) >= 0;
    if (strcmp(name, "write") == 0)
        return write(file, bytes, number) == number;
    if (strcmp(name, "get") == 0 && is_keeping) {
        if (place_kept + number > (long)sizeof bytes)
            return 0;
        place_kept += number;
        return pread(file, bytes + place_kept - number, number, place) >= 0;
    }
    if (strcmp(name, "get") == 0)
        return pread(file, bytes, number, place) >= 0;
    if (strcmp(name, "put") == 0)
        return pwrite(file, bytes, number, place) == number;
    return 0;
}

int main(int count, char **words)
{
    for (int i = 1; i < count; i++)
        if (!call(words[i])) {
            fprintf(stderr, "same_calls: %s\n", words[i]);
            return 1;
        }
    return 0;
}

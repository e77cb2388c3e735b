/* Calls the library with the files of records, in every way that a caller may, and tells what it answers else than it is to.
 *
 *     library_calls FILE VERSION
 *
 * A record has the form: `v`, `s`, `m`, `f`, `c` or `r` for timeweave_verify, _strict, _checkmap, _checkfork, _contradict or _receiver; the
 * status; then the files that this function takes and the text, each behind its size in four bytes. Each buffer that is read or written ends
 * where a page begins that nobody may touch. The allocator is wrapped, by the linker's --wrap, so that its calls can fail, one after another.
 */
#define _GNU_SOURCE
#include <pthread.h>
#include <stdbool.h>
#include <stdio.h>
#include <stdlib.h>
#include <string.h>
#include <sys/mman.h>
#include <unistd.h>
#include "timeweave.h"
#include "timeweave_collect.h"

#define FILLED 0xa5
#define THREADS 4

typedef struct {
    const uint8_t *bytes;
    size_t size;
} span;

#define MOST_FILES 5

typedef struct {
    char form;
    uint32_t status;
    span files[MOST_FILES], text;
} record;

/* How many files the function of this form takes. */
static size_t files_of(char form) {
    return form == 'c' ? 5 : form == 'm' || form == 'r' ? 3 : 2;
}

static _Thread_local long calls_left = -1;
static _Atomic int wrong;

void *__real_malloc(size_t size);
void *__real_realloc(void *block, size_t size);

/* Whether this call of the allocator is the one that is to fail; all behind it fail too. */
static bool fails(void) {
    if (calls_left < 0)
        return false;
    if (calls_left == 0)
        return true;
    calls_left--;
    return false;
}

void *__wrap_malloc(size_t size) {
    return fails() ? NULL : __real_malloc(size);
}

void *__wrap_realloc(void *block, size_t size) {
    return fails() ? NULL : __real_realloc(block, size);
}

/* So many bytes that end where a page begins that nobody may touch. */
static uint8_t *guarded(size_t size) {
    size_t page = (size_t)sysconf(_SC_PAGESIZE), pages = (size + page - 1) / page + 1;
    uint8_t *front = mmap(NULL, (pages + 1) * page, PROT_READ | PROT_WRITE, MAP_PRIVATE | MAP_ANONYMOUS, -1, 0);
    if (front == MAP_FAILED || mprotect(front + pages * page, page, PROT_NONE))
        exit(2);
    return front + pages * page - size;
}

static void give_back(uint8_t *bytes, size_t size) {
    size_t page = (size_t)sysconf(_SC_PAGESIZE), pages = (size + page - 1) / page + 1;
    munmap(bytes + size - pages * page, (pages + 1) * page);
}

static void tell(const char *what, size_t number, size_t room) {
    printf("record %zu, room %zu: %s\n", number, room, what);
    wrong = 1;
}

#define FILE_AT(i) r->files[i].bytes, r->files[i].size

static uint32_t judged(const record *r, uint8_t *out, size_t room, size_t *size) {
    switch (r->form) {
    case 'v':
        return timeweave_verify(FILE_AT(0), FILE_AT(1), out, room, size);
    case 's':
        return timeweave_strict(FILE_AT(0), FILE_AT(1), out, room, size);
    case 'm':
        return timeweave_checkmap(FILE_AT(0), FILE_AT(1), FILE_AT(2), out, room, size);
    case 'f':
        return timeweave_checkfork(FILE_AT(0), FILE_AT(1), out, room, size);
    case 'r':
        return timeweave_receiver(FILE_AT(0), FILE_AT(1), FILE_AT(2), out, room, size);
    default:
        return timeweave_contradict(FILE_AT(0), FILE_AT(1), FILE_AT(2), FILE_AT(3), FILE_AT(4), out, room, size);
    }
}

/* One call with so much room; the text wanted is this. */
static void call(const record *r, size_t number, size_t room, uint32_t status, span text) {
    uint8_t *out = guarded(room + 16) + 16;
    size_t size = (size_t)-1, put = text.size < room ? text.size : room;
    memset(out - 16, FILLED, room + 16);
    if (judged(r, out, room, &size) != status)
        tell("another status", number, room);
    if (size != text.size)
        tell("another size of the text", number, room);
    if (memcmp(out, text.bytes, put))
        tell("another text", number, room);
    const uint8_t *before = out - 16;
    for (size_t i = 0; i < 16; i++)
        if (before[i] != FILLED)
            tell("a byte before the buffer was written", number, room);
    for (size_t i = put; i < room; i++)
        if (out[i] != FILLED)
            tell("a byte behind the text was written", number, room);
    give_back(out - 16, room + 16);
}

/* Each call of the allocator fails in turn, until none does. */
static void without_memory(const record *r, size_t number) {
    span text = {(const uint8_t *)"no memory\n", 10};
    uint8_t out[16];
    size_t size = 0;
    for (long allowed = 0;; allowed++) {
        calls_left = allowed;
        uint32_t status = judged(r, out, sizeof out, &size);
        calls_left = -1;
        if (status != TIMEWEAVE_NO_MEMORY) {
            if (status != r->status)
                tell("another status where memory sufficed", number, sizeof out);
            return;
        }
        if (size != text.size || memcmp(out, text.bytes, text.size))
            tell("another text for want of memory", number, sizeof out);
    }
}

/* The same proof in pieces of so many bytes. */
static void in_pieces(const record *r, size_t number, size_t most) {
    timeweave_collected proof = {0};
    span whole = r->files[0];
    uint8_t out[64];
    size_t size = 0;
    for (size_t at = 0; at < whole.size; at += most)
        if (!timeweave_collect(&proof, whole.bytes + at, whole.size - at < most ? whole.size - at : most))
            tell("no memory for a piece", number, most);
    uint32_t status = (r->form == 's' ? timeweave_collect_strict : timeweave_collect_verify)(&proof, FILE_AT(1), out, sizeof out, &size);
    if (status != r->status || size != r->text.size || memcmp(out, r->text.bytes, size < sizeof out ? size : sizeof out))
        tell("in pieces it is told another thing", number, most);
    timeweave_collect_free(&proof);
}

static void every_way(const record *r, size_t number) {
    size_t rooms[] = {0, 1, r->text.size ? r->text.size - 1 : 0, r->text.size, r->text.size + 1, 4096};
    for (size_t i = 0; i < sizeof rooms / sizeof *rooms; i++)
        call(r, number, rooms[i], r->status, r->text);
    without_memory(r, number);
    if (r->form == 'v' || r->form == 's')
        in_pieces(r, number, 1 + r->files[0].size / 3);
}

static size_t read_size(const uint8_t **at) {
    const uint8_t *b = *at;
    *at += 4;
    return (size_t)b[0] << 24 | (size_t)b[1] << 16 | (size_t)b[2] << 8 | b[3];
}

/* The next bytes of the file, in a place of their own. */
static span read_span(const uint8_t **at) {
    span read = {NULL, read_size(at)};
    uint8_t *bytes = guarded(read.size);
    memcpy(bytes, *at, read.size);
    *at += read.size;
    read.bytes = bytes;
    return read;
}

static const uint8_t *file_bytes, *file_end;

/* Each record of the file, in every way. */
static void *whole_file(void *nothing) {
    size_t number = 0;
    for (const uint8_t *at = file_bytes; at < file_end; number++) {
        record r = {.form = (char)*at++};
        r.status = *at++;
        for (size_t i = 0; i < files_of(r.form); i++)
            r.files[i] = read_span(&at);
        r.text = read_span(&at);
        every_way(&r, number);
        for (size_t i = 0; i < files_of(r.form); i++)
            give_back((uint8_t *)r.files[i].bytes, r.files[i].size);
        give_back((uint8_t *)r.text.bytes, r.text.size);
    }
    return nothing;
}

static void version(const char *wanted) {
    for (size_t room = 0; room < strlen(wanted) + 2; room++) {
        uint8_t *out = guarded(room);
        memset(out, FILLED, room);
        size_t size = timeweave_version(out, room);
        if (size != strlen(wanted) || memcmp(out, wanted, size < room ? size : room) || (room > size && out[size] != FILLED))
            tell("another version", 0, room);
        give_back(out, room);
    }
}

int main(int count, char **words) {
    FILE *file = count == 3 ? fopen(words[1], "rb") : NULL;
    if (!file || fseek(file, 0, SEEK_END))
        return 2;
    size_t size = (size_t)ftell(file);
    uint8_t *bytes = malloc(size + 1);
    rewind(file);
    if (!bytes || fread(bytes, 1, size, file) != size)
        return 2;
    fclose(file);
    file_bytes = bytes;
    file_end = bytes + size;
    version(words[2]);
    pthread_t threads[THREADS];
    for (int i = 0; i < THREADS; i++)
        if (pthread_create(&threads[i], NULL, whole_file, NULL))
            return 2;
    for (int i = 0; i < THREADS; i++)
        pthread_join(threads[i], NULL);
    free(bytes);
    return wrong;
}

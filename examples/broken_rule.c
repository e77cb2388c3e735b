/* Checks whether two files show that a service broke a rule, and writes what the library tells.
 *
 *     make lib
 *     cc -O2 -Iinclude -o broken_rule examples/broken_rule.c lib/libtimeweave.a
 *     ./broken_rule FIRST LINES SECOND LINES [LINK]
 */
#include <stdio.h>
#include <stdlib.h>
#include "timeweave.h"

typedef struct {
    uint8_t bytes[1 << 20];
    size_t size;
} contents;

/* The bytes of a file, at most so many as have room. */
static void load(const char *name, contents *file) {
    FILE *opened = fopen(name, "rb");
    if (!opened) {
        perror(name);
        exit(3);
    }
    file->size = fread(file->bytes, 1, sizeof file->bytes, opened);
    fclose(opened);
}

int main(int count, char **words) {
    static contents files[5];
    static uint8_t text[4096];
    size_t size = 0;
    if (count < 5 || count > 6) {
        fprintf(stderr, "broken_rule FIRST LINES SECOND LINES [LINK]\n");
        return 2;
    }
    for (int i = 0; i < count - 1; i++)
        load(words[i + 1], &files[i]);
    const contents *first = &files[0], *first_lines = &files[1], *second = &files[2], *second_lines = &files[3], *link = &files[4];
    uint32_t status = timeweave_contradict(first->bytes, first->size, first_lines->bytes, first_lines->size, second->bytes, second->size,
                                           second_lines->bytes, second_lines->size, link->bytes, link->size, text, sizeof text, &size);
    fwrite(text, 1, size < sizeof text ? size : sizeof text, stdout);
    return (int)status;
}

/* Judges files in this process: prints the text of the program's command of the same name, and ends with its status.
 *
 *     cc -Iinclude -o judge examples/bindings/judge.c lib/libtimeweave.a
 *     ./judge strict PROOF ANCHORS
 */
#include <stdio.h>
#include <stdlib.h>
#include <string.h>

#include "timeweave.h"

struct file {
    uint8_t *bytes;
    size_t size;
};

/* The bytes of a file. Their pointer is never NULL, as the library asks for, also of an empty file. */
static struct file load(const char *name) {
    FILE *from = fopen(name, "rb");
    struct file file = {NULL, 0};
    size_t room = 0, got = 0;
    for (; from && (file.size += got) == room; got = fread(file.bytes + file.size, 1, room - file.size, from))
        if (!(file.bytes = realloc(file.bytes, room = 2 * room + 4096))) exit(TIMEWEAVE_NO_MEMORY);
    if (!from || ferror(from)) {
        perror(name);
        exit(3);
    }
    fclose(from);
    return file;
}

#define OF(number) files[number].bytes, files[number].size

/* The status for the files; of the text as much as has room is in `out`, and its whole size in `size`. */
static uint32_t asked(const char *form, const struct file *files, uint8_t *out, size_t room, size_t *size) {
    if (!strcmp(form, "verify")) return timeweave_verify(OF(0), OF(1), out, room, size);
    if (!strcmp(form, "strict")) return timeweave_strict(OF(0), OF(1), out, room, size);
    if (!strcmp(form, "checkmap")) return timeweave_checkmap(OF(0), OF(1), OF(2), out, room, size);
    if (!strcmp(form, "checkfork")) return timeweave_checkfork(OF(0), OF(1), out, room, size);
    if (!strcmp(form, "receiver")) return timeweave_receiver(OF(0), OF(1), OF(2), out, room, size);
    return timeweave_contradict(OF(0), OF(1), OF(2), OF(3), OF(4), out, room, size);
}

/* The forms, each with how many files it has. */
static const struct { const char *form; int count; } FORMS[] = {{"verify", 2},    {"strict", 2},     {"checkmap", 3},
                                                                {"checkfork", 2}, {"contradict", 5}, {"receiver", 3}};

/* Whether the words are a form. */
static int is_form(int count, char **words) {
    for (size_t i = 0; i < sizeof FORMS / sizeof *FORMS; i++)
        if (count == 2 + FORMS[i].count && !strcmp(words[1], FORMS[i].form)) return 1;
    return 0;
}

int main(int count, char **words) {
    if (!is_form(count, words)) {
        fprintf(stderr, "usage: judge verify PROOF ANCHORS | strict PROOF ANCHORS | checkmap LOW HIGH ANCHORS | checkfork EVIDENCE ANCHORS | "
                        "contradict FIRST ANCHORS SECOND ANCHORS LINK | receiver EVIDENCE ANCHORS LINK\n");
        return 2;
    }
    struct file files[5];
    for (int i = 2; i < count; i++) files[i - 2] = load(words[i]);
    size_t room = 1024, size = 0;
    uint8_t *text = NULL;
    uint32_t status;
    do {
        /* (the text may be longer than the room that it was given: then it is asked for again) */
        if (size > room) room = size;
        if (!(text = realloc(text, room))) return TIMEWEAVE_NO_MEMORY;
        status = asked(words[1], files, text, room, &size);
    } while (size > room);
    switch (status) {
    case TIMEWEAVE_ACCEPTED: break;
    case TIMEWEAVE_REJECTED: fprintf(stderr, "not accepted\n"); break;
    case TIMEWEAVE_UNREADABLE: fprintf(stderr, "a file is unreadable\n"); break;
    default: fprintf(stderr, "nothing was judged\n");
    }
    /* (a report that isn't written is no answer) */
    if (fwrite(text, 1, size, stdout) != size || fflush(stdout)) {
        perror("standard output");
        return 4;
    }
    return (int)status;
}

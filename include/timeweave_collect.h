/* A proof that comes in pieces, as from a socket: the pieces are collected, and judged once all are there.
 *
 * This file is C that nothing proves; what timeweave_collect_verify and timeweave_collect_strict answer is what timeweave.h says of the
 * pieces joined. A proof has fewer than 5,242,880 bytes, so no more than that are kept: with more, the first byte at which no proof goes on,
 * which is what is told, stands among these.
 *
 *     timeweave_collected proof = {0};
 *     while (...) if (!timeweave_collect(&proof, piece, size)) ...no memory...
 *     status = timeweave_collect_verify(&proof, anchors, anchors_size, out, room, &text_size);
 *     timeweave_collect_free(&proof);
 */
#ifndef TIMEWEAVE_COLLECT_H
#define TIMEWEAVE_COLLECT_H

#include <stdbool.h>
#include <stdlib.h>
#include <string.h>
#include "timeweave.h"

#define TIMEWEAVE_MOST_COLLECTED ((size_t)5242880)

/* The pieces so far, joined. All zeros: none. */
typedef struct {
    uint8_t *bytes;
    size_t size;
    size_t room;
} timeweave_collected;

/* Adds a piece. Where there is no memory for it the answer is false, and the pieces are as before. */
static inline bool timeweave_collect(timeweave_collected *proof, const uint8_t *piece, size_t size) {
    size_t left = TIMEWEAVE_MOST_COLLECTED - proof->size;
    size_t taken = size < left ? size : left;
    if (proof->size + taken > proof->room) {
        size_t twice = 2 * proof->room;
        size_t room = proof->size + taken > twice ? proof->size + taken : twice;
        uint8_t *bytes = realloc(proof->bytes, room);
        if (!bytes)
            return false;
        proof->bytes = bytes;
        proof->room = room;
    }
    if (taken)
        memcpy(proof->bytes + proof->size, piece, taken);
    proof->size += taken;
    return true;
}

/* What the pieces are handed on as: never NULL. */
static inline const uint8_t *timeweave_collected_bytes(const timeweave_collected *proof) {
    return proof->bytes ? proof->bytes : (const uint8_t *)"";
}

/* Judges the pieces, joined. */
static inline uint32_t timeweave_collect_verify(const timeweave_collected *proof, const uint8_t *anchors, size_t anchors_size, uint8_t *out,
                                                size_t room, size_t *text_size) {
    return timeweave_verify(timeweave_collected_bytes(proof), proof->size, anchors, anchors_size, out, room, text_size);
}

static inline uint32_t timeweave_collect_strict(const timeweave_collected *proof, const uint8_t *anchors, size_t anchors_size, uint8_t *out,
                                                size_t room, size_t *text_size) {
    return timeweave_strict(timeweave_collected_bytes(proof), proof->size, anchors, anchors_size, out, room, text_size);
}

/* Gives the memory back; no pieces are left. */
static inline void timeweave_collect_free(timeweave_collected *proof) {
    free(proof->bytes);
    proof->bytes = NULL;
    proof->size = proof->room = 0;
}

#endif

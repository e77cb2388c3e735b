/* Timeweave's verifier in one process: judges proofs, maps and evidence under anchors that you hold, as the program's `verify`, `strict`,
 * `checkmap` and `checkfork` do, and tells whether two accepted files, or the evidence of a fork, show that a service broke a rule.
 *
 * What these functions answer is proved: the status and the text are those of the verdict on the bytes handed in, with the theorem that
 * what an accepted file shows is so of every list of sound histories that has the authenticators held, or two different texts have one
 * SHA-256 digest. The proofs cover the library; that your program keeps the conditions below is for you to see to:
 *
 * - No pointer is NULL, also where the size beside it is 0. Each points to as many bytes as that size says, at most PTRDIFF_MAX.
 * - `out` and `text_size` overlap neither each other nor the bytes that are read. These may overlap one another.
 * - `malloc`, `realloc` and `free` are one allocator's, and align as the C standard has it. Nothing else is called, but `memcpy`,
 *   `memmove` and `memset`. All memory taken is given back before a call returns.
 * - No call is made in a signal handler, or in the forked child of a process with threads. Calls at one time in several threads are fine:
 *   the library keeps nothing from call to call.
 */
#ifndef TIMEWEAVE_H
#define TIMEWEAVE_H

#include <stddef.h>
#include <stdint.h>

#ifdef __cplusplus
extern "C" {
#endif

/* What the judging functions answer: the exit statuses of the program. */
enum {
    TIMEWEAVE_ACCEPTED = 0,    /* the text is the report: what is shown, line by line */
    TIMEWEAVE_REJECTED = 1,    /* the text is `rejected` and the reason: its number, name and fields */
    TIMEWEAVE_NO_MEMORY = 6,   /* the text is `no memory` */
    TIMEWEAVE_BAD_ANCHORS = 9, /* the text is `unreadable anchors line` and the number of the first bad line, from 1 */
    TIMEWEAVE_UNREADABLE = 9   /* the same status, of a map file too: the text is `unreadable low byte` or `unreadable high byte` and a place */
};

/* Judges the bytes of a proof under the anchors in the bytes of an anchors file: lines NAME STEP HEX, at most 64, one a service.
 *
 * The text is the one that `timeweave verify PROOF anchors` writes for files of these bytes; lines end in a line feed, and no zero byte
 * ends the text. As much of it as has room is put at the front of `out`; the bytes of `out` behind that stay as they were, and nothing is
 * written past `room`. `*text_size` is the size of the whole text: where it is more than `room`, call again with that much room. What
 * `*text_size` was before doesn't matter. The threads that a proof carries, which no anchor binds, are allowed, and reported. */
uint32_t timeweave_verify(const uint8_t *proof, size_t proof_size, const uint8_t *anchors, size_t anchors_size, uint8_t *out, size_t room,
                          size_t *text_size);

/* The same in the strict form, as `timeweave strict` judges: a proof that carries threads is rejected. */
uint32_t timeweave_strict(const uint8_t *proof, size_t proof_size, const uint8_t *anchors, size_t anchors_size, uint8_t *out, size_t room,
                          size_t *text_size);

/* Judges the bytes of a low and of a high map file under those of an anchors file, as `timeweave checkmap low high anchors` judges files of
 * these bytes; the buffer is as with timeweave_verify.
 *
 * Accepted: `accepted map`, and the lines `low L`, `high H` or `high none`, and `upto U`: L is the greatest step of the peer that the service
 * received before its step, H the least step of the peer up to U that received the service's step or a later one. Rejected: `rejected Gap 2`
 * where the two files don't speak of one step and of one peer, else the lowest reason (part 0 is the low file, part 1 the high one).
 * Unreadable: the first of `low` and `high` that is no map file of its kind, with the first byte at which none goes on, else the first bad
 * line of the anchors. */
uint32_t timeweave_checkmap(const uint8_t *low, size_t low_size, const uint8_t *high, size_t high_size, const uint8_t *anchors,
                            size_t anchors_size, uint8_t *out, size_t room, size_t *text_size);

/* Judges the bytes of the evidence of a fork under those of an anchors file, as `timeweave checkfork evidence anchors` judges files of these
 * bytes; the buffer is as with timeweave_verify.
 *
 * Accepted: `accepted fork`, and the lines `first` and `second`, each with the thread that was received (service, step, authenticator), the
 * service that received it, and the step that did. Rejected: `Malformed` and a place; `Part`, 1 or 2, and the number of the reason against
 * that proof; `NoConflict`; `BadLink`. */
uint32_t timeweave_checkfork(const uint8_t *evidence, size_t evidence_size, const uint8_t *anchors, size_t anchors_size, uint8_t *out,
                             size_t room, size_t *text_size);

/* The rules of histories that two accepted files can show to be broken, by the numbers that texts have. `One` and `other` are what both files say
 * of an archive, a step of it and their lines, in one order or the other. */
enum {
    TIMEWEAVE_DENIED = 1,             /* one shows a received thread; the other, that none of its service and step was received up to that step */
    TIMEWEAVE_OWN_THREAD = 2,         /* the archive has a thread of its own service */
    TIMEWEAVE_RECEIVED_LATER = 3,     /* the archive of a step has a thread that a later step received */
    TIMEWEAVE_TWO_ENTRIES = 4,        /* a thread of one service and step has two authenticators, or two steps received it */
    TIMEWEAVE_TWO_AT_ONE_STEP = 5,    /* one step received two threads */
    TIMEWEAVE_STEPS_FALL = 6,         /* of two threads of one service that of the lower step was received later */
    TIMEWEAVE_EVENTS_TOO = 7,         /* a step that received a thread has events */
    TIMEWEAVE_CLOCK_BACK = 8,         /* an earlier step has a later time */
    TIMEWEAVE_TWO_AUTHENTICATORS = 9, /* one step has two authenticators */
    TIMEWEAVE_OTHER_THAN_LINE = 10,   /* the step of one's line has another authenticator, as the other shows it */
    TIMEWEAVE_TWO_LINES = 11,         /* both lines are of one step, and differ */
    TIMEWEAVE_OTHER_BEFORE = 12,      /* a step doesn't go on from the step before it, as the other shows that one */
    TIMEWEAVE_OTHER_BEFORE_LINE = 13, /* the step after that of the other's line doesn't go on from the line */
    TIMEWEAVE_OTHER_GENESIS = 14,     /* the first step doesn't go on from the service's step 0 */
    TIMEWEAVE_OTHER_EMPTY_ROOT = 15   /* a step without events has another root than that of none, or one with events has that root */
};

/* Tells whether two files that are accepted, each under the anchors handed in beside it, show that the service whose archive they are of
 * broke a rule of histories, or showed two histories. A file is a proof that a thread was received or that none was (kinds 3 and 4), a low
 * map file of a step from 2 on, or a high map file (kinds 6 and 7); one file may be handed in twice. (The program has no such command.) The
 * link is a proof of a step's authenticator (kind 5), or has no bytes: it joins the two lines of the service under which the files are
 * accepted, from the later one down to the earlier one. The buffer is as with timeweave_verify.
 *
 * Accepted: `accepted broken-rule` where both are accepted under one line, or the link joins their two lines: then no sound history has the
 * later line. Else `accepted broken-rule-or-fork`: no sound history has both lines. Both are so unless two different texts have one digest,
 * so the files, the lines and the link are evidence for whoever holds the lines to be the service's. It is the first of the rules above that
 * they break, looked at in their order, each in both orders of the files. Of the first rule there are then a line `thread`, as in the report on
 * a proof that it was received, and a line `absent`, as in the report on a proof that it wasn't, of the same service and step. Of the others
 * there is a line `rule` with its number and name, and then what both files say that breaks it: lines `thread`, as in a report; `step` with the
 * service, the step, its authenticator, its count of events and its time, or `-`; `line` with that of an anchors file; `before` with the step
 * before, and the authenticator that the step has of it; `root` with a step and the root of its events.
 *
 * Rejected: `10 Part 1` or `10 Part 2` and the number of the lowest reason against that file, 1 where it is none of these; `11 NoConflict`
 * exactly where both are accepted, and are of two services or break none of these rules; `12 BadLink` where the link has bytes and joins no
 * such lines. Unreadable: the first bad line of `first_anchors`, else of `second_anchors`, by these names. */
uint32_t timeweave_contradict(const uint8_t *first, size_t first_size, const uint8_t *first_anchors, size_t first_anchors_size,
                              const uint8_t *second, size_t second_size, const uint8_t *second_anchors, size_t second_anchors_size,
                              const uint8_t *link, size_t link_size, uint8_t *out, size_t room, size_t *text_size);

/* Tells whether the service that received both threads of the evidence of a fork broke a rule, by its two proofs as the two files of
 * timeweave_contradict, each under the anchors, and the link. The text is the one that is told of these files; but of bytes that are no
 * evidence it is `rejected 1 Malformed` and a place, and a bad line is one of `anchors`. Whether the evidence shows a fork isn't asked:
 * timeweave_checkfork tells that. Two authenticators of one step that one service received are always found. */
uint32_t timeweave_receiver(const uint8_t *evidence, size_t evidence_size, const uint8_t *anchors, size_t anchors_size, const uint8_t *link,
                            size_t link_size, uint8_t *out, size_t room, size_t *text_size);

/* The version of the library, as `1.0.0`: as much of it as has room is put at the front of `out`. Answers the size of the whole. */
size_t timeweave_version(uint8_t *out, size_t room);

#ifdef __cplusplus
}
#endif

#endif

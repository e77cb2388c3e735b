/* Checks one proof many times in one process, as a web service would check many, in one thread or in several, and tells how many a second.
 *
 *     make lib
 *     cc -O2 -Iinclude -o many_proofs examples/many_proofs.c lib/libtimeweave.a -pthread
 *     ./many_proofs PROOF ANCHORS [COUNT [THREADS]]
 *
 * Each thread checks it so many times. The proof and the anchors are everybody's, since nobody writes them; the buffer for the text is each thread's own.
 */
#include <pthread.h>
#include <stdio.h>
#include <stdlib.h>
#include <string.h>
#include <time.h>
#include "timeweave.h"

#define MOST_THREADS 64
#define ROOM (1 << 16)

static uint8_t proof[5242880], anchors[8192];
static size_t proof_size, anchors_size;
static unsigned long wanted = 100000;

/* What one thread has found: how many were accepted, and the last text. */
typedef struct {
    unsigned long accepted;
    uint8_t text[ROOM];
    size_t size;
} found;

/* The bytes of a file, at most so many. */
static size_t load(const char *name, uint8_t *bytes, size_t most) {
    FILE *file = fopen(name, "rb");
    if (!file) {
        perror(name);
        exit(3);
    }
    size_t size = fread(bytes, 1, most, file);
    fclose(file);
    return size;
}

static void *check(void *into) {
    found *own = into;
    for (unsigned long i = 0; i < wanted; i++)
        own->accepted += timeweave_verify(proof, proof_size, anchors, anchors_size, own->text, ROOM, &own->size) == TIMEWEAVE_ACCEPTED;
    return NULL;
}

static double seconds(clockid_t clock) {
    struct timespec now;
    clock_gettime(clock, &now);
    return (double)now.tv_sec + (double)now.tv_nsec / 1e9;
}

/* The number that a word says, from 1 to the most; 0 where it says none. */
static unsigned long number(const char *word, unsigned long most) {
    char *end;
    unsigned long said = strtoul(word, &end, 10);
    return *end || said > most ? 0 : said;
}

/* Runs the check in so many threads, the last of which is this one; answers whether all of them have found the same. */
static int checked(found *all, unsigned long threads) {
    pthread_t running[MOST_THREADS];
    for (unsigned long i = 0; i + 1 < threads; i++)
        if (pthread_create(&running[i], NULL, check, &all[i]))
            exit(3);
    check(&all[threads - 1]);
    for (unsigned long i = 0; i + 1 < threads; i++)
        pthread_join(running[i], NULL);
    for (unsigned long i = 0; i < threads; i++)
        if (all[i].accepted != wanted || all[i].size != all[0].size || memcmp(all[i].text, all[0].text, all[0].size < ROOM ? all[0].size : ROOM))
            return 0;
    return 1;
}

int main(int count, char **words) {
    unsigned long threads = 1, accepted = 0;
    if (count > 3)
        wanted = number(words[3], 1000000000);
    if (count > 4)
        threads = number(words[4], MOST_THREADS);
    if (count < 3 || count > 5 || !wanted || !threads) {
        fprintf(stderr, "many_proofs PROOF ANCHORS [COUNT [THREADS]]\n");
        return 2;
    }
    proof_size = load(words[1], proof, sizeof proof), anchors_size = load(words[2], anchors, sizeof anchors);
    found *all = calloc(threads, sizeof *all);
    if (!all)
        return 3;
    double begun = seconds(CLOCK_MONOTONIC), spent = seconds(CLOCK_PROCESS_CPUTIME_ID);
    int are_same = checked(all, threads);
    begun = seconds(CLOCK_MONOTONIC) - begun, spent = seconds(CLOCK_PROCESS_CPUTIME_ID) - spent;
    for (unsigned long i = 0; i < threads; i++)
        accepted += all[i].accepted;
    printf("%lu of %lu accepted, %.0f a second of processor time", accepted, wanted * threads, (double)(wanted * threads) / spent);
    if (threads > 1)
        printf(", %.0f a second by the clock in %lu threads", (double)(wanted * threads) / begun, threads);
    putchar('\n');
    fwrite(all[0].text, 1, all[0].size < ROOM ? all[0].size : ROOM, stdout);
    free(all);
    return are_same ? 0 : 1;
}

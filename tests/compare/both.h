/* The same call of the library and of the plain reading, for each of the calls that a pair is given to. */
#ifndef BOTH_H
#define BOTH_H

#include "gen.h"

#include <tyttmose.h>

/* The pair that is tried, and its seed. */
extern struct gen_pair pair;
extern uint64_t seed;

extern struct seen {
    long calls, differences, messages, rollbacks, answers[18];
    int longest; /* session, by the calls that moved it */
} seen;

/* The slices of a pair of values. */
struct values {
    const uint8_t *client;
    size_t client_length;
    const uint8_t *server;
    size_t server_length;
};

enum { SPARE = 8 }; /* readable bytes behind each value, for both_lengths */

void both_start(void);

/* `compare SEED 1` makes the same calls again. */
void show_pair(void);

/* Reading, into a value that both share afterwards. */
void both_read(uint64_t *random, const struct gen_text *text, uint8_t value[TYTTMOSE_VALUE_SIZE]);
void both_write(uint64_t *random, const uint8_t *value, size_t length);
uint64_t both_judge(uint64_t *random, struct values values);

/* Session calls from the opening on; the verdict is that of both_judge. */
void both_walk(uint64_t *random, struct values values, uint64_t verdict);
void both_lengths(uint64_t *random, struct values values);
void both_spoil(uint64_t *random, struct values values);
void both_text(uint64_t *random);

#endif

/* Pairs of byte texts by seed, for comparing implementations of document 01 with each other: sound
 * pairs of many kinds, and damaged files. The same seed gives the same pair on every machine. */
#ifndef GEN_H
#define GEN_H

#include <stddef.h>
#include <stdint.h>

enum {
    GEN_BYTES = 20000, /* the longest text; over 4,096 is refused with 1 */
    GEN_KINDS = 12     /* kinds of sound pairs */
};

struct gen_text {
    size_t length;
    uint8_t byte[GEN_BYTES];
};

struct gen_pair {
    struct gen_text client;
    struct gen_text server;
    int kind;            /* which kind of pair, below GEN_KINDS */
    int client_damages;  /* how many damages were done to each text */
    int server_damages;
};

/* The random numbers: a state that any seed starts. */
uint64_t gen_next(uint64_t *random);
int gen_below(uint64_t *random, int limit);

const char *gen_kind_name(int kind);

/* Half of the seeds give a sound pair, the other half one with damages. */
void gen_pair(uint64_t seed, struct gen_pair *pair);

/* A sound pair of one kind. */
void gen_sound_pair(uint64_t *random, int kind, struct gen_pair *pair);

/* One damage to a text. */
void gen_damage(uint64_t *random, struct gen_text *text);

/* The bytes of a message call: most often a name of the pair, else one that is near it or no name. */
size_t gen_name(uint64_t *random, const struct gen_pair *pair, uint8_t name[16]);

#endif

/* The behaviour value that the timed searches work on, and how they are called: as the library's verdict is, with
 * the same answers for every input. */
#ifndef BEHAVIOUR_H
#define BEHAVIOUR_H

#include <stddef.h>
#include <stdint.h>

enum { STATES = 10, LINES = 96, NAME = 8, STANDS = 12100, ROLLBACK = 255 };

/* A name is its bytes from the highest byte down, zeros after them, so that numbers compare as names do. */
typedef struct {
    uint64_t name;
    uint8_t from;
    uint8_t to;
} message;

/* Messages sorted by state and then by name. sign: 0 finished, 1 takes, 2 sends. */
typedef struct {
    uint8_t states;
    uint8_t count;
    uint8_t marked[STATES];
    uint8_t sign[STATES];
    message messages[LINES];
} behaviour;

/* The rank of each client and server message's name among the different names of both. */
void ranks(const behaviour *client, const behaviour *server, uint8_t *client_rank, uint8_t *server_rank);

/* Answers as include/tyttmose.h has them. */
static inline uint64_t refused(uint64_t number) { return number << 32; }
static inline uint64_t compliant(uint64_t stands) { return stands; }
static inline uint64_t stuck(uint64_t cause, uint64_t length) { return cause << 16 | length; }

typedef uint64_t verdict(const uint8_t *client, size_t client_length, const uint8_t *server, size_t server_length,
                         uint8_t *run, size_t run_length);

/* What a search makes of two values that are known to be sound. */
typedef uint64_t judgement(const behaviour *client, const behaviour *server, uint8_t *run, size_t run_length);

/* That of the two values taken from their bytes, or 13 if no accepted file gives one of them. */
uint64_t taken(judgement *judge, const uint8_t *client, size_t client_length, const uint8_t *server,
               size_t server_length, uint8_t *run, size_t run_length);

verdict plain_search; /* tests the messages at each stand */
verdict table_search; /* the library's algorithm: works them out once for each pair of states */

#endif

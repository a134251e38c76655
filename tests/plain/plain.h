/* A plain C reading of document 01, written apart from the proved code and from
 * nothing but document 01, its readings and source 001. It is slow and simple on
 * purpose: it is what the proved library is compared with. */
#ifndef PLAIN_H
#define PLAIN_H

#include <stdbool.h>
#include <stddef.h>
#include <stdint.h>

enum {
    PLAIN_STATES = 10,    /* "S is 1 to 10" */
    PLAIN_LINES = 96,     /* "T is 0 to 96" */
    PLAIN_BYTES = 4096,   /* "the file at most 4,096 bytes" */
    PLAIN_NAME = 8,       /* "A name is 1 to 8 bytes" */
    PLAIN_STANDS = 12100, /* "at most 110 x 110 = 12,100 stands" */
    PLAIN_ROLLBACK = 255, /* "or 255 for a rollback" */
    PLAIN_NONE = -1       /* a return point that is none */
};

/* One message line. The name is ended by zeros, so that byte order on all nine
 * bytes puts "a shorter name before a longer one that begins with it". */
struct plain_message {
    int from;
    int to;
    char name[PLAIN_NAME + 1];
};

/* "A behaviour value holds marks and messages sorted by state and then by name".
 * sign is '?' (takes), '!' (sends) or 0 (finished). Unused places are zero. */
struct plain_behaviour {
    int states;
    int count;
    char marked[PLAIN_STATES];
    char sign[PLAIN_STATES];
    struct plain_message message[PLAIN_LINES];
};

/* Number and place as in the table of refusals; number 0 means not refused. */
struct plain_refusal {
    int number;
    int place;
};

/* "client state, client return point, server state, server return point" */
struct plain_stand {
    int client;
    int client_return;
    int server;
    int server_return;
};

/* compliant: stands is the number of reachable stands. Otherwise cause and length. */
struct plain_verdict {
    bool compliant;
    int stands;
    int cause;
    int length;
};

/* The reader: any bytes to a refusal, or to a behaviour. A refused read leaves
 * a behaviour of zero states, all places zero. */
struct plain_refusal plain_read(const uint8_t *text, size_t length, struct plain_behaviour *behaviour);

/* The writer: 13, then 12 if the text is longer than the lent buffer. */
struct plain_refusal plain_write(const struct plain_behaviour *behaviour, uint8_t *buffer, size_t capacity,
                                 size_t *length);

/* Is this a value that some accepted file gives? Refusal 13 is given if not. */
bool plain_sound(const struct plain_behaviour *behaviour);
bool plain_same(const struct plain_behaviour *one, const struct plain_behaviour *other);

/* The different names of both behaviours in byte order; the rank is the place. */
int plain_names(const struct plain_behaviour *client, const struct plain_behaviour *server,
                char names[2 * PLAIN_LINES][PLAIN_NAME + 1]);

/* The rules of one stand, for sound values. */
struct plain_stand plain_start(void);
bool plain_message_possible(const struct plain_behaviour *client, const struct plain_behaviour *server,
                            struct plain_stand stand);
bool plain_message_step(const struct plain_behaviour *client, const struct plain_behaviour *server,
                        struct plain_stand stand, const char *name, struct plain_stand *next);
bool plain_rollback_step(struct plain_stand stand, struct plain_stand *next);
int plain_bad(const struct plain_behaviour *client, const struct plain_behaviour *server, struct plain_stand stand);

/* The verdict: 13, then 12 if the run is longer than the lent buffer. */
struct plain_refusal plain_verdict(const struct plain_behaviour *client, const struct plain_behaviour *server,
                                   uint8_t *run, size_t capacity, struct plain_verdict *verdict);

/* The session calls: opening (13, 14), message (13, 15, 16), rollback (13, 15, 17). A
 * refused call leaves *next as it was. */
struct plain_refusal plain_open(const struct plain_behaviour *client, const struct plain_behaviour *server,
                                struct plain_stand *next);
struct plain_refusal plain_message(const struct plain_behaviour *client, const struct plain_behaviour *server,
                                   struct plain_stand stand, const uint8_t *name, size_t name_length,
                                   struct plain_stand *next);
struct plain_refusal plain_rollback(const struct plain_behaviour *client, const struct plain_behaviour *server,
                                    struct plain_stand stand, struct plain_stand *next);

/* The verdict program's whole output for two texts. The answer is freed by the caller. */
char *plain_judge(const uint8_t *client, size_t client_length, const uint8_t *server, size_t server_length);

#endif

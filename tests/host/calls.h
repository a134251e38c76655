/* A call of the library: made in two places, and held to what it must answer and leave. */
#ifndef CALLS_H
#define CALLS_H

#include <tyttmose.h>

#include <stddef.h>
#include <stdint.h>

enum { READ, WRITE, VERDICT, OPEN, MESSAGE, ROLLBACK, TEXT, CALLS };

enum { LARGEST = 1 << 20 }; /* the longest slice that calls_make places */

/* Up to three slices that are read, one that is lent, and a session. */
struct call {
    int function;
    const uint8_t *in[3];
    size_t length[3];
    uint8_t *lent;
    size_t room;
    uint32_t session;
    uint64_t answer;
};

extern struct call call;
extern const char *current; /* what is being tried */

void calls_start(void);

/* Was all as said until now? At the end, also how deep the stack was; what was done is printed. */
int calls_hold(void);
int calls_end(void);

void expect(int holds, const char *what);
void expect_answer(uint64_t answer, uint64_t wanted);

void set(int function, const void *one, size_t one_length, const void *other, size_t other_length, size_t room);
void set_message(uint32_t session, const void *name, size_t length);

/* The call as it stands, its slices where they are: through the header, or by the convention spelled out. */
void perform(int by_hand);

/* The first bytes of what is lent that the call names by its answer: those that it may write. */
size_t named(uint64_t answer);

/* Makes the call in both places and answers what it answered. */
uint64_t make(void);

/* After `make`: the bytes lent are these, and behind them what stood there. */
void expect_left(const void *wanted, size_t length);

/* Makes a call that is refused, one whose value and bytes are known, and one that is held to the plain reading. */
uint64_t refused(uint64_t number, uint64_t place);
void refuses(const char *what, uint64_t number, uint64_t place);
void grants(const char *what, uint64_t value, const void *wanted, size_t length);
uint64_t as_plain(const char *what);

/* What the plain reading wrote in the last call held to it. */
const uint8_t *plain_left(void);

/* A value for other calls, as the plain reading reads it. */
struct value {
    uint8_t byte[TYTTMOSE_VALUE_SIZE];
};
struct value value_of(const char *text);

#define CLIENT_G "des (0,2,2)\n(0,\"ckp\",0)\n(0,\"?a\",1)\n"
#define SERVER_G "des (0,2,2)\n(0,\"ckp\",0)\n(0,\"!a\",1)\n"
#define SERVER_H "des (0,1,2)\n(0,\"!a\",1)\n"

#endif

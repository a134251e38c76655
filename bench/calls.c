/* calls: times a read, a verdict and the session calls of the library against the plain reading of tests/plain, called
 * with the same bytes and numbers, in turns in one process. One line a call: nanoseconds of the fastest batch, their
 * ratio, and the stack that the library's call used. Ends with 1 if the two answer differently. */
#define _POSIX_C_SOURCE 200809L
#include "../tests/compare/plain_host.h"
#include "../tests/host/room.h"
#include "pairs.h"

#include <tyttmose.h>

#include <stdio.h>
#include <stdlib.h>
#include <string.h>
#include <time.h>

enum function { READ, VERDICT, OPEN, MESSAGE, ROLLBACK, NOTHING };

static const char *const names[] = {"read", "verdict", "open", "message", "rollback"};

/* What is called with: up to three slices that are read, and a session. */
struct call {
    enum function function;
    const uint8_t *in[3];
    size_t length[3];
    uint32_t session;
};

static uint8_t lent[TYTTMOSE_RUN_SIZE];

static uint64_t library(const struct call *call)
{
    const uint8_t *const *in = call->in;
    const size_t *n = call->length;
    switch (call->function) {
    case READ:
        return tyttmose_read(in[0], n[0], lent, sizeof lent);
    case VERDICT:
        return tyttmose_verdict(in[0], n[0], in[1], n[1], lent, sizeof lent);
    case OPEN:
        return tyttmose_open(in[0], n[0], in[1], n[1]);
    case MESSAGE:
        return tyttmose_message(in[0], n[0], in[1], n[1], call->session, in[2], n[2]);
    case ROLLBACK:
        return tyttmose_rollback(in[0], n[0], in[1], n[1], call->session);
    default:
        return 0;
    }
}

static uint64_t plain(const struct call *call)
{
    const uint8_t *const *in = call->in;
    const size_t *n = call->length;
    switch (call->function) {
    case READ:
        return plain_host_read(in[0], n[0], lent, sizeof lent);
    case VERDICT:
        return plain_host_verdict(in[0], n[0], in[1], n[1], lent, sizeof lent);
    case OPEN:
        return plain_host_open(in[0], n[0], in[1], n[1]);
    case MESSAGE:
        return plain_host_message(in[0], n[0], in[1], n[1], call->session, in[2], n[2]);
    case ROLLBACK:
        return plain_host_rollback(in[0], n[0], in[1], n[1], call->session);
    default:
        return 0;
    }
}

/* Processor time of this process: other work on the machine does not count. */
static double now(void)
{
    struct timespec time;
    clock_gettime(CLOCK_PROCESS_CPUTIME_ID, &time);
    return (double)time.tv_sec * 1e9 + (double)time.tv_nsec;
}

static double batch(uint64_t (*side)(const struct call *), const struct call *call, long times)
{
    static volatile uint64_t kept;
    double start = now();
    for (long i = 0; i < times; i++)
        kept = side(call);
    (void)kept;
    return (now() - start) / (double)times;
}

/* The stack of one call of the library, without what the call of nothing uses. */
static const struct call *on_stack;

static void perform(void)
{
    static volatile uint64_t kept;
    kept = library(on_stack);
    (void)kept;
}

static size_t stack_of(const struct call *call)
{
    static const struct call nothing = {.function = NOTHING};
    on_stack = &nothing;
    size_t harness = room_stack_of(perform);
    on_stack = call;
    return room_stack_of(perform) - harness;
}

static int differences;

/* Batches of about 5 ms each, the two in turns, so that a slow moment of the machine meets both. */
static void measure(const char *on, const struct call *call)
{
    enum { BATCHES = 21 };
    uint64_t (*const sides[2])(const struct call *) = {library, plain};
    static uint8_t ours[sizeof lent];
    double best[2];
    long times[2];
    memset(lent, 0xAA, sizeof lent);
    uint64_t answer = library(call);
    memcpy(ours, lent, sizeof lent);
    memset(lent, 0xAA, sizeof lent);
    if (plain(call) != answer || memcmp(ours, lent, sizeof lent) != 0) {
        printf("%s, %s: the library and the plain reading differ\n", names[call->function], on);
        differences++;
        return;
    }
    for (int k = 0; k < 2; k++) {
        best[k] = batch(sides[k], call, 3);
        times[k] = 1 + (long)(5e6 / best[k]);
    }
    for (int round = 0; round < BATCHES; round++)
        for (int k = 0; k < 2; k++) {
            double spent = batch(sides[k], call, times[k]);
            if (spent < best[k])
                best[k] = spent;
        }
    printf("%-9s %-22s %9.0f %11.0f %8.4f %7zu", names[call->function], on, best[0], best[1], best[0] / best[1],
           stack_of(call));
    if (tyttmose_refusal(answer) != 0)
        printf("  refused %u", tyttmose_refusal(answer));
    printf("\n");
}

static void measure_read(const char *on, const char *text, size_t length)
{
    char what[32];
    snprintf(what, sizeof what, "%s, %zu bytes", on, length);
    measure(what, &(struct call){READ, {(const uint8_t *)text}, {length}, 0});
}

/* A file of 4,096 bytes that is taken: the first line with spaces between its tokens. */
static void spaces(char *text)
{
    memset(text, ' ', TYTTMOSE_FILE_SIZE);
    memcpy(text, "des (0,0,1", 10);
    memcpy(text + TYTTMOSE_FILE_SIZE - 2, ")\n", 2);
}

int main(void)
{
    static char client_text[PAIRS][PAIR_BYTES], server_text[PAIRS][PAIR_BYTES], spaced[TYTTMOSE_FILE_SIZE];
    static uint8_t client[PAIRS][TYTTMOSE_VALUE_SIZE], server[PAIRS][TYTTMOSE_VALUE_SIZE];
    enum { SIZE = TYTTMOSE_VALUE_SIZE };
    const char *on[PAIRS];
    for (int k = 0; k < PAIRS; k++) {
        on[k] = pair(k, client_text[k], server_text[k]);
        if (tyttmose_read((uint8_t *)client_text[k], strlen(client_text[k]), client[k], SIZE) != SIZE ||
            tyttmose_read((uint8_t *)server_text[k], strlen(server_text[k]), server[k], SIZE) != SIZE) {
            printf("%s is refused\n", on[k]);
            return 1;
        }
    }
    printf("%-9s %-22s %9s %11s %8s %7s\n", "call", "on", "library", "plain", "ratio", "stack");
    for (int k = 0; k < PAIRS; k++)
        measure_read(on[k], client_text[k], strlen(client_text[k]));
    spaces(spaced);
    measure_read("spaces", spaced, sizeof spaced);
    for (int function = VERDICT; function <= OPEN; function++)
        for (int k = 0; k < PAIRS; k++)
            measure(on[k], &(struct call){function, {client[k], server[k]}, {SIZE, SIZE}, 0});
    /* a first message that moves both sides, and the rollback after it */
    static const struct {
        int pair;
        const char *name;
    } said[] = {{1, "a"}, {2, "name0000"}};
    for (size_t k = 0; k < sizeof said / sizeof said[0]; k++) {
        const uint8_t *one = client[said[k].pair], *other = server[said[k].pair];
        uint32_t start = tyttmose_session(tyttmose_open(one, SIZE, other, SIZE));
        struct call message = {MESSAGE, {one, other, (const uint8_t *)said[k].name}, {SIZE, SIZE, strlen(said[k].name)}, start};
        struct call rollback = {ROLLBACK, {one, other}, {SIZE, SIZE}, tyttmose_session(library(&message))};
        measure(on[said[k].pair], &message);
        measure(on[said[k].pair], &rollback);
    }
    return differences > 0;
}

/* bench [SEEDS]: checks that the library's verdict and the C searches answer alike, on generated pairs and on the timed
 * ones, then times them in turns in one process. One line a pair: nanoseconds of the fastest batch, and the library's
 * time as a ratio to each search's. Exits with 1 where an answer differs or a ratio is over what is asked.
 * bench texts FOLDER writes the timed pairs as files. */
#define _POSIX_C_SOURCE 200809L
#include "../include/tyttmose.h"
#include "../tests/compare/gen.h"
#include "../tests/compare/plain_host.h"
#include "behaviour.h"
#include "pairs.h"

#include <stdio.h>
#include <stdlib.h>
#include <string.h>
#include <time.h>

static const struct {
    const char *name;
    verdict *search;
    double asked; /* the library's time is at most so many times this one's, but for case l, which is all set-up */
} searches[] = {
    {"library", tyttmose_verdict, 0},
    {"plain", plain_search, 1.0},
    {"table", table_search, 1.25},
};
enum { SEARCHES = sizeof searches / sizeof searches[0], BATCHES = 41, CASE_L = 3 };

typedef struct {
    uint8_t client[TYTTMOSE_VALUE_SIZE], server[TYTTMOSE_VALUE_SIZE];
} values;

static int read_pair(const uint8_t *client, size_t client_length, const uint8_t *server, size_t server_length,
                     values *pair)
{
    return tyttmose_refusal(tyttmose_read(client, client_length, pair->client, sizeof pair->client)) == 0 &&
           tyttmose_refusal(tyttmose_read(server, server_length, pair->server, sizeof pair->server)) == 0;
}

/* All searches on one pair against the plain reading of tests/plain: answer, run, and bytes after it. */
static int agree(const values *pair, size_t room)
{
    static uint8_t run[STANDS], other[STANDS];
    memset(run, 0xAA, sizeof run);
    uint64_t wanted = plain_host_verdict(pair->client, sizeof pair->client, pair->server, sizeof pair->server, run, room);
    for (int k = 0; k < SEARCHES; k++) {
        memset(other, 0xAA, sizeof other);
        if (searches[k].search(pair->client, sizeof pair->client, pair->server, sizeof pair->server, other, room) != wanted ||
            memcmp(run, other, sizeof run) != 0) {
            printf("%s differs from the plain reading\n", searches[k].name);
            return 0;
        }
    }
    return 1;
}

/* Also with too little room, and with a byte of a value changed. */
static int agree_on_generated(uint64_t seeds)
{
    static struct gen_pair texts;
    long compared = 0;
    for (uint64_t seed = 1; seed <= seeds; seed++) {
        values pair;
        gen_pair(seed, &texts);
        if (!read_pair(texts.client.byte, texts.client.length, texts.server.byte, texts.server.length, &pair))
            continue;
        uint64_t random = seed;
        int same = agree(&pair, STANDS) && agree(&pair, (size_t)gen_below(&random, 4));
        pair.server[gen_below(&random, TYTTMOSE_VALUE_SIZE)] ^= (uint8_t)(1 + gen_below(&random, 3));
        if (!same || !agree(&pair, STANDS)) {
            printf("seed %llu\n", (unsigned long long)seed);
            return 0;
        }
        compared++;
    }
    printf("all answer alike on %ld generated pairs\n", compared);
    return 1;
}

/* Processor time of this process: other work on the machine does not count. */
static double now(void)
{
    struct timespec time;
    clock_gettime(CLOCK_PROCESS_CPUTIME_ID, &time);
    return (double)time.tv_sec * 1e9 + (double)time.tv_nsec;
}

static double batch(verdict *search, const values *pair, long times)
{
    static uint8_t run[STANDS];
    static volatile uint64_t kept;
    double start = now();
    for (long i = 0; i < times; i++)
        kept = search(pair->client, sizeof pair->client, pair->server, sizeof pair->server, run, sizeof run);
    (void)kept;
    return (now() - start) / (double)times;
}

/* Batches of about 10 ms each, the searches in turns, so that a slow moment of the machine meets all of them. Answers
 * how many ratios are over what is asked. Case l is all set-up; of the largest nothing is asked. */
static int measure(const char *name, const values *pair)
{
    int set_up = strcmp(name, "case l") == 0, free = strcmp(name, "largest") == 0;
    double best[SEARCHES];
    long times[SEARCHES];
    int over = 0;
    for (int k = 0; k < SEARCHES; k++) {
        best[k] = batch(searches[k].search, pair, 20);
        times[k] = 1 + (long)(1e7 / best[k]);
    }
    for (int round = 0; round < BATCHES; round++)
        for (int k = 0; k < SEARCHES; k++) {
            double spent = batch(searches[k].search, pair, times[k]);
            if (spent < best[k])
                best[k] = spent;
        }
    printf("%-9s", name);
    for (int k = 0; k < SEARCHES; k++)
        printf("  %8.0f", best[k]);
    for (int k = 1; k < SEARCHES; k++) {
        double ratio = best[0] / best[k], asked = set_up ? CASE_L : searches[k].asked;
        if (free) {
            printf("  %6.2f        ", ratio);
            continue;
        }
        printf("  %6.2f of %.2f", ratio, asked);
        over += ratio > asked;
    }
    printf("\n");
    return over;
}

static void write_text(const char *folder, int k, const char *side, const char *text)
{
    char path[1024];
    snprintf(path, sizeof path, "%s/%d.%s", folder, k, side);
    FILE *file = fopen(path, "wb");
    if (file != NULL) {
        fputs(text, file);
        fclose(file);
    }
}

int main(int count, char **arguments)
{
    static char client_text[PAIR_BYTES], server_text[PAIR_BYTES];
    int over = 0;
    if (count == 3 && strcmp(arguments[1], "texts") == 0) {
        for (int k = 0; k < PAIRS; k++) {
            printf("%d %s\n", k, pair(k, client_text, server_text));
            write_text(arguments[2], k, "client", client_text);
            write_text(arguments[2], k, "server", server_text);
        }
        return 0;
    }
    if (!agree_on_generated(count == 2 ? strtoull(arguments[1], NULL, 10) : 3000))
        return 1;
    printf("%-9s", "pair");
    for (int k = 0; k < SEARCHES; k++)
        printf("  %5s ns", searches[k].name);
    for (int k = 1; k < SEARCHES; k++)
        printf("  library/%-6s", searches[k].name);
    printf("\n");
    for (int k = 0; k < PAIRS; k++) {
        values values;
        const char *name = pair(k, client_text, server_text);
        if (!read_pair((uint8_t *)client_text, strlen(client_text), (uint8_t *)server_text, strlen(server_text), &values)) {
            printf("%s is refused\n", name);
            return 1;
        }
        if (!agree(&values, STANDS))
            return 1;
        over += measure(name, &values);
    }
    printf("%d ratios over what is asked\n", over);
    return over != 0;
}

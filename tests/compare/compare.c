/* compare FIRST COUNT: makes the same calls of the library and of the plain reading on COUNT generated pairs, from seed
 * FIRST on, and compares every answer and every byte lent. Prints a pair on which they differ, or on which one of them
 * does not come back, and ends with 1; so it does if of many pairs a kind or a refusal number is never met. */
#define _DEFAULT_SOURCE
#include "both.h"

#include <malloc.h>
#include <signal.h>
#include <stdio.h>
#include <stdlib.h>
#include <string.h>
#include <unistd.h>

static long kinds[GEN_KINDS];

/* A call that does not come back: it broke, or the time is up. */
static void stop(int signal)
{
    printf("%s\n", signal == SIGALRM ? "the time is up" : "a call broke");
    show_pair();
    fflush(stdout);
    _exit(1);
}

/* The pair of a seed. A hub takes the plain reading as long as a thousand others, so most seeds of one are passed over. */
static void choose(uint64_t *random)
{
    enum { HUB = 7 };
    gen_pair(seed, &pair);
    for (uint64_t next = seed; pair.kind == HUB && gen_below(random, 32) > 0;)
        gen_pair(next += (uint64_t)1 << 40, &pair);
    kinds[pair.kind]++;
}

/* Of many pairs, all kinds of them and all refusal numbers are met. */
static int met_all(void)
{
    int all = seen.messages > 0 && seen.rollbacks > 0;
    for (int kind = 0; kind < GEN_KINDS; kind++)
        all = all && kinds[kind] > 0;
    for (int number = 0; number < 18; number++)
        all = all && seen.answers[number] > 0;
    return all;
}

/* What a call may only read stays as it was. */
static struct gen_pair kept_pair;
static uint8_t kept_values[2][TYTTMOSE_VALUE_SIZE];

static void keep_text(const struct gen_text *text, struct gen_text *kept)
{
    kept->length = text->length;
    memcpy(kept->byte, text->byte, text->length);
}

static int same_text(const struct gen_text *text, const struct gen_text *kept)
{
    return kept->length == text->length && memcmp(kept->byte, text->byte, text->length) == 0;
}

static void all_calls(uint64_t *random)
{
    static uint8_t client[TYTTMOSE_VALUE_SIZE + SPARE], server[TYTTMOSE_VALUE_SIZE + SPARE];
    struct values values = {client, TYTTMOSE_VALUE_SIZE, server, TYTTMOSE_VALUE_SIZE};
    keep_text(&pair.client, &kept_pair.client);
    keep_text(&pair.server, &kept_pair.server);
    both_read(random, &pair.client, client);
    both_read(random, &pair.server, server);
    memcpy(kept_values[0], client, TYTTMOSE_VALUE_SIZE);
    memcpy(kept_values[1], server, TYTTMOSE_VALUE_SIZE);
    uint64_t verdict = both_judge(random, values);
    both_walk(random, values, verdict);
    both_text(random);
    if (gen_below(random, 2) == 0)
        both_write(random, client, TYTTMOSE_VALUE_SIZE);
    if (gen_below(random, 16) == 0)
        both_lengths(random, values);
    both_spoil(random, values);
    if (!same_text(&pair.client, &kept_pair.client) || !same_text(&pair.server, &kept_pair.server) ||
        memcmp(client, kept_values[0], TYTTMOSE_VALUE_SIZE) != 0 || memcmp(server, kept_values[1], TYTTMOSE_VALUE_SIZE) != 0) {
        if (seen.differences++ == 0)
            printf("a slice that may only be read was changed\n");
        show_pair();
    }
}

int main(int count, char **arguments)
{
    static const int breaks[] = {SIGSEGV, SIGBUS, SIGILL, SIGFPE, SIGABRT, SIGALRM};
    enum { MANY = 10000 };
    uint64_t first = count == 3 ? strtoull(arguments[1], NULL, 10) : 0, pairs = count == 3 ? strtoull(arguments[2], NULL, 10) : 0;
    if (pairs == 0) {
        printf("usage: compare FIRST COUNT, at least one pair\n");
        return 2;
    }
    for (size_t k = 0; k < sizeof breaks / sizeof breaks[0]; k++)
        signal(breaks[k], stop);
    alarm((unsigned)(60 + pairs * 3 / 100)); /* a pair takes about half a millisecond, and ten times that under an emulator */
    mallopt(M_TRIM_THRESHOLD, 1 << 26); /* the plain search asks for the same memory again and again */
    mallopt(M_MMAP_THRESHOLD, 1 << 26);
    both_start();
    for (seed = first; seed < first + pairs && seen.differences == 0; seed++) {
        uint64_t random = seed * 0x9E3779B97F4A7C15u + 1;
        choose(&random);
        all_calls(&random);
    }
    printf("%llu pairs, %ld calls, %ld differences; sessions moved by %ld messages and %ld rollbacks, one %d times\n",
           (unsigned long long)(seed - first), seen.calls, seen.differences, seen.messages, seen.rollbacks, seen.longest);
    for (int kind = 0; kind < GEN_KINDS; kind++)
        printf("%s%s %ld", kind > 0 ? ", " : "", gen_kind_name(kind), kinds[kind]);
    printf("\nanswers by number:");
    for (int number = 0; number < 18; number++)
        printf(" %d:%ld", number, seen.answers[number]);
    printf("\n");
    if (pairs >= MANY && seen.differences == 0 && !met_all()) {
        printf("not all kinds of pairs and refusal numbers were met\n");
        return 1;
    }
    return seen.differences > 0;
}

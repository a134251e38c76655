/* selfcheck FIRST COUNT: runs the plain reading over generated pairs, checks it against a second opinion, and
 * prints what the generator reached. Ends with 1 if a check fails or something is never reached. */
#include "../plain/plain.h"
#include "gen.h"
#include "second.h"

#include <stdio.h>
#include <stdlib.h>
#include <string.h>

enum { BUCKETS = 10 };
static const int bucket_end[BUCKETS] = {0, 1, 2, 5, 10, 50, 100, 200, 255, PLAIN_STANDS};

static struct {
    long texts, taken, refused[12], places[12][PLAIN_LINES + 4];
    long pairs[GEN_KINDS], compliant[GEN_KINDS], stuck[GEN_KINDS][3];
    long length[BUCKETS], rollbacks[4], fixpoints, short_runs, short_bad, over_7000, rank_over_127;
    int most_stands, longest;
    long spoilt[2], calls[18], granted_messages, granted_rollbacks;
} seen;

static uint64_t current;
static long failures;

static void expect(bool holds, const char *what)
{
    if (!holds) {
        failures++;
        printf("seed %llu: %s\n", (unsigned long long)current, what);
    }
}

/* Reading, and what must hold of writing for a value that is taken. */
static bool read_text(const struct gen_text *text, struct plain_behaviour *behaviour)
{
    static uint8_t written[PLAIN_BYTES], again[PLAIN_BYTES];
    struct plain_behaviour back;
    size_t length = 0, again_length = 0;
    struct plain_refusal refused = plain_read(text->byte, text->length, behaviour);
    seen.texts++;
    if (refused.number != 0) {
        seen.refused[refused.number]++;
        seen.places[refused.number][refused.place]++;
        expect(behaviour->states == 0 && !plain_sound(behaviour), "a refused read gives no value");
        return false;
    }
    seen.taken++;
    expect(plain_sound(behaviour), "a value read is sound");
    memset(written, 0xAA, sizeof written);
    expect(plain_write(behaviour, written, sizeof written, &length).number == 0, "a sound value is written");
    expect(length < 1800, "the longest text is under 1,800 bytes");
    expect(plain_read(written, length, &back).number == 0 && plain_same(behaviour, &back), "read after write");
    expect(plain_write(&back, again, length, &again_length).number == 0 && again_length == length &&
               memcmp(written, again, length) == 0,
           "written twice alike, in a buffer that just fits");
    memset(again, 0x55, sizeof again);
    expect(plain_write(&back, again, length - 1, &again_length).number == 12 && again[0] == 0x55 &&
               again[length - 2] == 0x55,
           "12 and nothing written if the buffer is one short");
    return true;
}

/* The run leads through stands that are not bad to one that is. */
static void replay(const struct plain_behaviour *client, const struct plain_behaviour *server, const uint8_t *run,
                   struct plain_verdict verdict)
{
    char names[2 * PLAIN_LINES][PLAIN_NAME + 1];
    struct plain_stand stand = plain_start(), next;
    int ranks = plain_names(client, server, names), rollbacks = 0;
    for (int k = 0; k < verdict.length; k++) {
        expect(plain_bad(client, server, stand) == 0, "no bad stand on the way");
        bool moved = run[k] == PLAIN_ROLLBACK
                         ? plain_rollback_step(stand, &next)
                         : run[k] < ranks && plain_message_step(client, server, stand, names[run[k]], &next);
        expect(moved, "every step of the run is one");
        if (!moved)
            return;
        rollbacks += run[k] == PLAIN_ROLLBACK;
        seen.rank_over_127 += run[k] > 127 && run[k] != PLAIN_ROLLBACK;
        stand = next;
    }
    expect(plain_bad(client, server, stand) == verdict.cause, "the run ends at a bad stand of that cause");
    seen.rollbacks[rollbacks < 3 ? rollbacks : 3]++;
}

static void judge(const struct plain_behaviour *client, const struct plain_behaviour *server, int kind, bool every)
{
    static uint8_t run[PLAIN_STANDS], other[PLAIN_STANDS];
    struct plain_verdict verdict, refused_verdict = {false, -1, -1, -1};
    int reachable, cause = 0;
    memset(run, 0xAA, sizeof run);
    expect(plain_verdict(client, server, run, sizeof run, &verdict).number == 0, "a verdict on sound values");
    seen.pairs[kind]++;
    for (int i = verdict.length; i < PLAIN_STANDS; i++)
        if (run[i] != 0xAA) {
            expect(false, "bytes after the run stay");
            break;
        }
    if (verdict.compliant) {
        seen.compliant[kind]++;
        seen.over_7000 += verdict.stands > 7000;
        if (verdict.stands > seen.most_stands)
            seen.most_stands = verdict.stands;
    } else {
        seen.stuck[kind][verdict.cause]++;
        for (int i = 0; i < BUCKETS; i++)
            if (verdict.length <= bucket_end[i]) {
                seen.length[i]++;
                break;
            }
        if (verdict.length > seen.longest)
            seen.longest = verdict.length;
        replay(client, server, run, verdict);
        if (verdict.length > 0) {
            memset(other, 0x55, sizeof other);
            expect(plain_verdict(client, server, other, (size_t)verdict.length - 1, &refused_verdict).number == 12 &&
                       other[0] == 0x55 && refused_verdict.stands == -1,
                   "12 and nothing written if the run is one too long");
        }
    }
    if (kind == 2)
        expect(verdict.compliant, "Proposition 3.2 (1): compliant with its dual");

    /* The fixpoint takes long on pairs with many names, so it is left out on most of those. */
    if (every || kind < 6 || kind > 9) {
        seen.fixpoints++;
        expect(second_compliant(client, server, &reachable) == verdict.compliant, "the greatest relation says the same");
        if (verdict.compliant)
            expect(reachable == verdict.stands, "the number of reachable stands");
    }
    int length = second_shortest(client, server, 6, other, &cause);
    if (length != -2) {
        seen.short_runs++;
        if (length == -1)
            expect(verdict.compliant || verdict.length > 6, "no short bad run");
        else
            expect(!verdict.compliant && verdict.length == length && verdict.cause == cause &&
                       memcmp(run, other, (size_t)length) == 0,
                   "the first of the shortest bad runs");
        seen.short_bad += length > 0;
    }
}

/* A walk of session calls, on stands handed back and now and then on any four numbers. */
static void walk(uint64_t *random, const struct gen_pair *pair, const struct plain_behaviour *client,
                 const struct plain_behaviour *server)
{
    struct plain_stand stand = plain_start();
    int opened = plain_open(client, server, &stand).number;
    seen.calls[opened]++;
    for (int k = 0; k < (opened == 13 ? 3 : 40); k++) {
        uint8_t name[16];
        struct plain_stand before = stand;
        struct plain_refusal refused;
        if (gen_below(random, 10) == 0)
            stand = before = (struct plain_stand){gen_below(random, 11), gen_below(random, 12) - 1, gen_below(random, 11),
                                                  gen_below(random, 12) - 1};
        bool message = gen_below(random, 4) > 0;
        if (message) {
            size_t length = gen_name(random, pair, name);
            refused = plain_message(client, server, stand, name, length, &stand);
        } else {
            refused = plain_rollback(client, server, stand, &stand);
        }
        seen.calls[refused.number]++;
        if (refused.number == 0)
            *(message ? &seen.granted_messages : &seen.granted_rollbacks) += 1;
        else
            expect(memcmp(&before, &stand, sizeof stand) == 0, "a refused call changes nothing");
        if (refused.number == 15)
            stand = plain_start();
    }
}

/* A sound value with one or two places changed: both ways of telling soundness agree on it. */
static void spoil(uint64_t *random, struct plain_behaviour value)
{
    static const char signs[] = {0, '?', '!', 'x'};
    for (int times = 1 + gen_below(random, 2); times > 0; times--) {
        int state = gen_below(random, PLAIN_STATES);
        int place = gen_below(random, 4) && value.count > 0 && value.count <= PLAIN_LINES ? gen_below(random, value.count)
                                                                                           : gen_below(random, PLAIN_LINES);
        struct plain_message *message = &value.message[place];
        switch (gen_below(random, 9)) {
        case 0:
            value.states += gen_below(random, 5) - 2;
            break;
        case 1:
            value.count += gen_below(random, 5) - 2;
            break;
        case 2:
            value.marked[state] = (char)gen_below(random, 3);
            break;
        case 3:
            value.sign[state] = signs[gen_below(random, 4)];
            break;
        case 4:
            message->from = gen_below(random, 12) - 1;
            break;
        case 5:
            message->to = gen_below(random, 12) - 1;
            break;
        case 6:
            message->name[gen_below(random, PLAIN_NAME + 1)] = "a0zA\0\0\"\n"[gen_below(random, 8)];
            break;
        case 7: { /* two places exchanged */
            struct plain_message keep = *message, *other = &value.message[gen_below(random, PLAIN_LINES)];
            *message = *other;
            *other = keep;
            break;
        }
        default:
            memset(message, 0, sizeof *message);
        }
    }
    bool sound = plain_sound(&value);
    seen.spoilt[sound]++;
    expect(sound == second_sound(&value), "soundness by the list");
}

static void must(long count, const char *what)
{
    if (count == 0) {
        failures++;
        printf("never reached: %s\n", what);
    }
}

static void report(void)
{
    char what[64];
    printf("texts %ld, taken %ld\n", seen.texts, seen.taken);
    for (int number = 1; number <= 11; number++) {
        int places = 0;
        for (int place = 0; place < PLAIN_LINES + 4; place++)
            places += seen.places[number][place] > 0;
        printf("refused with %d: %ld, at %d different places\n", number, seen.refused[number], places);
        snprintf(what, sizeof what, "refusal %d", number);
        must(seen.refused[number], what);
    }
    printf("%-14s %8s %10s %8s %8s\n", "pairs", "judged", "compliant", "stuck 1", "stuck 2");
    for (int kind = 0; kind < GEN_KINDS; kind++) {
        printf("%-14s %8ld %10ld %8ld %8ld\n", gen_kind_name(kind), seen.pairs[kind], seen.compliant[kind],
               seen.stuck[kind][1], seen.stuck[kind][2]);
        must(seen.pairs[kind], gen_kind_name(kind));
    }
    printf("length of the run:");
    for (int i = 0; i < BUCKETS; i++) {
        printf("  up to %d: %ld", bucket_end[i], seen.length[i]);
        snprintf(what, sizeof what, "length up to %d", bucket_end[i]);
        must(seen.length[i], what);
    }
    printf("\nlongest run %d, most stands %d, pairs with over 7,000 stands %ld\n", seen.longest, seen.most_stands,
           seen.over_7000);
    must(seen.over_7000, "over 7,000 stands");
    printf("rollbacks in a run: none %ld, one %ld, two %ld, more %ld; steps with a rank over 127: %ld\n",
           seen.rollbacks[0], seen.rollbacks[1], seen.rollbacks[2], seen.rollbacks[3], seen.rank_over_127);
    for (int i = 0; i < 4; i++)
        must(seen.rollbacks[i], "a number of rollbacks");
    must(seen.rank_over_127, "rank over 127");
    printf("greatest relation compared on %ld pairs; all runs up to length 6 tried on %ld (%ld of them end badly after a step)\n",
           seen.fixpoints, seen.short_runs, seen.short_bad);
    printf("values changed: %ld no longer sound (13), %ld sound all the same\n", seen.spoilt[0], seen.spoilt[1]);
    must(seen.spoilt[0], "values not sound");
    must(seen.spoilt[1], "values sound all the same");
    printf("session calls granted: messages %ld, rollbacks %ld; refused:", seen.granted_messages, seen.granted_rollbacks);
    for (int number = 13; number <= 17; number++)
        printf("  %d: %ld", number, seen.calls[number]);
    printf("\n");
    for (int number = 13; number <= 17; number++)
        must(seen.calls[number], "a session refusal");
    printf("checks that failed: %ld\n", failures);
}

int main(int count, char **arguments)
{
    static struct gen_pair pair;
    if (count != 3)
        return 2;
    uint64_t first = strtoull(arguments[1], NULL, 10), seeds = strtoull(arguments[2], NULL, 10);
    for (current = first; current < first + seeds; current++) {
        struct plain_behaviour client, server;
        gen_pair(current, &pair);
        bool client_taken = read_text(&pair.client, &client), server_taken = read_text(&pair.server, &server);
        expect(client_taken || pair.client_damages > 0, "an undamaged client is taken");
        expect(server_taken || pair.server_damages > 0, "an undamaged server is taken");
        bool damaged = pair.client_damages + pair.server_damages > 0;
        if (client_taken && server_taken)
            judge(&client, &server, damaged ? 1 : pair.kind, current % 50 == 0);
        uint64_t random = current;
        walk(&random, &pair, &client, &server);
        for (int times = 0; client_taken && times < 5; times++)
            spoil(&random, client);
    }
    report();
    return failures != 0;
}

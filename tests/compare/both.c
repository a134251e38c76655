/* The same call of the library and of the plain reading, on the same slices; the answers and all bytes lent are compared. */
#include "both.h"

#include "plain_host.h"

#include <stdio.h>
#include <string.h>

enum { ROOM = TYTTMOSE_REPORT_SIZE, GUARD = 64 };

struct gen_pair pair;
uint64_t seed;
struct seen seen;

/* The last session call, for a difference to tell. */
static struct {
    uint32_t session;
    uint8_t name[16];
    size_t length;
} said;

/* The buffers lent to both, with guards before and behind. After a call the same bytes must stand in both. */
static uint8_t before[GUARD + ROOM + GUARD], our_room[sizeof before], plain_room[sizeof before];
static uint8_t *const ours = our_room + GUARD, *const plain = plain_room + GUARD;

void both_start(void)
{
    for (size_t i = 0; i < sizeof before; i++)
        before[i] = (uint8_t)(0xA5 ^ i * 7);
}

/* Ours as it is before a call that is lent so many bytes; the plain one keeps what was written. */
static void lend_ours(size_t lent)
{
    memcpy(our_room, before, GUARD + lent + GUARD);
}

/* Both so. */
static void lend(size_t lent)
{
    lend_ours(lent);
    memcpy(plain_room, before, GUARD + lent + GUARD);
}

static void show(const char *side, const struct gen_text *text)
{
    printf("-- %s, %zu bytes\n", side, text->length);
    fwrite(text->byte, 1, text->length, stdout);
    printf("\n");
}

/* `compare SEED 1` makes the same calls again. */
void show_pair(void)
{
    printf("seed %llu, kind %s; last session %08x, last name '%.*s'\n", (unsigned long long)seed, gen_kind_name(pair.kind),
           (unsigned)said.session, (int)said.length, (const char *)said.name);
    show("client", &pair.client);
    show("server", &pair.server);
}

static void compare(const char *call, uint64_t answer, uint64_t wanted, size_t lent)
{
    seen.calls++;
    if (wanted >> 32 < 18)
        seen.answers[wanted >> 32]++;
    if (answer == wanted && memcmp(our_room, plain_room, GUARD + lent + GUARD) == 0)
        return;
    if (seen.differences++ > 0)
        return;
    printf("%s: answer %llx, wanted %llx%s\n", call, (unsigned long long)answer, (unsigned long long)wanted,
           answer == wanted ? ", other bytes" : "");
    show_pair();
}

static size_t some_room(uint64_t *random, size_t enough, size_t just)
{
    switch (gen_below(random, 8)) {
    case 0:
        return just;
    case 1:
        return just > 0 ? just - 1 : 0;
    case 2:
        return (size_t)gen_below(random, (int)just + 2);
    default:
        return enough;
    }
}

/* Reading, into a value that both share afterwards. */
void both_read(uint64_t *random, const struct gen_text *text, uint8_t value[TYTTMOSE_VALUE_SIZE])
{
    size_t room = some_room(random, 2 * TYTTMOSE_VALUE_SIZE, TYTTMOSE_VALUE_SIZE);
    lend(room);
    uint64_t wanted = plain_host_read(text->byte, text->length, plain, room);
    compare("read", tyttmose_read(text->byte, text->length, ours, room), wanted, room);
    memset(value, 0, TYTTMOSE_VALUE_SIZE);
    if (wanted >> 32 == 0)
        memcpy(value, plain, TYTTMOSE_VALUE_SIZE);
    else if (wanted >> 32 == TYTTMOSE_TOO_LONG)
        plain_host_read(text->byte, text->length, value, TYTTMOSE_VALUE_SIZE);
}

/* A call that was granted, made again: into a room that just fits, where it leaves the same bytes, and into one that is one
 * short, where it leaves all as it was. The plain reading need not be asked again for that. */
enum { FITS, SHORT, AGAIN };

static uint64_t prepare(int again, uint64_t granted, size_t written)
{
    if (again == FITS) {
        lend_ours(written);
        return granted;
    }
    lend(written - 1);
    return (uint64_t)TYTTMOSE_TOO_LONG << 32;
}

void both_write(uint64_t *random, const uint8_t *value, size_t length)
{
    lend(TYTTMOSE_TEXT_SIZE);
    uint64_t wanted = plain_host_write(value, length, plain, TYTTMOSE_TEXT_SIZE);
    size_t room = some_room(random, TYTTMOSE_TEXT_SIZE, wanted >> 32 == 0 ? (size_t)wanted : 10);
    if (wanted >> 32 == 0 && wanted > room) {
        lend(room);
        wanted = (uint64_t)TYTTMOSE_TOO_LONG << 32;
    }
    compare("write", tyttmose_write(value, length, ours, room), wanted, room);
}

#define SLICES(values) (values).client, (values).client_length, (values).server, (values).server_length

uint64_t both_judge(uint64_t *random, struct values values)
{
    size_t room = TYTTMOSE_RUN_SIZE;
    lend(room);
    uint64_t wanted = plain_host_verdict(SLICES(values), plain, room);
    compare("verdict", tyttmose_verdict(SLICES(values), ours, room), wanted, room);
    if (wanted >> 32 != 0 || gen_below(random, 4) > 0)
        return wanted;
    size_t length = tyttmose_cause(wanted) == 0 ? 0 : tyttmose_count(wanted);
    for (int again = FITS; again < AGAIN && (again == FITS || length > 0); again++) {
        uint64_t answer = prepare(again, wanted, length);
        compare(again == FITS ? "verdict that just fits" : "verdict too long",
                tyttmose_verdict(SLICES(values), ours, length - (again == SHORT)), answer, length - (again == SHORT));
    }
    return wanted;
}

static uint32_t any_session(uint64_t *random)
{
    if (gen_below(random, 4) == 0)
        return (uint32_t)gen_next(random);
    uint32_t session = 0;
    for (int part = 0; part < 4; part++)
        session |= (uint32_t)(part % 2 == 1 && gen_below(random, 3) == 0 ? 255 : gen_below(random, 11)) << 8 * part;
    return session;
}

/* One of the names that a side has at a state, and its length; 0 if it has none. The value may be spoilt. */
static size_t name_at(uint64_t *random, const uint8_t *value, unsigned state, uint8_t name[16])
{
    enum { FIRST = 2 + 2 * TYTTMOSE_STATES, EACH = 2 + TYTTMOSE_NAME_SIZE };
    size_t length = 0;
    for (int k = 0, found = 0; k < value[1] && k < TYTTMOSE_LINES; k++) {
        const uint8_t *message = value + FIRST + EACH * k;
        if (message[0] != state || gen_below(random, ++found) > 0)
            continue;
        for (length = 0; length < TYTTMOSE_NAME_SIZE && message[2 + length] != 0; length++)
            name[length] = message[2 + length];
    }
    return length;
}

/* One message or rollback call; what a granted one hands back is the next session. */
static int both_step(uint64_t *random, struct values values, uint32_t *session)
{
    uint64_t wanted;
    said.session = gen_below(random, 10) == 0 ? any_session(random) : *session;
    said.length = 0;
    if (gen_below(random, 4) > 0) {
        int asked = gen_below(random, 8);
        if (asked < 3)
            said.length = name_at(random, values.client, tyttmose_client_state(said.session), said.name);
        else if (asked < 6)
            said.length = name_at(random, values.server, tyttmose_server_state(said.session), said.name);
        if (said.length == 0)
            said.length = gen_name(random, &pair, said.name);
        wanted = plain_host_message(SLICES(values), said.session, said.name, said.length);
        compare("message", tyttmose_message(SLICES(values), said.session, said.name, said.length), wanted, 0);
        seen.messages += wanted >> 32 == 0;
    } else {
        wanted = plain_host_rollback(SLICES(values), said.session);
        compare("rollback", tyttmose_rollback(SLICES(values), said.session), wanted, 0);
        seen.rollbacks += wanted >> 32 == 0;
    }
    if (wanted >> 32 == 0)
        *session = tyttmose_session(wanted);
    return wanted >> 32 == 0;
}

static const uint32_t start = (uint32_t)TYTTMOSE_NOWHERE << 8 | (uint32_t)TYTTMOSE_NOWHERE << 24;

/* Session calls from the opening on, now and then on any number. */
void both_walk(uint64_t *random, struct values values, uint64_t verdict)
{
    /* the plain opening is a verdict again, so most of its answers are taken from the one just given */
    uint64_t wanted = verdict;
    if (verdict >> 32 == 0)
        wanted = tyttmose_cause(verdict) != 0 ? (uint64_t)TYTTMOSE_NOT_COMPLIANT << 32 : start;
    if (gen_below(random, 16) == 0)
        wanted = plain_host_open(SLICES(values));
    compare("open", tyttmose_open(SLICES(values)), wanted, 0);
    uint32_t session = start;
    int steps = verdict >> 32 == 0 ? 2 + gen_below(random, 24) : 1, moved = 0;
    for (int k = 0; k < steps; k++)
        moved += both_step(random, values, &session);
    seen.longest = moved > seen.longest ? moved : seen.longest;
}

/* Value slices of another length, one side's or both: 13 from every call. */
void both_lengths(uint64_t *random, struct values values)
{
    static const size_t odd[] = {0, 1, TYTTMOSE_VALUE_SIZE - 1, TYTTMOSE_VALUE_SIZE + 1, TYTTMOSE_VALUE_SIZE + SPARE};
    uint32_t session = start;
    int which = 1 + gen_below(random, 3);
    if (which & 1)
        values.client_length = odd[gen_below(random, 5)];
    if (which & 2)
        values.server_length = odd[gen_below(random, 5)];
    both_judge(random, values);
    compare("open", tyttmose_open(SLICES(values)), plain_host_open(SLICES(values)), 0);
    both_step(random, values, &session);
}

void both_text(uint64_t *random)
{
    const struct gen_text *client = &pair.client, *server = &pair.server;
    size_t room = gen_below(random, 64) == 0 ? TYTTMOSE_REPORT_SIZE : 8192; /* no run of a generated pair is longer */
    lend(room);
    uint64_t wanted = plain_host_text(client->byte, client->length, server->byte, server->length, plain, room);
    compare("text", tyttmose_text(client->byte, client->length, server->byte, server->length, ours, room), wanted, room);
    if (wanted >> 32 != 0 || gen_below(random, 4) > 0)
        return;
    for (int again = FITS; again < AGAIN; again++) {
        room = (size_t)wanted - (again == SHORT);
        uint64_t answer = prepare(again, wanted, (size_t)wanted);
        compare(again == FITS ? "text that just fits" : "text too long",
                tyttmose_text(client->byte, client->length, server->byte, server->length, ours, room), answer, room);
    }
}

/* A pair of which one value has some bytes changed: 13 is given for the same ones, and the rest answer alike. Its session
 * calls come without an opening. */
void both_spoil(uint64_t *random, struct values values)
{
    static uint8_t spoilt[TYTTMOSE_VALUE_SIZE];
    const uint8_t **value = gen_below(random, 2) ? &values.client : &values.server;
    uint32_t session = start;
    memcpy(spoilt, *value, sizeof spoilt);
    *value = spoilt;
    for (int times = 1 + gen_below(random, 2); times > 0; times--) {
        int at = gen_below(random, 3) == 0 ? gen_below(random, TYTTMOSE_VALUE_SIZE) : gen_below(random, 22 + 10 * 12);
        uint8_t old = spoilt[at];
        switch (gen_below(random, 4)) {
        case 0:
            spoilt[at] = (uint8_t)gen_next(random);
            break;
        case 1:
            spoilt[at] = (uint8_t)gen_below(random, 4);
            break;
        default:
            spoilt[at] = (uint8_t)(old + gen_below(random, 3) - 1);
        }
    }
    both_write(random, spoilt, gen_below(random, 50) == 0 ? (size_t)gen_below(random, TYTTMOSE_VALUE_SIZE) : sizeof spoilt);
    if (gen_below(random, 4) == 0) {
        both_judge(random, values);
        both_step(random, values, &session);
    }
}
